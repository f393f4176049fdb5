//! Services of events.

use super::{Pattern, need_at_least, need_same};
use crate::plain::description::{Deadline, EventConfig, EventId, MessagingPattern};
use crate::plain::errors::{EventCreateError, EventOpenError, ServiceState};
use std::collections::TryReserveError;
use std::time::Duration;

/// One setter of the builder.
#[derive(Clone, Copy, Debug, PartialEq, Eq)]
pub enum EventSetter {
    MaxNotifiers(u64),
    MaxListeners(u64),
    EventIdMaxValue(u64),
    MaxNodes(u64),
    NotifierCreatedEvent(Option<EventId>),
    NotifierDroppedEvent(Option<EventId>),
    NotifierDeadEvent(Option<EventId>),
    Deadline(Option<Duration>),
}

/// Which settings are required.
#[derive(Clone, Copy, Debug, Default)]
struct Marks {
    max_notifiers: bool,
    max_listeners: bool,
    event_id_max_value: bool,
    max_nodes: bool,
    notifier_created_event: bool,
    notifier_dropped_event: bool,
    notifier_dead_event: bool,
    deadline: bool,
}

#[derive(Clone, Copy, Debug)]
pub struct EventDemand {
    settings: EventConfig,
    marks: Marks,
}

impl EventDemand {
    pub fn new(settings: EventConfig) -> EventDemand {
        EventDemand {
            settings,
            marks: Marks::default(),
        }
    }

    pub fn set(&mut self, setter: EventSetter) {
        let EventDemand { settings, marks } = self;
        match setter {
            EventSetter::MaxNotifiers(value) => {
                settings.max_notifiers = value;
                marks.max_notifiers = true;
            }
            EventSetter::MaxListeners(value) => {
                settings.max_listeners = value;
                marks.max_listeners = true;
            }
            EventSetter::EventIdMaxValue(value) => {
                settings.event_id_max_value = value;
                marks.event_id_max_value = true;
            }
            EventSetter::MaxNodes(value) => {
                settings.max_nodes = value;
                marks.max_nodes = true;
            }
            EventSetter::NotifierCreatedEvent(id) => {
                settings.notifier_created_event = id;
                marks.notifier_created_event = true;
            }
            EventSetter::NotifierDroppedEvent(id) => {
                settings.notifier_dropped_event = id;
                marks.notifier_dropped_event = true;
            }
            EventSetter::NotifierDeadEvent(id) => {
                settings.notifier_dead_event = id;
                marks.notifier_dead_event = true;
            }
            EventSetter::Deadline(value) => {
                settings.deadline = value.map(|value| Deadline {
                    value,
                    creation_time: Duration::ZERO,
                });
                marks.deadline = true;
            }
        }
    }
}

fn length_of(deadline: Option<Deadline>) -> Option<Duration> {
    deadline.map(|deadline| deadline.value)
}

impl Pattern for EventDemand {
    type Fault = ServiceState;
    type OpenError = EventOpenError;
    type CreateError = EventCreateError;

    const PREFIX: u8 = b'e';

    fn adjust(&mut self) {
        let settings = &mut self.settings;
        settings.max_notifiers = settings.max_notifiers.max(1);
        settings.max_listeners = settings.max_listeners.max(1);
        settings.max_nodes = settings.max_nodes.max(1);
    }

    fn misfit(&self, existing: &MessagingPattern) -> Option<ServiceState> {
        match existing {
            MessagingPattern::Event(_) => None,
            _ => Some(ServiceState::IncompatibleMessagingPattern),
        }
    }

    fn verify(&self, existing: &MessagingPattern) -> Result<(), EventOpenError> {
        use EventOpenError as Error;
        let MessagingPattern::Event(offered) = existing else {
            return Ok(());
        };
        let EventDemand { settings, marks } = self;
        need_at_least(
            marks.max_notifiers,
            offered.max_notifiers,
            settings.max_notifiers,
            Error::DoesNotSupportRequestedAmountOfNotifiers,
        )?;
        need_at_least(
            marks.max_listeners,
            offered.max_listeners,
            settings.max_listeners,
            Error::DoesNotSupportRequestedAmountOfListeners,
        )?;
        need_at_least(
            marks.event_id_max_value,
            offered.event_id_max_value,
            settings.event_id_max_value,
            Error::DoesNotSupportRequestedMaxEventId,
        )?;
        need_at_least(
            marks.max_nodes,
            offered.max_nodes,
            settings.max_nodes,
            Error::DoesNotSupportRequestedAmountOfNodes,
        )?;
        need_same(
            marks.notifier_created_event,
            offered.notifier_created_event,
            settings.notifier_created_event,
            Error::IncompatibleNotifierCreatedEvent,
        )?;
        need_same(
            marks.notifier_dropped_event,
            offered.notifier_dropped_event,
            settings.notifier_dropped_event,
            Error::IncompatibleNotifierDroppedEvent,
        )?;
        need_same(
            marks.notifier_dead_event,
            offered.notifier_dead_event,
            settings.notifier_dead_event,
            Error::IncompatibleNotifierDeadEvent,
        )?;
        need_same(
            marks.deadline,
            length_of(offered.deadline),
            length_of(settings.deadline),
            Error::IncompatibleDeadline,
        )
    }

    fn settings_refusal(&self) -> Option<EventCreateError> {
        None
    }

    fn needs_clock(&self) -> bool {
        self.settings.deadline.is_some()
    }

    fn into_published(mut self, now: Duration) -> MessagingPattern {
        if let Some(deadline) = &mut self.settings.deadline {
            deadline.creation_time = now;
        }
        MessagingPattern::Event(self.settings)
    }

    fn try_clone(&self) -> Result<EventDemand, TryReserveError> {
        Ok(*self)
    }
}
