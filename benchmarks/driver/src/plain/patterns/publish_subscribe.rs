//! Services of publish-subscribe.

use super::{Pattern, need_at_least, need_same};
use crate::plain::description::{MessagingPattern, PublishSubscribeConfig};
use crate::plain::errors::{PublishSubscribeCreateError, PublishSubscribeOpenError, ServiceState};
use crate::plain::types::{
    Alignment, MessageTypeDetails, PUBLISH_SUBSCRIBE_HEADER, RequestedTypes, TypeDetail,
};
use std::collections::TryReserveError;
use std::time::Duration;

/// One setter of the builder.
#[derive(Debug, PartialEq, Eq)]
pub enum PublishSubscribeSetter {
    MaxPublishers(u64),
    MaxSubscribers(u64),
    SubscriberMaxBufferSize(u64),
    HistorySize(u64),
    SubscriberMaxBorrowedSamples(u64),
    EnableSafeOverflow(bool),
    MaxNodes(u64),
    PayloadAlignment(Alignment),
    PayloadType(TypeDetail),
    UserHeaderType(TypeDetail),
}

/// Which settings are required.
#[derive(Clone, Copy, Debug, Default)]
struct Marks {
    max_publishers: bool,
    max_subscribers: bool,
    subscriber_max_buffer_size: bool,
    history_size: bool,
    subscriber_max_borrowed_samples: bool,
    enable_safe_overflow: bool,
    max_nodes: bool,
}

/// A demand whose types aren't made yet.
#[derive(Debug)]
pub struct PublishSubscribeBuilder {
    settings: PublishSubscribeConfig,
    marks: Marks,
    types: RequestedTypes,
}

impl PublishSubscribeBuilder {
    pub fn new(settings: PublishSubscribeConfig) -> PublishSubscribeBuilder {
        PublishSubscribeBuilder {
            settings,
            marks: Marks::default(),
            types: RequestedTypes::default(),
        }
    }

    pub fn set(&mut self, setter: PublishSubscribeSetter) {
        let PublishSubscribeBuilder {
            settings,
            marks,
            types,
        } = self;
        match setter {
            PublishSubscribeSetter::MaxPublishers(value) => {
                settings.max_publishers = value;
                marks.max_publishers = true;
            }
            PublishSubscribeSetter::MaxSubscribers(value) => {
                settings.max_subscribers = value;
                marks.max_subscribers = true;
            }
            PublishSubscribeSetter::SubscriberMaxBufferSize(value) => {
                settings.subscriber_max_buffer_size = value;
                marks.subscriber_max_buffer_size = true;
            }
            PublishSubscribeSetter::HistorySize(value) => {
                settings.history_size = value;
                marks.history_size = true;
            }
            PublishSubscribeSetter::SubscriberMaxBorrowedSamples(value) => {
                settings.subscriber_max_borrowed_samples = value;
                marks.subscriber_max_borrowed_samples = true;
            }
            PublishSubscribeSetter::EnableSafeOverflow(value) => {
                settings.enable_safe_overflow = value;
                marks.enable_safe_overflow = true;
            }
            PublishSubscribeSetter::MaxNodes(value) => {
                settings.max_nodes = value;
                marks.max_nodes = true;
            }
            PublishSubscribeSetter::PayloadAlignment(value) => types.alignment = Some(value),
            PublishSubscribeSetter::PayloadType(value) => types.payload = Some(value),
            PublishSubscribeSetter::UserHeaderType(value) => types.user_header = Some(value),
        }
    }

    /// What a call asks, with its types made.
    pub fn prepare(self) -> Result<PublishSubscribeDemand, TryReserveError> {
        Ok(PublishSubscribeDemand {
            settings: self.settings,
            marks: self.marks,
            message: Box::new(self.types.prepare(&PUBLISH_SUBSCRIBE_HEADER)?),
        })
    }
}

#[derive(Debug)]
pub struct PublishSubscribeDemand {
    settings: PublishSubscribeConfig,
    marks: Marks,
    message: Box<MessageTypeDetails>,
}

/// What a look finds wrong.
#[derive(Clone, Copy, Debug, PartialEq, Eq)]
pub enum Fault {
    State(ServiceState),
    IncompatibleTypes,
}

impl From<ServiceState> for Fault {
    fn from(state: ServiceState) -> Fault {
        Fault::State(state)
    }
}

impl From<Fault> for PublishSubscribeOpenError {
    fn from(fault: Fault) -> PublishSubscribeOpenError {
        match fault {
            Fault::State(state) => state.into(),
            Fault::IncompatibleTypes => PublishSubscribeOpenError::IncompatibleTypes,
        }
    }
}

impl From<Fault> for PublishSubscribeCreateError {
    fn from(fault: Fault) -> PublishSubscribeCreateError {
        match fault {
            Fault::State(state) => state.into(),
            Fault::IncompatibleTypes => PublishSubscribeCreateError::AlreadyExists,
        }
    }
}

impl Pattern for PublishSubscribeDemand {
    type Fault = Fault;
    type OpenError = PublishSubscribeOpenError;
    type CreateError = PublishSubscribeCreateError;

    const PREFIX: u8 = b'p';

    fn adjust(&mut self) {
        let settings = &mut self.settings;
        settings.max_publishers = settings.max_publishers.max(1);
        settings.max_subscribers = settings.max_subscribers.max(1);
        settings.subscriber_max_buffer_size = settings.subscriber_max_buffer_size.max(1);
        settings.subscriber_max_borrowed_samples = settings.subscriber_max_borrowed_samples.max(1);
        settings.max_nodes = settings.max_nodes.max(1);
    }

    fn misfit(&self, existing: &MessagingPattern) -> Option<Fault> {
        match existing {
            MessagingPattern::PublishSubscribe(_, message) => {
                let fits = self.message.is_compatible_to(message);
                (!fits).then_some(Fault::IncompatibleTypes)
            }
            _ => Some(ServiceState::IncompatibleMessagingPattern.into()),
        }
    }

    fn verify(&self, existing: &MessagingPattern) -> Result<(), PublishSubscribeOpenError> {
        use PublishSubscribeOpenError as Error;
        let MessagingPattern::PublishSubscribe(offered, _) = existing else {
            return Ok(());
        };
        let (settings, marks) = (&self.settings, &self.marks);
        need_at_least(
            marks.max_publishers,
            offered.max_publishers,
            settings.max_publishers,
            Error::DoesNotSupportRequestedAmountOfPublishers,
        )?;
        need_at_least(
            marks.max_subscribers,
            offered.max_subscribers,
            settings.max_subscribers,
            Error::DoesNotSupportRequestedAmountOfSubscribers,
        )?;
        need_at_least(
            marks.subscriber_max_buffer_size,
            offered.subscriber_max_buffer_size,
            settings.subscriber_max_buffer_size,
            Error::DoesNotSupportRequestedMinBufferSize,
        )?;
        need_at_least(
            marks.history_size,
            offered.history_size,
            settings.history_size,
            Error::DoesNotSupportRequestedMinHistorySize,
        )?;
        need_at_least(
            marks.subscriber_max_borrowed_samples,
            offered.subscriber_max_borrowed_samples,
            settings.subscriber_max_borrowed_samples,
            Error::DoesNotSupportRequestedMinSubscriberBorrowedSamples,
        )?;
        need_same(
            marks.enable_safe_overflow,
            offered.enable_safe_overflow,
            settings.enable_safe_overflow,
            Error::IncompatibleOverflowBehavior,
        )?;
        need_at_least(
            marks.max_nodes,
            offered.max_nodes,
            settings.max_nodes,
            Error::DoesNotSupportRequestedAmountOfNodes,
        )
    }

    fn settings_refusal(&self) -> Option<PublishSubscribeCreateError> {
        let settings = &self.settings;
        let has_room = settings.subscriber_max_buffer_size >= settings.history_size;
        (!settings.enable_safe_overflow && !has_room)
            .then_some(PublishSubscribeCreateError::SubscriberBufferMustBeLargerThanHistorySize)
    }

    fn needs_clock(&self) -> bool {
        false
    }

    fn into_published(self, _now: Duration) -> MessagingPattern {
        MessagingPattern::PublishSubscribe(self.settings, self.message)
    }

    fn try_clone(&self) -> Result<PublishSubscribeDemand, TryReserveError> {
        Ok(PublishSubscribeDemand {
            message: Box::new(self.message.try_clone()?),
            ..*self
        })
    }
}
