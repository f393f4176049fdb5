//! Names, hashes, settings and descriptions.

use super::attribute::AttributeSet;
use super::copy_text;
use super::types::MessageTypeDetails;
use sha1::{Digest, Sha1};
use std::collections::TryReserveError;
use std::time::Duration;

pub const MAX_NAME_LENGTH: usize = 255;

/// The hash by which a service is found.
#[derive(Clone, Copy, Debug, PartialEq, Eq, PartialOrd, Ord)]
pub struct ServiceHash(pub [u8; 20]);

impl ServiceHash {
    /// SHA-1 of the pattern's prefix and the name's bytes.
    pub fn of(prefix: u8, name: &ServiceName) -> ServiceHash {
        let mut hasher = Sha1::new();
        hasher.update([prefix]);
        hasher.update(name.as_str().as_bytes());
        ServiceHash(hasher.finalize().into())
    }
}

/// A service's name: 1 to 255 bytes of UTF-8.
#[derive(Debug, PartialEq, Eq)]
pub struct ServiceName(Box<str>);

#[derive(Clone, Copy, Debug, PartialEq, Eq)]
pub enum ServiceNameError {
    Length,
    OutOfMemory,
}

impl ServiceName {
    pub fn new(text: &str) -> Result<ServiceName, ServiceNameError> {
        if text.is_empty() || text.len() > MAX_NAME_LENGTH {
            return Err(ServiceNameError::Length);
        }
        let copy = copy_text(text).map_err(|_| ServiceNameError::OutOfMemory)?;
        Ok(ServiceName(copy))
    }

    pub fn as_str(&self) -> &str {
        &self.0
    }

    pub fn try_clone(&self) -> Result<ServiceName, TryReserveError> {
        copy_text(&self.0).map(ServiceName)
    }
}

#[derive(Clone, Copy, Debug, PartialEq, Eq)]
pub struct EventId(pub u64);

/// Within what time a notifier has to notify again, and when the service was created.
#[derive(Clone, Copy, Debug, PartialEq, Eq)]
pub struct Deadline {
    pub value: Duration,
    pub creation_time: Duration,
}

/// The settings of a service of events.
#[derive(Clone, Copy, Debug, PartialEq, Eq)]
pub struct EventConfig {
    pub max_notifiers: u64,
    pub max_listeners: u64,
    pub event_id_max_value: u64,
    pub max_nodes: u64,
    pub notifier_created_event: Option<EventId>,
    pub notifier_dropped_event: Option<EventId>,
    pub notifier_dead_event: Option<EventId>,
    pub deadline: Option<Deadline>,
}

impl Default for EventConfig {
    fn default() -> EventConfig {
        EventConfig {
            max_notifiers: 16,
            max_listeners: 16,
            event_id_max_value: 255,
            max_nodes: 36,
            notifier_created_event: None,
            notifier_dropped_event: None,
            notifier_dead_event: None,
            deadline: None,
        }
    }
}

/// The settings of a service of publish-subscribe.
#[derive(Clone, Copy, Debug, PartialEq, Eq)]
pub struct PublishSubscribeConfig {
    pub max_publishers: u64,
    pub max_subscribers: u64,
    pub subscriber_max_buffer_size: u64,
    pub history_size: u64,
    pub subscriber_max_borrowed_samples: u64,
    pub enable_safe_overflow: bool,
    pub max_nodes: u64,
}

impl Default for PublishSubscribeConfig {
    fn default() -> PublishSubscribeConfig {
        PublishSubscribeConfig {
            max_publishers: 2,
            max_subscribers: 8,
            subscriber_max_buffer_size: 2,
            history_size: 0,
            subscriber_max_borrowed_samples: 2,
            enable_safe_overflow: true,
            max_nodes: 20,
        }
    }
}

/// The settings of a service of request-response.
#[derive(Clone, Copy, Debug, PartialEq, Eq)]
pub struct RequestResponseConfig {
    pub enable_safe_overflow_for_requests: bool,
    pub enable_safe_overflow_for_responses: bool,
    pub enable_fire_and_forget_requests: bool,
    pub max_active_requests_per_client: u64,
    pub max_loaned_requests: u64,
    pub max_borrowed_responses_per_pending_response: u64,
    pub max_response_buffer_size: u64,
    pub max_servers: u64,
    pub max_clients: u64,
    pub max_nodes: u64,
}

impl Default for RequestResponseConfig {
    fn default() -> RequestResponseConfig {
        RequestResponseConfig {
            enable_safe_overflow_for_requests: true,
            enable_safe_overflow_for_responses: true,
            enable_fire_and_forget_requests: true,
            max_active_requests_per_client: 4,
            max_loaned_requests: 2,
            max_borrowed_responses_per_pending_response: 2,
            max_response_buffer_size: 2,
            max_servers: 2,
            max_clients: 8,
            max_nodes: 20,
        }
    }
}

/// The settings that the calls of a session start from.
#[derive(Clone, Copy, Debug, Default)]
pub struct Config {
    pub event: EventConfig,
    pub publish_subscribe: PublishSubscribeConfig,
    pub request_response: RequestResponseConfig,
}

/// The types of a service's requests and of its responses.
#[derive(Debug, PartialEq, Eq)]
pub struct Messages {
    pub request: MessageTypeDetails,
    pub response: MessageTypeDetails,
}

/// A service's pattern with its settings and the types of its messages.
#[derive(Debug, PartialEq, Eq)]
pub enum MessagingPattern {
    Event(EventConfig),
    PublishSubscribe(PublishSubscribeConfig, Box<MessageTypeDetails>),
    RequestResponse(RequestResponseConfig, Box<Messages>),
}

/// What nodes that share a service agree on.
#[derive(Debug, PartialEq, Eq)]
pub struct StaticConfig {
    pub hash: ServiceHash,
    pub name: ServiceName,
    pub attributes: AttributeSet,
    pub pattern: MessagingPattern,
    pub creator: Option<u64>,
}

impl StaticConfig {
    pub fn max_nodes(&self) -> u64 {
        match &self.pattern {
            MessagingPattern::Event(settings) => settings.max_nodes,
            MessagingPattern::PublishSubscribe(settings, _) => settings.max_nodes,
            MessagingPattern::RequestResponse(settings, _) => settings.max_nodes,
        }
    }
}
