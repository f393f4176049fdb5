//! The byte form of a description.

use super::attribute::{AttributeSet, MAX_ATTRIBUTES};
use super::description::{
    Deadline, EventConfig, EventId, Messages, MessagingPattern, PublishSubscribeConfig,
    RequestResponseConfig, ServiceHash, ServiceName, ServiceNameError, StaticConfig,
};
use super::types::{MessageTypeDetails, TypeDetail, TypeDetailError, TypeVariant};
use std::collections::TryReserveError;
use std::time::Duration;

const MAGIC: [u8; 4] = *b"IOX2";

const VERSION_WITHOUT_CREATOR: u8 = 1;
const VERSION_WITH_CREATOR: u8 = 2;

const EVENT_BYTE: u8 = 1;
const PUBLISH_SUBSCRIBE_BYTE: u8 = 2;
const REQUEST_RESPONSE_BYTE: u8 = 3;

/// How many bytes an option has whose value has so many.
fn option_length<T>(value: &Option<T>, length: usize) -> usize {
    match value {
        None => 1,
        Some(_) => 1 + length,
    }
}

fn detail_length(detail: &TypeDetail) -> usize {
    19 + detail.type_name().len()
}

fn message_length(message: &MessageTypeDetails) -> usize {
    detail_length(&message.header)
        + detail_length(&message.user_header)
        + detail_length(&message.payload)
}

fn pattern_length(pattern: &MessagingPattern) -> usize {
    1 + match pattern {
        MessagingPattern::Event(settings) => {
            32 + option_length(&settings.notifier_created_event, 8)
                + option_length(&settings.notifier_dropped_event, 8)
                + option_length(&settings.notifier_dead_event, 8)
                + option_length(&settings.deadline, 24)
        }
        MessagingPattern::PublishSubscribe(_, message) => 49 + message_length(message),
        MessagingPattern::RequestResponse(_, messages) => {
            59 + message_length(&messages.request) + message_length(&messages.response)
        }
    }
}

/// The length of the description's byte form.
fn length_of(description: &StaticConfig) -> usize {
    let pairs = description.attributes.pairs().iter();
    let attributes: usize = pairs
        .map(|pair| 4 + pair.key().len() + pair.value().len())
        .sum();
    MAGIC.len()
        + option_length(&description.creator, 8)
        + description.hash.0.len()
        + 2
        + description.name.as_str().len()
        + 2
        + attributes
        + pattern_length(&description.pattern)
}

/// Bytes that are written behind one another. There is room for them.
struct Writer {
    bytes: Vec<u8>,
}

impl Writer {
    fn put(&mut self, bytes: &[u8]) {
        self.bytes.extend_from_slice(bytes);
    }

    fn byte(&mut self, byte: u8) {
        self.bytes.push(byte);
    }

    fn truth(&mut self, truth: bool) {
        self.byte(u8::from(truth));
    }

    fn number(&mut self, number: u64) {
        self.put(&number.to_be_bytes());
    }

    fn numbers<const N: usize>(&mut self, numbers: [u64; N]) {
        for number in numbers {
            self.number(number);
        }
    }

    /// No text is longer than 256 bytes, and there are no more than 64 pairs.
    fn length(&mut self, length: usize) {
        self.put(&(length as u16).to_be_bytes());
    }

    fn text(&mut self, text: &str) {
        self.length(text.len());
        self.put(text.as_bytes());
    }

    fn option<T>(&mut self, value: Option<T>, write: impl FnOnce(&mut Self, T)) {
        self.truth(value.is_some());
        if let Some(value) = value {
            write(self, value);
        }
    }

    fn id(&mut self, id: Option<EventId>) {
        self.option(id, |writer, id| writer.number(id.0));
    }

    fn duration(&mut self, duration: Duration) {
        self.number(duration.as_secs());
        self.put(&duration.subsec_nanos().to_be_bytes());
    }

    fn attributes(&mut self, attributes: &AttributeSet) {
        let pairs = attributes.pairs();
        self.length(pairs.len());
        for pair in pairs {
            self.text(pair.key());
            self.text(pair.value());
        }
    }

    fn event(&mut self, settings: &EventConfig) {
        self.byte(EVENT_BYTE);
        self.numbers([
            settings.max_notifiers,
            settings.max_listeners,
            settings.event_id_max_value,
            settings.max_nodes,
        ]);
        self.id(settings.notifier_created_event);
        self.id(settings.notifier_dropped_event);
        self.id(settings.notifier_dead_event);
        self.option(settings.deadline, |writer, deadline| {
            writer.duration(deadline.value);
            writer.duration(deadline.creation_time);
        });
    }

    fn publish_subscribe(&mut self, settings: &PublishSubscribeConfig) {
        self.byte(PUBLISH_SUBSCRIBE_BYTE);
        self.numbers([
            settings.max_publishers,
            settings.max_subscribers,
            settings.subscriber_max_buffer_size,
            settings.history_size,
            settings.subscriber_max_borrowed_samples,
        ]);
        self.truth(settings.enable_safe_overflow);
        self.number(settings.max_nodes);
    }

    fn request_response(&mut self, settings: &RequestResponseConfig) {
        self.byte(REQUEST_RESPONSE_BYTE);
        self.truth(settings.enable_safe_overflow_for_requests);
        self.truth(settings.enable_safe_overflow_for_responses);
        self.truth(settings.enable_fire_and_forget_requests);
        self.numbers([
            settings.max_active_requests_per_client,
            settings.max_loaned_requests,
            settings.max_borrowed_responses_per_pending_response,
            settings.max_response_buffer_size,
            settings.max_servers,
            settings.max_clients,
            settings.max_nodes,
        ]);
    }

    fn detail(&mut self, detail: &TypeDetail) {
        self.truth(detail.variant() == TypeVariant::Dynamic);
        self.text(detail.type_name());
        self.number(detail.size());
        self.number(detail.alignment().value());
    }

    fn message(&mut self, message: &MessageTypeDetails) {
        self.detail(&message.header);
        self.detail(&message.user_header);
        self.detail(&message.payload);
    }
}

/// The byte form of the description. Its memory is asked for once.
pub fn encode(description: &StaticConfig) -> Result<Vec<u8>, TryReserveError> {
    let mut bytes = Vec::new();
    bytes.try_reserve_exact(length_of(description))?;
    let mut writer = Writer { bytes };
    writer.put(&MAGIC);
    match description.creator {
        None => writer.byte(VERSION_WITHOUT_CREATOR),
        Some(creator) => {
            writer.byte(VERSION_WITH_CREATOR);
            writer.number(creator);
        }
    }
    writer.put(&description.hash.0);
    writer.text(description.name.as_str());
    writer.attributes(&description.attributes);
    match &description.pattern {
        MessagingPattern::Event(settings) => writer.event(settings),
        MessagingPattern::PublishSubscribe(settings, message) => {
            writer.publish_subscribe(settings);
            writer.message(message);
        }
        MessagingPattern::RequestResponse(settings, messages) => {
            writer.request_response(settings);
            writer.message(&messages.request);
            writer.message(&messages.response);
        }
    }
    Ok(writer.bytes)
}

/// Why bytes give no description.
#[derive(Clone, Copy, Debug, PartialEq, Eq)]
pub enum DecodeError {
    Malformed,
    OutOfMemory,
}

impl From<TryReserveError> for DecodeError {
    fn from(_: TryReserveError) -> DecodeError {
        DecodeError::OutOfMemory
    }
}

/// Bytes that are read from the left.
struct Reader<'a> {
    rest: &'a [u8],
}

impl<'a> Reader<'a> {
    fn array<const N: usize>(&mut self) -> Result<[u8; N], DecodeError> {
        let (front, rest) = self
            .rest
            .split_first_chunk()
            .ok_or(DecodeError::Malformed)?;
        self.rest = rest;
        Ok(*front)
    }

    fn byte(&mut self) -> Result<u8, DecodeError> {
        let (&byte, rest) = self.rest.split_first().ok_or(DecodeError::Malformed)?;
        self.rest = rest;
        Ok(byte)
    }

    fn truth(&mut self) -> Result<bool, DecodeError> {
        match self.byte()? {
            0 => Ok(false),
            1 => Ok(true),
            _ => Err(DecodeError::Malformed),
        }
    }

    fn number(&mut self) -> Result<u64, DecodeError> {
        self.array().map(u64::from_be_bytes)
    }

    fn length(&mut self) -> Result<usize, DecodeError> {
        Ok(usize::from(u16::from_be_bytes(self.array()?)))
    }

    /// A text, which is where it stands.
    fn text(&mut self) -> Result<&'a str, DecodeError> {
        let length = self.length()?;
        let (front, rest) = self
            .rest
            .split_at_checked(length)
            .ok_or(DecodeError::Malformed)?;
        self.rest = rest;
        std::str::from_utf8(front).map_err(|_| DecodeError::Malformed)
    }

    fn option<T>(
        &mut self,
        read: impl FnOnce(&mut Self) -> Result<T, DecodeError>,
    ) -> Result<Option<T>, DecodeError> {
        if self.truth()? {
            read(self).map(Some)
        } else {
            Ok(None)
        }
    }

    fn id(&mut self) -> Result<Option<EventId>, DecodeError> {
        self.option(|reader| reader.number().map(EventId))
    }

    fn duration(&mut self) -> Result<Duration, DecodeError> {
        let seconds = self.number()?;
        let nanoseconds = u32::from_be_bytes(self.array()?);
        if nanoseconds >= 1_000_000_000 {
            return Err(DecodeError::Malformed);
        }
        Ok(Duration::new(seconds, nanoseconds))
    }

    fn deadline(&mut self) -> Result<Deadline, DecodeError> {
        Ok(Deadline {
            value: self.duration()?,
            creation_time: self.duration()?,
        })
    }

    fn name(&mut self) -> Result<ServiceName, DecodeError> {
        ServiceName::new(self.text()?).map_err(|error| match error {
            ServiceNameError::Length => DecodeError::Malformed,
            ServiceNameError::OutOfMemory => DecodeError::OutOfMemory,
        })
    }

    fn attributes(&mut self) -> Result<AttributeSet, DecodeError> {
        let count = self.length()?;
        if count > MAX_ATTRIBUTES {
            return Err(DecodeError::Malformed);
        }
        let mut attributes = AttributeSet::default();
        attributes.reserve(count)?;
        for _ in 0..count {
            let (key, value) = (self.text()?, self.text()?);
            let pushed = attributes.push_ascending(key, value)?;
            pushed.ok_or(DecodeError::Malformed)?;
        }
        Ok(attributes)
    }

    fn event(&mut self) -> Result<EventConfig, DecodeError> {
        Ok(EventConfig {
            max_notifiers: self.number()?,
            max_listeners: self.number()?,
            event_id_max_value: self.number()?,
            max_nodes: self.number()?,
            notifier_created_event: self.id()?,
            notifier_dropped_event: self.id()?,
            notifier_dead_event: self.id()?,
            deadline: self.option(Self::deadline)?,
        })
    }

    fn publish_subscribe(&mut self) -> Result<PublishSubscribeConfig, DecodeError> {
        Ok(PublishSubscribeConfig {
            max_publishers: self.number()?,
            max_subscribers: self.number()?,
            subscriber_max_buffer_size: self.number()?,
            history_size: self.number()?,
            subscriber_max_borrowed_samples: self.number()?,
            enable_safe_overflow: self.truth()?,
            max_nodes: self.number()?,
        })
    }

    fn request_response(&mut self) -> Result<RequestResponseConfig, DecodeError> {
        Ok(RequestResponseConfig {
            enable_safe_overflow_for_requests: self.truth()?,
            enable_safe_overflow_for_responses: self.truth()?,
            enable_fire_and_forget_requests: self.truth()?,
            max_active_requests_per_client: self.number()?,
            max_loaned_requests: self.number()?,
            max_borrowed_responses_per_pending_response: self.number()?,
            max_response_buffer_size: self.number()?,
            max_servers: self.number()?,
            max_clients: self.number()?,
            max_nodes: self.number()?,
        })
    }

    fn detail(&mut self) -> Result<TypeDetail, DecodeError> {
        let variant = match self.truth()? {
            false => TypeVariant::FixedSize,
            true => TypeVariant::Dynamic,
        };
        let type_name = self.text()?;
        let (size, alignment) = (self.number()?, self.number()?);
        TypeDetail::new(variant, type_name, size, alignment).map_err(|error| match error {
            TypeDetailError::NameLength | TypeDetailError::Alignment => DecodeError::Malformed,
            TypeDetailError::OutOfMemory => DecodeError::OutOfMemory,
        })
    }

    fn message(&mut self) -> Result<MessageTypeDetails, DecodeError> {
        Ok(MessageTypeDetails {
            header: self.detail()?,
            user_header: self.detail()?,
            payload: self.detail()?,
        })
    }

    fn pattern(&mut self) -> Result<MessagingPattern, DecodeError> {
        match self.byte()? {
            EVENT_BYTE => Ok(MessagingPattern::Event(self.event()?)),
            PUBLISH_SUBSCRIBE_BYTE => Ok(MessagingPattern::PublishSubscribe(
                self.publish_subscribe()?,
                Box::new(self.message()?),
            )),
            REQUEST_RESPONSE_BYTE => {
                let settings = self.request_response()?;
                let messages = Messages {
                    request: self.message()?,
                    response: self.message()?,
                };
                Ok(MessagingPattern::RequestResponse(
                    settings,
                    Box::new(messages),
                ))
            }
            _ => Err(DecodeError::Malformed),
        }
    }

    fn creator(&mut self) -> Result<Option<u64>, DecodeError> {
        match self.byte()? {
            VERSION_WITHOUT_CREATOR => Ok(None),
            VERSION_WITH_CREATOR => self.number().map(Some),
            _ => Err(DecodeError::Malformed),
        }
    }
}

/// The description whose byte form the bytes are.
pub fn decode(bytes: &[u8]) -> Result<StaticConfig, DecodeError> {
    let mut reader = Reader { rest: bytes };
    if reader.array()? != MAGIC {
        return Err(DecodeError::Malformed);
    }
    let creator = reader.creator()?;
    let hash = ServiceHash(reader.array()?);
    let name = reader.name()?;
    let attributes = reader.attributes()?;
    let pattern = reader.pattern()?;
    if !reader.rest.is_empty() {
        return Err(DecodeError::Malformed);
    }
    Ok(StaticConfig {
        hash,
        name,
        attributes,
        pattern,
        creator,
    })
}
