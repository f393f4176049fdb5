//! Lines in, replies out.

use super::attribute::{AttributeError, AttributeVerifier};
use super::byte_form::{DecodeError, decode};
use super::description::{Config, EventId, MessagingPattern, ServiceName, ServiceNameError};
use super::errors::OpenOrCreateError;
use super::patterns::event::EventSetter;
use super::patterns::publish_subscribe::PublishSubscribeSetter;
use super::patterns::request_response::RequestResponseSetter;
use super::rounds::ClockFault;
use super::services::{Entry, ListedRow};
use super::session::{Call, CallError, Command, How, Refusal, Reply, SLOTS, Session, Settings};
use super::storage::Storage;
use super::types::{Alignment, TypeDetail, TypeDetailError, TypeVariant};
use std::collections::TryReserveError;
use std::fmt::{Debug, Write as _};
use std::io::{self, BufRead, BufReader, Read, Write};
use std::time::Duration;

/// What a line says.
#[derive(Debug)]
pub enum Line {
    Blank,
    Command(Command),
    NotACommand,
}

/// Why a term says nothing.
enum TermError {
    Malformed,
    OutOfMemory,
}

use TermError::{Malformed, OutOfMemory};

impl From<TryReserveError> for TermError {
    fn from(_: TryReserveError) -> TermError {
        OutOfMemory
    }
}

impl From<ServiceNameError> for TermError {
    fn from(error: ServiceNameError) -> TermError {
        match error {
            ServiceNameError::Length => Malformed,
            ServiceNameError::OutOfMemory => OutOfMemory,
        }
    }
}

impl From<AttributeError> for TermError {
    fn from(error: AttributeError) -> TermError {
        match error {
            AttributeError::KeyLength | AttributeError::ValueLength | AttributeError::TooMany => {
                Malformed
            }
            AttributeError::OutOfMemory => OutOfMemory,
        }
    }
}

impl From<TypeDetailError> for TermError {
    fn from(error: TypeDetailError) -> TermError {
        match error {
            TypeDetailError::NameLength | TypeDetailError::Alignment => Malformed,
            TypeDetailError::OutOfMemory => OutOfMemory,
        }
    }
}

/// Decimal digits, without a sign.
fn number(term: &str) -> Result<u64, TermError> {
    if term.starts_with('+') {
        return Err(Malformed);
    }
    term.parse().map_err(|_| Malformed)
}

fn slot_number(term: &str) -> Result<usize, TermError> {
    let slot = usize::try_from(number(term)?).map_err(|_| Malformed)?;
    if slot < SLOTS {
        Ok(slot)
    } else {
        Err(Malformed)
    }
}

fn truth(term: &str) -> Result<bool, TermError> {
    term.parse().map_err(|_| Malformed)
}

fn duration(term: &str) -> Result<Duration, TermError> {
    let (seconds, nanoseconds) = term.split_once(',').ok_or(Malformed)?;
    let (seconds, nanoseconds) = (number(seconds)?, number(nanoseconds)?);
    match u32::try_from(nanoseconds) {
        Ok(nanoseconds) if nanoseconds < 1_000_000_000 => Ok(Duration::new(seconds, nanoseconds)),
        _ => Err(Malformed),
    }
}

fn or_none<T>(
    term: &str,
    read: impl FnOnce(&str) -> Result<T, TermError>,
) -> Result<Option<T>, TermError> {
    match term {
        "none" => Ok(None),
        _ => read(term).map(Some),
    }
}

fn event_id(term: &str) -> Result<EventId, TermError> {
    number(term).map(EventId)
}

fn time_or_fault(term: &str) -> Result<Result<Duration, ClockFault>, TermError> {
    match term {
        "fault" => Ok(Err(ClockFault)),
        _ => duration(term).map(Ok),
    }
}

fn alignment(term: &str) -> Result<Alignment, TermError> {
    Alignment::new(number(term)?).ok_or(Malformed)
}

/// `<fixed or dynamic>,<name>,<size>,<alignment>`.
fn type_detail(term: &str) -> Result<TypeDetail, TermError> {
    let mut parts = term.splitn(4, ',');
    let mut part = || parts.next().ok_or(Malformed);
    let variant = match part()? {
        "fixed" => TypeVariant::FixedSize,
        "dynamic" => TypeVariant::Dynamic,
        _ => return Err(Malformed),
    };
    let name = part()?;
    let (size, alignment) = (number(part()?)?, number(part()?)?);
    Ok(TypeDetail::new(variant, name, size, alignment)?)
}

/// The terms of a pattern.
trait Vocabulary: Sized {
    const HAS_CLOCK: bool;

    fn setter(name: &str, value: &str) -> Result<Self, TermError>;

    fn settings(setters: Vec<Self>) -> Settings;
}

impl Vocabulary for EventSetter {
    const HAS_CLOCK: bool = true;

    fn setter(name: &str, value: &str) -> Result<EventSetter, TermError> {
        Ok(match name {
            "max_notifiers" => EventSetter::MaxNotifiers(number(value)?),
            "max_listeners" => EventSetter::MaxListeners(number(value)?),
            "event_id_max_value" => EventSetter::EventIdMaxValue(number(value)?),
            "max_nodes" => EventSetter::MaxNodes(number(value)?),
            "notifier_created_event" => {
                EventSetter::NotifierCreatedEvent(or_none(value, event_id)?)
            }
            "notifier_dropped_event" => {
                EventSetter::NotifierDroppedEvent(or_none(value, event_id)?)
            }
            "notifier_dead_event" => EventSetter::NotifierDeadEvent(or_none(value, event_id)?),
            "deadline" => EventSetter::Deadline(or_none(value, duration)?),
            _ => return Err(Malformed),
        })
    }

    fn settings(setters: Vec<EventSetter>) -> Settings {
        Settings::Event(setters)
    }
}

impl Vocabulary for PublishSubscribeSetter {
    const HAS_CLOCK: bool = false;

    fn setter(name: &str, value: &str) -> Result<PublishSubscribeSetter, TermError> {
        use PublishSubscribeSetter as Setter;
        Ok(match name {
            "max_publishers" => Setter::MaxPublishers(number(value)?),
            "max_subscribers" => Setter::MaxSubscribers(number(value)?),
            "subscriber_max_buffer_size" => Setter::SubscriberMaxBufferSize(number(value)?),
            "history_size" => Setter::HistorySize(number(value)?),
            "subscriber_max_borrowed_samples" => {
                Setter::SubscriberMaxBorrowedSamples(number(value)?)
            }
            "enable_safe_overflow" => Setter::EnableSafeOverflow(truth(value)?),
            "max_nodes" => Setter::MaxNodes(number(value)?),
            "payload" => Setter::PayloadType(type_detail(value)?),
            "user_header" => Setter::UserHeaderType(type_detail(value)?),
            "payload_alignment" => Setter::PayloadAlignment(alignment(value)?),
            _ => return Err(Malformed),
        })
    }

    fn settings(setters: Vec<PublishSubscribeSetter>) -> Settings {
        Settings::PublishSubscribe(setters)
    }
}

impl Vocabulary for RequestResponseSetter {
    const HAS_CLOCK: bool = false;

    fn setter(name: &str, value: &str) -> Result<RequestResponseSetter, TermError> {
        use RequestResponseSetter as Setter;
        Ok(match name {
            "enable_safe_overflow_for_requests" => {
                Setter::EnableSafeOverflowForRequests(truth(value)?)
            }
            "enable_safe_overflow_for_responses" => {
                Setter::EnableSafeOverflowForResponses(truth(value)?)
            }
            "enable_fire_and_forget_requests" => Setter::EnableFireAndForgetRequests(truth(value)?),
            "max_active_requests_per_client" => Setter::MaxActiveRequestsPerClient(number(value)?),
            "max_loaned_requests" => Setter::MaxLoanedRequests(number(value)?),
            "max_borrowed_responses_per_pending_response" => {
                Setter::MaxBorrowedResponsesPerPendingResponse(number(value)?)
            }
            "max_response_buffer_size" => Setter::MaxResponseBufferSize(number(value)?),
            "max_servers" => Setter::MaxServers(number(value)?),
            "max_clients" => Setter::MaxClients(number(value)?),
            "max_nodes" => Setter::MaxNodes(number(value)?),
            "request_payload" => Setter::RequestPayloadType(type_detail(value)?),
            "request_header" => Setter::RequestHeaderType(type_detail(value)?),
            "request_payload_alignment" => Setter::RequestPayloadAlignment(alignment(value)?),
            "response_payload" => Setter::ResponsePayloadType(type_detail(value)?),
            "response_header" => Setter::ResponseHeaderType(type_detail(value)?),
            "response_payload_alignment" => Setter::ResponsePayloadAlignment(alignment(value)?),
            _ => return Err(Malformed),
        })
    }

    fn settings(setters: Vec<RequestResponseSetter>) -> Settings {
        Settings::RequestResponse(setters)
    }
}

/// A call of a pattern, from the terms behind the pattern's.
fn call<'a, V: Vocabulary>(mut terms: impl Iterator<Item = &'a str>) -> Result<Command, TermError> {
    let mut next = || terms.next().ok_or(Malformed);
    let (how, node, slot, name) = (next()?, next()?, next()?, next()?);
    let how = match how {
        "create" => How::Create,
        "open" => How::Open,
        "open_or_create" => How::OpenOrCreate,
        _ => return Err(Malformed),
    };
    let (node, slot) = (number(node)?, slot_number(slot)?);
    let name = ServiceName::new(name)?;
    let mut setters = Vec::new();
    let mut attributes = AttributeVerifier::default();
    let mut now = Ok(Duration::ZERO);
    for term in terms {
        match term.split_once('=').ok_or(Malformed)? {
            ("now", value) if V::HAS_CLOCK && how != How::Open => now = time_or_fault(value)?,
            ("require_key", key) if how != How::Create => attributes.require_key(key)?,
            ("now" | "require_key", _) => return Err(Malformed),
            ("attribute", pair) => {
                let (key, value) = pair.split_once(':').ok_or(Malformed)?;
                attributes.require(key, value)?;
            }
            (name, value) => {
                let setter = V::setter(name, value)?;
                setters.try_reserve(1)?;
                setters.push(setter);
            }
        }
    }
    Ok(Command::Call(Call {
        how,
        node,
        slot,
        name,
        settings: V::settings(setters),
        attributes,
        now,
    }))
}

fn command<'a>(
    first: &str,
    mut terms: impl Iterator<Item = &'a str>,
) -> Result<Command, TermError> {
    match first {
        "event" => call::<EventSetter>(terms),
        "pubsub" => call::<PublishSubscribeSetter>(terms),
        "rr" => call::<RequestResponseSetter>(terms),
        "close" => {
            let slot = terms.next().ok_or(Malformed)?;
            match terms.next() {
                None => Ok(Command::Close {
                    slot: slot_number(slot)?,
                }),
                Some(_) => Err(Malformed),
            }
        }
        "list" if terms.next().is_none() => Ok(Command::List),
        _ => Err(Malformed),
    }
}

/// Reads a line, with or without its end. Its terms are separated by one or more spaces.
pub fn parse(line: &[u8]) -> io::Result<Line> {
    let line = line.strip_suffix(b"\n").unwrap_or(line);
    let line = line.strip_suffix(b"\r").unwrap_or(line);
    let Ok(text) = std::str::from_utf8(line) else {
        return Ok(Line::NotACommand);
    };
    let mut terms = text.split(' ').filter(|term| !term.is_empty());
    let Some(first) = terms.next() else {
        return Ok(Line::Blank);
    };
    match command(first, terms) {
        Ok(command) => Ok(Line::Command(command)),
        Err(Malformed) => Ok(Line::NotACommand),
        Err(OutOfMemory) => Err(io::ErrorKind::OutOfMemory.into()),
    }
}

fn describe_error<O: Debug, C: Debug>(pattern: &str, error: CallError<O, C>, text: &mut String) {
    let _ = match error {
        CallError::Open(error) => writeln!(text, "{pattern}OpenError::{error:?}"),
        CallError::Create(error) => writeln!(text, "{pattern}CreateError::{error:?}"),
        CallError::OpenOrCreate(OpenOrCreateError::Open(error)) => {
            writeln!(
                text,
                "{pattern}OpenOrCreateError::{pattern}OpenError({error:?})"
            )
        }
        CallError::OpenOrCreate(OpenOrCreateError::Create(error)) => {
            writeln!(
                text,
                "{pattern}OpenOrCreateError::{pattern}CreateError({error:?})"
            )
        }
        CallError::OpenOrCreate(OpenOrCreateError::SystemInFlux) => {
            writeln!(text, "{pattern}OpenOrCreateError::SystemInFlux")
        }
    };
}

/// Writes the line of an entry that is a service, and tells whether it is one.
fn describe_entry(entry: &Entry, text: &mut String) -> io::Result<bool> {
    let (Some(segment), ListedRow::Published(number, form)) = (entry.segment, &entry.row) else {
        return Ok(false);
    };
    let description = match decode(form) {
        Ok(description) => description,
        Err(DecodeError::Malformed) => return Ok(false),
        Err(DecodeError::OutOfMemory) => return Err(io::ErrorKind::OutOfMemory.into()),
    };
    let pattern = match &description.pattern {
        MessagingPattern::Event(_) => "event",
        MessagingPattern::PublishSubscribe(_, _) => "pubsub",
        MessagingPattern::RequestResponse(_, _) => "rr",
    };
    let _ = write!(text, "{pattern} {} ", description.name.as_str());
    for byte in entry.hash.0 {
        for digit in [byte >> 4, byte & 15] {
            text.push(char::from(b"0123456789abcdef"[usize::from(digit)]));
        }
    }
    let (nodes, max_nodes) = (segment.participants, segment.max_nodes);
    let _ = writeln!(text, " number={number} nodes={nodes}/{max_nodes}");
    Ok(true)
}

/// Writes what a reply to a command for this slot says.
pub fn describe(reply: &Reply, slot: usize, text: &mut String) -> io::Result<()> {
    match reply {
        Reply::Opened { slot, number } => {
            let _ = writeln!(text, "ok {slot} number={number}");
        }
        Reply::Refused(Refusal::Event(error)) => describe_error("Event", *error, text),
        Reply::Refused(Refusal::PublishSubscribe(error)) => {
            describe_error("PublishSubscribe", *error, text);
        }
        Reply::Refused(Refusal::RequestResponse(error)) => {
            describe_error("RequestResponse", *error, text);
        }
        Reply::Closed { slot } => {
            let _ = writeln!(text, "closed {slot}");
        }
        Reply::NotClosed { slot } => {
            let _ = writeln!(text, "not closed {slot}");
        }
        Reply::SlotInUse => {
            let _ = writeln!(text, "slot {slot} in use");
        }
        Reply::SlotEmpty => {
            let _ = writeln!(text, "slot {slot} empty");
        }
        Reply::NoSuchSlot => {
            let _ = writeln!(text, "no slot {slot}");
        }
        Reply::Listing(entries) => {
            let mut count = 0;
            for entry in entries {
                count += usize::from(describe_entry(entry, text)?);
            }
            let _ = writeln!(text, "{count} services");
        }
        Reply::OutOfMemory => return Err(io::ErrorKind::OutOfMemory.into()),
    }
    Ok(())
}

fn answer_lines<S: Storage>(
    input: impl Read,
    output: &mut impl Write,
    session: &mut Session<S>,
) -> io::Result<u8> {
    let mut reader = BufReader::new(input);
    let mut bytes = Vec::new();
    let mut text = String::new();
    for number in 1u64.. {
        bytes.clear();
        if reader.read_until(b'\n', &mut bytes)? == 0 {
            break;
        }
        text.clear();
        let line = parse(&bytes)?;
        let goes_on = !matches!(line, Line::NotACommand);
        match line {
            Line::Blank => {}
            Line::NotACommand => {
                let _ = writeln!(text, "line {number}: not a command");
            }
            Line::Command(command) => {
                let slot = match &command {
                    Command::Call(call) => call.slot,
                    Command::Close { slot } => *slot,
                    Command::List => 0,
                };
                describe(&session.apply(command), slot, &mut text)?;
            }
        }
        output.write_all(text.as_bytes())?;
        output.flush()?;
        if !goes_on {
            return Ok(2);
        }
    }
    Ok(0)
}

/// Answers each line of the input on the output, and gives the status.
pub fn serve<S: Storage>(storage: S, input: impl Read, mut output: impl Write) -> u8 {
    let mut session = Session::new(Config::default(), storage);
    let status = match answer_lines(input, &mut output, &mut session) {
        Ok(status) => status,
        Err(error) => {
            if error.kind() == io::ErrorKind::OutOfMemory {
                let _ = output.write_all(b"out of memory\n");
            }
            3
        }
    };
    let _ = session.finish();
    status
}
