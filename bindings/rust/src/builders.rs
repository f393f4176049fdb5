//! The builders of the three patterns, and what they give.
use crate::{errors::*, raw, raw::call, Node, Session};
use std::ffi::c_void;
use std::rc::Rc;
use std::time::{Duration, SystemTime, UNIX_EPOCH};

/// The type of a part of a message.
#[derive(Clone, Debug, PartialEq, Eq)]
pub struct TypeDetail {
    /// Whether a message holds a number of values, and not one.
    pub is_dynamic: bool,
    pub name: String,
    pub size: u64,
    pub alignment: u64,
}

/// What a setting can be: how it is set in the request of a session, and how it is read of a number that may be none.
trait Value: Sized {
    fn set(&self, session: *mut c_void, setting: u32) -> u32;

    fn read(_: Option<u64>) -> Option<Self> {
        None
    }
}

macro_rules! value {
    ($Type:ty: $value:ident, $session:ident, $setting:ident => $set:expr $(; $read:expr)?) => {
        impl Value for $Type {
            fn set(&self, $session: *mut c_void, $setting: u32) -> u32 { let $value = self; $set }
            $(fn read($value: Option<u64>) -> Option<Self> { $read })?
        }
    };
}

value! { u64: value, session, setting => call!(wulameron_set_number, session, setting, *value); value }
value! { bool: value, session, setting => u64::from(*value).set(session, setting); value.map(|value| value == 1) }
value! { Option<u64>: value, session, setting => match value {
    Some(value) => value.set(session, setting),
    None => call!(wulameron_set_none, session, setting),
}; Some(value) }
value! { TypeDetail: detail, session, part => {
    let (variant, name, length) = (1 + u32::from(detail.is_dynamic), detail.name.as_ptr(), detail.name.len());
    call!(wulameron_set_type, session, part, variant, name, length, detail.size, detail.alignment)
} }
// With a length of time goes the time by the clock, since a create with a deadline has that too.
value! { Option<Duration>: value, session, setting => {
    let Some(value) = value else { return None::<u64>.set(session, setting) };
    let now = SystemTime::now().duration_since(UNIX_EPOCH);
    match (call!(wulameron_set_duration, session, setting, value.as_secs(), value.subsec_nanos()), now) {
        (raw::OK, Ok(now)) => call!(wulameron_set_time, session, now.as_secs(), now.subsec_nanos()),
        (raw::OK, Err(_)) => call!(wulameron_set_clock_fault, session),
        (code, _) => code,
    }
} }

/// Where the builders of the three patterns begin.
#[must_use]
pub struct ServiceBuilder {
    pub(crate) node: Node,
    pub(crate) name: String,
    pub(crate) pieces: Vec<Box<dyn Fn(*mut c_void) -> u32>>,
}

impl ServiceBuilder {
    fn send<E: Refusal>(self, pattern: u32, how: u32) -> Result<PortFactory, E> {
        let (session, id, name) = (self.node.session, self.node.number, &self.name);
        session.done(call!(wulameron_begin, session.pointer, pattern, how, id, name.as_ptr(), name.len()))?;
        self.pieces.iter().try_for_each(|piece| session.done(piece(session.pointer)))?;
        let (mut number, mut refusal) = (0, 0);
        // A slot that a line has filled isn't known here: then the request is pending still, for the next one.
        let free = (0..u64::BITS).filter(|slot| session.taken.get() >> slot & 1 == 0);
        let mut sent = free.map(|slot| (slot, call!(wulameron_send, session.pointer, slot, &mut number, &mut refusal)));
        let slot = match sent.find(|(_, code)| *code != raw::SLOT_IN_USE) {
            None => return Err(Failure::from(raw::NO_FREE_SLOT).into()),
            Some((_, raw::REFUSED)) => return Err(E::of(refusal)),
            Some((slot, code)) => session.done(code).map(|()| slot)?,
        };
        session.taken.set(session.taken.get() | 1 << slot);
        Ok(PortFactory { session, slot, number })
    }
}

/// What a node holds of a service. It is closed where this is dropped, or by `close`, which tells of it.
#[must_use]
pub struct PortFactory {
    session: Rc<Session>,
    slot: u32,
    number: u64,
}

impl Drop for PortFactory {
    fn drop(&mut self) {
        let _ = self.leave();
    }
}

impl PortFactory {
    /// The service's number.
    pub fn number(&self) -> u64 {
        self.number
    }

    /// Closes it. Where it isn't released, dropping it tries once more, and else its slot stays taken.
    pub fn close(self) -> Result<(), Failure> {
        self.leave()
    }

    fn leave(&self) -> Result<(), Failure> {
        self.session.done(call!(wulameron_close, self.session.pointer, self.slot))?;
        self.session.taken.set(self.session.taken.get() & !(1 << self.slot));
        Ok(())
    }

    fn read<T: Value>(&self, setting: u32) -> Result<T, Failure> {
        let mut value = 0;
        let code = call!(wulameron_get_number, self.session.pointer, self.slot, setting, &mut value);
        let value = if code == raw::NONE { None } else { self.session.done(code).map(|()| Some(value))? };
        T::read(value).ok_or_else(|| raw::NONE.into())
    }

    /// For how many nodes the service is.
    pub fn max_nodes(&self) -> Result<u64, Failure> {
        self.read(1)
    }

    /// The description as it is stored: docs/BYTE_FORM.md.
    pub fn bytes(&self) -> Result<Vec<u8>, Failure> {
        let (pointer, slot) = (self.session.pointer, self.slot);
        raw::bytes(|output, size, length| call!(wulameron_get_bytes, pointer, slot, output, size, length))
            .map_err(|code| self.session.failure(code))
    }
}

/// A pattern's builder: what is set is what a create has and an open requires. What was agreed can be read of a
/// factory, but for what can be set only; of one of another pattern that gives `Code::UnknownSetting`.
macro_rules! builder {
    ($(#[$about:meta])* $Builder:ident $begin:ident $pattern:literal $Open:ident $Create:ident $OpenOrCreate:ident
        agreed { $($setting:ident $number:literal $Type:ty;)* } set { $($only:ident $place:literal $Only:ty;)* }) => {
        $(#[$about])*
        #[must_use]
        pub struct $Builder(ServiceBuilder);

        impl $Builder {
            $(pub fn $setting(self, value: $Type) -> Self { self.with(move |session| value.set(session, $number)) })*
            $(pub fn $only(self, value: $Only) -> Self { self.with(move |session| value.set(session, $place)) })*

            /// A pair that a create defines and an open requires.
            pub fn attribute(self, key: &str, value: &str) -> Self {
                let (key, value) = (key.to_string(), value.to_string());
                self.with(move |session| {
                    call!(wulameron_add_attribute, session, key.as_ptr(), key.len(), value.as_ptr(), value.len())
                })
            }

            /// A key that an open requires, with any value.
            pub fn require_key(self, key: &str) -> Self {
                let key = key.to_string();
                self.with(move |session| call!(wulameron_require_key, session, key.as_ptr(), key.len()))
            }

            fn with(mut self, piece: impl Fn(*mut c_void) -> u32 + 'static) -> Self {
                self.0.pieces.push(Box::new(piece));
                self
            }

            pub fn create(self) -> Result<PortFactory, $Create> { self.0.send($pattern, 1) }
            pub fn open(self) -> Result<PortFactory, $Open> { self.0.send($pattern, 2) }
            pub fn open_or_create(self) -> Result<PortFactory, $OpenOrCreate> { self.0.send($pattern, 3) }
        }

        impl PortFactory {
            $(pub fn $setting(&self) -> Result<$Type, Failure> { self.read($number) })*
        }

        impl ServiceBuilder {
            $(#[$about])*
            pub fn $begin(self) -> $Builder { $Builder(self) }
        }
    };
}

builder! {
    /// The builder of a service of events.
    Event event 1 EventOpenError EventCreateError EventOpenOrCreateError agreed {
        max_notifiers 101 u64; max_listeners 102 u64; event_id_max_value 103 u64;
        notifier_created_event 111 Option<u64>; notifier_dropped_event 112 Option<u64>;
        notifier_dead_event 113 Option<u64>;
    } set { max_nodes 1 u64; deadline 121 Option<Duration>; }
}

builder! {
    /// The builder of a service of publish-subscribe.
    PublishSubscribe publish_subscribe 2
    PublishSubscribeOpenError PublishSubscribeCreateError PublishSubscribeOpenOrCreateError agreed {
        max_publishers 201 u64; max_subscribers 202 u64; subscriber_max_buffer_size 203 u64; history_size 204 u64;
        subscriber_max_borrowed_samples 205 u64; enable_safe_overflow 211 bool;
    } set { max_nodes 1 u64; payload 1 TypeDetail; user_header 2 TypeDetail; payload_alignment 221 u64; }
}

builder! {
    /// The builder of a service of request-response.
    RequestResponse request_response 3
    RequestResponseOpenError RequestResponseCreateError RequestResponseOpenOrCreateError agreed {
        max_active_requests_per_client 301 u64; max_loaned_requests 302 u64; max_servers 305 u64; max_clients 306 u64;
        max_borrowed_responses_per_pending_response 303 u64; max_response_buffer_size 304 u64;
        enable_safe_overflow_for_requests 311 bool; enable_safe_overflow_for_responses 312 bool;
        enable_fire_and_forget_requests 313 bool;
    } set {
        max_nodes 1 u64; request_payload 3 TypeDetail; request_header 4 TypeDetail; response_payload 5 TypeDetail;
        response_header 6 TypeDetail; request_payload_alignment 321 u64; response_payload_alignment 322 u64;
    }
}
