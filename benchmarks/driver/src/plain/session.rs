//! Commands over a table, with places for what they open.

use super::attribute::AttributeVerifier;
use super::description::{Config, ServiceName};
use super::errors::{
    EventCreateError, EventOpenError, OpenOrCreateError, PublishSubscribeCreateError,
    PublishSubscribeOpenError, RequestResponseCreateError, RequestResponseOpenError,
};
use super::patterns::Pattern;
use super::patterns::event::{EventDemand, EventSetter};
use super::patterns::publish_subscribe::{PublishSubscribeBuilder, PublishSubscribeSetter};
use super::patterns::request_response::{RequestResponseBuilder, RequestResponseSetter};
use super::rounds::{ClockFault, CloseError, Registration, create, open, open_or_create};
use super::services::Entry;
use super::storage::Storage;
use std::collections::TryReserveError;
use std::time::Duration;

/// How many slots a session has.
pub const SLOTS: usize = 64;

#[derive(Clone, Copy, Debug, PartialEq, Eq)]
pub enum How {
    Create,
    Open,
    OpenOrCreate,
}

/// The setters of one pattern's builder, in order.
#[derive(Debug)]
pub enum Settings {
    Event(Vec<EventSetter>),
    PublishSubscribe(Vec<PublishSubscribeSetter>),
    RequestResponse(Vec<RequestResponseSetter>),
}

/// A builder call of a node, whose registration goes into a slot.
#[derive(Debug)]
pub struct Call {
    pub how: How,
    pub node: u64,
    pub slot: usize,
    pub name: ServiceName,
    pub settings: Settings,
    pub attributes: AttributeVerifier,
    pub now: Result<Duration, ClockFault>,
}

#[derive(Debug)]
pub enum Command {
    Call(Call),
    Close { slot: usize },
    List,
}

/// Why a call was refused.
#[derive(Clone, Copy, Debug, PartialEq, Eq)]
pub enum CallError<O, C> {
    Open(O),
    Create(C),
    OpenOrCreate(OpenOrCreateError<O, C>),
}

#[derive(Clone, Copy, Debug, PartialEq, Eq)]
pub enum Refusal {
    Event(CallError<EventOpenError, EventCreateError>),
    PublishSubscribe(CallError<PublishSubscribeOpenError, PublishSubscribeCreateError>),
    RequestResponse(CallError<RequestResponseOpenError, RequestResponseCreateError>),
}

#[derive(Debug)]
pub enum Reply {
    Opened {
        slot: usize,
        number: u64,
    },
    Refused(Refusal),
    Closed {
        slot: usize,
    },
    /// The slot holds what it held.
    NotClosed {
        slot: usize,
    },
    SlotInUse,
    SlotEmpty,
    NoSuchSlot,
    Listing(Vec<Entry>),
    OutOfMemory,
}

/// A table, and slots for what commands open over it.
pub struct Session<S> {
    config: Config,
    table: S,
    slots: [Option<Registration>; SLOTS],
}

/// A call but for what its pattern asks.
struct Caller {
    how: How,
    node: u64,
    name: ServiceName,
    attributes: AttributeVerifier,
    now: Result<Duration, ClockFault>,
}

impl Caller {
    /// A create defines the required pairs.
    fn call<P: Pattern, S: Storage>(
        self,
        asked: P,
        table: &mut S,
    ) -> Result<Registration, CallError<P::OpenError, P::CreateError>> {
        let Caller {
            how,
            node,
            name,
            attributes,
            now,
        } = self;
        match how {
            How::Create => {
                let attributes = attributes.into_required_attributes();
                create(asked, node, name, attributes, now, table).map_err(CallError::Create)
            }
            How::Open => open(&asked, node, &name, &attributes, table).map_err(CallError::Open),
            How::OpenOrCreate => open_or_create(asked, node, name, &attributes, now, table)
                .map_err(CallError::OpenOrCreate),
        }
    }

    /// The refusal of a call that found no memory for its types.
    fn out_of_memory<O, C>(&self, open: O, create: C) -> CallError<O, C> {
        match self.how {
            How::Create => CallError::Create(create),
            How::Open => CallError::Open(open),
            How::OpenOrCreate => CallError::OpenOrCreate(OpenOrCreateError::Open(open)),
        }
    }
}

fn call_event<S: Storage>(
    config: &Config,
    setters: Vec<EventSetter>,
    caller: Caller,
    table: &mut S,
) -> Result<Registration, Refusal> {
    let mut asked = EventDemand::new(config.event);
    for setter in setters {
        asked.set(setter);
    }
    caller.call(asked, table).map_err(Refusal::Event)
}

fn call_publish_subscribe<S: Storage>(
    config: &Config,
    setters: Vec<PublishSubscribeSetter>,
    caller: Caller,
    table: &mut S,
) -> Result<Registration, Refusal> {
    let mut builder = PublishSubscribeBuilder::new(config.publish_subscribe);
    for setter in setters {
        builder.set(setter);
    }
    match builder.prepare() {
        Ok(asked) => caller.call(asked, table),
        Err(_) => Err(caller.out_of_memory(
            PublishSubscribeOpenError::OutOfMemory,
            PublishSubscribeCreateError::OutOfMemory,
        )),
    }
    .map_err(Refusal::PublishSubscribe)
}

fn call_request_response<S: Storage>(
    config: &Config,
    setters: Vec<RequestResponseSetter>,
    caller: Caller,
    table: &mut S,
) -> Result<Registration, Refusal> {
    let mut builder = RequestResponseBuilder::new(config.request_response);
    for setter in setters {
        builder.set(setter);
    }
    match builder.prepare() {
        Ok(asked) => caller.call(asked, table),
        Err(_) => Err(caller.out_of_memory(
            RequestResponseOpenError::OutOfMemory,
            RequestResponseCreateError::OutOfMemory,
        )),
    }
    .map_err(Refusal::RequestResponse)
}

impl<S: Storage> Session<S> {
    pub fn new(config: Config, table: S) -> Session<S> {
        Session {
            config,
            table,
            slots: [const { None }; SLOTS],
        }
    }

    /// Carries out one command. The slot is tested before anything is called.
    pub fn apply(&mut self, command: Command) -> Reply {
        match command {
            Command::Call(call) => self.call(call),
            Command::Close { slot } => self.close(slot),
            Command::List => match self.table.list() {
                Ok(entries) => Reply::Listing(entries),
                Err(_) => Reply::OutOfMemory,
            },
        }
    }

    /// Carries out commands in order, where there is room for all replies.
    pub fn run(&mut self, commands: Vec<Command>) -> Result<Vec<Reply>, TryReserveError> {
        let mut replies = Vec::new();
        replies.try_reserve_exact(commands.len())?;
        for command in commands {
            replies.push(self.apply(command));
        }
        Ok(replies)
    }

    fn call(&mut self, call: Call) -> Reply {
        let slot = call.slot;
        let Some(place) = self.slots.get_mut(slot) else {
            return Reply::NoSuchSlot;
        };
        if place.is_some() {
            return Reply::SlotInUse;
        }
        let caller = Caller {
            how: call.how,
            node: call.node,
            name: call.name,
            attributes: call.attributes,
            now: call.now,
        };
        let (config, table) = (&self.config, &mut self.table);
        let answer = match call.settings {
            Settings::Event(setters) => call_event(config, setters, caller, table),
            Settings::PublishSubscribe(setters) => {
                call_publish_subscribe(config, setters, caller, table)
            }
            Settings::RequestResponse(setters) => {
                call_request_response(config, setters, caller, table)
            }
        };
        match answer {
            Ok(registration) => {
                let number = registration.number;
                *place = Some(registration);
                Reply::Opened { slot, number }
            }
            Err(refusal) => Reply::Refused(refusal),
        }
    }

    fn close(&mut self, slot: usize) -> Reply {
        let Some(place) = self.slots.get_mut(slot) else {
            return Reply::NoSuchSlot;
        };
        let Some(registration) = place.take() else {
            return Reply::SlotEmpty;
        };
        match registration.close(&mut self.table) {
            Err(CloseError::NotHere(registration)) => {
                *place = Some(*registration);
                Reply::NotClosed { slot }
            }
            _ => Reply::Closed { slot },
        }
    }

    pub fn table(&self) -> &S {
        &self.table
    }

    /// Closes what all slots hold, in ascending order, and gives the table back.
    pub fn finish(mut self) -> S {
        for slot in 0..SLOTS {
            self.close(slot);
        }
        self.table
    }
}
