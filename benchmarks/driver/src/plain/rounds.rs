//! How a service is created, opened and closed.

use super::attribute::{AttributeSet, AttributeVerifier};
use super::byte_form::{DecodeError, decode};
use super::description::{ServiceHash, ServiceName, StaticConfig};
use super::errors::{CreateRefusal, OpenOrCreateError, OpenRefusal, ServiceState};
use super::patterns::Pattern;
use super::services::{
    Existence, FetchError, LockError, MakeSegmentError, OpenSegmentError, PublishError, Release,
    Tag,
};
use super::storage::Storage;
use std::time::Duration;

/// How often an open, a making of a segment, and an open or create try.
const TRIES: u32 = 6;

/// A clock that could not be read.
#[derive(Clone, Copy, Debug, PartialEq, Eq)]
pub struct ClockFault;

/// A node's registration at a service.
#[derive(Debug)]
pub struct Registration {
    pub node: u64,
    pub number: u64,
    pub ticket: u64,
    pub description: StaticConfig,
}

/// Asks whether there is a service of this hash, reads its description, and asks whether it is one
/// of the pattern and of the types.
fn look<P: Pattern, S: Storage>(
    asked: &P,
    node: u64,
    hash: &ServiceHash,
    table: &mut S,
) -> Result<Option<(u64, StaticConfig)>, P::Fault> {
    if table.exists(hash) == Existence::No {
        return Ok(None);
    }
    let (number, bytes) = match table.fetch(node, hash) {
        Ok(fetched) => fetched,
        Err(FetchError::DoesNotExist) => return Ok(None),
        Err(FetchError::NotFinalized) => return Err(ServiceState::HangsInCreation.into()),
        Err(FetchError::OutOfMemory) => return Err(ServiceState::OutOfMemory.into()),
    };
    let description = decode(bytes.as_ref()).map_err(|error| match error {
        DecodeError::Malformed => ServiceState::Corrupted,
        DecodeError::OutOfMemory => ServiceState::OutOfMemory,
    })?;
    if description.hash != *hash {
        return Err(ServiceState::Corrupted.into());
    }
    match asked.misfit(&description.pattern) {
        Some(fault) => Err(fault),
        None => Ok(Some((number, description))),
    }
}

fn give_back_tag<S: Storage>(node: u64, hash: &ServiceHash, tag: Tag, table: &mut S) {
    if tag == Tag::Made {
        table.remove_tag(node, hash);
    }
}

/// Creates the service of this name, with these attributes.
pub fn create<P: Pattern, S: Storage>(
    mut asked: P,
    node: u64,
    name: ServiceName,
    attributes: AttributeSet,
    now: Result<Duration, ClockFault>,
    table: &mut S,
) -> Result<Registration, P::CreateError> {
    let hash = ServiceHash::of(P::PREFIX, &name);
    asked.adjust();
    create_adjusted(asked, node, hash, name, attributes, now, table)
}

fn create_adjusted<P: Pattern, S: Storage>(
    asked: P,
    node: u64,
    hash: ServiceHash,
    name: ServiceName,
    attributes: AttributeSet,
    now: Result<Duration, ClockFault>,
    table: &mut S,
) -> Result<Registration, P::CreateError> {
    if let Some(error) = asked.settings_refusal() {
        return Err(error);
    }
    if look(&asked, node, &hash, table)?.is_some() {
        return Err(CreateRefusal::AlreadyExists.into());
    }
    if table.counts(node, &hash) {
        return Err(CreateRefusal::ServiceInCorruptedState.into());
    }
    let clock_stops = asked.needs_clock() && now.is_err();
    let description = StaticConfig {
        hash,
        name,
        attributes,
        pattern: asked.into_published(now.unwrap_or_default()),
        creator: Some(node),
    };
    let tag = table.make_tag(node, &hash);
    let tag = tag.map_err(|_| CreateRefusal::OutOfMemory)?;
    let made = if clock_stops {
        Err(CreateRefusal::InternalFailure)
    } else {
        make_service(node, &description, table)
    };
    match made {
        Ok((number, ticket)) => Ok(Registration {
            node,
            number,
            ticket,
            description,
        }),
        Err(refusal) => {
            give_back_tag(node, &hash, tag, table);
            Err(refusal.into())
        }
    }
}

/// Locks the hash, makes the segment, and publishes the description: the service's number, and the
/// node's ticket.
fn make_service<S: Storage>(
    node: u64,
    description: &StaticConfig,
    table: &mut S,
) -> Result<(u64, u64), CreateRefusal> {
    let hash = &description.hash;
    let number = table.lock(node, hash).map_err(|error| match error {
        LockError::AlreadyExists => CreateRefusal::AlreadyExists,
        LockError::Creation => CreateRefusal::IsBeingCreatedByAnotherInstance,
        LockError::Other => CreateRefusal::InternalFailure,
        LockError::OutOfMemory => CreateRefusal::OutOfMemory,
    })?;
    if let Err(refusal) = make_segment(node, hash, number, description.max_nodes(), table) {
        let _ = table.remove_description(node, hash);
        return Err(refusal);
    }
    match table.publish(node, hash, number, description) {
        Ok(ticket) => Ok((number, ticket)),
        Err(error) => {
            let _ = table.remove_segment(node, hash);
            let _ = table.remove_description(node, hash);
            Err(match error {
                PublishError::Other => CreateRefusal::ServiceInCorruptedState,
                PublishError::OutOfMemory => CreateRefusal::OutOfMemory,
            })
        }
    }
}

/// Makes the segment, and removes between two attempts what was left of another.
fn make_segment<S: Storage>(
    node: u64,
    hash: &ServiceHash,
    number: u64,
    max_nodes: u64,
    table: &mut S,
) -> Result<(), CreateRefusal> {
    for attempt in 1..=TRIES {
        match table.make_segment(node, hash, number, max_nodes) {
            Ok(()) => return Ok(()),
            Err(MakeSegmentError::AlreadyExists) => {}
            Err(MakeSegmentError::Other) => return Err(CreateRefusal::InternalFailure),
            Err(MakeSegmentError::OutOfMemory) => return Err(CreateRefusal::OutOfMemory),
        }
        if attempt < TRIES && table.remove_segment(node, hash).is_err() {
            return Err(CreateRefusal::InternalFailure);
        }
    }
    Err(CreateRefusal::ServiceInCorruptedState)
}

/// Opens the service of this name, in at most six rounds.
pub fn open<P: Pattern, S: Storage>(
    asked: &P,
    node: u64,
    name: &ServiceName,
    verifier: &AttributeVerifier,
    table: &mut S,
) -> Result<Registration, P::OpenError> {
    open_hash(
        asked,
        node,
        &ServiceHash::of(P::PREFIX, name),
        verifier,
        table,
    )
}

fn open_hash<P: Pattern, S: Storage>(
    asked: &P,
    node: u64,
    hash: &ServiceHash,
    verifier: &AttributeVerifier,
    table: &mut S,
) -> Result<Registration, P::OpenError> {
    for _round in 0..TRIES {
        if let Some(registration) = try_open(asked, node, hash, verifier, table)? {
            return Ok(registration);
        }
    }
    Err(OpenRefusal::ServiceInCorruptedState.into())
}

/// One round. `None` asks for another one.
fn try_open<P: Pattern, S: Storage>(
    asked: &P,
    node: u64,
    hash: &ServiceHash,
    verifier: &AttributeVerifier,
    table: &mut S,
) -> Result<Option<Registration>, P::OpenError> {
    let found = look(asked, node, hash, table)?;
    let (number, description) = found.ok_or(OpenRefusal::DoesNotExist)?;
    if !verifier.is_met_by(&description.attributes) {
        return Err(OpenRefusal::IncompatibleAttributes.into());
    }
    asked.verify(&description.pattern)?;
    let tag = table.make_tag(node, hash);
    let tag = tag.map_err(|_| OpenRefusal::OutOfMemory)?;
    let refusal = match table.open_segment(node, hash, number) {
        Ok(ticket) => {
            return Ok(Some(Registration {
                node,
                number,
                ticket,
                description,
            }));
        }
        Err(OpenSegmentError::DoesNotExist) => OpenRefusal::ServiceInCorruptedState,
        Err(OpenSegmentError::Marked) => OpenRefusal::IsMarkedForDestruction,
        Err(OpenSegmentError::Full) => OpenRefusal::ExceedsMaxNumberOfNodes,
        Err(OpenSegmentError::OutOfNumbers) => OpenRefusal::InternalFailure,
        Err(OpenSegmentError::OutOfMemory) => OpenRefusal::OutOfMemory,
        Err(OpenSegmentError::Failed) => {
            let seen = look(asked, node, hash, table);
            give_back_tag(node, hash, tag, table);
            return match seen? {
                None => Err(OpenRefusal::DoesNotExist.into()),
                Some(_) => Ok(None),
            };
        }
    };
    give_back_tag(node, hash, tag, table);
    Err(refusal.into())
}

fn retries_open<P: Pattern>(error: P::OpenError) -> bool {
    [
        OpenRefusal::DoesNotExist,
        OpenRefusal::ServiceInCorruptedState,
        OpenRefusal::IsMarkedForDestruction,
    ]
    .into_iter()
    .any(|refusal| error == refusal.into())
}

fn retries_create<P: Pattern>(error: P::CreateError) -> bool {
    [
        CreateRefusal::AlreadyExists,
        CreateRefusal::IsBeingCreatedByAnotherInstance,
        CreateRefusal::ServiceInCorruptedState,
    ]
    .into_iter()
    .any(|refusal| error == refusal.into())
}

type Answer<P> = OpenOrCreateError<<P as Pattern>::OpenError, <P as Pattern>::CreateError>;

/// Opens the service of this name, or creates it with the required pairs where there is none, in at
/// most six rounds.
pub fn open_or_create<P: Pattern, S: Storage>(
    mut asked: P,
    node: u64,
    name: ServiceName,
    verifier: &AttributeVerifier,
    now: Result<Duration, ClockFault>,
    table: &mut S,
) -> Result<Registration, Answer<P>> {
    let hash = ServiceHash::of(P::PREFIX, &name);
    for _round in 0..TRIES {
        match look(&asked, node, &hash, table) {
            Err(fault) => return Err(OpenOrCreateError::Open(fault.into())),
            Ok(Some(_)) => match open_hash(&asked, node, &hash, verifier, table) {
                Ok(registration) => return Ok(registration),
                Err(error) if retries_open::<P>(error) => {}
                Err(error) => return Err(OpenOrCreateError::Open(error)),
            },
            Ok(None) => {
                asked.adjust();
                match create_copy(&asked, node, hash, &name, verifier, now, table) {
                    Ok(registration) => return Ok(registration),
                    Err(error) if retries_create::<P>(error) => {}
                    Err(error) => return Err(OpenOrCreateError::Create(error)),
                }
            }
        }
    }
    Err(OpenOrCreateError::SystemInFlux)
}

/// Creates the service of copies, since there may be another round.
fn create_copy<P: Pattern, S: Storage>(
    asked: &P,
    node: u64,
    hash: ServiceHash,
    name: &ServiceName,
    verifier: &AttributeVerifier,
    now: Result<Duration, ClockFault>,
    table: &mut S,
) -> Result<Registration, P::CreateError> {
    let out_of_memory = |_| CreateRefusal::OutOfMemory;
    let asked = asked.try_clone().map_err(out_of_memory)?;
    let name = name.try_clone().map_err(out_of_memory)?;
    let attributes = verifier.required_attributes().try_clone();
    let attributes = attributes.map_err(out_of_memory)?;
    create_adjusted(asked, node, hash, name, attributes, now, table)
}

/// Why something isn't closed, or not wholly.
#[derive(Debug)]
pub enum CloseError {
    /// The ticket isn't at this table, and here is what was to be closed.
    NotHere(Box<Registration>),
    SegmentNotRemoved,
    DescriptionNotRemoved,
}

impl Registration {
    /// Gives the ticket back. The last node removes the service.
    pub fn close<S: Storage>(self, table: &mut S) -> Result<(), CloseError> {
        let hash = self.description.hash;
        let node = self.node;
        let Ok(left) = table.release(self.ticket, node, &hash, self.number) else {
            return Err(CloseError::NotHere(Box::new(self)));
        };
        drop(self);
        if left == Release::StillCounted {
            return Ok(());
        }
        table.remove_tag(node, &hash);
        if left == Release::Left {
            return Ok(());
        }
        let segment = table.remove_segment(node, &hash);
        let description = table.remove_description(node, &hash);
        segment.map_err(|_| CloseError::SegmentNotRemoved)?;
        description.map_err(|_| CloseError::DescriptionNotRemoved)
    }
}
