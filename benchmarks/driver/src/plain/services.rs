//! What stands for each service, where each participant is with it, and what a participant may do there.

use super::description::{ServiceHash, StaticConfig};
use std::collections::TryReserveError;

#[derive(Clone, Copy, Debug, PartialEq, Eq)]
pub enum Existence {
    No,
    Yes,
    BeingSetUp,
}

#[derive(Clone, Copy, Debug, PartialEq, Eq)]
pub enum FetchError {
    DoesNotExist,
    NotFinalized,
    OutOfMemory,
}

#[derive(Clone, Copy, Debug, PartialEq, Eq)]
pub struct NotAllowed;

#[derive(Clone, Copy, Debug, PartialEq, Eq)]
pub enum LockError {
    AlreadyExists,
    Creation,
    Other,
    OutOfMemory,
}

#[derive(Clone, Copy, Debug, PartialEq, Eq)]
pub enum MakeSegmentError {
    AlreadyExists,
    Other,
    OutOfMemory,
}

#[derive(Clone, Copy, Debug, PartialEq, Eq)]
pub enum PublishError {
    Other,
    OutOfMemory,
}

#[derive(Clone, Copy, Debug, PartialEq, Eq)]
pub enum OpenSegmentError {
    DoesNotExist,
    Marked,
    Full,
    Failed,
    OutOfNumbers,
    OutOfMemory,
}

#[derive(Clone, Copy, Debug, PartialEq, Eq)]
pub struct NoSuchTicket;

#[derive(Clone, Copy, Debug, PartialEq, Eq)]
pub enum Tag {
    Made,
    Found,
}

#[derive(Clone, Copy, Debug, PartialEq, Eq)]
pub enum Release {
    StillCounted,
    Left,
    Last,
}

/// Who acts. Node 7 and peer 7 are different participants.
#[derive(Clone, Copy, Debug, PartialEq, Eq, PartialOrd, Ord)]
pub enum Participant {
    Node(u64),
    Peer(u64),
}

/// Where a participant is with a service; who is not stored is idle.
#[derive(Clone, Copy, Debug, PartialEq, Eq)]
pub enum Phase {
    Read(u64),
    Locked(u64),
    Made(u64),
    Joined(u64, u64),
    Leaving(u64),
    Cleared(u64),
}

/// What is written under a hash, as it is listed.
#[derive(Debug)]
pub enum ListedRow {
    Absent,
    Locked(u64),
    Published(u64, Box<[u8]>),
}

/// A segment, as it is listed.
#[derive(Clone, Copy, Debug)]
pub struct ListedSegment {
    pub number: u64,
    pub max_nodes: u64,
    pub participants: u64,
    pub marked: bool,
}

impl ListedSegment {
    /// How often who is in this phase is registered at the number, or why it can't be once more.
    pub fn join_count(&self, number: u64, phase: Option<&Phase>) -> Result<u64, OpenSegmentError> {
        if self.number != number {
            return Err(OpenSegmentError::Failed);
        }
        if self.marked {
            return Err(OpenSegmentError::Marked);
        }
        match phase {
            Some(Phase::Read(read)) if *read == number => {
                if self.participants >= self.max_nodes {
                    return Err(OpenSegmentError::Full);
                }
                Ok(0)
            }
            Some(Phase::Joined(joined, count)) if *joined == number && *count < u64::MAX => {
                Ok(*count)
            }
            _ => Err(OpenSegmentError::Failed),
        }
    }
}

/// What there is of one service.
#[derive(Debug)]
pub struct Entry {
    pub hash: ServiceHash,
    pub row: ListedRow,
    pub segment: Option<ListedSegment>,
}

/// The services, the phases of participants at them, and the tags and tickets of nodes.
pub trait Services: Default {
    /// A description's bytes, as a fetch hands them out.
    type Form<'a>: AsRef<[u8]>
    where
        Self: 'a;

    /// Each service with a row or a segment, in the order of the hashes.
    fn list(&self) -> Result<Vec<Entry>, TryReserveError>;

    fn phase(&self, participant: Participant, hash: &ServiceHash) -> Option<Phase>;

    fn exists(&self, hash: &ServiceHash) -> Existence;

    /// The participant reads under which number a description is published.
    fn read(&mut self, participant: Participant, hash: &ServiceHash) -> Result<u64, FetchError>;

    /// As `read`, with the description's bytes.
    fn fetch(
        &mut self,
        participant: Participant,
        hash: &ServiceHash,
    ) -> Result<(u64, Self::Form<'_>), FetchError>;

    fn make_tag(&mut self, node: u64, hash: &ServiceHash) -> Result<Tag, TryReserveError>;

    fn remove_tag(&mut self, node: u64, hash: &ServiceHash);

    /// Locks the hash for a new service, and gives that service's number.
    fn lock(&mut self, participant: Participant, hash: &ServiceHash) -> Result<u64, LockError>;

    /// Makes the locked service's segment, with the participant in it.
    fn make_segment(
        &mut self,
        participant: Participant,
        hash: &ServiceHash,
        number: u64,
        capacity: u64,
    ) -> Result<(), MakeSegmentError>;

    fn remove_segment(
        &mut self,
        participant: Participant,
        hash: &ServiceHash,
    ) -> Result<(), NotAllowed>;

    fn remove_description(
        &mut self,
        participant: Participant,
        hash: &ServiceHash,
    ) -> Result<(), NotAllowed>;

    /// Puts the description in the lock's place, and registers the participant. A node gets a ticket,
    /// the service's number.
    fn publish(
        &mut self,
        participant: Participant,
        hash: &ServiceHash,
        number: u64,
        description: &StaticConfig,
    ) -> Result<(), PublishError>;

    /// Registers the node in the segment of this number, and gives a ticket.
    fn open(&mut self, node: u64, hash: &ServiceHash, number: u64)
    -> Result<u64, OpenSegmentError>;

    /// Registers a peer in the segment of this number.
    fn join(&mut self, peer: u64, hash: &ServiceHash, number: u64) -> Result<(), OpenSegmentError>;

    /// A node leaves by its ticket, and is told what is left.
    fn release(
        &mut self,
        ticket: u64,
        node: u64,
        hash: &ServiceHash,
        number: u64,
    ) -> Result<Release, NoSuchTicket>;

    /// A peer leaves once.
    fn leave(&mut self, peer: u64, hash: &ServiceHash) -> Result<Release, NotAllowed>;
}
