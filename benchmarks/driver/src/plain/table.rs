//! A storage within one process.

use super::description::{ServiceHash, StaticConfig};
use super::services::{
    Entry, Existence, FetchError, LockError, MakeSegmentError, NoSuchTicket, NotAllowed,
    OpenSegmentError, Participant, Phase, PublishError, Release, Services, Tag,
};
use super::storage::Storage;
use std::collections::TryReserveError;

/// What a participant may do at a service.
#[derive(Debug)]
pub enum Act {
    Read,
    Lock,
    RemoveSegment,
    RemoveDescription,
    Make { max_nodes: u64 },
    Publish(StaticConfig),
    Join,
    Leave,
}

/// A step of a peer at a service.
#[derive(Debug)]
pub struct Step {
    pub peer: u64,
    pub hash: ServiceHash,
    pub act: Act,
}

/// The services, and batches of peers' steps, of which the next one is carried out before each access.
#[derive(Default)]
pub struct Table<S> {
    services: S,
    waiting: Vec<Vec<Step>>,
    skipped: u64,
}

impl<S: Services> Table<S> {
    pub fn new() -> Table<S> {
        Table::default()
    }

    /// Puts these batches in the place of those that wait, the first of them to run next.
    pub fn schedule(&mut self, mut batches: Vec<Vec<Step>>) {
        batches.reverse();
        self.waiting = batches;
    }

    /// How many steps of batches were allowed and found no memory.
    pub fn skipped(&self) -> u64 {
        self.skipped
    }

    fn run_batch(&mut self) {
        if let Some(batch) = self.waiting.pop() {
            for step in &batch {
                let lacked_memory = self.take(step);
                self.skipped = self.skipped.saturating_add(u64::from(lacked_memory));
            }
        }
    }

    /// Carries out a step, where it is allowed. True where it was and found no memory.
    fn take(&mut self, step: &Step) -> bool {
        let Step { peer, hash, act } = step;
        let participant = Participant::Peer(*peer);
        let services = &mut self.services;
        // A peer's step names no number: it is that of its phase.
        match (act, services.phase(participant, hash)) {
            (Act::Read, _) => services.read(participant, hash) == Err(FetchError::OutOfMemory),
            (Act::Lock, _) => services.lock(participant, hash) == Err(LockError::OutOfMemory),
            (Act::RemoveSegment, _) => {
                let _ = services.remove_segment(participant, hash);
                false
            }
            (Act::RemoveDescription, _) => {
                let _ = services.remove_description(participant, hash);
                false
            }
            (Act::Make { max_nodes }, Some(Phase::Locked(number))) => {
                let made = services.make_segment(participant, hash, number, *max_nodes);
                made == Err(MakeSegmentError::OutOfMemory)
            }
            (Act::Publish(description), Some(Phase::Made(number))) => {
                let published = services.publish(participant, hash, number, description);
                published == Err(PublishError::OutOfMemory)
            }
            (Act::Join, Some(Phase::Read(number) | Phase::Joined(number, _))) => {
                let joined = services.join(*peer, hash, number);
                joined == Err(OpenSegmentError::OutOfMemory)
            }
            (Act::Leave, _) => {
                let _ = services.leave(*peer, hash);
                false
            }
            (Act::Make { .. } | Act::Publish(_) | Act::Join, _) => false,
        }
    }

    pub fn list(&self) -> Result<Vec<Entry>, TryReserveError> {
        self.services.list()
    }
}

impl<S: Services> Storage for Table<S> {
    type Form<'a>
        = S::Form<'a>
    where
        S: 'a;

    fn list(&mut self) -> Result<Vec<Entry>, TryReserveError> {
        Table::list(self)
    }

    fn exists(&mut self, hash: &ServiceHash) -> Existence {
        self.run_batch();
        self.services.exists(hash)
    }

    fn fetch(
        &mut self,
        node: u64,
        hash: &ServiceHash,
    ) -> Result<(u64, Self::Form<'_>), FetchError> {
        self.run_batch();
        self.services.fetch(Participant::Node(node), hash)
    }

    fn counts(&mut self, node: u64, hash: &ServiceHash) -> bool {
        self.run_batch();
        let phase = self.services.phase(Participant::Node(node), hash);
        matches!(phase, Some(Phase::Joined(_, _)))
    }

    fn make_tag(&mut self, node: u64, hash: &ServiceHash) -> Result<Tag, TryReserveError> {
        self.run_batch();
        self.services.make_tag(node, hash)
    }

    fn remove_tag(&mut self, node: u64, hash: &ServiceHash) {
        self.run_batch();
        self.services.remove_tag(node, hash);
    }

    fn lock(&mut self, node: u64, hash: &ServiceHash) -> Result<u64, LockError> {
        self.run_batch();
        self.services.lock(Participant::Node(node), hash)
    }

    fn make_segment(
        &mut self,
        node: u64,
        hash: &ServiceHash,
        number: u64,
        max_nodes: u64,
    ) -> Result<(), MakeSegmentError> {
        self.run_batch();
        let node = Participant::Node(node);
        self.services.make_segment(node, hash, number, max_nodes)
    }

    fn remove_segment(&mut self, node: u64, hash: &ServiceHash) -> Result<(), NotAllowed> {
        self.run_batch();
        self.services.remove_segment(Participant::Node(node), hash)
    }

    fn remove_description(&mut self, node: u64, hash: &ServiceHash) -> Result<(), NotAllowed> {
        self.run_batch();
        self.services
            .remove_description(Participant::Node(node), hash)
    }

    fn publish(
        &mut self,
        node: u64,
        hash: &ServiceHash,
        number: u64,
        description: &StaticConfig,
    ) -> Result<u64, PublishError> {
        self.run_batch();
        let participant = Participant::Node(node);
        self.services
            .publish(participant, hash, number, description)?;
        Ok(number)
    }

    fn open_segment(
        &mut self,
        node: u64,
        hash: &ServiceHash,
        number: u64,
    ) -> Result<u64, OpenSegmentError> {
        self.run_batch();
        self.services.open(node, hash, number)
    }

    fn release(
        &mut self,
        ticket: u64,
        node: u64,
        hash: &ServiceHash,
        number: u64,
    ) -> Result<Release, NoSuchTicket> {
        self.run_batch();
        self.services.release(ticket, node, hash, number)
    }
}
