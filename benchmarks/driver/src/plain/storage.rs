//! What calls ask of a storage.

use super::description::{ServiceHash, StaticConfig};
use super::services::{
    Entry, Existence, FetchError, LockError, MakeSegmentError, NoSuchTicket, NotAllowed,
    OpenSegmentError, PublishError, Release, Tag,
};
use std::collections::TryReserveError;

/// The accesses that calls are made of, and a listing.
pub trait Storage {
    /// A description's bytes, as a fetch hands them out.
    type Form<'a>: AsRef<[u8]>
    where
        Self: 'a;

    /// Each service with a row or a segment, in the order of the hashes.
    fn list(&mut self) -> Result<Vec<Entry>, TryReserveError>;

    fn exists(&mut self, hash: &ServiceHash) -> Existence;

    /// The service's number and its description's bytes.
    fn fetch(&mut self, node: u64, hash: &ServiceHash)
    -> Result<(u64, Self::Form<'_>), FetchError>;

    /// Whether the node is registered at the service already.
    fn counts(&mut self, node: u64, hash: &ServiceHash) -> bool;

    fn make_tag(&mut self, node: u64, hash: &ServiceHash) -> Result<Tag, TryReserveError>;

    fn remove_tag(&mut self, node: u64, hash: &ServiceHash);

    /// Locks the hash for a new service, and gives that service's number.
    fn lock(&mut self, node: u64, hash: &ServiceHash) -> Result<u64, LockError>;

    /// Makes the locked service's segment, with the node in it.
    fn make_segment(
        &mut self,
        node: u64,
        hash: &ServiceHash,
        number: u64,
        max_nodes: u64,
    ) -> Result<(), MakeSegmentError>;

    fn remove_segment(&mut self, node: u64, hash: &ServiceHash) -> Result<(), NotAllowed>;

    fn remove_description(&mut self, node: u64, hash: &ServiceHash) -> Result<(), NotAllowed>;

    /// Puts the description in the lock's place, and gives a ticket for the node.
    fn publish(
        &mut self,
        node: u64,
        hash: &ServiceHash,
        number: u64,
        description: &StaticConfig,
    ) -> Result<u64, PublishError>;

    /// Registers the node in the segment of this number, and gives a ticket.
    fn open_segment(
        &mut self,
        node: u64,
        hash: &ServiceHash,
        number: u64,
    ) -> Result<u64, OpenSegmentError>;

    /// Spends the ticket.
    fn release(
        &mut self,
        ticket: u64,
        node: u64,
        hash: &ServiceHash,
        number: u64,
    ) -> Result<Release, NoSuchTicket>;
}
