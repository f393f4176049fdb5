//! The services as five maps, as the proved table has them: rows, segments, phases, tags and tickets.

use super::byte_form::encode;
use super::copy_bytes;
use super::description::{ServiceHash, StaticConfig};
use super::services::{
    Entry, Existence, FetchError, ListedRow, ListedSegment, LockError, MakeSegmentError,
    NoSuchTicket, NotAllowed, OpenSegmentError, Participant, Phase, PublishError, Release,
    Services, Tag,
};
use crate::maps::{Entry as Found, Maps, OccupiedEntry, OrderedMap, VacantEntry};
use std::collections::TryReserveError;

/// What is written under a hash. It is locked until a form is published.
struct Row {
    number: u64,
    form: Option<Box<[u8]>>,
}

struct Segment<M: Maps> {
    number: u64,
    capacity: u64,
    participants: M::Map<Participant, ()>,
    marked: bool,
}

#[derive(Clone, Copy, Debug, PartialEq, Eq)]
struct Ticket {
    node: u64,
    hash: ServiceHash,
    number: u64,
}

/// The five maps, and a counter for numbers.
pub struct FiveMaps<M: Maps> {
    rows: M::Map<ServiceHash, Row>,
    segments: M::Map<ServiceHash, Segment<M>>,
    phases: M::Map<(Participant, ServiceHash), Phase>,
    tags: M::Map<(u64, ServiceHash), ()>,
    tickets: M::Map<u64, Ticket>,
    counter: u64,
}

impl<M: Maps> Segment<M> {
    fn listed(&self) -> ListedSegment {
        ListedSegment {
            number: self.number,
            max_nodes: self.capacity,
            participants: self.participants.len() as u64,
            marked: self.marked,
        }
    }
}

impl Row {
    fn listed(&self) -> Result<ListedRow, TryReserveError> {
        match &self.form {
            None => Ok(ListedRow::Locked(self.number)),
            Some(form) => {
                let copy = super::copy_bytes(form)?.into_boxed_slice();
                Ok(ListedRow::Published(self.number, copy))
            }
        }
    }
}

impl<M: Maps> Default for FiveMaps<M> {
    fn default() -> FiveMaps<M> {
        FiveMaps {
            rows: Default::default(),
            segments: Default::default(),
            phases: Default::default(),
            tags: Default::default(),
            tickets: Default::default(),
            counter: 0,
        }
    }
}

impl<M: Maps> FiveMaps<M> {
    /// The service's number and its description's bytes, where they are published.
    fn published(&self, hash: &ServiceHash) -> Result<(u64, &[u8]), FetchError> {
        let row = self.rows.get(hash).ok_or(FetchError::DoesNotExist)?;
        let form = row.form.as_deref().ok_or(FetchError::NotFinalized)?;
        Ok((row.number, form))
    }

    /// The participant has read what is published under the number.
    fn mark_read(
        &mut self,
        participant: Participant,
        hash: &ServiceHash,
        number: u64,
    ) -> Result<(), TryReserveError> {
        match self.phases.entry((participant, *hash)) {
            Found::Occupied(mut phase) => {
                if let Phase::Read(read) = phase.get_mut() {
                    *read = number;
                }
            }
            Found::Vacant(mut phase) => {
                phase.reserve()?;
                phase.insert(Phase::Read(number));
            }
        }
        Ok(())
    }

    /// Registers the participant in the segment of this number. For a node there is room for a ticket then.
    fn register(
        &mut self,
        participant: Participant,
        hash: &ServiceHash,
        number: u64,
    ) -> Result<(), OpenSegmentError> {
        let segment = self.segments.get_mut(hash);
        let segment = segment.ok_or(OpenSegmentError::DoesNotExist)?;
        let phase = self.phases.get_mut(&(participant, *hash));
        let count = segment.listed().join_count(number, phase.as_deref())?;
        let phase = phase.ok_or(OpenSegmentError::Failed)?;
        if let Participant::Node(_) = participant {
            if self.counter == u64::MAX {
                return Err(OpenSegmentError::OutOfNumbers);
            }
            let reserved = self.tickets.reserve();
            reserved.map_err(|_| OpenSegmentError::OutOfMemory)?;
        }
        if count == 0 {
            let joined = segment.participants.insert(participant, ());
            joined.map_err(|_| OpenSegmentError::OutOfMemory)?;
        }
        *phase = Phase::Joined(number, count + 1);
        Ok(())
    }

    fn keep_ticket(
        &mut self,
        ticket: u64,
        node: u64,
        hash: &ServiceHash,
        number: u64,
    ) -> Result<(), TryReserveError> {
        let hash = *hash;
        self.tickets.insert(ticket, Ticket { node, hash, number })
    }
}

impl<M: Maps> Services for FiveMaps<M> {
    type Form<'a>
        = Vec<u8>
    where
        M: 'a;

    fn list(&self) -> Result<Vec<Entry>, TryReserveError> {
        let mut entries = Vec::new();
        let mut rows = self.rows.iter().peekable();
        let mut segments = self.segments.iter().peekable();
        while let Some(hash) = match (rows.peek(), segments.peek()) {
            (Some((row, _)), Some((segment, _))) => Some(**row.min(segment)),
            (Some((hash, _)), None) | (None, Some((hash, _))) => Some(**hash),
            (None, None) => None,
        } {
            let row = match rows.next_if(|(key, _)| **key == hash) {
                Some((_, row)) => row.listed()?,
                None => ListedRow::Absent,
            };
            let segment = segments.next_if(|(key, _)| **key == hash);
            let segment = segment.map(|(_, segment)| segment.listed());
            entries.try_reserve(1)?;
            entries.push(Entry { hash, row, segment });
        }
        Ok(entries)
    }

    fn phase(&self, participant: Participant, hash: &ServiceHash) -> Option<Phase> {
        self.phases.get(&(participant, *hash)).copied()
    }

    fn exists(&self, hash: &ServiceHash) -> Existence {
        match self.rows.get(hash) {
            None => Existence::No,
            Some(Row { form: None, .. }) => Existence::BeingSetUp,
            Some(Row { form: Some(_), .. }) => Existence::Yes,
        }
    }

    fn read(&mut self, participant: Participant, hash: &ServiceHash) -> Result<u64, FetchError> {
        let (number, _) = self.published(hash)?;
        let read = self.mark_read(participant, hash, number);
        read.map_err(|_| FetchError::OutOfMemory)?;
        Ok(number)
    }

    /// The bytes are a copy.
    fn fetch(
        &mut self,
        participant: Participant,
        hash: &ServiceHash,
    ) -> Result<(u64, Vec<u8>), FetchError> {
        let (number, bytes) = self.published(hash)?;
        let copy = copy_bytes(bytes).map_err(|_| FetchError::OutOfMemory)?;
        let read = self.mark_read(participant, hash, number);
        read.map_err(|_| FetchError::OutOfMemory)?;
        Ok((number, copy))
    }

    fn make_tag(&mut self, node: u64, hash: &ServiceHash) -> Result<Tag, TryReserveError> {
        match self.tags.entry((node, *hash)) {
            Found::Occupied(_) => Ok(Tag::Found),
            Found::Vacant(mut tag) => {
                tag.reserve()?;
                tag.insert(());
                Ok(Tag::Made)
            }
        }
    }

    fn remove_tag(&mut self, node: u64, hash: &ServiceHash) {
        self.tags.remove(&(node, *hash));
    }

    fn lock(&mut self, participant: Participant, hash: &ServiceHash) -> Result<u64, LockError> {
        let mut row = match self.rows.entry(*hash) {
            Found::Occupied(row) => {
                return Err(match row.get().form {
                    None => LockError::Creation,
                    Some(_) => LockError::AlreadyExists,
                });
            }
            Found::Vacant(row) => row,
        };
        let number = self.counter;
        let next = number.checked_add(1).ok_or(LockError::Other)?;
        row.reserve().map_err(|_| LockError::OutOfMemory)?;
        match self.phases.entry((participant, *hash)) {
            Found::Occupied(mut phase) => match phase.get() {
                Phase::Read(_) => phase.set(Phase::Locked(number)),
                _ => return Err(LockError::Other),
            },
            Found::Vacant(mut phase) => {
                phase.reserve().map_err(|_| LockError::OutOfMemory)?;
                phase.insert(Phase::Locked(number));
            }
        }
        row.insert(Row { number, form: None });
        self.counter = next;
        Ok(number)
    }

    fn make_segment(
        &mut self,
        participant: Participant,
        hash: &ServiceHash,
        number: u64,
        capacity: u64,
    ) -> Result<(), MakeSegmentError> {
        let phase = self.phases.get_mut(&(participant, *hash));
        let Some(phase) = phase.filter(|phase| **phase == Phase::Locked(number)) else {
            return Err(MakeSegmentError::Other);
        };
        if capacity == 0 {
            return Err(MakeSegmentError::Other);
        }
        let Found::Vacant(mut place) = self.segments.entry(*hash) else {
            return Err(MakeSegmentError::AlreadyExists);
        };
        let mut participants = M::Map::default();
        let joined = participants.insert(participant, ());
        joined.map_err(|_| MakeSegmentError::OutOfMemory)?;
        place.reserve().map_err(|_| MakeSegmentError::OutOfMemory)?;
        place.insert(Segment {
            number,
            capacity,
            participants,
            marked: false,
        });
        *phase = Phase::Made(number);
        Ok(())
    }

    fn remove_segment(
        &mut self,
        participant: Participant,
        hash: &ServiceHash,
    ) -> Result<(), NotAllowed> {
        let phase = self.phases.get_mut(&(participant, *hash));
        let phase = phase.ok_or(NotAllowed)?;
        *phase = match *phase {
            Phase::Locked(number) | Phase::Made(number) => Phase::Locked(number),
            Phase::Leaving(number) => Phase::Cleared(number),
            _ => return Err(NotAllowed),
        };
        self.segments.remove(hash);
        Ok(())
    }

    fn remove_description(
        &mut self,
        participant: Participant,
        hash: &ServiceHash,
    ) -> Result<(), NotAllowed> {
        let phase = self.phases.entry((participant, *hash));
        let phase = phase.occupied().ok_or(NotAllowed)?;
        if let Phase::Read(_) | Phase::Joined(_, _) = phase.get() {
            return Err(NotAllowed);
        }
        phase.remove();
        self.rows.remove(hash);
        Ok(())
    }

    fn publish(
        &mut self,
        participant: Participant,
        hash: &ServiceHash,
        number: u64,
        description: &StaticConfig,
    ) -> Result<(), PublishError> {
        let phase = self.phases.get_mut(&(participant, *hash));
        let Some(phase) = phase.filter(|phase| **phase == Phase::Made(number)) else {
            return Err(PublishError::Other);
        };
        let segment = self.segments.get(hash).ok_or(PublishError::Other)?;
        if description.hash != *hash || description.max_nodes() != segment.capacity {
            return Err(PublishError::Other);
        }
        if let Participant::Node(_) = participant {
            let reserved = self.tickets.reserve();
            reserved.map_err(|_| PublishError::OutOfMemory)?;
        }
        let form = encode(description).map_err(|_| PublishError::OutOfMemory)?;
        let form = Some(form.into_boxed_slice());
        let written = self.rows.insert(*hash, Row { number, form });
        written.map_err(|_| PublishError::OutOfMemory)?;
        *phase = Phase::Joined(number, 1);
        if let Participant::Node(node) = participant {
            self.keep_ticket(number, node, hash, number)
                .map_err(|_| PublishError::OutOfMemory)?;
        }
        Ok(())
    }

    fn open(
        &mut self,
        node: u64,
        hash: &ServiceHash,
        number: u64,
    ) -> Result<u64, OpenSegmentError> {
        self.register(Participant::Node(node), hash, number)?;
        let ticket = self.counter;
        self.counter += 1;
        self.keep_ticket(ticket, node, hash, number)
            .map_err(|_| OpenSegmentError::OutOfMemory)?;
        Ok(ticket)
    }

    fn join(&mut self, peer: u64, hash: &ServiceHash, number: u64) -> Result<(), OpenSegmentError> {
        self.register(Participant::Peer(peer), hash, number)
    }

    fn release(
        &mut self,
        ticket: u64,
        node: u64,
        hash: &ServiceHash,
        number: u64,
    ) -> Result<Release, NoSuchTicket> {
        let wanted = Ticket {
            node,
            hash: *hash,
            number,
        };
        let ticket = self.tickets.entry(ticket).occupied().ok_or(NoSuchTicket)?;
        if *ticket.get() != wanted {
            return Err(NoSuchTicket);
        }
        let (segments, phases) = (&mut self.segments, &mut self.phases);
        let left = unregister::<M>(segments, phases, Participant::Node(node), hash);
        let left = left.map_err(|NotAllowed| NoSuchTicket)?;
        ticket.remove();
        Ok(left)
    }

    fn leave(&mut self, peer: u64, hash: &ServiceHash) -> Result<Release, NotAllowed> {
        let (segments, phases) = (&mut self.segments, &mut self.phases);
        unregister::<M>(segments, phases, Participant::Peer(peer), hash)
    }
}

/// The participant leaves once, and is told what is left.
fn unregister<M: Maps>(
    segments: &mut M::Map<ServiceHash, Segment<M>>,
    phases: &mut M::Map<(Participant, ServiceHash), Phase>,
    participant: Participant,
    hash: &ServiceHash,
) -> Result<Release, NotAllowed> {
    let phase = phases.entry((participant, *hash));
    let mut phase = phase.occupied().ok_or(NotAllowed)?;
    let Phase::Joined(number, count) = phase.get_mut() else {
        return Err(NotAllowed);
    };
    if *count > 1 {
        *count -= 1;
        return Ok(Release::StillCounted);
    }
    let number = *number;
    let segment = segments.get_mut(hash).ok_or(NotAllowed)?;
    if segment.participants.len() > 1 {
        segment.participants.remove(&participant);
        phase.remove();
        return Ok(Release::Left);
    }
    segment.participants.clear();
    segment.marked = true;
    phase.set(Phase::Leaving(number));
    Ok(Release::Last)
}
