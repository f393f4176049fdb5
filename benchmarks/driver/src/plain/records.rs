//! The services as one hash map: a record for each, with all that there is of it.

use super::byte_form::encode;
use super::copy_bytes;
use super::description::{ServiceHash, StaticConfig};
use super::services::{
    Entry, Existence, FetchError, ListedRow, ListedSegment, LockError, MakeSegmentError,
    NoSuchTicket, NotAllowed, OpenSegmentError, Participant, Phase, PublishError, Release,
    Services, Tag,
};
use std::collections::{HashMap, TryReserveError, hash_map};
use std::hash::{BuildHasherDefault, Hash, Hasher};

impl Hash for ServiceHash {
    /// Its bytes are spread evenly already, so eight of them do.
    fn hash<H: Hasher>(&self, hasher: &mut H) {
        let [a, b, c, d, e, f, g, h, ..] = self.0;
        hasher.write_u64(u64::from_ne_bytes([a, b, c, d, e, f, g, h]));
    }
}

/// Takes a hash as it is.
#[derive(Default)]
pub struct AsItIs {
    hash: u64,
}

impl Hasher for AsItIs {
    fn write(&mut self, bytes: &[u8]) {
        for byte in bytes {
            self.hash = self.hash << 8 | u64::from(*byte);
        }
    }

    fn write_u64(&mut self, hash: u64) {
        self.hash = hash;
    }

    fn finish(&self) -> u64 {
        self.hash
    }
}

type ByHash<V> = HashMap<ServiceHash, V, BuildHasherDefault<AsItIs>>;

/// What is written under a hash. It is locked until a form is published.
struct Row {
    number: u64,
    form: Option<Box<[u8]>>,
}

/// The tickets that a node has at a service, of which there is mostly one.
#[derive(Default)]
struct Tickets {
    first: Option<u64>,
    others: Vec<u64>,
}

impl Tickets {
    fn reserve(&mut self) -> Result<(), TryReserveError> {
        match self.first {
            None => Ok(()),
            Some(_) => self.others.try_reserve(1),
        }
    }

    fn add(&mut self, ticket: u64) {
        match self.first {
            None => self.first = Some(ticket),
            Some(_) => self.others.push(ticket),
        }
    }

    fn has(&self, ticket: u64) -> bool {
        self.first == Some(ticket) || self.others.contains(&ticket)
    }

    fn remove(&mut self, ticket: u64) {
        if self.first == Some(ticket) {
            self.first = self.others.pop();
        } else {
            self.others.retain(|other| *other != ticket);
        }
    }
}

/// A participant that isn't idle at a service, or has a tag there.
struct Visitor {
    participant: Participant,
    phase: Option<Phase>,
    is_tagged: bool,
    tickets: Tickets,
}

impl Visitor {
    fn new(participant: Participant) -> Visitor {
        Visitor {
            participant,
            phase: None,
            is_tagged: false,
            tickets: Tickets::default(),
        }
    }
}

/// A service: what is written of it, its segment, and who is there.
#[derive(Default)]
struct Record {
    row: Option<Row>,
    segment: Option<ListedSegment>,
    visitors: Vec<Visitor>,
}

impl Record {
    fn place(&self, participant: Participant) -> Option<usize> {
        let mut visitors = self.visitors.iter();
        visitors.position(|visitor| visitor.participant == participant)
    }

    fn visitor(&self, participant: Participant) -> Option<&Visitor> {
        self.place(participant).map(|at| &self.visitors[at])
    }

    fn visitor_mut(&mut self, participant: Participant) -> Option<&mut Visitor> {
        let mut visitors = self.visitors.iter_mut();
        visitors.find(|visitor| visitor.participant == participant)
    }

    fn phase(&self, participant: Participant) -> Option<Phase> {
        self.visitor(participant).and_then(|visitor| visitor.phase)
    }

    /// Where the visitor is, who comes if he isn't there.
    fn arrive(&mut self, participant: Participant) -> Result<usize, TryReserveError> {
        if let Some(at) = self.place(participant) {
            return Ok(at);
        }
        match self.visitors.len() {
            0 => self.visitors.try_reserve_exact(1)?,
            _ => self.visitors.try_reserve(1)?,
        }
        self.visitors.push(Visitor::new(participant));
        Ok(self.visitors.len() - 1)
    }

    /// Lets the visitor go, where he is idle and has no tag.
    fn part(&mut self, at: usize) {
        let visitor = &self.visitors[at];
        if visitor.phase.is_none() && !visitor.is_tagged {
            self.visitors.swap_remove(at);
        }
    }

    fn is_empty(&self) -> bool {
        self.row.is_none() && self.segment.is_none() && self.visitors.is_empty()
    }

    fn published(&self) -> Result<(u64, &[u8]), FetchError> {
        let row = self.row.as_ref().ok_or(FetchError::DoesNotExist)?;
        let form = row.form.as_deref().ok_or(FetchError::NotFinalized)?;
        Ok((row.number, form))
    }

    /// The participant has read what is published under the number.
    fn mark_read(&mut self, participant: Participant, number: u64) -> Result<(), TryReserveError> {
        let at = self.arrive(participant)?;
        let phase = &mut self.visitors[at].phase;
        if let None | Some(Phase::Read(_)) = phase {
            *phase = Some(Phase::Read(number));
        }
        Ok(())
    }

    /// Locks the service for this participant, as the one of the number.
    fn lock(&mut self, participant: Participant, number: u64) -> Result<(), LockError> {
        if let Some(row) = &self.row {
            return Err(match row.form {
                None => LockError::Creation,
                Some(_) => LockError::AlreadyExists,
            });
        }
        number.checked_add(1).ok_or(LockError::Other)?;
        let at = self.arrive(participant);
        let at = at.map_err(|_| LockError::OutOfMemory)?;
        let phase = &mut self.visitors[at].phase;
        let (None | Some(Phase::Read(_))) = phase else {
            return Err(LockError::Other);
        };
        *phase = Some(Phase::Locked(number));
        self.row = Some(Row { number, form: None });
        Ok(())
    }

    /// Registers the participant in the segment of this number. A node gets this ticket.
    fn register(
        &mut self,
        participant: Participant,
        number: u64,
        ticket: u64,
    ) -> Result<(), OpenSegmentError> {
        let at = self.place(participant);
        let segment = self.segment.as_mut();
        let segment = segment.ok_or(OpenSegmentError::DoesNotExist)?;
        let mut visitor = at.map(|at| &mut self.visitors[at]);
        let phase = visitor.as_ref().and_then(|visitor| visitor.phase);
        let count = segment.join_count(number, phase.as_ref())?;
        let visitor = visitor.as_mut().ok_or(OpenSegmentError::Failed)?;
        if let Participant::Node(_) = participant {
            if ticket == u64::MAX {
                return Err(OpenSegmentError::OutOfNumbers);
            }
            let reserved = visitor.tickets.reserve();
            reserved.map_err(|_| OpenSegmentError::OutOfMemory)?;
            visitor.tickets.add(ticket);
        }
        segment.participants += u64::from(count == 0);
        visitor.phase = Some(Phase::Joined(number, count + 1));
        Ok(())
    }

    /// The participant leaves once, and is told what is left.
    fn unregister(&mut self, at: usize) -> Result<Release, NotAllowed> {
        let visitor = &mut self.visitors[at];
        let Some(Phase::Joined(number, count)) = visitor.phase else {
            return Err(NotAllowed);
        };
        if count > 1 {
            visitor.phase = Some(Phase::Joined(number, count - 1));
            return Ok(Release::StillCounted);
        }
        let segment = self.segment.as_mut().ok_or(NotAllowed)?;
        if segment.participants > 1 {
            segment.participants -= 1;
            visitor.phase = None;
            self.part(at);
            return Ok(Release::Left);
        }
        segment.participants = 0;
        segment.marked = true;
        visitor.phase = Some(Phase::Leaving(number));
        Ok(Release::Last)
    }

    fn listed(&self, hash: ServiceHash) -> Result<Entry, TryReserveError> {
        let row = match &self.row {
            None => ListedRow::Absent,
            Some(Row { number, form: None }) => ListedRow::Locked(*number),
            Some(Row {
                number,
                form: Some(form),
            }) => ListedRow::Published(*number, copy_bytes(form)?.into_boxed_slice()),
        };
        let segment = self.segment;
        Ok(Entry { hash, row, segment })
    }
}

/// A record for each service, and a counter for numbers.
#[derive(Default)]
pub struct Records {
    records: ByHash<Record>,
    counter: u64,
}

impl Records {
    /// The record of this hash, which is made where there is none.
    fn record(&mut self, hash: &ServiceHash) -> Result<&mut Record, TryReserveError> {
        self.records.try_reserve(1)?;
        Ok(self.records.entry(*hash).or_default())
    }

    fn occupied(
        &mut self,
        hash: &ServiceHash,
    ) -> Option<hash_map::OccupiedEntry<'_, ServiceHash, Record>> {
        match self.records.entry(*hash) {
            hash_map::Entry::Occupied(record) => Some(record),
            hash_map::Entry::Vacant(_) => None,
        }
    }
}

impl Services for Records {
    type Form<'a> = &'a [u8];

    fn list(&self) -> Result<Vec<Entry>, TryReserveError> {
        let mut entries = Vec::new();
        for (hash, record) in &self.records {
            if record.row.is_some() || record.segment.is_some() {
                entries.try_reserve(1)?;
                entries.push(record.listed(*hash)?);
            }
        }
        entries.sort_unstable_by_key(|entry| entry.hash);
        Ok(entries)
    }

    fn phase(&self, participant: Participant, hash: &ServiceHash) -> Option<Phase> {
        self.records.get(hash)?.phase(participant)
    }

    fn exists(&self, hash: &ServiceHash) -> Existence {
        match self
            .records
            .get(hash)
            .and_then(|record| record.row.as_ref())
        {
            None => Existence::No,
            Some(Row { form: None, .. }) => Existence::BeingSetUp,
            Some(Row { form: Some(_), .. }) => Existence::Yes,
        }
    }

    fn read(&mut self, participant: Participant, hash: &ServiceHash) -> Result<u64, FetchError> {
        let (number, _) = self.fetch(participant, hash)?;
        Ok(number)
    }

    /// The bytes are lent.
    fn fetch(
        &mut self,
        participant: Participant,
        hash: &ServiceHash,
    ) -> Result<(u64, &[u8]), FetchError> {
        let record = self.records.get_mut(hash);
        let record = record.ok_or(FetchError::DoesNotExist)?;
        let (number, _) = record.published()?;
        let read = record.mark_read(participant, number);
        read.map_err(|_| FetchError::OutOfMemory)?;
        record.published()
    }

    fn make_tag(&mut self, node: u64, hash: &ServiceHash) -> Result<Tag, TryReserveError> {
        let record = self.record(hash)?;
        let at = record.arrive(Participant::Node(node))?;
        let is_tagged = &mut record.visitors[at].is_tagged;
        match std::mem::replace(is_tagged, true) {
            true => Ok(Tag::Found),
            false => Ok(Tag::Made),
        }
    }

    fn remove_tag(&mut self, node: u64, hash: &ServiceHash) {
        let Some(mut entry) = self.occupied(hash) else {
            return;
        };
        let record = entry.get_mut();
        if let Some(at) = record.place(Participant::Node(node)) {
            record.visitors[at].is_tagged = false;
            record.part(at);
            if record.is_empty() {
                entry.remove();
            }
        }
    }

    fn lock(&mut self, participant: Participant, hash: &ServiceHash) -> Result<u64, LockError> {
        let number = self.counter;
        let record = self.record(hash);
        let record = record.map_err(|_| LockError::OutOfMemory)?;
        record.lock(participant, number)?;
        self.counter = number + 1;
        Ok(number)
    }

    fn make_segment(
        &mut self,
        participant: Participant,
        hash: &ServiceHash,
        number: u64,
        capacity: u64,
    ) -> Result<(), MakeSegmentError> {
        let record = self.records.get_mut(hash);
        let record = record.ok_or(MakeSegmentError::Other)?;
        let has_segment = record.segment.is_some();
        let visitor = record.visitor_mut(participant);
        let visitor = visitor.filter(|visitor| visitor.phase == Some(Phase::Locked(number)));
        let visitor = visitor.ok_or(MakeSegmentError::Other)?;
        if capacity == 0 {
            return Err(MakeSegmentError::Other);
        }
        if has_segment {
            return Err(MakeSegmentError::AlreadyExists);
        }
        visitor.phase = Some(Phase::Made(number));
        record.segment = Some(ListedSegment {
            number,
            max_nodes: capacity,
            participants: 1,
            marked: false,
        });
        Ok(())
    }

    fn remove_segment(
        &mut self,
        participant: Participant,
        hash: &ServiceHash,
    ) -> Result<(), NotAllowed> {
        let record = self.records.get_mut(hash).ok_or(NotAllowed)?;
        let visitor = record.visitor_mut(participant).ok_or(NotAllowed)?;
        visitor.phase = Some(match visitor.phase {
            Some(Phase::Locked(number) | Phase::Made(number)) => Phase::Locked(number),
            Some(Phase::Leaving(number)) => Phase::Cleared(number),
            _ => return Err(NotAllowed),
        });
        record.segment = None;
        Ok(())
    }

    fn remove_description(
        &mut self,
        participant: Participant,
        hash: &ServiceHash,
    ) -> Result<(), NotAllowed> {
        let mut entry = self.occupied(hash).ok_or(NotAllowed)?;
        let record = entry.get_mut();
        let at = record.place(participant).ok_or(NotAllowed)?;
        let phase = &mut record.visitors[at].phase;
        if let None | Some(Phase::Read(_) | Phase::Joined(_, _)) = phase {
            return Err(NotAllowed);
        }
        *phase = None;
        record.row = None;
        record.part(at);
        if record.is_empty() {
            entry.remove();
        }
        Ok(())
    }

    fn publish(
        &mut self,
        participant: Participant,
        hash: &ServiceHash,
        number: u64,
        description: &StaticConfig,
    ) -> Result<(), PublishError> {
        let record = self.records.get_mut(hash).ok_or(PublishError::Other)?;
        let segment = record.segment;
        let visitor = record.visitor_mut(participant);
        let visitor = visitor.filter(|visitor| visitor.phase == Some(Phase::Made(number)));
        let visitor = visitor.ok_or(PublishError::Other)?;
        let segment = segment.ok_or(PublishError::Other)?;
        if description.hash != *hash || description.max_nodes() != segment.max_nodes {
            return Err(PublishError::Other);
        }
        let form = encode(description).map_err(|_| PublishError::OutOfMemory)?;
        let form = Some(form.into_boxed_slice());
        visitor.phase = Some(Phase::Joined(number, 1));
        if let Participant::Node(_) = participant {
            visitor.tickets.add(number);
        }
        record.row = Some(Row { number, form });
        Ok(())
    }

    fn open(
        &mut self,
        node: u64,
        hash: &ServiceHash,
        number: u64,
    ) -> Result<u64, OpenSegmentError> {
        let ticket = self.counter;
        let record = self.records.get_mut(hash);
        let record = record.ok_or(OpenSegmentError::DoesNotExist)?;
        record.register(Participant::Node(node), number, ticket)?;
        self.counter = ticket + 1;
        Ok(ticket)
    }

    fn join(&mut self, peer: u64, hash: &ServiceHash, number: u64) -> Result<(), OpenSegmentError> {
        let record = self.records.get_mut(hash);
        let record = record.ok_or(OpenSegmentError::DoesNotExist)?;
        record.register(Participant::Peer(peer), number, 0)
    }

    fn release(
        &mut self,
        ticket: u64,
        node: u64,
        hash: &ServiceHash,
        number: u64,
    ) -> Result<Release, NoSuchTicket> {
        let record = self.records.get_mut(hash).ok_or(NoSuchTicket)?;
        let at = record.place(Participant::Node(node)).ok_or(NoSuchTicket)?;
        let visitor = &mut record.visitors[at];
        match visitor.phase {
            Some(Phase::Joined(joined, _)) if joined == number && visitor.tickets.has(ticket) => {}
            _ => return Err(NoSuchTicket),
        }
        visitor.tickets.remove(ticket);
        // Who is registered at a number finds its segment.
        record.unregister(at).map_err(|NotAllowed| NoSuchTicket)
    }

    fn leave(&mut self, peer: u64, hash: &ServiceHash) -> Result<Release, NotAllowed> {
        let mut entry = self.occupied(hash).ok_or(NotAllowed)?;
        let record = entry.get_mut();
        let at = record.place(Participant::Peer(peer)).ok_or(NotAllowed)?;
        let left = record.unregister(at)?;
        if record.is_empty() {
            entry.remove();
        }
        Ok(left)
    }
}
