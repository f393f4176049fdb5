//! A storage that processes share as files alone: a description, a lock, a segment of shared memory and a tag are a
//! file each. What is measured is the system's part of a call; nothing is in order but what the file system orders.

use super::byte_form::encode;
use super::description::{ServiceHash, StaticConfig};
use super::services::{
    Entry, Existence, FetchError, LockError, MakeSegmentError, NoSuchTicket, NotAllowed,
    OpenSegmentError, PublishError, Release, Tag,
};
use super::storage::Storage;
use std::collections::{HashMap, TryReserveError};
use std::fs::{self, File, OpenOptions};
use std::io::{self, ErrorKind, Write};
use std::os::fd::AsRawFd;
use std::path::PathBuf;
use std::ptr::{NonNull, null_mut};
use std::sync::atomic::{AtomicU64, Ordering};

/// How many bytes a segment has, of which the first 16 are used.
const SEGMENT_LENGTH: usize = 4096;

/// Stands among the participants of a segment that its last node left.
const MARK: u64 = 1 << 63;

const READ_AND_WRITE: i32 = 3;
const SHARED: i32 = 1;

unsafe extern "C" {
    fn mmap(start: *mut u8, length: usize, use_for: i32, kind: i32, file: i32, at: i64) -> *mut u8;
    fn munmap(start: *mut u8, length: usize) -> i32;
}

/// What stands in a segment.
#[repr(C)]
struct Counts {
    participants: AtomicU64,
    max_nodes: AtomicU64,
}

/// A segment that is mapped into this process.
struct Segment {
    start: NonNull<u8>,
}

impl Segment {
    fn map(file: &File) -> io::Result<Segment> {
        let descriptor = file.as_raw_fd();
        // SAFETY: the system picks the place, and the file is as long as the segment.
        let start = unsafe {
            mmap(
                null_mut(),
                SEGMENT_LENGTH,
                READ_AND_WRITE,
                SHARED,
                descriptor,
                0,
            )
        };
        match NonNull::new(start) {
            Some(start) if start.as_ptr().addr() != usize::MAX => Ok(Segment { start }),
            _ => Err(io::Error::last_os_error()),
        }
    }

    fn counts(&self) -> &Counts {
        // SAFETY: the memory is mapped as long as the segment lives, a page begins there, and any bytes are counts.
        unsafe { self.start.cast().as_ref() }
    }

    /// One more, where there is room and no mark.
    fn join(&self) -> Result<(), OpenSegmentError> {
        let Counts {
            participants,
            max_nodes,
        } = self.counts();
        let max_nodes = max_nodes.load(Ordering::Acquire);
        let more = |count| (count < max_nodes).then_some(count + 1);
        match participants.fetch_update(Ordering::AcqRel, Ordering::Acquire, more) {
            Ok(_) => Ok(()),
            Err(count) if count >= MARK => Err(OpenSegmentError::Marked),
            Err(_) => Err(OpenSegmentError::Full),
        }
    }

    /// One less. Who leaves last sets the mark.
    fn leave(&self) -> Release {
        let participants = &self.counts().participants;
        let less = |count| Some(if count == 1 { MARK } else { count - 1 });
        match participants.fetch_update(Ordering::AcqRel, Ordering::Acquire, less) {
            Ok(1) => Release::Last,
            _ => Release::Left,
        }
    }
}

impl Drop for Segment {
    fn drop(&mut self) {
        // SAFETY: it was mapped with this length, and nobody has its counts any more.
        unsafe { munmap(self.start.as_ptr(), SEGMENT_LENGTH) };
    }
}

/// A folder of files, and the segments of what this process has open, by its tickets.
pub struct Files {
    folder: PathBuf,
    segments: HashMap<u64, (u64, ServiceHash, Segment)>,
    /// The segment that a create has made, until its description is published.
    made: Option<Segment>,
    tickets: u64,
}

fn create_new(path: PathBuf) -> io::Result<File> {
    let mut options = OpenOptions::new();
    options.read(true).write(true).create_new(true).open(path)
}

impl Files {
    pub fn new(folder: &str) -> Files {
        Files {
            folder: PathBuf::from(folder),
            segments: HashMap::new(),
            made: None,
            tickets: 0,
        }
    }

    fn path(&self, hash: &ServiceHash, kind: &str) -> PathBuf {
        let mut name = String::with_capacity(2 * hash.0.len() + kind.len() + 1);
        for byte in hash.0 {
            for digit in [byte >> 4, byte & 15] {
                name.push(char::from(b"0123456789abcdef"[usize::from(digit)]));
            }
        }
        name.push('.');
        name.push_str(kind);
        self.folder.join(name)
    }

    fn tag(&self, node: u64, hash: &ServiceHash) -> PathBuf {
        self.path(hash, &format!("node-{node}"))
    }

    fn keep(&mut self, node: u64, hash: &ServiceHash, segment: Segment) -> u64 {
        let ticket = self.tickets;
        self.tickets += 1;
        self.segments.insert(ticket, (node, *hash, segment));
        ticket
    }
}

impl Storage for Files {
    type Form<'a> = Vec<u8>;

    /// Lists nothing.
    fn list(&mut self) -> Result<Vec<Entry>, TryReserveError> {
        Ok(Vec::new())
    }

    fn exists(&mut self, hash: &ServiceHash) -> Existence {
        if self.path(hash, "service").exists() {
            return Existence::Yes;
        }
        match self.path(hash, "creating").exists() {
            true => Existence::BeingSetUp,
            false => Existence::No,
        }
    }

    /// Services have no numbers here.
    fn fetch(&mut self, _node: u64, hash: &ServiceHash) -> Result<(u64, Vec<u8>), FetchError> {
        match fs::read(self.path(hash, "service")) {
            Ok(bytes) => Ok((0, bytes)),
            Err(error) if error.kind() == ErrorKind::NotFound => Err(FetchError::DoesNotExist),
            Err(_) => Err(FetchError::OutOfMemory),
        }
    }

    fn counts(&mut self, node: u64, hash: &ServiceHash) -> bool {
        let mut mapped = self.segments.values();
        mapped.any(|(holder, of, _)| (holder, of) == (&node, hash))
    }

    fn make_tag(&mut self, node: u64, hash: &ServiceHash) -> Result<Tag, TryReserveError> {
        match create_new(self.tag(node, hash)) {
            Ok(_) => Ok(Tag::Made),
            Err(_) => Ok(Tag::Found),
        }
    }

    fn remove_tag(&mut self, node: u64, hash: &ServiceHash) {
        let _ = fs::remove_file(self.tag(node, hash));
    }

    fn lock(&mut self, _node: u64, hash: &ServiceHash) -> Result<u64, LockError> {
        match create_new(self.path(hash, "creating")) {
            Ok(_) => Ok(0),
            Err(error) if error.kind() == ErrorKind::AlreadyExists => Err(LockError::Creation),
            Err(_) => Err(LockError::Other),
        }
    }

    fn make_segment(
        &mut self,
        _node: u64,
        hash: &ServiceHash,
        _number: u64,
        max_nodes: u64,
    ) -> Result<(), MakeSegmentError> {
        let file = create_new(self.path(hash, "segment")).map_err(|error| match error.kind() {
            ErrorKind::AlreadyExists => MakeSegmentError::AlreadyExists,
            _ => MakeSegmentError::Other,
        })?;
        let mapped = file
            .set_len(SEGMENT_LENGTH as u64)
            .and_then(|()| Segment::map(&file));
        let segment = mapped.map_err(|_| MakeSegmentError::Other)?;
        let counts = segment.counts();
        counts.max_nodes.store(max_nodes, Ordering::Release);
        counts.participants.store(1, Ordering::Release);
        self.made = Some(segment);
        Ok(())
    }

    fn remove_segment(&mut self, _node: u64, hash: &ServiceHash) -> Result<(), NotAllowed> {
        fs::remove_file(self.path(hash, "segment")).map_err(|_| NotAllowed)
    }

    fn remove_description(&mut self, _node: u64, hash: &ServiceHash) -> Result<(), NotAllowed> {
        let removed = fs::remove_file(self.path(hash, "service"));
        let removed = removed.or_else(|_| fs::remove_file(self.path(hash, "creating")));
        removed.map_err(|_| NotAllowed)
    }

    /// The description is written where the lock is, which then gets the service's path.
    fn publish(
        &mut self,
        node: u64,
        hash: &ServiceHash,
        _number: u64,
        description: &StaticConfig,
    ) -> Result<u64, PublishError> {
        let form = encode(description).map_err(|_| PublishError::OutOfMemory)?;
        let creating = self.path(hash, "creating");
        let written = OpenOptions::new().write(true).open(&creating);
        written
            .and_then(|mut file| file.write_all(&form))
            .and_then(|()| fs::rename(&creating, self.path(hash, "service")))
            .map_err(|_| PublishError::Other)?;
        let segment = self.made.take().ok_or(PublishError::Other)?;
        Ok(self.keep(node, hash, segment))
    }

    fn open_segment(
        &mut self,
        node: u64,
        hash: &ServiceHash,
        _number: u64,
    ) -> Result<u64, OpenSegmentError> {
        let mut options = OpenOptions::new();
        let file = options
            .read(true)
            .write(true)
            .open(self.path(hash, "segment"));
        let file = file.map_err(|_| OpenSegmentError::DoesNotExist)?;
        let segment = Segment::map(&file).map_err(|_| OpenSegmentError::OutOfMemory)?;
        segment.join()?;
        Ok(self.keep(node, hash, segment))
    }

    fn release(
        &mut self,
        ticket: u64,
        _node: u64,
        _hash: &ServiceHash,
        _number: u64,
    ) -> Result<Release, NoSuchTicket> {
        let (_, _, segment) = self.segments.remove(&ticket).ok_or(NoSuchTicket)?;
        Ok(segment.leave())
    }
}
