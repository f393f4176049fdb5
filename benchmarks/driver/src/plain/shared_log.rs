//! A storage that processes share: a log of accesses in a file, in the form of docs/LOG_FORM.md. A log that was
//! compacted is refused, and where the file refuses, the process ends.

use super::byte_form::{decode, encode};
use super::description::{ServiceHash, StaticConfig};
use super::services::{
    Entry, Existence, FetchError, LockError, MakeSegmentError, NoSuchTicket, NotAllowed,
    OpenSegmentError, Participant, Phase, PublishError, Release, Services, Tag,
};
use super::storage::Storage;
use sha1::{Digest, Sha1};
use std::collections::TryReserveError;
use std::fs::{File, OpenOptions};
use std::io::{self, ErrorKind, Read};
use std::os::unix::fs::FileExt;

const MAGIC: &[u8; 8] = b"IOX2LOG\x02";
const HEADER_LENGTH: usize = 48;

/// How many bytes stand before an entry's body, and how many the body has before its details.
const FRONT_LENGTH: usize = 16;
const OWNER_LENGTH: usize = 29;

const MAKE_TAG: u8 = 1;
const REMOVE_TAG: u8 = 2;
const LOCK: u8 = 3;
const MAKE_SEGMENT: u8 = 4;
const REMOVE_SEGMENT: u8 = 5;
const REMOVE_DESCRIPTION: u8 = 6;
const PUBLISH: u8 = 7;
const OPEN_SEGMENT: u8 = 8;
const RELEASE: u8 = 9;

fn damaged() -> io::Error {
    ErrorKind::InvalidData.into()
}

/// The first eight bytes of the SHA-1 of these bytes.
fn sum(parts: [&[u8]; 2]) -> [u8; 8] {
    let mut hasher = Sha1::new();
    for part in parts {
        hasher.update(part);
    }
    let [a, b, c, d, e, f, g, h, ..]: [u8; 20] = hasher.finalize().into();
    [a, b, c, d, e, f, g, h]
}

/// The header of a new log, whose name is drawn.
fn new_header() -> io::Result<Vec<u8>> {
    let mut name = [0; 16];
    File::open("/dev/urandom")?.read_exact(&mut name)?;
    let mut header = MAGIC.to_vec();
    header.extend_from_slice(&name);
    header.extend_from_slice(&[0; 16]);
    let sum = sum([&header, b""]);
    header.extend_from_slice(&sum);
    Ok(header)
}

/// An entry of this kind, before its front is known.
fn entry_of(kind: u8, node: u64, hash: &ServiceHash, numbers: &[u64], form: &[u8]) -> Vec<u8> {
    let length = OWNER_LENGTH + 8 * numbers.len() + form.len();
    let mut entry = Vec::with_capacity(FRONT_LENGTH + length);
    entry.extend_from_slice(&[0; FRONT_LENGTH]);
    entry.push(kind);
    entry.extend_from_slice(&node.to_be_bytes());
    entry.extend_from_slice(&hash.0);
    for number in numbers {
        entry.extend_from_slice(&number.to_be_bytes());
    }
    entry.extend_from_slice(form);
    let length = (length as u32).to_be_bytes();
    let complement = length.map(|byte| !byte);
    let sum = sum([&length, &entry[FRONT_LENGTH..]]);
    entry[..4].copy_from_slice(&length);
    entry[4..8].copy_from_slice(&complement);
    entry[8..16].copy_from_slice(&sum);
    entry
}

/// The body of the first entry of these bytes. `None` where they are cut short.
fn body_of(bytes: &[u8]) -> io::Result<Option<&[u8]>> {
    let Some((front, rest)) = bytes.split_first_chunk::<FRONT_LENGTH>() else {
        return Ok(None);
    };
    let [a, b, c, d, complement @ ..] = front;
    let length = [*a, *b, *c, *d];
    if complement[..4] != length.map(|byte| !byte) {
        return Err(damaged());
    }
    let Some(body) = rest.get(..u32::from_be_bytes(length) as usize) else {
        return Ok(None);
    };
    if complement[4..] != sum([&length, body]) {
        return Err(damaged());
    }
    Ok(Some(body))
}

fn number_at(details: &[u8], at: usize) -> io::Result<u64> {
    let bytes = details.get(at..).and_then(<[u8]>::first_chunk);
    bytes
        .map(|bytes| u64::from_be_bytes(*bytes))
        .ok_or_else(damaged)
}

/// Takes over what the body of an entry says.
fn follow<S: Services>(services: &mut S, body: &[u8]) -> io::Result<()> {
    let (owner, details) = body
        .split_first_chunk::<OWNER_LENGTH>()
        .ok_or_else(damaged)?;
    let [kind, owner @ ..] = owner;
    let node = number_at(owner, 0)?;
    let hash = owner[8..].try_into().map_err(|_| damaged())?;
    let (hash, participant) = (&ServiceHash(hash), Participant::Node(node));
    let number = |at| number_at(details, at);
    let is_granted = match *kind {
        MAKE_TAG => services.make_tag(node, hash).is_ok(),
        REMOVE_TAG => {
            services.remove_tag(node, hash);
            true
        }
        LOCK => services.lock(participant, hash) == Ok(number(0)?),
        MAKE_SEGMENT => {
            let made = services.make_segment(participant, hash, number(0)?, number(8)?);
            made.is_ok()
        }
        REMOVE_SEGMENT => services.remove_segment(participant, hash).is_ok(),
        REMOVE_DESCRIPTION => services.remove_description(participant, hash).is_ok(),
        PUBLISH => {
            let number = number(0)?;
            let description = decode(&details[8..]).map_err(|_| damaged())?;
            let published = services.publish(participant, hash, number, &description);
            published.is_ok()
        }
        OPEN_SEGMENT => {
            if services.phase(participant, hash).is_none() {
                services.read(participant, hash).map_err(|_| damaged())?;
            }
            services.open(node, hash, number(0)?) == Ok(number(8)?)
        }
        RELEASE => services.release(number(0)?, node, hash, number(8)?).is_ok(),
        _ => false,
    };
    is_granted.then_some(()).ok_or_else(damaged)
}

/// What the log comes to, and where this process is in it.
pub struct SharedLog<S> {
    services: S,
    file: File,
    position: u64,
    ahead: Vec<u8>,
}

impl<S: Services> SharedLog<S> {
    /// The log in the file of this path, which is made where nothing has it.
    pub fn open(path: &str) -> io::Result<SharedLog<S>> {
        let mut options = OpenOptions::new();
        options.read(true).write(true);
        let file = match options.clone().create_new(true).open(path) {
            Ok(file) => {
                file.write_all_at(&new_header()?, 0)?;
                file
            }
            Err(error) if error.kind() == ErrorKind::AlreadyExists => options.open(path)?,
            Err(error) => return Err(error),
        };
        let mut header = [0; HEADER_LENGTH];
        file.read_exact_at(&mut header, 0)?;
        if header[..8] != *MAGIC || header[24..40] != [0; 16] {
            return Err(damaged());
        }
        Ok(SharedLog {
            services: S::default(),
            file,
            position: HEADER_LENGTH as u64,
            ahead: Vec::new(),
        })
    }

    /// Locks the file, and takes over what others appended. What a writer that died has left is cut off.
    fn hold(&mut self) -> io::Result<()> {
        self.file.lock()?;
        let length = self.file.metadata()?.len();
        let left = length.checked_sub(self.position).ok_or_else(damaged)?;
        if left == 0 {
            return Ok(());
        }
        self.ahead.resize(left as usize, 0);
        self.file.read_exact_at(&mut self.ahead, self.position)?;
        let mut rest = &self.ahead[..];
        while let Some(body) = body_of(rest)? {
            follow(&mut self.services, body)?;
            let count = FRONT_LENGTH + body.len();
            self.position += count as u64;
            rest = &rest[count..];
        }
        if !rest.is_empty() {
            self.file.set_len(self.position)?;
        }
        Ok(())
    }

    fn append(&mut self, entry: &[u8]) -> io::Result<()> {
        self.file.write_all_at(entry, self.position)?;
        self.position += entry.len() as u64;
        Ok(())
    }

    /// Makes an access while the file is locked, and appends the entry that it comes to, if it comes to one.
    fn access<T>(
        &mut self,
        run: impl FnOnce(&mut S) -> T,
        entry: impl FnOnce(&T) -> Option<Vec<u8>>,
    ) -> T {
        if let Err(error) = self.hold() {
            end(&error);
        }
        let answer = run(&mut self.services);
        let appended = entry(&answer).map_or(Ok(()), |entry| self.append(&entry));
        if let Err(error) = appended.and_then(|()| self.file.unlock()) {
            end(&error);
        }
        answer
    }

    /// The same for an access that is one entry without numbers, where it is granted.
    fn granted<E>(
        &mut self,
        kind: u8,
        node: u64,
        hash: &ServiceHash,
        run: impl FnOnce(&mut S) -> Result<(), E>,
    ) -> Result<(), E> {
        self.access(run, |answer| {
            answer.is_ok().then(|| entry_of(kind, node, hash, &[], b""))
        })
    }
}

fn end(error: &io::Error) -> ! {
    eprintln!("the log: {error}");
    std::process::exit(4)
}

impl<S: Services> Storage for SharedLog<S> {
    type Form<'a>
        = S::Form<'a>
    where
        S: 'a;

    fn list(&mut self) -> Result<Vec<Entry>, TryReserveError> {
        self.access(|services| services.list(), |_| None)
    }

    fn exists(&mut self, hash: &ServiceHash) -> Existence {
        self.access(|services| services.exists(hash), |_| None)
    }

    fn fetch(
        &mut self,
        node: u64,
        hash: &ServiceHash,
    ) -> Result<(u64, Self::Form<'_>), FetchError> {
        self.access(|_| (), |()| None);
        self.services.fetch(Participant::Node(node), hash)
    }

    fn counts(&mut self, node: u64, hash: &ServiceHash) -> bool {
        let node = Participant::Node(node);
        let phase = self.access(|services| services.phase(node, hash), |_| None);
        matches!(phase, Some(Phase::Joined(_, _)))
    }

    fn make_tag(&mut self, node: u64, hash: &ServiceHash) -> Result<Tag, TryReserveError> {
        self.access(
            |services| services.make_tag(node, hash),
            |tag| match tag {
                Ok(Tag::Made) => Some(entry_of(MAKE_TAG, node, hash, &[], b"")),
                _ => None,
            },
        )
    }

    fn remove_tag(&mut self, node: u64, hash: &ServiceHash) {
        let removed = self.granted(REMOVE_TAG, node, hash, |services| {
            services.remove_tag(node, hash);
            Ok::<(), NotAllowed>(())
        });
        let _ = removed;
    }

    fn lock(&mut self, node: u64, hash: &ServiceHash) -> Result<u64, LockError> {
        self.access(
            |services| services.lock(Participant::Node(node), hash),
            |number| {
                let number = number.ok()?;
                Some(entry_of(LOCK, node, hash, &[number], b""))
            },
        )
    }

    fn make_segment(
        &mut self,
        node: u64,
        hash: &ServiceHash,
        number: u64,
        max_nodes: u64,
    ) -> Result<(), MakeSegmentError> {
        let participant = Participant::Node(node);
        self.access(
            |services| services.make_segment(participant, hash, number, max_nodes),
            |made| {
                let numbers = [number, max_nodes];
                made.ok()
                    .map(|()| entry_of(MAKE_SEGMENT, node, hash, &numbers, b""))
            },
        )
    }

    fn remove_segment(&mut self, node: u64, hash: &ServiceHash) -> Result<(), NotAllowed> {
        self.granted(REMOVE_SEGMENT, node, hash, |services| {
            services.remove_segment(Participant::Node(node), hash)
        })
    }

    fn remove_description(&mut self, node: u64, hash: &ServiceHash) -> Result<(), NotAllowed> {
        self.granted(REMOVE_DESCRIPTION, node, hash, |services| {
            services.remove_description(Participant::Node(node), hash)
        })
    }

    fn publish(
        &mut self,
        node: u64,
        hash: &ServiceHash,
        number: u64,
        description: &StaticConfig,
    ) -> Result<u64, PublishError> {
        let form = encode(description).map_err(|_| PublishError::OutOfMemory)?;
        let participant = Participant::Node(node);
        self.access(
            |services| services.publish(participant, hash, number, description),
            |published| {
                let published = published.ok();
                published.map(|()| entry_of(PUBLISH, node, hash, &[number], &form))
            },
        )?;
        Ok(number)
    }

    fn open_segment(
        &mut self,
        node: u64,
        hash: &ServiceHash,
        number: u64,
    ) -> Result<u64, OpenSegmentError> {
        self.access(
            |services| services.open(node, hash, number),
            |ticket| {
                let numbers = [number, ticket.ok()?];
                Some(entry_of(OPEN_SEGMENT, node, hash, &numbers, b""))
            },
        )
    }

    fn release(
        &mut self,
        ticket: u64,
        node: u64,
        hash: &ServiceHash,
        number: u64,
    ) -> Result<Release, NoSuchTicket> {
        self.access(
            |services| services.release(ticket, node, hash, number),
            |left| {
                let left = left.ok();
                left.map(|_| entry_of(RELEASE, node, hash, &[ticket, number], b""))
            },
        )
    }
}
