//! The scenarios, by plain Rust. `measured` has the same by the proved layer.

use crate::plain::attribute::{AttributeSet, AttributeVerifier};
use crate::plain::byte_form::{decode as decode_form, encode as encode_form};
use crate::plain::description::{Config, EventConfig, ServiceHash, ServiceName};
use crate::plain::lines::{Line, describe, parse, serve};
use crate::plain::patterns::event::EventDemand;
use crate::plain::rounds::create;
use crate::plain::services::{Entry, ListedRow, Services};
use crate::plain::session::{Call, Command, How, Reply, Session, Settings};
use crate::plain::table::{Act, Step, Table};
use std::io;
use std::time::Duration;

/// How many bytes each name has.
pub const NAME_LENGTH: usize = 24;

/// How many bytes tell a step.
const STEP_LENGTH: usize = 24;

/// The times of the parts of the services' scenario, in nanoseconds of processor time.
#[repr(C)]
#[derive(Clone, Copy, Debug, Default)]
pub struct Times {
    /// Node 1 creates a service for each standing name.
    pub stand: u64,
    /// Node 2 opens and closes each.
    pub later_node: u64,
    /// Node 0 opens and closes each of a sample.
    pub earlier_node: u64,
    /// Node 2 creates and closes a service for each other name.
    pub pairs: u64,
    /// All are listed once.
    pub list: u64,
}

/// Steps of peers that wait at a table.
#[derive(Default)]
pub struct Steps {
    /// Each is 24 bytes: what is done, the peer's number, for how many nodes, whether it is the last
    /// one of its batch, and the hash.
    pub records: Vec<u8>,
    /// The byte form of what they publish.
    pub form: Vec<u8>,
}

#[repr(C)]
#[derive(Default)]
struct Timespec {
    seconds: i64,
    nanoseconds: i64,
}

unsafe extern "C" {
    fn clock_gettime(clock: i32, time: *mut Timespec) -> i32;
}

/// The clock of the process's processor time.
const PROCESSOR_TIME: i32 = 2;

/// The processor time that was used so far, in nanoseconds.
pub fn used_time() -> u64 {
    let mut time = Timespec::default();
    // SAFETY: the struct is the one of the C library, and nobody else's.
    if unsafe { clock_gettime(PROCESSOR_TIME, &mut time) } != 0 {
        return 0;
    }
    time.seconds.unsigned_abs() * 1_000_000_000 + time.nanoseconds.unsigned_abs()
}

/// The names of services, each of `NAME_LENGTH` bytes.
pub struct Names {
    pub standing: Vec<u8>,
    /// Some of those that stand, as far apart as may be.
    pub sample: Vec<u8>,
    pub others: Vec<u8>,
}

fn names(kind: &str, count: usize) -> Vec<u8> {
    let width = NAME_LENGTH - 1 - kind.len();
    let mut texts = Vec::with_capacity(count * NAME_LENGTH);
    for index in 0..count {
        texts.extend_from_slice(format!("{kind}/{index:0width$}").as_bytes());
    }
    texts
}

impl Names {
    pub fn new(standing: usize, sample: usize, others: usize) -> Names {
        let apart = standing.div_ceil(sample.max(1)).max(1);
        let standing = names("standing", standing);
        let sample = standing.chunks(NAME_LENGTH).step_by(apart).flatten();
        Names {
            sample: sample.copied().collect(),
            standing,
            others: names("other", others),
        }
    }

    /// How many there are in the sample.
    pub fn sampled(&self) -> usize {
        self.sample.len() / NAME_LENGTH
    }
}

fn add_answer(sum: u64, answer: u64) -> u64 {
    sum.wrapping_mul(31).wrapping_add(answer)
}

fn add_bytes(sum: u64, bytes: &[u8]) -> u64 {
    bytes
        .iter()
        .fold(sum, |sum, byte| add_answer(sum, u64::from(*byte)))
}

fn add_entry(sum: u64, entry: &Entry) -> u64 {
    let sum = add_bytes(sum, &entry.hash.0);
    let sum = match &entry.row {
        ListedRow::Absent => add_answer(sum, 1),
        ListedRow::Locked(number) => add_answer(add_answer(sum, 2), *number),
        ListedRow::Published(number, form) => {
            add_bytes(add_answer(add_answer(sum, 3), *number), form)
        }
    };
    match &entry.segment {
        None => add_answer(sum, 1),
        Some(segment) => {
            let sum = add_answer(add_answer(sum, segment.number), segment.max_nodes);
            let sum = add_answer(sum, segment.participants);
            add_answer(sum, u64::from(segment.marked))
        }
    }
}

fn add_listing(sum: u64, entries: &[Entry]) -> u64 {
    entries.iter().fold(sum, add_entry)
}

fn answer_of(reply: Reply) -> u64 {
    match reply {
        Reply::Opened { number, .. } => number.wrapping_add(10),
        Reply::Refused(_) => 1,
        Reply::Closed { .. } => 2,
        Reply::SlotInUse => 3,
        Reply::SlotEmpty => 4,
        Reply::NoSuchSlot => 5,
        Reply::Listing(entries) => entries.len() as u64,
        Reply::OutOfMemory => 6,
        Reply::NotClosed { .. } => 7,
    }
}

fn name_of(bytes: &[u8]) -> Option<ServiceName> {
    ServiceName::new(std::str::from_utf8(bytes).ok()?).ok()
}

/// Creates the service as node 1, and lets it stand for good.
fn stand<S: Services>(table: &mut Table<S>, name: ServiceName) -> u64 {
    let asked = EventDemand::new(EventConfig::default());
    let now = Ok(Duration::ZERO);
    match create(asked, 1, name, AttributeSet::default(), now, table) {
        Ok(registration) => registration.number.wrapping_add(10),
        Err(_) => 1,
    }
}

fn stand_all<S: Services>(table: &mut Table<S>, names: &[u8]) -> u64 {
    let names = names.chunks(NAME_LENGTH).filter_map(name_of);
    names.fold(0, |sum, name| add_answer(sum, stand(table, name)))
}

/// Creates or opens the service of each name in slot 0, and closes it.
fn call_and_close<S: Services>(
    session: &mut Session<Table<S>>,
    how: How,
    node: u64,
    names: &[u8],
    start: u64,
) -> u64 {
    let mut sum = start;
    for name in names.chunks(NAME_LENGTH).filter_map(name_of) {
        let call = Call {
            how,
            node,
            slot: 0,
            name,
            settings: Settings::Event(Vec::new()),
            attributes: AttributeVerifier::default(),
            now: Ok(Duration::ZERO),
        };
        sum = add_answer(sum, answer_of(session.apply(Command::Call(call))));
        sum = add_answer(sum, answer_of(session.apply(Command::Close { slot: 0 })));
    }
    sum
}

/// The services' scenario: the times of its parts, and a sum of the answers and of the listing.
pub fn services<S: Services>(names: &Names) -> (Times, u64) {
    let mut table = Table::<S>::new();
    let begin = used_time();
    let sum = stand_all(&mut table, &names.standing);
    let stood = used_time();
    let mut session = Session::new(Config::default(), table);
    let sum = call_and_close(&mut session, How::Open, 2, &names.standing, sum);
    let later = used_time();
    let sum = call_and_close(&mut session, How::Open, 0, &names.sample, sum);
    let earlier = used_time();
    let sum = call_and_close(&mut session, How::Create, 2, &names.others, sum);
    let paired = used_time();
    let listing = session.table().list();
    let ended = used_time();
    let sum = listing.map_or(sum, |entries| add_listing(sum, &entries));
    let _ = session.finish();
    let times = Times {
        stand: stood - begin,
        later_node: later - stood,
        earlier_node: earlier - later,
        pairs: paired - earlier,
        list: ended - paired,
    };
    (times, sum)
}

/// Lets a service stand for each name, and gives a sum of the answers.
pub fn standing<S: Services>(names: &[u8]) -> u64 {
    stand_all(&mut Table::<S>::new(), names)
}

fn act_of(act: u8, max_nodes: u8, form: &[u8]) -> Option<Act> {
    match act {
        0 => Some(Act::Read),
        1 => Some(Act::Lock),
        2 => Some(Act::RemoveSegment),
        3 => Some(Act::RemoveDescription),
        4 => Some(Act::Make {
            max_nodes: u64::from(max_nodes),
        }),
        5 => decode_form(form).ok().map(Act::Publish),
        6 => Some(Act::Join),
        7 => Some(Act::Leave),
        _ => None,
    }
}

fn batches_of(steps: &Steps) -> Vec<Vec<Step>> {
    let mut batches = Vec::new();
    let mut batch = Vec::new();
    for record in steps.records.chunks(STEP_LENGTH) {
        let [act, peer, max_nodes, last, hash @ ..] = record else {
            continue;
        };
        let Ok(hash) = <[u8; 20]>::try_from(hash) else {
            continue;
        };
        if let Some(act) = act_of(*act, *max_nodes, &steps.form) {
            batch.push(Step {
                peer: u64::from(*peer),
                hash: ServiceHash(hash),
                act,
            });
            if *last == 1 {
                batches.push(std::mem::take(&mut batch));
            }
        }
    }
    batches
}

fn run_chunk<S: Services>(
    session: &mut Session<Table<S>>,
    commands: Vec<Command>,
    time: &mut u64,
    sum: u64,
) -> io::Result<u64> {
    let begin = used_time();
    let replies = session.run(commands);
    *time += used_time() - begin;
    let mut sum = sum;
    let mut text = String::new();
    for reply in replies.map_err(|_| io::ErrorKind::OutOfMemory)? {
        text.clear();
        describe(&reply, 0, &mut text)?;
        sum = add_bytes(sum, text.as_bytes());
    }
    Ok(sum)
}

fn run_all<S: Services>(
    session: &mut Session<Table<S>>,
    text: &[u8],
    times: &mut [u64],
) -> io::Result<u64> {
    let mut sum = 0;
    let mut chunk = 0;
    let mut commands = Vec::new();
    for line in text
        .strip_suffix(b"\n")
        .unwrap_or(text)
        .split(|byte| *byte == b'\n')
    {
        match parse(line)? {
            Line::Command(command) => commands.push(command),
            Line::NotACommand => sum = add_answer(sum, 7),
            Line::Blank => {
                let ready = std::mem::take(&mut commands);
                let turn = chunk % times.len();
                sum = run_chunk(session, ready, &mut times[turn], sum)?;
                chunk += 1;
            }
        }
    }
    Ok(sum)
}

/// Carries out chunks of commands, adds their times, and gives a sum of the replies and of what is
/// listed then. A blank line ends a chunk.
pub fn commands<S: Services>(text: &[u8], steps: &Steps, times: &mut [u64]) -> u64 {
    let mut table = Table::<S>::new();
    table.schedule(batches_of(steps));
    let mut session = Session::new(Config::default(), table);
    let sum = run_all(&mut session, text, times).unwrap_or(0);
    let sum = match session.table().list() {
        Ok(entries) => add_listing(add_answer(sum, session.table().skipped()), &entries),
        Err(_) => 0,
    };
    let _ = session.finish();
    sum
}

/// Answers lines: the time, and the replies, for which there is so much room.
pub fn lines<S: Services>(input: &[u8], room: usize) -> (u64, Vec<u8>) {
    let mut text = Vec::with_capacity(room);
    let begin = used_time();
    serve(Table::<S>::new(), input, &mut text);
    (used_time() - begin, text)
}

/// Reads a form so many times: the time, and a sum of what was read.
pub fn decode(form: &[u8], count: u64) -> (u64, u64) {
    let mut sum = 0;
    let begin = used_time();
    for _ in 0..count {
        match decode_form(form) {
            Ok(description) => sum = add_answer(sum, description.max_nodes()),
            Err(_) => return (0, sum),
        }
    }
    (used_time() - begin, sum)
}

/// Writes what a form says so many times: the time, and the last form.
pub fn encode(form: &[u8], count: u64) -> (u64, Vec<u8>) {
    let mut output = vec![0; form.len()];
    let Ok(description) = decode_form(form) else {
        return (0, output);
    };
    let begin = used_time();
    for _ in 0..count {
        match encode_form(&description) {
            Ok(bytes) => {
                let length = bytes.len().min(output.len());
                output[..length].copy_from_slice(&bytes[..length]);
            }
            Err(_) => return (0, output),
        }
    }
    (used_time() - begin, output)
}
