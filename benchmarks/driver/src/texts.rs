//! Lines and commands that scenarios are made of.

use crate::plain::description::{ServiceHash, ServiceName};
use crate::scenarios::Steps;

/// How many services a chunk of commands makes, each with two slots.
pub const SERVICES: usize = 31;

/// A pattern, and the terms behind a name of its lines.
#[derive(Clone, Copy)]
pub struct PatternTexts {
    pub name: &'static str,
    pub prefix: u8,
    /// The types of its messages.
    types: &'static str,
    /// Settings that are met, and one that isn't.
    settings: &'static str,
    too_much: &'static str,
}

pub const PATTERNS: [PatternTexts; 3] = [
    PatternTexts {
        name: "event",
        prefix: b'e',
        types: "",
        settings: " max_nodes=8 event_id_max_value=31 deadline=2,500000000",
        too_much: " max_listeners=99",
    },
    PatternTexts {
        name: "pubsub",
        prefix: b'p',
        types: " payload=fixed,Pose,24,8 user_header=fixed,Stamp,16,8",
        settings: " max_nodes=8 history_size=1 subscriber_max_buffer_size=2",
        too_much: " max_subscribers=99",
    },
    PatternTexts {
        name: "rr",
        prefix: b'r',
        types: " request_payload=fixed,Goal,16,8 response_payload=dynamic,Pose,24,8",
        settings: " max_nodes=8 max_servers=2 enable_fire_and_forget_requests=true",
        too_much: " max_clients=99",
    },
];

const DEFINED: &str =
    " attribute=colour:red attribute=floor:2 attribute=room:kitchen attribute=side:left";
const REQUIRED: &str = " attribute=colour:red attribute=floor:2 require_key=room require_key=side";

impl PatternTexts {
    /// Chunks of commands: services are created, opened by a second node, closed by it, and closed.
    /// All are made once more in each round.
    pub fn chunks(&self, with_attributes: bool, rounds: usize) -> String {
        let PatternTexts { name, types, .. } = self;
        let (defined, required) = match with_attributes {
            true => (DEFINED, REQUIRED),
            false => ("", ""),
        };
        let mut round = String::new();
        for index in 0..SERVICES {
            round += &format!("{name} create 1 {index} chunk/service/{index:08}{types}{defined}\n");
        }
        round += "\n";
        for index in 0..SERVICES {
            let slot = SERVICES + index;
            round += &format!("{name} open 2 {slot} chunk/service/{index:08}{types}{required}\n");
        }
        round += "\n";
        for index in 0..SERVICES {
            round += &format!("close {}\n", SERVICES + index);
        }
        round += "\n";
        for index in 0..SERVICES {
            round += &format!("close {index}\n");
        }
        round += "\n";
        round.repeat(rounds)
    }

    /// Six lines a round: a service is created, opened by a second node, and closed by both, with a
    /// refused create and a refused open in between. There are 31 names and 62 slots.
    pub fn lines(&self, rounds: usize) -> Vec<u8> {
        let PatternTexts {
            name: pattern,
            types,
            settings,
            too_much,
            ..
        } = self;
        let mut text = String::new();
        for round in 0..rounds {
            let name = round % SERVICES;
            let (first, second) = (2 * name, 2 * name + 1);
            text += &format!("{pattern} create 1 {first} lines/{name}{types}{settings}\n");
            text += &format!("{pattern} open 2 {second} lines/{name}{types}{settings}\n");
            text += &format!("{pattern} create 3 63 lines/{name}{types}\n");
            text += &format!("{pattern} open 3 63 lines/{name}{types}{too_much}\n");
            text += &format!("close {second}\nclose {first}\n");
        }
        text.into_bytes()
    }
}

/// Six lines a round, of events without terms; the refused open is of a service that isn't there.
pub fn plain_lines(rounds: usize) -> Vec<u8> {
    let mut text = String::new();
    for round in 0..rounds {
        let name = round % SERVICES;
        let (first, second) = (2 * name, 2 * name + 1);
        text += &format!("event create 1 {first} lines/{name}\n");
        text += &format!("event open 2 {second} lines/{name}\n");
        text += &format!("event create 3 63 lines/{name}\n");
        text += &format!("event open 3 63 missing/{name}\n");
        text += &format!("close {second}\nclose {first}\n");
    }
    text.into_bytes()
}

/// Numbers in a fixed order that looks like none.
struct Numbers {
    state: u64,
}

impl Numbers {
    fn below(&mut self, limit: usize) -> usize {
        self.state = self
            .state
            .wrapping_mul(6_364_136_223_846_793_005)
            .wrapping_add(1_442_695_040_888_963_407);
        (self.state >> 33) as usize % limit
    }

    fn one_of<'a>(&mut self, words: &[&'a str]) -> &'a str {
        words[self.below(words.len())]
    }
}

const EVENT_TERMS: [&str; 14] = [
    "",
    "",
    " max_nodes=2",
    " max_nodes=0",
    " max_nodes=1",
    " max_notifiers=17",
    " max_listeners=3 event_id_max_value=7",
    " event_id_max_value=256",
    " notifier_created_event=1",
    " notifier_dropped_event=none",
    " notifier_dead_event=18446744073709551615",
    " deadline=1,0",
    " deadline=none",
    " deadline=0,999999999",
];

const PUBLISH_SUBSCRIBE_TERMS: [&str; 12] = [
    "",
    "",
    " max_nodes=2",
    " payload=fixed,Pose,24,8",
    " payload=fixed,Pose,32,8",
    " payload=dynamic,Pose,24,8 payload_alignment=64",
    " user_header=fixed,Stamp,16,8",
    " max_publishers=3",
    " history_size=4 subscriber_max_buffer_size=2 enable_safe_overflow=false",
    " enable_safe_overflow=false",
    " subscriber_max_borrowed_samples=0 max_subscribers=9",
    " history_size=1",
];

const REQUEST_RESPONSE_TERMS: [&str; 12] = [
    "",
    "",
    " max_nodes=2",
    " request_payload=fixed,Goal,16,8",
    " request_payload=fixed,Goal,16,8 response_payload=dynamic,u8,1,1",
    " response_payload=fixed,u8,1,1 response_payload_alignment=16",
    " request_header=fixed,Stamp,16,8",
    " max_servers=3 max_clients=0",
    " enable_fire_and_forget_requests=false",
    " enable_safe_overflow_for_requests=false enable_safe_overflow_for_responses=false",
    " max_active_requests_per_client=5 max_loaned_requests=1",
    " max_response_buffer_size=3 max_borrowed_responses_per_pending_response=2",
];

const ATTRIBUTE_TERMS: [&str; 8] = [
    "",
    "",
    "",
    "",
    " attribute=floor:2",
    " attribute=floor:2 attribute=floor:1 attribute=colour:red",
    " attribute=colour:green",
    " attribute=colour:",
];

const KEY_TERMS: [&str; 4] = ["", "", " require_key=floor", " require_key=colour"];

const CLOCK_TERMS: [&str; 4] = ["", "", " now=12,500", " now=fault"];

/// Lines that end a program. The first byte of the third is no text.
const NO_COMMANDS: [&[u8]; 14] = [
    b"event create x 0 name\n",
    b"close 64\n",
    b"\xffevent create 1 0 name\n",
    b"event create 1 0\n",
    b"event open 1 0 name now=1,0\n",
    b"event create 1 0 name max_nodes=+1\n",
    b"event create 18446744073709551616 0 name\n",
    b"event create 1 0 name deadline=1,1000000000\n",
    b"pubsub create 1 0 name payload=fixed,,8,8\n",
    b"pubsub open 1 0 name payload=fixed,Pose,24,3\n",
    b"rr create 1 0 name require_key=floor\n",
    b"rr open 1 0 name request_payload_alignment=0\n",
    b"list all\n",
    b"event create 1 0 name attribute=:value\n",
];

/// One line of a mix of what is granted and what isn't.
fn mixed_line(numbers: &mut Numbers) -> String {
    match numbers.below(16) {
        0..4 => return format!("close {}\n", numbers.below(24)),
        4 => return "list\n".to_owned(),
        5 => return "  \n".repeat(numbers.below(2)),
        _ => {}
    }
    let how = numbers.one_of(&["create", "open", "open", "open_or_create"]);
    let (node, slot) = (numbers.below(5), numbers.below(24));
    let name = format!("mixed/{}", numbers.below(5));
    let (pattern, terms): (_, &[&str]) = match numbers.below(3) {
        0 => ("event", &EVENT_TERMS),
        1 => ("pubsub", &PUBLISH_SUBSCRIBE_TERMS),
        _ => ("rr", &REQUEST_RESPONSE_TERMS),
    };
    let terms = numbers.one_of(terms);
    let attributes = numbers.one_of(&ATTRIBUTE_TERMS);
    let keys = match how {
        "create" => "",
        _ => numbers.one_of(&KEY_TERMS),
    };
    let clock = match (pattern, how) {
        ("event", "create" | "open_or_create") => numbers.one_of(&CLOCK_TERMS),
        _ => "",
    };
    format!("{pattern}  {how} {node} {slot} {name}{terms}{attributes}{keys}{clock}\n")
}

/// Texts of lines in a fixed order: refused creates and opens, taken and free slots, settings and
/// types that don't fit, and at each text's end a line that is no command.
pub fn mixed_texts(count: usize) -> Vec<Vec<u8>> {
    let mut numbers = Numbers { state: 20_26 };
    let text = |index: usize| {
        let mut text = String::new();
        for _ in 0..40 + numbers.below(160) {
            text += &mixed_line(&mut numbers);
        }
        let mut text = text.into_bytes();
        text.extend_from_slice(NO_COMMANDS[index % NO_COMMANDS.len()]);
        text
    };
    (0..count).map(text).collect()
}

/// Chunks of commands as in the mix, without blank lines in them.
pub fn mixed_chunks(chunks: usize, length: usize) -> String {
    let mut numbers = Numbers { state: 9_3 };
    let mut text = String::new();
    for _ in 0..chunks {
        for _ in 0..length {
            let line = mixed_line(&mut numbers);
            if !line.trim().is_empty() {
                text += &line;
            }
        }
        text += "\n";
    }
    text
}

/// Steps of three peers at the services of the mix, up to three a batch.
pub fn mixed_steps(batches: usize, form: Vec<u8>) -> Steps {
    let mut numbers = Numbers { state: 1_9 };
    let mut records = Vec::new();
    for _ in 0..batches {
        let steps = 1 + numbers.below(3);
        for step in 1..=steps {
            // Reading, joining and leaving come more often than the rest.
            let act = [0, 6, 7, 0, 6, 7, 1, 4, 5, 2, 3][numbers.below(11)];
            let peer = 1 + numbers.below(3) as u8;
            let max_nodes = 4 * numbers.below(2) as u8;
            let last = u8::from(step == steps);
            let name = format!("mixed/{}", numbers.below(5));
            let prefix = PATTERNS[numbers.below(3)].prefix;
            records.extend_from_slice(&[act, peer, max_nodes, last]);
            records.extend_from_slice(&hash_of(prefix, &name).0);
        }
    }
    Steps { records, form }
}

/// The hash of a service of this name. Names here are none that is refused.
pub fn hash_of(prefix: u8, name: &str) -> ServiceHash {
    match ServiceName::new(name) {
        Ok(name) => ServiceHash::of(prefix, &name),
        Err(_) => ServiceHash([0; 20]),
    }
}
