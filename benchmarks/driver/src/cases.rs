//! What is measured.

use crate::Program;
use crate::plain::description::Config;
use crate::plain::lines::{Line, parse, serve};
use crate::plain::records::Records;
use crate::plain::services::ListedRow;
use crate::plain::session::Session;
use crate::plain::table::Table;
use crate::scenarios::{Names, Steps};
use crate::texts::{
    PATTERNS, PatternTexts, SERVICES, mixed_chunks, mixed_steps, mixed_texts, plain_lines,
};

/// A part of a case, whose time is told by itself.
pub struct Part {
    pub name: String,
    /// How many services stand beside it.
    pub standing: usize,
    /// What is counted: operations, lines, services or bytes.
    pub unit: &'static str,
    pub count: usize,
}

/// What a program does: the times of the parts, and a sum of all answers.
type Run = dyn Fn(&Program) -> (Vec<u64>, u64);

/// What one program does at a time.
pub struct Case {
    pub parts: Vec<Part>,
    /// Which part, if any, was done before each reading of the clock.
    pub sections: Vec<Option<usize>>,
    pub run: Box<Run>,
}

/// How often things are done.
pub struct Scale {
    /// Rounds of each chunk of commands.
    pub rounds: usize,
    /// Rounds of six lines.
    pub lines: usize,
    /// Texts of the mix.
    pub texts: usize,
    /// Forms that are read, and written.
    pub forms: usize,
    /// Opens by an earlier node, and creates beside standing services.
    pub sample: usize,
}

fn part(name: &str, standing: usize, unit: &'static str, count: usize) -> Part {
    Part {
        name: name.to_owned(),
        standing,
        unit,
        count,
    }
}

fn add_bytes(sum: u64, bytes: &[u8]) -> u64 {
    bytes.iter().fold(sum, |sum, byte| {
        sum.wrapping_mul(31).wrapping_add(u64::from(*byte))
    })
}

/// Creates, opens and closes of a pattern.
fn pattern_case(pattern: PatternTexts, with_attributes: bool, rounds: usize) -> Case {
    let text = pattern.chunks(with_attributes, rounds);
    let with = if with_attributes {
        " with 4 attributes"
    } else {
        ""
    };
    let parts = ["create", "open", "close", "last close"];
    let name = pattern.name;
    let of_part = |what: &str| {
        let name = format!("{name} {what}{with}");
        part(&name, 0, "operation", rounds * SERVICES)
    };
    let round = (0..parts.len()).flat_map(|index| [None, Some(index)]);
    Case {
        parts: parts.iter().map(|what| of_part(what)).collect(),
        sections: round.collect::<Vec<_>>().repeat(rounds),
        run: Box::new(move |program| {
            let mut times = vec![0; 4];
            let sum = (program.commands)(text.as_bytes(), &Steps::default(), &mut times);
            (times, sum)
        }),
    }
}

/// Twice as many bytes as the replies to lines have, so that none asks for room, and longer ones are seen.
fn room_for(text: &[u8]) -> usize {
    let mut replies = Vec::new();
    serve(Table::<Records>::new(), text, &mut replies);
    2 * replies.len()
}

/// Texts of lines, each by a new session.
fn lines_case(name: &str, texts: Vec<Vec<u8>>) -> Case {
    let rooms: Vec<usize> = texts.iter().map(|text| room_for(text)).collect();
    let lines = texts.iter().flatten().filter(|byte| **byte == b'\n');
    Case {
        parts: vec![part(name, 0, "line", lines.count())],
        sections: [None, Some(0)].repeat(texts.len()),
        run: Box::new(move |program| {
            let (mut time, mut sum) = (0, 0);
            for (text, room) in texts.iter().zip(&rooms) {
                let (taken, replies) = (program.lines)(text, *room);
                time += taken;
                sum = add_bytes(sum, &replies);
            }
            (vec![time], sum)
        }),
    }
}

/// The mix as commands, with steps of peers before each access.
fn peers_case(texts: usize) -> Case {
    let chunks = 5 * texts;
    let text = mixed_chunks(chunks, 100);
    let form = form_of("event create 9 0 mixed/0 max_nodes=4");
    let steps = mixed_steps(80 * chunks, form);
    let commands = text.lines().filter(|line| !line.is_empty()).count();
    Case {
        parts: vec![part("mix with peers", 0, "operation", commands)],
        sections: [None, Some(0)].repeat(chunks),
        run: Box::new(move |program| {
            let mut times = vec![0];
            let sum = (program.commands)(text.as_bytes(), &steps, &mut times);
            (times, sum)
        }),
    }
}

/// The byte form of what a line creates. It has no bytes where the line creates nothing.
fn form_of(line: &str) -> Vec<u8> {
    let mut session = Session::new(Config::default(), Table::<Records>::new());
    if let Ok(Line::Command(command)) = parse(line.as_bytes()) {
        session.apply(command);
    }
    let entries = session.table().list().unwrap_or_default();
    match entries.first().map(|entry| &entry.row) {
        Some(ListedRow::Published(_, form)) => form.to_vec(),
        _ => Vec::new(),
    }
}

/// The form of what a pattern's lines create.
fn form_case(pattern: PatternTexts, with_attributes: bool, count: usize) -> [Case; 2] {
    let text = pattern.chunks(with_attributes, 1);
    let form = form_of(text.lines().next().unwrap_or_default());
    let with = if with_attributes {
        " with 4 attributes"
    } else {
        ""
    };
    let bytes = count * form.len();
    let of_part = |what: &str| {
        let name = format!("{what} {}{with}", pattern.name);
        vec![part(&name, 0, "byte", bytes)]
    };
    let count = count as u64;
    let read = form.clone();
    let decode = Case {
        parts: of_part("decode"),
        sections: vec![None, Some(0)],
        run: Box::new(move |program| {
            let (time, sum) = (program.decode)(&read, count);
            (vec![time], sum)
        }),
    };
    let encode = Case {
        parts: of_part("encode"),
        sections: vec![None, Some(0)],
        run: Box::new(move |program| {
            let (time, written) = (program.encode)(&form, count);
            (vec![time], add_bytes(u64::from(written == form), &written))
        }),
    };
    [encode, decode]
}

/// Creates among standing services, and opens, creates and closes beside them.
pub fn services(standing: usize, scale: &Scale) -> Case {
    let names = Names::new(standing, scale.sample, scale.sample);
    Case {
        parts: vec![
            part("creates by node 1", standing, "operation", standing),
            part("open and close by node 2", standing, "operation", standing),
            part(
                "open and close by node 0",
                standing,
                "operation",
                names.sampled(),
            ),
            part(
                "create and close beside",
                standing,
                "operation",
                scale.sample,
            ),
            part("list", standing, "service", standing),
        ],
        sections: vec![None, Some(0), Some(1), Some(2), Some(3), Some(4)],
        run: Box::new(move |program| {
            let (times, sum) = (program.services)(&names);
            let times = vec![
                times.stand,
                times.later_node,
                times.earlier_node,
                times.pairs,
                times.list,
            ];
            (times, sum)
        }),
    }
}

/// All that is measured with no services standing beside it.
pub fn cases(scale: &Scale) -> Vec<Case> {
    let mut cases = Vec::new();
    for pattern in PATTERNS {
        cases.push(pattern_case(pattern, false, scale.rounds));
        cases.push(pattern_case(pattern, true, scale.rounds));
    }
    cases.push(lines_case("line", vec![plain_lines(scale.lines)]));
    for pattern in PATTERNS {
        let name = format!("line {}", pattern.name);
        cases.push(lines_case(&name, vec![pattern.lines(scale.lines)]));
    }
    cases.push(lines_case("mixed line", mixed_texts(scale.texts)));
    cases.push(peers_case(scale.texts));
    for pattern in PATTERNS {
        cases.extend(form_case(pattern, false, scale.forms));
    }
    for pattern in PATTERNS {
        cases.extend(form_case(pattern, true, scale.forms));
    }
    cases
}
