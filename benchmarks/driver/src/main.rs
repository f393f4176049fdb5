//! Measures the proved layer beside the same layer in plain Rust, on the same commands in one run.
//!
//! `time` times all cases that need no standing services by all programs, and prints the least time
//! of several runs; `beside NUMBER` does so with those beside so many of them. `sections PROGRAM
//! [NUMBER ..]` runs all once by one program, and prints for each reading of the clock what was done
//! since the one before, and for each case its answers. `peak PROGRAM NUMBER` prints how much more
//! memory the process had with so many standing services. The answers have to be the same.
//!
//! Where the environment has `PARTS`, words with commas between, only cases are run of which a part's
//! name has one of the words.
//!
//! `log PATH` answers the lines of standard input by plain Rust over a log that processes share, and
//! `files FOLDER` over files alone, which are in no order but the file system's.

mod cases;
mod maps;
mod measured;
mod plain;
mod scenarios;
mod texts;

use crate::cases::{Case, Part, Scale, cases, services};
use crate::maps::{SortedVecs, Trees};
use crate::plain::files::Files;
use crate::plain::five_maps::FiveMaps;
use crate::plain::lines::serve;
use crate::plain::records::Records;
use crate::plain::shared_log::SharedLog;
use crate::plain::storage::Storage;
use crate::scenarios::{Names, Steps, Times};
use std::io;
use std::process::ExitCode;

/// A program that is measured.
pub struct Program {
    name: &'static str,
    services: fn(&Names) -> (Times, u64),
    standing: fn(&[u8]) -> u64,
    commands: fn(&[u8], &Steps, &mut [u64]) -> u64,
    lines: fn(&[u8], usize) -> (u64, Vec<u8>),
    decode: fn(&[u8], u64) -> (u64, u64),
    encode: fn(&[u8], u64) -> (u64, Vec<u8>),
}

const PROGRAMS: [Program; 5] = [
    Program {
        name: "proved",
        services: measured::services::<false>,
        standing: measured::standing::<false>,
        commands: measured::commands::<false>,
        lines: measured::lines::<false>,
        decode: measured::decode,
        encode: measured::encode,
    },
    Program {
        name: "large",
        services: measured::services::<true>,
        standing: measured::standing::<true>,
        commands: measured::commands::<true>,
        lines: measured::lines::<true>,
        decode: measured::decode,
        encode: measured::encode,
    },
    Program {
        name: "map",
        services: scenarios::services::<FiveMaps<Trees>>,
        standing: scenarios::standing::<FiveMaps<Trees>>,
        commands: scenarios::commands::<FiveMaps<Trees>>,
        lines: scenarios::lines::<FiveMaps<Trees>>,
        decode: scenarios::decode,
        encode: scenarios::encode,
    },
    Program {
        name: "vectors",
        services: scenarios::services::<FiveMaps<SortedVecs>>,
        standing: scenarios::standing::<FiveMaps<SortedVecs>>,
        commands: scenarios::commands::<FiveMaps<SortedVecs>>,
        lines: scenarios::lines::<FiveMaps<SortedVecs>>,
        decode: scenarios::decode,
        encode: scenarios::encode,
    },
    Program {
        name: "records",
        services: scenarios::services::<Records>,
        standing: scenarios::standing::<Records>,
        commands: scenarios::commands::<Records>,
        lines: scenarios::lines::<Records>,
        decode: scenarios::decode,
        encode: scenarios::encode,
    },
];

/// How often a case is run by each program, beside so many standing services.
fn repeats(standing: usize) -> usize {
    match standing {
        0..5_000 => 9,
        5_000..20_000 => 3,
        _ => 1,
    }
}

/// Times a case, or says who answered otherwise.
fn time(case: &Case) -> Result<(), String> {
    let mut least = vec![vec![u64::MAX; case.parts.len()]; PROGRAMS.len()];
    let mut expected = None;
    let standing = case.parts.iter().map(|part| part.standing).max();
    for _ in 0..repeats(standing.unwrap_or(0)) {
        for (program, least) in PROGRAMS.iter().zip(&mut least) {
            let (times, sum) = (case.run)(program);
            if *expected.get_or_insert(sum) != sum {
                let parts: Vec<&str> = case.parts.iter().map(|part| &*part.name).collect();
                return Err(format!("{}: other answers in {parts:?}", program.name));
            }
            for (least, time) in least.iter_mut().zip(times) {
                *least = time.min(*least);
            }
        }
    }
    for (index, part) in case.parts.iter().enumerate() {
        let Part {
            name,
            standing,
            unit,
            count,
        } = part;
        for (program, least) in PROGRAMS.iter().zip(&least) {
            let (program, time) = (program.name, least[index]);
            println!("{name},{standing},{unit},{program},{count},{time}");
        }
    }
    Ok(())
}

/// How often things are done where they are timed.
const TIMED: Scale = Scale {
    rounds: 100,
    lines: 5_000,
    texts: 60,
    forms: 20_000,
    sample: 1_000,
};

/// How often things are done where instructions are counted.
const COUNTED: Scale = Scale {
    rounds: 3,
    lines: 310,
    texts: 14,
    forms: 100,
    sample: 200,
};

/// Whether a case is run.
fn is_wanted(case: &Case) -> bool {
    match std::env::var("PARTS") {
        Ok(words) => words
            .split(',')
            .any(|word| case.parts.iter().any(|part| part.name.contains(word))),
        Err(_) => true,
    }
}

fn time_all(cases: Vec<Case>) -> Result<(), String> {
    println!("case,standing,unit,program,count,nanoseconds");
    cases
        .iter()
        .filter(|case| is_wanted(case))
        .try_for_each(time)
}

/// Runs each case once, and prints its answers and what was done before each reading of the clock.
fn print_sections(program: &Program, numbers: &[usize]) {
    let beside = numbers.iter().map(|number| services(*number, &COUNTED));
    let cases = cases(&COUNTED).into_iter().chain(beside);
    for case in cases.filter(is_wanted) {
        let (_, sum) = (case.run)(program);
        let first = &case.parts[0];
        println!("answers,{},{},{sum}", first.name, first.standing);
        let times_done = |index| {
            let of_part = case.sections.iter().filter(|part| **part == Some(index));
            of_part.count().max(1)
        };
        for section in &case.sections {
            match section {
                None => println!("-"),
                Some(index) => {
                    let part = &case.parts[*index];
                    let count = part.count as f64 / times_done(*index) as f64;
                    println!("{},{},{},{count}", part.name, part.standing, part.unit);
                }
            }
        }
    }
}

/// The most memory that this process had, in bytes.
fn peak() -> Result<u64, String> {
    let status = std::fs::read_to_string("/proc/self/status").map_err(|error| error.to_string())?;
    let line = status.lines().find_map(|line| line.strip_prefix("VmHWM:"));
    let number = line.and_then(|line| line.trim().strip_suffix("kB"));
    let number = number.and_then(|number| number.trim().parse::<u64>().ok());
    number
        .map(|number| number * 1024)
        .ok_or_else(|| "no VmHWM".to_owned())
}

fn program_of(name: &str) -> Result<&'static Program, String> {
    let found = PROGRAMS.iter().find(|program| program.name == name);
    found.ok_or_else(|| format!("no program {name}"))
}

fn number_of(word: &str) -> Result<usize, String> {
    word.parse()
        .map_err(|error| format!("{word} is no number of standing services: {error}"))
}

/// Answers the lines of standard input over a storage that processes share.
fn serve_standard(storage: impl Storage) -> Result<(), String> {
    match serve(storage, io::stdin().lock(), io::stdout().lock()) {
        0 => Ok(()),
        status => Err(format!("status {status}")),
    }
}

fn run(words: &[String]) -> Result<(), String> {
    match words {
        [mode] if mode == "time" => time_all(cases(&TIMED)),
        [mode, number] if mode == "beside" => time_all(vec![services(number_of(number)?, &TIMED)]),
        [mode, program, numbers @ ..] if mode == "sections" => {
            let numbers: Result<Vec<_>, _> = numbers.iter().map(|word| number_of(word)).collect();
            print_sections(program_of(program)?, &numbers?);
            Ok(())
        }
        [mode, path] if mode == "log" => {
            let log = SharedLog::<Records>::open(path).map_err(|error| error.to_string())?;
            serve_standard(log)
        }
        [mode, folder] if mode == "files" => serve_standard(Files::new(folder)),
        [mode, program, number] if mode == "peak" => {
            let number = number_of(number)?;
            let names = Names::new(number, 0, 0);
            let before = peak()?;
            let sum = (program_of(program)?.standing)(&names.standing);
            println!("{program},{number},{},{sum}", peak()? - before);
            Ok(())
        }
        _ => Err(
            "time | beside NUMBER | sections PROGRAM [NUMBER ..] | peak PROGRAM NUMBER | log PATH | files FOLDER"
                .to_owned(),
        ),
    }
}

fn main() -> ExitCode {
    let words: Vec<String> = std::env::args().skip(1).collect();
    match run(&words) {
        Ok(()) => ExitCode::SUCCESS,
        Err(error) => {
            eprintln!("{error}");
            ExitCode::FAILURE
        }
    }
}
