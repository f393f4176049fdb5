//! Does single things by the kit or in plain Rust: `PROGRAM PART`. `../lib.rattle` has each function of the same name in
//! Rattle, and the measured ones are not taken into their callers in either.

mod entries;
mod values;

use crate::entries::{
    NumberedRow, Row, insert_row, insert_variant, numbered_rows, remove_row, variants,
};
use crate::values::hand_up;
use sha1::{Digest, Sha1};
use std::collections::TryReserveError;
use std::fmt::Write;
use std::process::ExitCode;

// In the library a slice crosses as a pointer and then a length, and a `Global` as nothing.
unsafe extern "C" {
    safe fn kit_hand_up(first: u64, last: u64) -> u64;
    safe fn kit_rows(count: u64) -> u64;
    safe fn kit_variants(count: u64) -> u64;
    fn kit_digest(bytes: *const u8, len: usize) -> u64;
    safe fn kit_reply(slot: u64, number: u64) -> u64;
}

fn sum_handed_up(first: u64, last: u64) -> u64 {
    (first..last).fold(0, |sum: u64, seed| sum.wrapping_add(hand_up(seed)))
}

fn rows(count: u64) -> Result<u64, TryReserveError> {
    let mut rows = numbered_rows(count)?;
    if !insert_row(&mut rows, 0, NumberedRow::new(count)) {
        return Ok(0);
    }
    Ok(remove_row(&mut rows, 0))
}

fn variant_rows(count: u64) -> Result<u64, TryReserveError> {
    let mut rows = variants(count)?;
    Ok(insert_variant(&mut rows, 0, Row::Locked(count)))
}

#[inline(never)]
fn digest(bytes: &[u8]) -> [u8; 20] {
    Sha1::digest(bytes).into()
}

#[inline(never)]
fn write_reply(text: &mut String, slot: u64, number: u64) -> std::fmt::Result {
    writeln!(text, "ok {slot} number={number}")
}

fn reply(slot: u64, number: u64) -> u64 {
    let mut text = String::with_capacity(100);
    match write_reply(&mut text, slot, number) {
        Ok(()) => text.len() as u64,
        Err(_) => 0,
    }
}

const NAME: &str = "echunk/service/00000012";

/// What a part comes to.
fn run(program: &str, part: &str) -> Option<u64> {
    let (name, len) = (NAME.as_ptr(), NAME.len());
    Some(match (program, part) {
        ("kit", "hand_up") => kit_hand_up(0, 100),
        ("rust", "hand_up") => sum_handed_up(0, 100),
        ("kit", "refuse") => kit_hand_up(1000, 1100),
        ("rust", "refuse") => sum_handed_up(1000, 1100),
        ("kit", "insert_row" | "remove_row") => kit_rows(1000),
        ("rust", "insert_row" | "remove_row") => rows(1000).ok()?,
        ("kit", "insert_variant") => kit_variants(1000),
        ("rust", "insert_variant") => variant_rows(1000).ok()?,
        // SAFETY: the pointer goes with the length of its text.
        ("kit", "digest") => unsafe { kit_digest(name, len) },
        ("rust", "digest") => u64::from(digest(NAME.as_bytes())[0]),
        ("kit", "write_reply") => kit_reply(12, 345),
        ("rust", "write_reply") => reply(12, 345),
        _ => return None,
    })
}

fn main() -> ExitCode {
    let words: Vec<String> = std::env::args().skip(1).collect();
    let answer = match words.as_slice() {
        [program, part] => run(program, part),
        _ => None,
    };
    match answer {
        Some(answer) => {
            println!("{answer}");
            ExitCode::SUCCESS
        }
        None => ExitCode::FAILURE,
    }
}
