//! The functions of wulameron.h, and the numbers of it that are named here.
use std::ffi::{c_char, c_void};

pub const VERSION: u32 = 3;
pub const ANY_NODE: u64 = u64::MAX;
pub const OK: u32 = 0;
pub const TOO_SMALL: u32 = 5;
pub const SLOT_IN_USE: u32 = 17;
pub const REFUSED: u32 = 20;
pub const NONE: u32 = 22;
pub const LOG: u32 = 26;
pub const BAD_LINE: u32 = 31;
pub const LOST: u32 = 33;
/// The states of a node whose process is alive, of one whose process is gone and left something, and of a lost one.
pub const ALIVE: u32 = 1;
pub const DEAD: u32 = 2;
pub const NODE_LOST: u32 = 4;
/// None of wulameron.h: all 64 slots are taken.
pub const NO_FREE_SLOT: u32 = 100;

type Session = *mut c_void;
type Number = *mut u64;
type Length = *mut usize;

#[rustfmt::skip]
unsafe extern "C" {
    pub fn wulameron_code_text(code: u32) -> *const c_char;
    pub fn wulameron_refusal_name(refusal: u32, output: *mut u8, size: usize, length: Length) -> u32;
    pub fn wulameron_refusal_text(refusal: u32, output: *mut u8, size: usize, length: Length) -> u32;
    pub fn wulameron_refusal_advice(refusal: u32, output: *mut u8, size: usize, length: Length) -> u32;
    pub fn wulameron_open_table(version: u32, out: *mut Session) -> u32;
    pub fn wulameron_open_log(version: u32, program: *const c_char, path: *const c_char, node: u64, out: *mut Session,
        message: *mut u8, size: usize, length: Length) -> u32;
    pub fn wulameron_close_session(session: Session) -> u32;
    pub fn wulameron_begin(session: Session, pattern: u32, how: u32, node: u64, name: *const u8, size: usize) -> u32;
    pub fn wulameron_set_number(session: Session, setting: u32, value: u64) -> u32;
    pub fn wulameron_set_none(session: Session, setting: u32) -> u32;
    pub fn wulameron_set_duration(session: Session, setting: u32, seconds: u64, nanoseconds: u32) -> u32;
    pub fn wulameron_set_type(session: Session, part: u32, variant: u32, name: *const u8, length: usize, size: u64,
        alignment: u64) -> u32;
    pub fn wulameron_add_attribute(session: Session, key: *const u8, key_length: usize, value: *const u8,
        value_length: usize) -> u32;
    pub fn wulameron_require_key(session: Session, key: *const u8, length: usize) -> u32;
    pub fn wulameron_set_time(session: Session, seconds: u64, nanoseconds: u32) -> u32;
    pub fn wulameron_set_clock_fault(session: Session) -> u32;
    pub fn wulameron_send(session: Session, slot: u32, number: Number, refusal: *mut u32) -> u32;
    pub fn wulameron_close(session: Session, slot: u32) -> u32;
    pub fn wulameron_get_number(session: Session, slot: u32, setting: u32, value: Number) -> u32;
    pub fn wulameron_get_bytes(session: Session, slot: u32, output: *mut u8, size: usize, length: Length) -> u32;
    pub fn wulameron_list(session: Session, count: Number) -> u32;
    pub fn wulameron_get_entry(session: Session, index: u64, state: *mut u32, pattern: *mut u32, number: Number,
        nodes: Number, max_nodes: Number) -> u32;
    pub fn wulameron_get_entry_name(session: Session, index: u64, output: *mut u8, size: usize, length: Length) -> u32;
    pub fn wulameron_get_entry_hash(session: Session, index: u64, output: *mut u8, size: usize, length: Length) -> u32;
    pub fn wulameron_line(session: Session, line: *const u8, length: usize) -> u32;
    pub fn wulameron_get_reply(session: Session, output: *mut u8, size: usize, length: Length) -> u32;
    pub fn wulameron_node(session: Session, node: Number) -> u32;
    pub fn wulameron_nodes(session: Session, count: Number) -> u32;
    pub fn wulameron_get_node(session: Session, index: u64, node: Number, state: *mut u32) -> u32;
    pub fn wulameron_clean(session: Session, node: u64, dry_run: u32, nodes: Number, releases: Number,
        removals: Number) -> u32;
}

/// Makes a call. What each use keeps: the session is open and of this thread, a text has as many bytes as its length or
/// ends with a 0, and a place is there for what is written to it.
macro_rules! call {
    ($name:ident $(, $word:expr)*) => {
        // SAFETY: as above.
        unsafe { $crate::raw::$name($($word),*) }
    };
}
pub(crate) use call;

/// The bytes that a call writes: it takes a place, its size, and a place for the length.
pub fn bytes(call: impl Fn(*mut u8, usize, Length) -> u32) -> Result<Vec<u8>, u32> {
    let (mut bytes, mut length) = (Vec::new(), 0);
    loop {
        match call(bytes.as_mut_ptr(), bytes.len(), &mut length) {
            OK => break,
            TOO_SMALL => bytes = vec![0; length],
            code => return Err(code),
        }
    }
    bytes.truncate(length);
    Ok(bytes)
}
