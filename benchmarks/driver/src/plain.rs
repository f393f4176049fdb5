//! The same layer in plain Rust: what its promises ask for, without proofs.

pub mod attribute;
pub mod byte_form;
pub mod description;
pub mod errors;
pub mod files;
pub mod five_maps;
pub mod lines;
pub mod patterns;
pub mod records;
pub mod rounds;
pub mod services;
pub mod session;
pub mod shared_log;
pub mod storage;
pub mod table;
pub mod types;

use std::collections::TryReserveError;

/// A text of its own, or out of memory.
fn copy_text(text: &str) -> Result<Box<str>, TryReserveError> {
    let mut copy = String::new();
    copy.try_reserve_exact(text.len())?;
    copy.push_str(text);
    Ok(copy.into_boxed_str())
}

/// Bytes of their own, or out of memory.
fn copy_bytes(bytes: &[u8]) -> Result<Vec<u8>, TryReserveError> {
    let mut copy = Vec::new();
    copy.try_reserve_exact(bytes.len())?;
    copy.extend_from_slice(bytes);
    Ok(copy)
}
