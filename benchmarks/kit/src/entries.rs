//! Vectors of entries, as a table has.

use std::collections::TryReserveError;

/// A hash.
#[derive(Clone, Copy)]
pub struct Hash(pub [u8; 20]);

/// A row as a struct.
pub struct NumberedRow {
    number: u64,
    bytes: Vec<u8>,
    is_published: bool,
}

/// A row as an enum.
pub enum Row {
    Locked(u64),
    Published(u64, Vec<u8>),
}

impl NumberedRow {
    pub fn new(number: u64) -> NumberedRow {
        NumberedRow {
            number,
            bytes: Vec::new(),
            is_published: true,
        }
    }

    fn sum(&self) -> u64 {
        self.number
            .wrapping_add(self.bytes.len() as u64)
            .wrapping_add(u64::from(self.is_published))
    }
}

impl Row {
    fn number(&self) -> u64 {
        match self {
            Row::Locked(number) => *number,
            Row::Published(number, bytes) => number.wrapping_add(bytes.len() as u64),
        }
    }
}

/// So many rows.
pub fn numbered_rows(count: u64) -> Result<Vec<(Hash, NumberedRow)>, TryReserveError> {
    let mut rows = Vec::new();
    rows.try_reserve_exact(count as usize + 1)?;
    rows.extend((0..count).map(|number| (Hash([0; 20]), NumberedRow::new(number))));
    Ok(rows)
}

/// So many rows that are variants.
pub fn variants(count: u64) -> Result<Vec<(Hash, Row)>, TryReserveError> {
    let mut rows = Vec::new();
    rows.try_reserve_exact(count as usize + 1)?;
    rows.extend((0..count).map(|number| (Hash([0; 20]), Row::Published(number, Vec::new()))));
    Ok(rows)
}

#[inline(never)]
pub fn insert_row(rows: &mut Vec<(Hash, NumberedRow)>, at: usize, row: NumberedRow) -> bool {
    if at <= rows.len() && rows.len() < rows.capacity() {
        rows.insert(at, (Hash([1; 20]), row));
        return true;
    }
    false
}

#[inline(never)]
pub fn remove_row(rows: &mut Vec<(Hash, NumberedRow)>, at: usize) -> u64 {
    if at < rows.len() {
        let (hash, row) = rows.remove(at);
        return row.sum().wrapping_add(u64::from(hash.0[0]));
    }
    0
}

#[inline(never)]
pub fn insert_variant(rows: &mut Vec<(Hash, Row)>, at: usize, row: Row) -> u64 {
    let number = row.number();
    if at <= rows.len() && rows.len() < rows.capacity() {
        rows.insert(at, (Hash([1; 20]), row));
        return number;
    }
    0
}
