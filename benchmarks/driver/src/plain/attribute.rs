//! Pairs of a key and a value that a service has, and what is required of them.

use super::copy_text;
use std::cmp::Ordering;
use std::collections::TryReserveError;

pub const MAX_KEY_LENGTH: usize = 64;
pub const MAX_VALUE_LENGTH: usize = 256;
pub const MAX_ATTRIBUTES: usize = 64;
pub const MAX_REQUIRED_KEYS: usize = 64;

/// Why a pair or a key isn't added, in the order in which it is tested.
#[derive(Clone, Copy, Debug, PartialEq, Eq)]
pub enum AttributeError {
    KeyLength,
    ValueLength,
    TooMany,
    OutOfMemory,
}

impl From<TryReserveError> for AttributeError {
    fn from(_: TryReserveError) -> AttributeError {
        AttributeError::OutOfMemory
    }
}

/// A key of 1 to 64 bytes with a value of at most 256.
#[derive(Debug, PartialEq, Eq)]
pub struct Attribute {
    key: Box<str>,
    value: Box<str>,
}

impl Attribute {
    fn try_new(key: &str, value: &str) -> Result<Attribute, TryReserveError> {
        Ok(Attribute {
            key: copy_text(key)?,
            value: copy_text(value)?,
        })
    }

    pub fn key(&self) -> &str {
        &self.key
    }

    pub fn value(&self) -> &str {
        &self.value
    }

    /// By the bytes of the key, then of the value.
    fn compare(&self, key: &str, value: &str) -> Ordering {
        self.key().cmp(key).then_with(|| self.value().cmp(value))
    }
}

fn check_key(key: &str) -> Result<(), AttributeError> {
    if key.is_empty() || key.len() > MAX_KEY_LENGTH {
        return Err(AttributeError::KeyLength);
    }
    Ok(())
}

fn check_value(value: &str) -> Result<(), AttributeError> {
    if value.len() > MAX_VALUE_LENGTH {
        return Err(AttributeError::ValueLength);
    }
    Ok(())
}

/// At most 64 attributes, each once, ascending by key and then by value.
#[derive(Debug, Default, PartialEq, Eq)]
pub struct AttributeSet {
    pairs: Vec<Attribute>,
}

impl AttributeSet {
    pub fn pairs(&self) -> &[Attribute] {
        &self.pairs
    }

    /// Adds a pair where it isn't there yet.
    pub fn add(&mut self, key: &str, value: &str) -> Result<(), AttributeError> {
        check_key(key)?;
        check_value(value)?;
        let found = self.pairs.binary_search_by(|pair| pair.compare(key, value));
        let Err(at) = found else {
            return Ok(());
        };
        if self.pairs.len() >= MAX_ATTRIBUTES {
            return Err(AttributeError::TooMany);
        }
        self.pairs.try_reserve(1)?;
        self.pairs.insert(at, Attribute::try_new(key, value)?);
        Ok(())
    }

    /// Room for so many more.
    pub fn reserve(&mut self, count: usize) -> Result<(), TryReserveError> {
        self.pairs.try_reserve_exact(count)
    }

    /// Puts a pair behind the others. `None` where they wouldn't ascend then, or a length is past
    /// its limit.
    pub fn push_ascending(
        &mut self,
        key: &str,
        value: &str,
    ) -> Result<Option<()>, TryReserveError> {
        let lengths = check_key(key).and_then(|()| check_value(value));
        let is_behind = match self.pairs.last() {
            None => true,
            Some(last) => last.compare(key, value).is_lt(),
        };
        if lengths.is_err() || !is_behind || self.pairs.len() >= MAX_ATTRIBUTES {
            return Ok(None);
        }
        self.pairs.try_reserve(1)?;
        self.pairs.push(Attribute::try_new(key, value)?);
        Ok(Some(()))
    }

    fn has_pair(&self, wanted: &Attribute) -> bool {
        self.pairs
            .binary_search_by(|pair| pair.compare(wanted.key(), wanted.value()))
            .is_ok()
    }

    fn has_key(&self, key: &str) -> bool {
        self.pairs
            .binary_search_by(|pair| pair.key().cmp(key))
            .is_ok()
    }

    pub fn try_clone(&self) -> Result<AttributeSet, TryReserveError> {
        let mut pairs = Vec::new();
        pairs.try_reserve_exact(self.pairs.len())?;
        for pair in &self.pairs {
            pairs.push(Attribute::try_new(pair.key(), pair.value())?);
        }
        Ok(AttributeSet { pairs })
    }
}

/// The pairs that a service has to have, and the keys that it has to have with any value.
#[derive(Debug, Default)]
pub struct AttributeVerifier {
    pairs: AttributeSet,
    keys: Vec<Box<str>>,
}

impl AttributeVerifier {
    pub fn require(&mut self, key: &str, value: &str) -> Result<(), AttributeError> {
        self.pairs.add(key, value)
    }

    pub fn require_key(&mut self, key: &str) -> Result<(), AttributeError> {
        check_key(key)?;
        let Err(at) = self.keys.binary_search_by(|listed| (**listed).cmp(key)) else {
            return Ok(());
        };
        if self.keys.len() >= MAX_REQUIRED_KEYS {
            return Err(AttributeError::TooMany);
        }
        self.keys.try_reserve(1)?;
        self.keys.insert(at, copy_text(key)?);
        Ok(())
    }

    pub fn required_attributes(&self) -> &AttributeSet {
        &self.pairs
    }

    pub fn into_required_attributes(self) -> AttributeSet {
        self.pairs
    }

    /// Whether there is each required pair, and a value for each required key.
    pub fn is_met_by(&self, attributes: &AttributeSet) -> bool {
        self.pairs
            .pairs
            .iter()
            .all(|pair| attributes.has_pair(pair))
            && self.keys.iter().all(|key| attributes.has_key(key))
    }
}
