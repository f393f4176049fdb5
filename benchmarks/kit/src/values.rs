//! A large value that is handed up by three functions.

/// Three numbers, as a text has.
#[derive(Clone, Copy)]
pub struct Part {
    pub pointer: u64,
    pub capacity: u64,
    pub length: u64,
}

/// A value of 216 bytes, as a description is.
#[derive(Clone, Copy)]
pub struct Large {
    pub first: [Part; 3],
    pub second: [Part; 3],
    pub third: [Part; 3],
}

/// A refusal.
#[derive(Clone, Copy)]
pub struct Refused;

#[inline(never)]
fn make(seed: u64) -> Result<Large, Refused> {
    if seed >= 1000 {
        return Err(Refused);
    }
    let part = Part {
        pointer: seed,
        capacity: seed,
        length: seed,
    };
    let parts = [part, part, part];
    Ok(Large {
        first: parts,
        second: parts,
        third: parts,
    })
}

#[inline(never)]
fn hand_on(seed: u64) -> Result<Large, Refused> {
    make(seed)
}

#[inline(never)]
fn hand_with(seed: u64) -> Result<(Large, u64), Refused> {
    let large = hand_on(seed)?;
    Ok((large, seed))
}

/// A sum of what was handed up, or 0.
#[inline(never)]
pub fn hand_up(seed: u64) -> u64 {
    match hand_with(seed) {
        Ok((large, seed)) => {
            (large.first[0].pointer ^ large.second[1].capacity ^ large.third[2].length)
                .wrapping_add(seed)
        }
        Err(_) => 0,
    }
}
