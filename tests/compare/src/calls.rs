//! Lists of calls: with any budget, any table, whatever that held, and any result slice.

use crate::rng::Rng;
use crate::sketch::{FORMER_MOST, MOST_STATES};

pub struct Call {
    pub budget: u64,
    pub table: Vec<u8>,
    pub result: Vec<u8>,
    /// How many bytes stand before each slice: their addresses are not aligned.
    pub before: usize,
}

pub const ENTRY_BYTES: usize = 4;
pub const TABLE_BYTES: usize = ENTRY_BYTES * MOST_STATES;

/// A table that was long enough in version 1 of the interface.
pub const FORMER_TABLE_BYTES: usize = ENTRY_BYTES * FORMER_MOST;

const RESULT_BYTES: usize = 24;

pub fn draw(rng: &mut Rng) -> Call {
    let (table, result) = (table_length(rng), result_length(rng));
    Call { budget: budget(rng), table: garbage(rng, table), result: garbage(rng, result), before: rng.between(16, 31) }
}

fn budget(rng: &mut Rng) -> u64 {
    let largest = if rng.one_in(3) { u64::MAX } else { u64::from(u32::MAX) };
    let drawn = match rng.below(16) {
        0 => 0,
        1..=6 => rng.between(1, 4),
        7..=9 => rng.between(1, 60),
        10..=11 => rng.between(1, 5_000),
        _ => return largest,
    };
    drawn as u64
}

/// 4,096 entries, more of them, bytes left over, or too few.
fn table_length(rng: &mut Rng) -> usize {
    match rng.below(16) {
        0 => rng.pick(&[0, 3, 4, FORMER_TABLE_BYTES, FORMER_TABLE_BYTES + 4, TABLE_BYTES - 4, TABLE_BYTES - 1]),
        1 => rng.below(TABLE_BYTES),
        2..=3 => TABLE_BYTES + rng.between(1, 3),
        4..=6 => TABLE_BYTES + rng.between(4, 40),
        7 => TABLE_BYTES + rng.below(9_000),
        _ => TABLE_BYTES,
    }
}

fn result_length(rng: &mut Rng) -> usize {
    match rng.below(32) {
        0 => rng.pick(&[0, 8, 16, RESULT_BYTES - 1]),
        1 => rng.below(RESULT_BYTES),
        2..=9 => RESULT_BYTES + rng.between(1, 20),
        _ => RESULT_BYTES,
    }
}

/// What a slice held before.
fn garbage(rng: &mut Rng, length: usize) -> Vec<u8> {
    match rng.below(4) {
        0 => vec![0; length],
        1 => vec![0xff; length],
        _ => rng.bytes(length),
    }
}
