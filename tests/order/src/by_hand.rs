//! Sheets A, K, L, M and N of S11, byte by byte, and what the tests on them share.

use crate::{rearrange, restore};

/// What is written behind a head: an ending of cost 100, one of cost 0, and junctions without their checks.
pub(crate) const ENDING_100: [u8; 12] = [2, 0, 9, 0, 0, 0, 100, 0, 0, 0, 0, 0];
pub(crate) const ENDING_0: [u8; 12] = [2, 0, 9, 0, 0, 0, 0, 0, 0, 0, 0, 0];
pub(crate) const JUNCTION: [u8; 9] = [3, 0, 6, 0, 0, 0, 0, 0, 0];

pub(crate) const SHEET_A: [u8; 81] = [
    1, 0, 5, 0, 0, 4, 0, 0, //
    3, 0, 6, 0, 0, 0, 0, 0, 0, 4, 0, 8, 0, 0, 0, 200, 0, 1, 0, 3, 4, 0, 6, 0, 0, 1, 244, 0, 3, //
    3, 0, 6, 0, 0, 0, 0, 0, 0, 4, 0, 8, 0, 0, 1, 144, 0, 2, 0, 3, //
    2, 0, 9, 0, 0, 0, 100, 0, 0, 0, 0, 0, //
    2, 0, 9, 0, 0, 0, 0, 0, 0, 0, 0, 0,
];

pub(crate) const SHEET_K: [u8; 81] = [
    6, 0, 5, 0, 0, 4, 0, 2, //
    2, 0, 9, 0, 0, 0, 100, 0, 0, 0, 0, 0, //
    2, 0, 9, 0, 0, 0, 0, 0, 0, 0, 0, 0, //
    3, 0, 6, 0, 0, 0, 0, 0, 0, 4, 0, 8, 0, 0, 0, 200, 0, 1, 0, 3, 4, 0, 6, 0, 0, 1, 244, 0, 1, //
    3, 0, 6, 0, 0, 0, 0, 0, 0, 4, 0, 8, 0, 0, 1, 144, 0, 0, 0, 1,
];

pub(crate) const SHEET_L: [u8; 74] = [
    6, 0, 5, 0, 0, 4, 0, 2, //
    3, 0, 6, 0, 0, 0, 0, 0, 0, 4, 0, 6, 0, 0, 0, 1, 0, 1, //
    2, 0, 9, 0, 0, 0, 0, 0, 0, 0, 0, 0, //
    3, 0, 6, 0, 0, 0, 0, 0, 0, 4, 0, 6, 0, 0, 0, 1, 0, 0, //
    3, 0, 6, 0, 0, 0, 0, 0, 0, 4, 0, 6, 0, 0, 0, 1, 0, 1,
];

pub(crate) const SHEET_M: [u8; 56] = [
    6, 0, 5, 0, 0, 3, 0, 0, //
    2, 0, 9, 0, 0, 0, 0, 0, 0, 0, 0, 0, //
    3, 0, 6, 0, 0, 0, 0, 0, 0, 4, 0, 6, 0, 0, 0, 1, 0, 2, //
    3, 0, 6, 0, 0, 0, 0, 0, 0, 4, 0, 6, 0, 0, 0, 1, 0, 1,
];

pub(crate) const SHEET_N: [u8; 52] = [
    6, 0, 5, 1, 0, 3, 0, 1, //
    3, 0, 6, 0, 0, 0, 0, 0, 0, //
    5, 0, 7, 0, 0, 0, 0, 0, 0, 1, 4, 0, 10, 0, 0, 0, 1, 0, 0, 0, 0, 0, 2, //
    2, 0, 9, 0, 0, 0, 0, 0, 0, 0, 0, 0,
];

/// A table and a list that are just long enough.
pub(crate) const ENTRIES_BYTES: usize = 16_384;

/// The sheet with these bytes at these places.
pub(crate) fn with(sheet: &[u8], changes: &[(usize, u8)]) -> Vec<u8> {
    let mut bytes = sheet.to_vec();
    for &(place, byte) in changes {
        bytes[place] = byte;
    }
    bytes
}

/// These numbers as entries, and behind them this one, up to 4,096 of them.
pub(crate) fn entries(numbers: &[u32], behind: u32) -> Vec<u8> {
    let mut all = numbers.to_vec();
    all.resize(4096, behind);
    all.into_iter().flat_map(u32::to_le_bytes).collect()
}

/// The new sheet and the list, or the refusal's number. Table, output and list have just the room that they need, and are not 0 before.
pub(crate) fn rearranged(draft: &[u8]) -> Result<(Vec<u8>, Vec<u8>), u32> {
    let (mut output, mut list) = (vec![0xee; draft.len()], vec![0xee; ENTRIES_BYTES]);
    match rearrange(draft, &mut [0xee; ENTRIES_BYTES], &mut output, &mut list) {
        105 => Ok((output, list)),
        number => Err(number),
    }
}

/// The draft that the inverse gives, or the refusal's number.
pub(crate) fn restored(sheet: &[u8], list: &[u8]) -> Result<Vec<u8>, u32> {
    let mut output = vec![0xee; sheet.len()];
    match restore(sheet, &mut [0xee; ENTRIES_BYTES], list, &mut output) {
        106 => Ok(output),
        number => Err(number),
    }
}
