//! The two host functions, on slices of bytes (S13.20, S13.21).

use crate::renumbering::{new_sheet, restored};
use crate::{questions, Sheet, ENTRY_BYTES, MOST_STATES};

const ROOM: u32 = 1;
const REARRANGED: u32 = 105;
const RESTORED: u32 = 106;

/// What `ldfs_rearrange` is to do: the refusal's number, or 105.
pub fn rearrange(sheet: &[u8], table: &mut [u8], output: &mut [u8], list: &mut [u8]) -> u32 {
    if !enough(sheet, table, output, list) {
        return ROOM;
    }
    fill(table, &[]);
    let draft = match questions::draft(sheet) {
        Ok(draft) => draft,
        Err(number) => return number,
    };
    let order = draft.order();
    assert_eq!(order.len(), draft.states.len(), "each stage of a draft without a circle is placed (S13.11)");
    fill(table, &offsets(&draft));
    output[..sheet.len()].copy_from_slice(&new_sheet(&draft, &order));
    fill(list, &order);
    REARRANGED
}

/// What `ldfs_restore` is to do: the refusal's number, or 106.
pub fn restore(sheet: &[u8], table: &mut [u8], list: &[u8], output: &mut [u8]) -> u32 {
    if !enough(sheet, table, output, list) {
        return ROOM;
    }
    fill(table, &[]);
    let ordinary = match questions::ordinary(sheet, list) {
        Ok(ordinary) => ordinary,
        Err(number) => return number,
    };
    let numbers: Vec<usize> = ordinary.listed(list).collect();
    fill(table, &offsets(&ordinary));
    output[..sheet.len()].copy_from_slice(&restored(&ordinary, &numbers));
    RESTORED
}

/// Question 1 (S13.8). Only whole entries count.
fn enough(sheet: &[u8], table: &[u8], output: &[u8], list: &[u8]) -> bool {
    let serves = |slice: &[u8]| slice.len() / ENTRY_BYTES >= MOST_STATES;
    serves(table) && serves(list) && output.len() >= sheet.len()
}

/// Where the fields of the stages stand (S3.5).
fn offsets(sheet: &Sheet) -> Vec<usize> {
    sheet.states.iter().map(|state| state.at).collect()
}

/// The whole entries become these numbers and then zeros, to the last one. Bytes left over behind it stay.
fn fill(slice: &mut [u8], numbers: &[usize]) {
    let whole = slice.len() / ENTRY_BYTES * ENTRY_BYTES;
    slice[..whole].fill(0);
    for (entry, &number) in slice.chunks_exact_mut(ENTRY_BYTES).zip(numbers) {
        entry.copy_from_slice(&(number as u32).to_le_bytes());
    }
}
