//! The host function, on byte slices (S9).

use crate::ldfs::{work, Outcome};
use crate::questions::accept;
use crate::reader::store;
use crate::{Sheet, MOST_STATES};

const TABLE_BYTES: usize = 4 * MOST_STATES;
const RESULT_BYTES: usize = 24;

/// What `ldfs_solve` is to do: returns the refusal number, or 100 settled, 101 over, 102 stopped, 103 none.
pub fn call(sheet: &mut [u8], table: &mut [u8], budget: u64, result: &mut [u8]) -> u32 {
    if result.len() < RESULT_BYTES {
        return 1;
    }
    write_result(result, 0, 0, 0);
    if table.len() < TABLE_BYTES {
        return 1;
    }
    clear_entries(table);
    let mut read = match accept(sheet) {
        Ok(read) => read,
        Err(number) => return number,
    };
    if budget == 0 {
        return 9;
    }
    write_entries(&read, table);
    let done = work(&mut read, budget);
    store(&read, sheet);
    write_result(result, read.states[read.start].value, done.passes, done.raises);
    match done.outcome {
        Outcome::Settled => 100,
        Outcome::Over => 101,
        Outcome::Stopped => 102,
        Outcome::NoPlan => 103,
    }
}

fn write_result(result: &mut [u8], price: u64, passes: u64, raises: u64) {
    for (place, number) in [price, passes, raises].into_iter().enumerate() {
        result[8 * place..8 * place + 8].copy_from_slice(&number.to_le_bytes());
    }
}

/// Every entry becomes 0; bytes left over at the end are not touched.
fn clear_entries(table: &mut [u8]) {
    for entry in table.chunks_exact_mut(4) {
        entry.fill(0);
    }
}

/// Entry i is the offset of state i's field.
fn write_entries(sheet: &Sheet, table: &mut [u8]) {
    for (state, entry) in sheet.states.iter().zip(table.chunks_exact_mut(4)) {
        entry.copy_from_slice(&(state.offset as u32).to_le_bytes());
    }
}
