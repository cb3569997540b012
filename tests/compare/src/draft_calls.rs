//! One call on a draft, or one that makes a draft (S13), by the library and by `order`.

use crate::calls::{ENTRY_BYTES, TABLE_BYTES};
use crate::check::same;
use crate::coverage::Coverage;
use crate::lent::Lent;
use crate::numbering;
use crate::rng::Rng;
use crate::worker::hex;
use std::fmt;

/// The two calls: that of the rearranger, and that of its inverse.
#[derive(Clone, Copy, PartialEq)]
pub enum Which {
    Rearrange,
    Restore,
}

pub const BOTH: [Which; 2] = [Which::Rearrange, Which::Restore];

const REARRANGED: u32 = 105;
const RESTORED: u32 = 106;

/// Both calls want table and list to be this long (S13.21).
pub const LIST_BYTES: usize = TABLE_BYTES;

impl fmt::Display for Which {
    fn fmt(&self, f: &mut fmt::Formatter) -> fmt::Result {
        f.write_str(match self {
            Which::Rearrange => "rearrange",
            Which::Restore => "restore",
        })
    }
}

impl Which {
    /// What it returns where it is not refused.
    pub fn done(self) -> u32 {
        match self {
            Which::Rearrange => REARRANGED,
            Which::Restore => RESTORED,
        }
    }

    /// The tag that it wants of the sheet's head.
    pub fn tag(self) -> u8 {
        match self {
            Which::Rearrange => order::DRAFT_TAG,
            Which::Restore => order::SHEET_TAG,
        }
    }

    /// What it is lent of a right sheet: the draft by these numbers, or the sheet itself.
    pub fn lent(self, sheet: &[u8], numbers: &[usize]) -> Vec<u8> {
        match self {
            Which::Rearrange => numbering::draft(sheet, numbers),
            Which::Restore => sheet.to_vec(),
        }
    }

    fn by_library(self, sheet: &[u8], table: &mut [u8], output: &mut [u8], list: &mut [u8]) -> u32 {
        match self {
            Which::Rearrange => library::rearrange(sheet, table, output, list),
            Which::Restore => library::restore(sheet, table, list, output),
        }
    }

    fn by_order(self, sheet: &[u8], table: &mut [u8], output: &mut [u8], list: &mut [u8]) -> u32 {
        match self {
            Which::Rearrange => order::rearrange(sheet, table, output, list),
            Which::Restore => order::restore(sheet, table, list, output),
        }
    }
}

/// What is lent beside the sheet.
#[derive(Clone)]
pub struct Slices {
    pub table: Vec<u8>,
    pub output: Vec<u8>,
    pub list: Vec<u8>,
    /// How many bytes stand before each slice: their addresses are not aligned.
    pub before: usize,
}

impl Slices {
    /// Slices of these lengths, whatever they hold.
    pub fn new(rng: &mut Rng, table: usize, output: usize, list: usize) -> Slices {
        let [table, output, list] = [table, output, list].map(|length| content(rng, length));
        Slices { table, output, list, before: rng.between(16, 31) }
    }

    /// Room for a sheet of so many bytes, and now and then some more.
    pub fn enough(rng: &mut Rng, bytes: usize) -> Slices {
        let [table, output, list] = [TABLE_BYTES, bytes, LIST_BYTES].map(|least| least + rng.pick(&[0, 0, 0, 0, 1, 3, 4, 41]));
        Slices::new(rng, table, output, list)
    }

    /// The list begins with these entries, and what stands behind them stays.
    pub fn with_list(mut self, numbers: &[u32]) -> Slices {
        for (number, entry) in numbers.iter().zip(self.list.chunks_exact_mut(ENTRY_BYTES)) {
            entry.copy_from_slice(&number.to_le_bytes());
        }
        self
    }

    /// The first entries of the list, so many of them.
    pub fn listed(&self, count: usize) -> Vec<usize> {
        let entry = |bytes: &[u8]| u32::from_le_bytes(bytes.try_into().expect("four bytes")) as usize;
        self.list.chunks_exact(ENTRY_BYTES).take(count).map(entry).collect()
    }
}

/// A few bytes over and over.
fn content(rng: &mut Rng, length: usize) -> Vec<u8> {
    let drawn = rng.next().to_le_bytes();
    let some = rng.pick(&[[0; 8], [0xff; 8], drawn, drawn]);
    let mut bytes = some.repeat(length / some.len() + 1);
    bytes.truncate(length);
    bytes
}

/// Makes the call by both. Number and slices are compared in full, and the slices then hold what it left. The error has the sheet, if that
/// is short.
pub fn call(which: Which, sheet: &[u8], slices: &mut Slices, seen: &mut Coverage) -> Result<u32, String> {
    let number = compared(which, sheet, slices).map_err(|why| format!("{which}: {why}{}", hex(sheet)))?;
    seen.saw(&if number == which.done() { format!("{which}: done") } else { format!("{which}: refused {number}") });
    Ok(number)
}

/// The same where the number is known.
pub fn expect(which: Which, sheet: &[u8], slices: &mut Slices, expected: u32, seen: &mut Coverage) -> Result<(), String> {
    let number = call(which, sheet, slices, seen)?;
    if number == expected {
        Ok(())
    } else {
        Err(format!("{which}: both return {number}, but {expected} is due{}", hex(sheet)))
    }
}

fn compared(which: Which, sheet: &[u8], slices: &mut Slices) -> Result<u32, String> {
    let before = slices.clone();
    let mut lent =
        [sheet, &before.table, &before.output, &before.list].map(|bytes| Lent::new(bytes, before.before + bytes.len() % 5));
    let [of_sheet, table, output, list] = &mut lent;
    let found = which.by_library(of_sheet.slice(), table.slice(), output.slice(), list.slice());
    let number = which.by_order(sheet, &mut slices.table, &mut slices.output, &mut slices.list);
    if found != number {
        return Err(format!("returned {found}, expected {number}"));
    }
    same("sheet", of_sheet.slice(), sheet)?;
    same("table", table.slice(), &slices.table)?;
    same("output", output.slice(), &slices.output)?;
    same("list", list.slice(), &slices.list)?;
    if !lent.iter().all(Lent::guards_hold) {
        return Err("bytes outside the slices are written".to_string());
    }
    if number < 100 {
        refusal_left(number, &before, slices)?;
    }
    Ok(number)
}

/// A refused call alters neither output nor list. Refusal 1 leaves the table as it was, and any other makes every whole entry 0 (S13.10).
fn refusal_left(number: u32, before: &Slices, after: &Slices) -> Result<(), String> {
    same("output of a refused call", &after.output, &before.output)?;
    same("list of a refused call", &after.list, &before.list)?;
    let mut table = before.table.clone();
    if number != 1 {
        let entries = table.len() / ENTRY_BYTES * ENTRY_BYTES;
        table[..entries].fill(0);
    }
    same("table of a refused call", &after.table, &table)
}
