//! The lengths of what the two calls are lent, on both sides of each border (S4.2, S13.8, S13.21).

use crate::blocks::stages;
use crate::coverage::Coverage;
use crate::draft_calls::{expect, Slices, Which, LIST_BYTES};
use crate::numbering;
use crate::rng::Rng;

/// Lengths of a table or a list. A few bytes more than whole entries do not count.
const ENTRIES: [usize; 16] =
    [0, 3, 16_380, 16_381, 16_382, 16_383, 16_383, 16_384, 16_385, 16_386, 16_387, 16_387, 16_388, 16_388, 30_001, 70_000];

/// A right sheet becomes what the call is lent, or is cut or lengthened. The first question that its lengths answer no refuses it.
pub fn run(which: Which, sheet: &[u8], rng: &mut Rng, seen: &mut Coverage) -> Result<(), String> {
    let numbers = numbering::at_random(rng, stages(sheet).len());
    let mut bytes = which.lent(sheet, &numbers);
    let number = resized(which, &mut bytes, rng);
    let (mut table, mut output, mut list) = (LIST_BYTES, bytes.len(), LIST_BYTES);
    let drawn = rng.below(5);
    if drawn == 0 || drawn == 4 {
        table = rng.pick(&ENTRIES);
    }
    if drawn == 1 || drawn == 4 {
        list = rng.pick(&ENTRIES);
    }
    if drawn == 2 || drawn == 4 {
        output = rng.pick(&[0, output.saturating_sub(1), output.saturating_sub(1), output, output + 1, output + 5_000, 60_000]);
    }
    let mut slices = Slices::new(rng, table, output, list).with_list(&numbering::entries(&numbers));
    let short = [table < LIST_BYTES, output < bytes.len(), list < LIST_BYTES];
    expect(which, &bytes, &mut slices, if short.contains(&true) { 1 } else { number }, seen)?;
    count(which, bytes.len(), [table, output, list], short, seen);
    Ok(())
}

/// The sheet as it is, or of another length; and the number that is due where there is room. A sheet that is cut lacks stages, and one that
/// is lengthened has something behind them.
fn resized(which: Which, bytes: &mut Vec<u8>, rng: &mut Rng) -> u32 {
    let length = bytes.len();
    bytes.resize(rng.pick(&[length, length, length, length, length, length, 0, 16, 17, 60_000, 60_001]), 0);
    match bytes.len() {
        0..=16 | 60_001.. => 2,
        now if now != length => 4,
        _ => which.done(),
    }
}

/// A slice that is too short counts where no other is.
fn count(which: Which, sheet: usize, lengths: [usize; 3], short: [bool; 3], seen: &mut Coverage) {
    let room = !short.contains(&true);
    let sizes = [(0, "no"), (16, "16"), (17, "17"), (60_000, "60,000"), (60_001, "60,001")];
    for (size, told) in sizes {
        seen.saw_if(room && sheet == size, &format!("{which}: a sheet of {told} bytes"));
    }
    let [table, output, list] = lengths;
    let told = [("table", of_entries(table)), ("output", of_output(output, sheet)), ("list", of_entries(list))];
    for (place, (what, how)) in told.into_iter().enumerate() {
        let counts = room || short[place] && short.iter().filter(|&&short| short).count() == 1;
        seen.saw_if(counts, &format!("{which}: {what} {how}"));
    }
}

fn of_entries(length: usize) -> &'static str {
    match length {
        0 => "empty",
        1..4 => "of less than an entry",
        4..16_380 => "too short",
        16_380..16_384 => "up to four bytes too short",
        16_384 => "just long enough",
        16_385..16_388 => "with one to three bytes left over",
        16_388 => "of one entry more",
        _ => "of many entries more",
    }
}

fn of_output(length: usize, sheet: usize) -> &'static str {
    match length {
        _ if length == sheet => "just long enough",
        0 => "empty",
        _ if length + 1 == sheet => "one byte too short",
        _ if length < sheet => "too short",
        _ => "longer",
    }
}
