//! The two functions on drafts [S13], of the static library and of a plain C copy, on drafts of about 60,000 bytes and on a small one.
//!
//! A draft is rearranged, and the new sheet restored by the list that belongs to it. Both work on the same slices, made once for a batch
//! of calls, outside the measured time. Rounds of the library and of the copy follow one another, and the quickest round of each counts.
//! At random, and to and fro, nearly all of the time goes into one loop of a few instructions, the search for the next stage to place.
//! It takes twice as long where the linker puts it across a border of 32 bytes, in the library or in the copy: instructions tell more.

use crate::draft_sheets::all;
use crate::sheets::Sample;
use crate::{MOST_COPIES, ROUNDS, ROUND_TIME, TABLE_BYTES};
use std::time::{Duration, Instant};

extern "C" {
    fn plain_rearrange(s: *const u8, sl: usize, t: *mut u8, tl: usize, o: *mut u8, ol: usize, l: *mut u8, ll: usize) -> u32;
    fn plain_restore(s: *const u8, sl: usize, t: *mut u8, tl: usize, l: *const u8, ll: usize, o: *mut u8, ol: usize) -> u32;
}

/// A draft; where it is not refused, the new sheet and the list; and what the rearranger returns.
struct Case {
    name: &'static str,
    draft: Vec<u8>,
    sheet: Vec<u8>,
    list: Vec<u8>,
    number: u32,
}

/// The slices that a call may write.
#[derive(PartialEq)]
struct Lent {
    table: Vec<u8>,
    output: Vec<u8>,
    list: Vec<u8>,
}

type Call = fn(&Case, &mut Lent) -> u32;

/// The functions by their names in C: those of the library, and those of the copy.
const REARRANGE: [(&str, Call); 2] = [("ldfs_rearrange", library_rearrange), ("plain_rearrange", copy_rearrange)];
const RESTORE: [(&str, Call); 2] = [("ldfs_restore", library_restore), ("plain_restore", copy_restore)];

fn library_rearrange(case: &Case, lent: &mut Lent) -> u32 {
    library::rearrange(&case.draft, &mut lent.table, &mut lent.output, &mut lent.list)
}

fn library_restore(case: &Case, lent: &mut Lent) -> u32 {
    library::restore(&case.sheet, &mut lent.table, &case.list, &mut lent.output)
}

fn copy_rearrange(case: &Case, lent: &mut Lent) -> u32 {
    let (draft, table, output, list) = (&case.draft, &mut lent.table, &mut lent.output, &mut lent.list);
    let (tl, ol, ll) = (table.len(), output.len(), list.len());
    // Each pointer is that of a slice, handed over with its length, and no two overlap.
    unsafe {
        plain_rearrange(draft.as_ptr(), draft.len(), table.as_mut_ptr(), tl, output.as_mut_ptr(), ol, list.as_mut_ptr(), ll)
    }
}

fn copy_restore(case: &Case, lent: &mut Lent) -> u32 {
    let (sheet, table, list, output) = (&case.sheet, &mut lent.table, &case.list, &mut lent.output);
    let (tl, ol) = (table.len(), output.len());
    // Each pointer is that of a slice, handed over with its length, and no two overlap.
    unsafe {
        plain_restore(sheet.as_ptr(), sheet.len(), table.as_mut_ptr(), tl, list.as_ptr(), list.len(), output.as_mut_ptr(), ol)
    }
}

/// Slices of the bytes that are wanted, and so many more, all of them 7.
fn lent(draft: &[u8], more: usize) -> Lent {
    let [table, output, list] = [TABLE_BYTES, draft.len(), TABLE_BYTES].map(|bytes| vec![7; bytes + more]);
    Lent { table, output, list }
}

/// A draft of which nothing has been made yet.
fn case(sample: Sample) -> Case {
    Case { name: sample.name, draft: sample.bytes, sheet: Vec::new(), list: Vec::new(), number: 0 }
}

/// A call on fresh slices: the number, and what it leaves.
fn answer(call: Call, case: &Case, more: usize) -> (u32, Lent) {
    let mut lent = lent(&case.draft, more);
    (call(case, &mut lent), lent)
}

/// The number and the slices on which library and copy agree. The slices have two entries and three bytes more than they have to have.
fn agreed(calls: [(&str, Call); 2], case: &Case) -> (u32, Lent) {
    let [library, copy] = calls.map(|(_, call)| answer(call, case, 11));
    assert!(library == copy, "{}: {} and {} differ", case.name, calls[0].0, calls[1].0);
    library
}

/// What the rearranger makes of a draft: the number, and where that is 105 the new sheet and the list.
fn keep(case: &mut Case, (number, lent): (u32, Lent)) {
    case.number = number;
    if number == 105 {
        case.sheet = lent.output[..case.draft.len()].to_vec();
        case.list = lent.list;
    }
}

/// The draft with what is made of it. Both agree on both calls, and the second gives the draft back.
fn checked(sample: Sample) -> Case {
    let mut case = case(sample);
    let answer = agreed(REARRANGE, &case);
    keep(&mut case, answer);
    if case.number == 105 {
        let (number, lent) = agreed(RESTORE, &case);
        assert!(number == 106 && lent.output.starts_with(&case.draft), "{}: the draft is not restored", case.name);
    }
    case
}

/// One call, for a profiler. What is restored was rearranged by the copy before.
pub fn once(function: &str, name: &str) {
    let mut case = case(all().into_iter().find(|sample| sample.name == name).expect("a draft's name"));
    let (_, call) = REARRANGE.into_iter().chain(RESTORE).find(|(name, _)| *name == function).expect("a function's name in C");
    if function.ends_with("restore") {
        let before = answer(copy_rearrange, &case, 0);
        keep(&mut case, before);
    }
    answer(call, &case, 0);
}

pub fn measure_all() {
    println!(
        "{:<16} {:>7} {:>7} {:>12} {:>12} {:>9} {:>12} {:>12} {:>9}",
        "draft", "bytes", "number", "rearranged", "plain C", "library/C", "restored", "plain C", "library/C"
    );
    for case in all().into_iter().map(checked) {
        print!("{:<16} {:>7} {:>7}", case.name, case.draft.len(), case.number);
        print_times(REARRANGE, &case);
        if case.number == 105 {
            print_times(RESTORE, &case);
        }
        println!();
    }
}

fn print_times(calls: [(&str, Call); 2], case: &Case) {
    let once = batch(calls[1].1, case, 1).max(Duration::from_nanos(100));
    let copies = (ROUND_TIME.as_nanos() / once.as_nanos()).clamp(1, MOST_COPIES as u128) as usize;
    let mut best = [Duration::MAX; 2];
    for _ in 0..ROUNDS {
        for (place, (_, call)) in calls.iter().enumerate() {
            best[place] = best[place].min(batch(*call, case, copies));
        }
    }
    let [library, c] = best.map(|time| time.as_secs_f64() * 1e6 / copies as f64);
    print!(" {library:>9.2} us {c:>9.2} us {:>9.2}", library / c);
}

/// So many calls on the same slices.
fn batch(call: Call, case: &Case, copies: usize) -> Duration {
    let mut lent = lent(&case.draft, 0);
    let began = Instant::now();
    for _ in 0..copies {
        call(case, &mut lent);
    }
    began.elapsed()
}

#[cfg(test)]
mod tests {
    use super::*;
    use crate::draft_sheets::sheet_k;
    use std::collections::BTreeSet;

    /// K with junction 2 counted, which stands at 32 and has two checks.
    fn counted_k() -> Vec<u8> {
        let mut bytes = sheet_k();
        (bytes[32], bytes[34]) = (5, 7);
        bytes.insert(41, 2);
        bytes
    }

    /// Every byte in turn with every value, and every shorter length.
    fn damaged(bytes: &[u8]) -> Vec<Vec<u8>> {
        let mut all: Vec<Vec<u8>> = (0..bytes.len()).map(|length| bytes[..length].to_vec()).collect();
        for place in 0..bytes.len() {
            for value in 0..=255 {
                let mut changed = bytes.to_vec();
                changed[place] = value;
                all.push(changed);
            }
        }
        all
    }

    #[test]
    fn both_agree_on_damaged_drafts() {
        let mut numbers = BTreeSet::new();
        for bytes in damaged(&counted_k()) {
            numbers.insert(agreed(REARRANGE, &case(Sample { name: "damaged", bytes })).0);
        }
        assert!(numbers.into_iter().eq([2, 3, 4, 5, 6, 7, 8, 10, 11, 105]));
    }

    #[test]
    fn both_agree_on_damaged_sheets_and_lists() {
        let mut whole = checked(Sample { name: "K", bytes: counted_k() });
        let (sheet, list) = (whole.sheet.clone(), whole.list.clone());
        let mut numbers = BTreeSet::new();
        for sheet in damaged(&sheet) {
            whole.sheet = sheet;
            numbers.insert(agreed(RESTORE, &whole).0);
        }
        whole.sheet = sheet;
        for front in damaged(&list[..20]) {
            whole.list = [&front, &list[front.len()..]].concat();
            numbers.insert(agreed(RESTORE, &whole).0);
        }
        assert!(numbers.into_iter().eq([2, 3, 4, 5, 6, 7, 8, 10, 11, 106]));
    }
}
