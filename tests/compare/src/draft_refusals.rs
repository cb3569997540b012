//! Wrong drafts for the rearranger, and wrong sheets and lists for the inverse: one fault or several, of which the first question that is
//! asked decides (S13.8).

use crate::blocks::stages;
use crate::coverage::Coverage;
use crate::draft_calls::{expect, Slices, Which};
use crate::rng::Rng;
use crate::worker::hex;
use crate::{circles, draft_faults, lists, numbering};
use order::Sheet;

/// The questions as they are asked of a sheet whose size and head are right.
pub const ASKED: [u32; 7] = [4, 10, 5, 6, 11, 7, 8];

/// What a call is lent that must be refused: by which question, and which later ones were to be answered no too.
struct Wrong {
    bytes: Vec<u8>,
    list: Vec<u32>,
    refusal: u32,
    later: Vec<u32>,
}

/// A right sheet becomes what the call is lent, gets its faults, and is refused by the first question that has one.
pub fn run(which: Which, sheet: &[u8], rng: &mut Rng, seen: &mut Coverage) -> Result<(), String> {
    let numbers = numbering::draw(rng, stages(sheet).len());
    let Some(wrong) = draw(which, sheet, &numbers, rng) else { return Ok(()) };
    let mut slices = Slices::enough(rng, wrong.bytes.len()).with_list(&wrong.list);
    expect(which, &wrong.bytes, &mut slices, wrong.refusal, seen)?;
    if (which, wrong.refusal) == (Which::Restore, 11) {
        lists::count(&wrong.list, numbers.len(), seen);
    }
    count(which, &wrong, seen).map_err(|why| format!("{why}{}", hex(&wrong.bytes)))
}

/// The last question's fault is put in first, so that an earlier one is found whatever becomes of it.
fn draw(which: Which, sheet: &[u8], numbers: &[usize], rng: &mut Rng) -> Option<Wrong> {
    let (mut bytes, mut list) = (which.lent(sheet, numbers), numbering::entries(numbers));
    let wanted = questions(rng);
    let mut later = Vec::new();
    for question in ASKED.into_iter().rev().filter(|question| wanted.contains(question)) {
        let done = match (which, question) {
            (Which::Rearrange, 11) => circles::put(&mut bytes, rng),
            (Which::Restore, 11) => {
                list = lists::wrong(numbers, rng);
                true
            }
            _ => draft_faults::put(which, &mut bytes, question, rng),
        };
        later.extend(done.then_some(question));
    }
    let refusal = later.pop()?;
    Some(Wrong { bytes, list, refusal, later })
}

/// Which questions came together, and what was wrong with findings.
fn count(which: Which, wrong: &Wrong, seen: &mut Coverage) -> Result<(), String> {
    let read = order::fields(&wrong.bytes, which.tag()).ok();
    for &later in &wrong.later {
        let still = read.as_ref().is_none_or(|read| still_wrong(which, later, read));
        seen.saw_if(still, &format!("{which}: refused {} before {later}", wrong.refusal));
    }
    match (which, wrong.refusal, read) {
        (Which::Rearrange, 11, Some(read)) => circles::count(&read, seen),
        (_, 6, Some(read)) => {
            count_findings(which, &read, seen);
            Ok(())
        }
        _ => Ok(()),
    }
}

/// Is a later question answered no still, as far as it can be asked? A fault of an earlier one may have undone its own.
fn still_wrong(which: Which, question: u32, sheet: &Sheet) -> bool {
    let priced = sheet.in_order() && sheet.in_ranges();
    match question {
        11 if which == Which::Rearrange => sheet.circle().is_some(),
        7 if priced => !sheet.values_hold(),
        8 if priced => !sheet.marks_hold(),
        _ => true,
    }
}

/// Of what is refused 6: why.
fn count_findings(which: Which, sheet: &Sheet, seen: &mut Coverage) {
    let lists = || sheet.states.iter().flat_map(|state| state.actions()).map(|action| &action.successors);
    let any = |wrong: fn(&[usize]) -> bool| lists().any(|list| list.windows(2).any(wrong));
    let beyond = lists().flatten().any(|&finding| finding >= sheet.states.len());
    let equal = any(|pair| pair[0] == pair[1]);
    seen.saw_if(beyond, &format!("{which}: a finding that is no stage"));
    seen.saw_if(any(|pair| pair[0] > pair[1]), &format!("{which}: findings that do not ascend"));
    seen.saw_if(!sheet.whole && equal, &format!("{which}: equal findings of a worst sheet"));
    seen.saw_if(which == Which::Restore && sheet.in_order(), "restore: findings that do not lead on, and nothing else");
}

/// Which questions are to be answered no: 11 every other time, alone or with others, or others alone.
fn questions(rng: &mut Rng) -> Vec<u32> {
    let [first, second, third] = [(); 3].map(|()| rng.pick(&ASKED));
    match rng.below(8) {
        0 | 1 => vec![11],
        2 => vec![11, first],
        3 => vec![11, first, second],
        4 | 5 => vec![first],
        6 => vec![first, second],
        _ => vec![first, second, third],
    }
}

#[cfg(test)]
mod tests {
    use super::run;
    use crate::coverage::{in_order, Coverage};
    use crate::draft_calls::BOTH;
    use crate::rng::Rng;
    use crate::rows::{but, sheet_a};
    use crate::sketch::Form;

    /// Sheet A with both junctions counted, one of them settled, and an ending that is open: it has a place for every fault, and so each
    /// pair of them is refused by the first.
    #[test]
    fn all_pairs() {
        let sheet = but(sheet_a(), |a| {
            (a.states[0].form, a.states[1].form) = (Form::Counted(2), Form::Counted(1));
            (a.states[0].value, a.states[0].mark, a.states[0].chosen) = (500, 1, 1);
            (a.states[1].value, a.states[3].mark) = (400, 1);
        });
        let (mut rng, mut seen) = (Rng::new(1), Coverage::default());
        for which in BOTH {
            for _ in 0..3_000 {
                run(which, &sheet, &mut rng, &mut seen).unwrap_or_else(|why| panic!("{why}"));
            }
            for name in in_order(which) {
                assert!(seen.lines().any(|(seen, _)| *seen == name), "{name}");
            }
        }
    }
}
