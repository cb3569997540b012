//! Counted junctions (S3.6): that the loss of a check is found (S8.18), and what the sheets had. All is taken from the sheets, not from how
//! they were drawn or damaged.

use crate::blocks::stages;
use crate::calls::Call;
use crate::check::{one, refusal_by_sweep, settled};
use crate::coverage::Coverage;
use crate::damage::places;
use crate::sketch::{FEW_STATES, MOST_STATES};
use sweep::{Node, Sheet, CEILING, NONE};

/// Tag and length of a counted junction.
const COUNTED: [u8; 3] = [5, 0, 7];

/// Where a counted junction's number stands in its field.
const NUMBER_IN: usize = 9;

/// An accepted sheet is refused 10 without the field of a counted junction's check, the last of them or another, by any of the calls whose
/// table and result are long enough (S8.18).
pub fn lost(outset: &[u8], first: &Sheet, calls: &[Call], seen: &mut Coverage) -> Result<(), String> {
    for (state, check) in losses(first) {
        let told = |why| format!("stage {state} without its check {check}: {why}");
        let mut bytes = without(outset, state, check);
        for call in calls {
            let number = one(&mut bytes, call).map_err(told)?.number;
            refusal_by_sweep(&bytes, call, number).map_err(told)?;
            if number != 10 && number != 1 {
                return Err(told(format!("returned {number}")));
            }
            let last = check + 1 == first.actions(state).len();
            seen.saw_if(number == 10 && last, "lost: the last check of a counted junction");
            seen.saw_if(number == 10 && !last, "lost: a check before the last of a counted junction");
            seen.saw_if(number == 10 && call.budget == 0, "lost: with the budget 0");
        }
    }
    Ok(())
}

/// Checks of the first, the middle and the last counted junction that has any: the last one, and another one.
fn losses(sheet: &Sheet) -> Vec<(usize, usize)> {
    let checks = |state: usize| sheet.actions(state).len();
    let all: Vec<usize> = counted(sheet).filter(|&state| checks(state) > 0).collect();
    let mut some: Vec<usize> = [all.first(), all.get(all.len() / 2), all.last()].into_iter().flatten().copied().collect();
    some.dedup();
    let others = some.iter().filter(|&&state| checks(state) > 1).map(|&state| (state, state % (checks(state) - 1)));
    some.iter().map(|&state| (state, checks(state) - 1)).chain(others).collect()
}

/// The bytes without the field of a check, which goes as far as the next field.
fn without(bytes: &[u8], state: usize, check: usize) -> Vec<u8> {
    let own = stages(bytes)[state];
    let mut behind = places(bytes).into_iter().chain([bytes.len()]).filter(|&at| at > own).skip(check);
    let (from, to) = (behind.next().unwrap_or(bytes.len()), behind.next().unwrap_or(bytes.len()));
    [&bytes[..from], &bytes[to..]].concat()
}

fn counted(sheet: &Sheet) -> impl Iterator<Item = usize> + '_ {
    (0..sheet.nodes.len()).filter(|&state| sheet.counts[state].is_some())
}

fn plain(sheet: &Sheet) -> impl Iterator<Item = usize> + '_ {
    let junction = |state: usize| matches!(sheet.nodes[state], Node::Decision(_));
    (0..sheet.nodes.len()).filter(move |&state| junction(state) && sheet.counts[state].is_none())
}

/// Of an accepted sheet of so many bytes that has a counted junction.
pub fn count_sizes(length: usize, sheet: &Sheet, seen: &mut Coverage) {
    if counted(sheet).next().is_some() {
        seen.saw_if(length == 18, "counted: 18 bytes");
        seen.saw_if(length == 60_000, "counted: 60,000 bytes");
        seen.saw_if(sheet.nodes.len() == MOST_STATES, "counted: 4,096 states");
    }
}

/// Of an accepted sheet that was worked: what it had, and what work made of its counted junctions.
pub fn count(first: &Sheet, last: &Sheet, carried_on: bool, seen: &mut Coverage) {
    let (has_counted, has_plain) = (counted(first).next().is_some(), plain(first).next().is_some());
    seen.saw_if(has_plain && !has_counted, "forms: plain junctions only");
    seen.saw_if(has_counted && !has_plain, "forms: counted junctions only");
    seen.saw_if(has_counted && has_plain, "forms: both in one sheet");
    if !has_counted {
        return;
    }
    let touched = first.cells.iter().any(|cell| cell.value > 0 || cell.mark == 1);
    seen.saw_if(touched && !first.solved(first.start), "counted: partly worked at the outset");
    seen.saw_if(carried_on, "counted: stopped and carried on");
    let raised = |state: usize| first.cells[state].value < last.cells[state].value && !last.solved(state);
    seen.saw_if(counted(first).any(raised), "counted: raised by work and open still");
    let by_work: Vec<usize> = counted(first).filter(|&state| settled(first, last, state)).collect();
    count_settled(last, &by_work, seen);
}

/// The counted junctions that work settled.
fn count_settled(sheet: &Sheet, by_work: &[usize], seen: &mut Coverage) {
    let at = |value: u64| by_work.iter().any(|&state| sheet.cells[state].value == value);
    let checks = |count: usize| by_work.iter().any(|&state| sheet.actions(state).len() == count);
    let below = by_work.iter().any(|&state| sheet.cells[state].value < CEILING);
    let many = sheet.nodes.len() > FEW_STATES;
    seen.saw_if(below && !sheet.whole, "counted: settled on a worst sheet");
    seen.saw_if(below && sheet.whole, "counted: settled on a whole sheet");
    seen.saw_if(below && many, "counted: settled with more than 256 states");
    seen.saw_if(at(CEILING), "counted: settled at the ceiling");
    seen.saw_if(at(NONE), "counted: settled at none");
    seen.saw_if(checks(0), "counted: settled without checks");
    seen.saw_if(checks(16), "counted: settled with 16 checks");
    let later = by_work.iter().any(|&state| sheet.cells[state].chosen > 0);
    seen.saw_if(later, "counted: settled by another check than the first");
}

/// Of a settled sheet as work left it: does the plan, and so what `price` prints, reach a counted junction?
pub fn listed(sheet: &Sheet, seen: &mut Coverage) {
    let reached = sheet.plan_states().into_iter().any(|state| sheet.counts[state].is_some());
    seen.saw_if(reached, "price: a counted junction's line");
}

/// Of a sheet that was refused by this question: what was wrong with its forms and numbers.
pub fn count_refused(bytes: &[u8], question: u32, seen: &mut Coverage) {
    match question {
        4 => count_fields(bytes, seen),
        10 => count_numbers(bytes, seen),
        _ => (),
    }
}

/// Fields out of place: each is counted that would be in place, and the sheet accepted, if just that were put right; and those that stand
/// behind a wrong number, which question 10 comes too late for.
fn count_fields(bytes: &[u8], seen: &mut Coverage) {
    seen.saw_if(behind_a_wrong_number(bytes), "refused 4: behind a wrong number");
    seen.saw_if(one_too_many(bytes), "refused 4: 17 checks where 17 is written, and nothing else");
    seen.saw_if(mismatched(bytes, [5, 6], [3, 7]), "refused 4: tag 05 with length 6, and nothing else");
    seen.saw_if(mismatched(bytes, [3, 7], [5, 6]), "refused 4: tag 03 with length 7, and nothing else");
}

/// Counted junctions with their checks, as far as fields follow one another: the stage, where its field stands and where the next stage's
/// does, and the numbers of checks that are written and that follow.
fn numbered(bytes: &[u8]) -> Vec<(usize, usize, usize, u8, usize)> {
    let (stages, fields) = (stages(bytes), places(bytes));
    let mut found = Vec::new();
    for (state, &at) in stages.iter().enumerate() {
        if bytes[at..at + 3] == COUNTED && at + NUMBER_IN < bytes.len() {
            let end = stages.get(state + 1).copied().unwrap_or(bytes.len());
            let checks = fields.iter().filter(|&&field| at < field && field < end).count();
            found.push((state, at, end, bytes[at + NUMBER_IN], checks));
        }
    }
    found
}

/// Are the stages up to the first wrong number in place, its own checks too?
fn behind_a_wrong_number(bytes: &[u8]) -> bool {
    let wrong = numbered(bytes).into_iter().find(|&(_, _, _, written, checks)| usize::from(written) != checks);
    wrong.is_some_and(|(state, _, end, _, _)| {
        let [high, low] = (state as u16 + 1).to_be_bytes();
        let head = [1, 0, 5, bytes[3], high, low, 0, 0];
        sweep::read(&[&head[..], &bytes[8..end]].concat()).err() == Some(10)
    })
}

/// A counted junction with 17 checks that writes 17, and with 16 checks and that number the sheet would be accepted.
fn one_too_many(bytes: &[u8]) -> bool {
    let crowded = numbered(bytes).into_iter().find(|&(_, _, _, written, checks)| (written, checks) == (17, 17));
    crowded.is_some_and(|(state, at, _, _, _)| {
        let mut right = without(bytes, state, 16);
        right[at + NUMBER_IN] = 16;
        sweep::read(&right).is_ok()
    })
}

/// A field with this tag and length, and with the other tag, or with the other length, the sheet would be accepted.
fn mismatched(bytes: &[u8], [tag, length]: [u8; 2], [other_tag, other_length]: [u8; 2]) -> bool {
    let accepted = |at: usize, byte: u8| {
        let mut right = bytes.to_vec();
        right[at] = byte;
        sweep::read(&right).is_ok()
    };
    let here = |&at: &usize| bytes[at..at + 3] == [tag, 0, length];
    places(bytes).into_iter().find(here).is_some_and(|at| accepted(at, other_tag) || accepted(at + 2, other_length))
}

/// Wrong numbers: what else would refuse the sheet, or, where nothing does, how they were wrong.
fn count_numbers(bytes: &[u8], seen: &mut Coverage) {
    let Ok(mut sheet) = sweep::fields(bytes) else { return };
    let checks = |sheet: &Sheet, state: usize| sheet.actions(state).len() as u8;
    let numbers: Vec<(usize, u8)> = counted(&sheet).filter_map(|state| Some((state, sheet.counts[state]?))).collect();
    let wrong: Vec<(usize, u8)> = numbers.iter().copied().filter(|&(state, written)| written != checks(&sheet, state)).collect();
    for &(state, _) in &wrong {
        sheet.counts[state] = Some(checks(&sheet, state));
    }
    if let Err(later) = sweep::ask(&sheet) {
        return seen.saw(&format!("refused 10: refused {later} with the right number"));
    }
    let any = |holds: fn(u8, u8) -> bool| wrong.iter().any(|&(state, written)| holds(written, checks(&sheet, state)));
    seen.saw_if(any(|written, checks| written == checks + 1), "refused 10: one more is written than follow");
    seen.saw_if(any(|written, checks| checks.checked_sub(1) == Some(written)), "refused 10: one fewer is written than follow");
    seen.saw_if(any(|written, _| written == 0), "refused 10: 0 is written where checks follow");
    seen.saw_if(any(|written, _| written == 200), "refused 10: 200 is written");
    seen.saw_if(any(|written, _| written == 255), "refused 10: 255 is written");
    seen.saw_if(any(|written, checks| written.abs_diff(checks) > 1), "refused 10: the number is off by more than one");
    seen.saw_if(any(|_, checks| checks == 0), "refused 10: a number is written where no check follows");
    seen.saw_if(any(|written, checks| (written, checks) == (17, 16)), "refused 10: 17 is written where 16 checks follow");
    seen.saw_if(wrong.len() > 1, "refused 10: several numbers are wrong");
    seen.saw_if(wrong.len() == 1 && numbers.len() > 1, "refused 10: one of several numbers is wrong");
    seen.saw_if(plain(&sheet).next().is_some(), "refused 10: beside plain junctions");
}

#[cfg(test)]
mod tests {
    use super::{count, count_refused, losses, without};
    use crate::calls::TABLE_BYTES;
    use crate::coverage::Coverage;
    use crate::rows::{but, counted_with_checks, sheet_a, sheet_f, sheet_j};
    use crate::sketch::{Form, Sketch, NONE};
    use sweep::Sheet;

    fn accepted(bytes: &[u8]) -> Sheet {
        sweep::read(bytes).unwrap_or_else(|number| panic!("refused {number}"))
    }

    fn names(seen: &Coverage) -> String {
        seen.lines().map(|(name, _)| name.as_str()).collect::<Vec<_>>().join("; ")
    }

    /// What is counted of a sheet that is worked with so large a budget.
    fn worked(sketch: &Sketch, budget: u64) -> String {
        let outset = sketch.bytes();
        let mut bytes = outset.clone();
        procedure::call(&mut bytes, &mut [0; TABLE_BYTES], budget, &mut [0; 24]);
        let mut seen = Coverage::default();
        count(&accepted(&outset), &accepted(&bytes), false, &mut seen);
        names(&seen)
    }

    /// What is counted of a sheet that is refused by this question.
    fn refused(bytes: &[u8], question: u32) -> String {
        assert_eq!(sweep::read(bytes).err(), Some(question));
        let mut seen = Coverage::default();
        count_refused(bytes, question, &mut seen);
        names(&seen)
    }

    /// J settles junction 0 by check 1; with a budget of 2 both junctions are raised and left open. Only junction 0 is counted.
    #[test]
    fn worked_sheets() {
        let settled =
            "counted: settled by another check than the first; counted: settled on a worst sheet; forms: both in one sheet";
        assert_eq!(worked(&sheet_j(2), u64::MAX), settled);
        assert_eq!(worked(&sheet_j(2), 2), "counted: raised by work and open still; forms: both in one sheet");
        assert_eq!(worked(&sheet_a(), u64::MAX), "forms: plain junctions only");
        let mut alone = sheet_f();
        alone.states[0].form = Form::Counted(0);
        let none = "counted: settled at none; counted: settled without checks; forms: counted junctions only";
        assert_eq!(worked(&alone, u64::MAX), none);
        let many = "counted: settled on a worst sheet; counted: settled with 16 checks; forms: counted junctions only";
        assert_eq!(worked(&counted_with_checks(16, 16), u64::MAX), many);
    }

    #[test]
    fn wrong_numbers() {
        let j = |number| refused(&sheet_j(number).bytes(), 10);
        let beside = "refused 10: beside plain junctions";
        let (far, more) = ("refused 10: the number is off by more than one", "refused 10: one more is written than follow");
        assert_eq!(j(1), format!("{beside}; refused 10: one fewer is written than follow"));
        assert_eq!(j(3), format!("{beside}; {more}"));
        assert_eq!(j(0), format!("refused 10: 0 is written where checks follow; {beside}; {far}"));
        assert_eq!(j(200), format!("refused 10: 200 is written; {beside}; {far}"));
        assert_eq!(j(255), format!("refused 10: 255 is written; {beside}; {far}"));
        let f = but(sheet_f(), |f| f.states[0].form = Form::Counted(1));
        assert_eq!(refused(&f, 10), format!("refused 10: a number is written where no check follows; {more}"));
        let full = format!("refused 10: 17 is written where 16 checks follow; {more}");
        assert_eq!(refused(&counted_with_checks(16, 17).bytes(), 10), full);
    }

    #[test]
    fn several_numbers() {
        let both = |first, second| {
            let bytes = but(sheet_j(first), |j| j.states[1].form = Form::Counted(second));
            refused(&bytes, 10).split("; ").filter(|name| name.contains("several")).collect::<String>()
        };
        assert_eq!(both(2, 0), "refused 10: one of several numbers is wrong");
        assert_eq!(both(3, 2), "refused 10: several numbers are wrong");
    }

    #[test]
    fn other_questions() {
        let valued = |value| but(sheet_j(1), |j| j.states[0].value = value);
        assert_eq!(refused(&valued(201), 10), "refused 10: refused 7 with the right number");
        assert_eq!(refused(&valued(NONE + 1), 10), "refused 10: refused 5 with the right number");
        assert_eq!(refused(&but(sheet_j(1), |j| j.states[3].mark = 2), 10), "refused 10: refused 5 with the right number");
        assert_eq!(refused(&but(sheet_j(1), |j| j.states[2].mark = 1), 10), "refused 10: refused 8 with the right number");
    }

    /// Junction 0 of J stands before what is cut off, and behind a number of stages that is one too large.
    #[test]
    fn fields_out_of_place() {
        let wrong = sheet_j(1).bytes();
        assert_eq!(refused(&wrong[..81], 4), "refused 4: behind a wrong number");
        assert_eq!(refused(&sheet_j(2).bytes()[..81], 4), "");
        assert_eq!(refused(&wrong[..30], 4), "");
        let seventeen = "refused 4: 17 checks where 17 is written, and nothing else";
        assert_eq!(refused(&counted_with_checks(17, 17).bytes(), 4), seventeen);
        assert_eq!(refused(&counted_with_checks(17, 16).bytes(), 4), "");
    }

    /// The sheet with another byte at a place.
    fn with(sketch: Sketch, place: usize, byte: u8) -> Vec<u8> {
        let mut bytes = sketch.bytes();
        bytes[place] = byte;
        bytes
    }

    /// Junction 0 has its tag at 8 and its length at 10.
    #[test]
    fn tags_and_lengths() {
        let (counted, plain) = ("tag 05 with length 6", "tag 03 with length 7");
        let told = |bytes: Vec<u8>, what: &str| assert_eq!(refused(&bytes, 4), format!("refused 4: {what}, and nothing else"));
        told(with(sheet_a(), 8, 5), counted);
        told(with(sheet_j(2), 10, 6), counted);
        told(with(sheet_a(), 10, 7), plain);
        told(with(sheet_j(2), 8, 3), plain);
        assert_eq!(refused(&with(sheet_j(2), 8, 6), 4), "");
    }

    /// Both checks of J's junction 0, the last one first; check 1 stands at 29 and takes 9 bytes.
    #[test]
    fn checks_that_are_lost() {
        let bytes = sheet_j(2).bytes();
        assert_eq!(losses(&accepted(&bytes)), [(0, 1), (0, 0)]);
        assert_eq!(losses(&accepted(&sheet_a().bytes())), []);
        assert_eq!(without(&bytes, 0, 1), [&bytes[..29], &bytes[38..]].concat());
        assert_eq!(without(&bytes, 0, 0), [&bytes[..18], &bytes[29..]].concat());
    }
}
