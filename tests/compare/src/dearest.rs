//! What the junctions had that `price` lists, as to their dearest findings (S2.9). It is taken from the worked sheet, not from the text.

use crate::coverage::Coverage;
use crate::repeats;
use std::collections::BTreeSet;
use sweep::{Action, Sheet};

/// Of a settled sheet, as work left it: each junction that the plan reaches has a line. What several of them had counts once.
pub fn count(sheet: &Sheet, seen: &mut Coverage) {
    let mut had = BTreeSet::new();
    for state in sheet.plan_states() {
        if let Some(chosen) = sheet.chosen(state) {
            had.extend(facts(sheet, chosen, &sheet.actions(state)[0]));
        }
    }
    had.into_iter().for_each(|fact| seen.saw(fact));
}

/// What a junction had, by its chosen check and its first. A finding that is listed several times is one finding.
fn facts(sheet: &Sheet, chosen: &Action, first: &Action) -> impl Iterator<Item = &'static str> {
    let (findings, dearest) = (distinct(chosen), largest(sheet, chosen));
    let by = dearest[0];
    let groups = repeats::groups(chosen);
    let repeated = |finding: &usize| groups.iter().any(|(listed, _)| listed == finding);
    let inside = findings.first() != Some(&by) && findings.last() != Some(&by);
    let facts = [
        (true, "price: a junction's line"),
        (sheet.whole, "price: by on a whole sheet"),
        (dearest.len() > 1, "price: by where two findings share the largest value"),
        (inside, "price: by that is neither the first nor the last finding"),
        (by != largest(sheet, first)[0], "price: by that is not the dearest finding of check 0"),
        (!groups.is_empty(), "price: a chosen check that lists a stage more than once"),
        (repeated(&by), "price: by that is listed more than once"),
        (dearest.len() > 1 && dearest.iter().any(repeated), "price: by where a repeated finding shares the largest value"),
    ];
    facts.into_iter().filter(|(holds, _)| *holds).map(|(_, fact)| fact)
}

/// A check's findings, each once.
fn distinct(action: &Action) -> Vec<usize> {
    action.successors.iter().copied().collect::<BTreeSet<_>>().into_iter().collect()
}

/// Those of a check's findings that have the largest value, each once, ascending.
fn largest(sheet: &Sheet, action: &Action) -> Vec<usize> {
    let value = |&t: &usize| sheet.cells[t].value;
    let findings = distinct(action);
    let most = findings.iter().map(value).max();
    findings.into_iter().filter(|t| Some(value(t)) == most).collect()
}
