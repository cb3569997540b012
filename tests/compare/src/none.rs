//! Junctions that have no check left, and none (S2.11): which outcome is due, and what the sheets had. All is taken from the sheets, not
//! from how they were drawn.

use crate::check::{settled, sum};
use crate::coverage::Coverage;
use crate::repeats;
use crate::sketch::FEW_STATES;
use sweep::{Action, Sheet, CEILING, NONE};

/// Of all calls that left the start settled (S8.14): they end none where no complete plan exists, over where one exists and the least cost
/// is the ceiling or more, and settled else. Where every junction has a check, a complete plan exists (S8.15). `sweep` finds that out twice,
/// by striking out and by the least costs (S2.6).
pub fn outcomes(first: &Sheet, numbers: &[u32]) -> Result<(), String> {
    let (least, lost) = (first.least_costs(), first.lost());
    if let Some(state) = (0..lost.len()).find(|&state| lost[state] != least[state].is_none()) {
        return Err(format!("state {state}: its least cost is {:?}, and a complete plan exists: {}", least[state], !lost[state]));
    }
    let due = match least[first.start] {
        None => 103,
        Some(cost) if cost >= CEILING => 101,
        Some(_) => 100,
    };
    let every_junction_has_a_check = !(0..lost.len()).any(|state| first.emptied(state));
    if every_junction_has_a_check && (due == 103 || lost.contains(&true)) {
        return Err("every junction has a check, and a state has no complete plan".to_string());
    }
    match numbers.iter().find(|&&number| number >= 100 && number != 102 && number != due) {
        Some(number) => Err(format!("ended {number}, but by sweep {due} is due")),
        None => Ok(()),
    }
}

/// Of an accepted sheet that was worked: what it had, and what work made of it.
pub fn count(first: &Sheet, last: &Sheet, seen: &mut Coverage) {
    let states = 0..first.nodes.len();
    if !states.clone().any(|state| first.emptied(state)) {
        return;
    }
    let touched = first.cells.iter().any(|cell| cell.value > 0 || cell.mark == 1);
    let stopped = !last.solved(last.start) && last.cells[last.start].value == NONE;
    seen.saw("none: accepted with a junction without checks");
    seen.saw_if(touched && !first.solved(first.start), "none: partly worked at the outset");
    seen.saw_if(stopped, "none: stopped with the start at none");
    let by_work: Vec<usize> = states.filter(|&state| settled(first, last, state)).collect();
    count_emptied(first, &by_work, seen);
    count_start(last, &by_work, seen);
    let any = |had: fn(&Sheet, usize) -> bool| by_work.iter().any(|&state| had(last, state));
    let many = last.nodes.len() > FEW_STATES;
    seen.saw_if(any(settled_beside), "none: settled beside a check that is none");
    seen.saw_if(any(settled_beside) && many, "none: settled beside a check that is none with more than 256 states");
    seen.saw_if(any(|sheet, state| first_is_none(findings(sheet, state))), "none: only the first of several findings");
    seen.saw_if(
        any(|sheet, state| inner_is_none(findings(sheet, state))),
        "none: only one between the first and the last finding",
    );
    seen.saw_if(any(|sheet, state| last_is_none(findings(sheet, state))), "none: only the last of several findings");
    seen.saw_if(any(repeated), "none: a finding listed several times");
    seen.saw_if(any(beside_sum), "none: beside findings that add up to the ceiling");
    let climbed = climbed(last, &by_work);
    seen.saw_if(climbed >= 5, "none: climbed five stages or more");
    seen.saw_if(climbed >= 500, "none: climbed 500 stages or more");
}

/// The junctions without checks that work settled: where they stand, and what their values were.
fn count_emptied(first: &Sheet, by_work: &[usize], seen: &mut Coverage) {
    let (start, end) = (first.start, first.nodes.len() - 1);
    for &state in by_work.iter().filter(|&&state| first.emptied(state)) {
        let value = first.cells[state].value;
        seen.saw_if(state == start, "none: the start has no checks");
        seen.saw_if(state != start && state != end, "none: a stage in the middle has no checks");
        seen.saw_if(state != start && state == end, "none: the last stage has no checks");
        seen.saw_if(value == 0, "none: raised from 0");
        seen.saw_if(0 < value && value < CEILING, "none: raised from between 0 and the ceiling");
        seen.saw_if(value == CEILING, "none: raised from the ceiling");
        seen.saw_if(value == NONE, "none: settled without a raise");
    }
}

/// A start that has checks.
fn count_start(last: &Sheet, by_work: &[usize], seen: &mut Coverage) {
    let (start, value) = (last.start, last.cells[last.start].value);
    if !by_work.contains(&start) || last.actions(start).is_empty() {
        return;
    }
    seen.saw_if(value == NONE, "none: every check of the start is none");
    seen.saw_if(
        value == NONE && last.nodes.len() > FEW_STATES,
        "none: every check of the start is none with more than 256 states",
    );
    seen.saw_if(value == CEILING && a_check_is_none(last, start), "none: over beside a check that is none");
}

pub fn a_check_is_none(sheet: &Sheet, state: usize) -> bool {
    sheet.actions(state).iter().any(|action| sheet.price(action) == NONE)
}

/// A junction below the ceiling.
fn settled_beside(sheet: &Sheet, state: usize) -> bool {
    sheet.cells[state].value < CEILING && a_check_is_none(sheet, state)
}

/// Which findings of the chosen check are at none, each as often as it is listed.
fn findings(sheet: &Sheet, state: usize) -> Vec<bool> {
    let successors = sheet.chosen(state).map_or(&[][..], |chosen| &chosen.successors);
    successors.iter().map(|&t| sheet.cells[t].value == NONE).collect()
}

fn first_is_none(findings: Vec<bool>) -> bool {
    findings.len() > 1 && findings[0] && !findings[1..].contains(&true)
}

fn last_is_none(findings: Vec<bool>) -> bool {
    first_is_none(findings.into_iter().rev().collect())
}

fn inner_is_none(findings: Vec<bool>) -> bool {
    let (first, last) = (findings.first(), findings.last());
    first == Some(&false) && last == Some(&false) && findings.iter().filter(|&&none| none).count() == 1
}

fn repeated(sheet: &Sheet, state: usize) -> bool {
    let groups = sheet.chosen(state).map(repeats::groups).unwrap_or_default();
    groups.iter().any(|&(finding, _)| sheet.cells[finding].value == NONE)
}

/// A whole sheet's check with a finding at none, whose other findings reach the ceiling.
fn beside_sum(sheet: &Sheet, state: usize) -> bool {
    let Some(chosen) = sheet.chosen(state) else { return false };
    let (none, others): (Vec<usize>, Vec<usize>) = chosen.successors.iter().partition(|&&t| sheet.cells[t].value == NONE);
    let others = Action { cost: chosen.cost, successors: others };
    sheet.whole && !none.is_empty() && sum(sheet, &others) >= Some(CEILING)
}

/// How many junctions with checks, settled at none by work, lead on from one another to one without, at most.
fn climbed(sheet: &Sheet, by_work: &[usize]) -> usize {
    let mut above = vec![0; sheet.nodes.len()];
    for &state in by_work.iter().rev().filter(|&&state| sheet.cells[state].value == NONE) {
        let Some(chosen) = sheet.chosen(state) else { continue };
        above[state] = 1 + chosen.successors.iter().map(|&t| above[t]).max().unwrap_or(0);
    }
    above.into_iter().max().unwrap_or(0)
}

/// A settled plan comes to no junction without checks. Counts the sheets that have one.
pub fn not_reached(sheet: &Sheet, seen: &mut Coverage) -> Result<(), String> {
    if let Some(state) = sheet.plan_states().into_iter().find(|&state| sheet.emptied(state)) {
        return Err(format!("price printed the line of stage {state}, which has no checks"));
    }
    seen.saw_if((0..sheet.nodes.len()).any(|state| sheet.emptied(state)), "price: settled past a junction without checks");
    Ok(())
}

#[cfg(test)]
mod tests {
    use super::{count, outcomes};
    use crate::calls::TABLE_BYTES;
    use crate::coverage::Coverage;
    use crate::rows::{sheet_f, sheet_g, sheet_h};
    use crate::sketch::{Action, Node, Sketch, AT_CEILING, NONE};
    use sweep::Sheet;

    fn accepted(bytes: &[u8]) -> Sheet {
        sweep::read(bytes).unwrap_or_else(|number| panic!("refused {number}"))
    }

    fn junction(checks: &[(u32, &[u16])]) -> Node {
        Node::Decision(checks.iter().map(|&(cost, successors)| Action { cost, successors: successors.to_vec() }).collect())
    }

    /// A junction with one check (1, findings 1, 2 and 3), of which this one has no checks; the others are endings that cost 5.
    fn three_findings(emptied: usize) -> Sketch {
        let mut nodes = vec![junction(&[(1, &[1, 2, 3])]), Node::Terminal(5), Node::Terminal(5), Node::Terminal(5)];
        nodes[emptied] = junction(&[]);
        Sketch::new(0, 0, nodes)
    }

    /// What is counted of a sheet that is worked with so large a budget, but for the line that every such sheet has.
    fn counted(sketch: &Sketch, budget: u64) -> String {
        let outset = sketch.bytes();
        let mut bytes = outset.clone();
        procedure::call(&mut bytes, &mut [0; TABLE_BYTES], budget, &mut [0; 24]);
        let mut seen = Coverage::default();
        count(&accepted(&outset), &accepted(&bytes), &mut seen);
        let names = seen.lines().filter_map(|(name, _)| name.strip_prefix("none: "));
        names.filter(|name| !name.starts_with("accepted")).collect::<Vec<_>>().join("; ")
    }

    #[test]
    fn outcomes_that_are_due() {
        let ended = |bytes: &[u8]| [100, 101, 102, 103, 104].map(|number| outcomes(&accepted(bytes), &[number]).is_ok());
        assert_eq!(ended(&sheet_g(0).bytes()), [true, false, true, false, false]);
        assert_eq!(ended(&sheet_h().bytes()), [false, false, true, true, false]);
        assert_eq!(ended(include_bytes!("../../../samples/no-check-left-over.sheet")), [false, true, true, false, false]);
        assert_eq!(ended(include_bytes!("../../../samples/a.sheet")), [true, false, true, false, false]);
    }

    #[test]
    fn worked_sheets() {
        let beside = "a stage in the middle has no checks; raised from 0; settled beside a check that is none";
        assert_eq!(counted(&sheet_g(0), u64::MAX), beside);
        let every = "every check of the start is none; raised from 0; the last stage has no checks";
        assert_eq!(counted(&sheet_h(), u64::MAX), every);
        assert_eq!(counted(&sheet_f(), u64::MAX), "raised from 0; the start has no checks");
        assert_eq!(counted(&sheet_h(), 1), "");
    }

    #[test]
    fn values_at_the_outset() {
        let from = |value| {
            let mut sketch = sheet_f();
            sketch.states[0].value = value;
            counted(&sketch, u64::MAX)
        };
        let rest = "the start has no checks";
        assert_eq!(from(AT_CEILING), format!("partly worked at the outset; raised from the ceiling; {rest}"));
        assert_eq!(from(7), format!("partly worked at the outset; raised from between 0 and the ceiling; {rest}"));
        assert_eq!(from(NONE), format!("partly worked at the outset; settled without a raise; {rest}"));
    }

    #[test]
    fn places_among_findings() {
        let place = |emptied| {
            counted(&three_findings(emptied), u64::MAX).split("; ").find(|name| name.starts_with("only")).map(str::to_string)
        };
        assert_eq!(place(1).as_deref(), Some("only the first of several findings"));
        assert_eq!(place(2).as_deref(), Some("only one between the first and the last finding"));
        assert_eq!(place(3).as_deref(), Some("only the last of several findings"));
        assert_eq!(place(0), None);
    }

    /// One raise is allowed, and both endings want one.
    #[test]
    fn stopped_at_none() {
        let mut sketch = three_findings(2);
        (sketch.states[0].value, sketch.states[2].value) = (NONE, NONE);
        let before = "a stage in the middle has no checks; partly worked at the outset; settled without a raise";
        assert_eq!(counted(&sketch, 1), format!("{before}; stopped with the start at none"));
    }

    #[test]
    fn ceilings() {
        let bytes = include_bytes!("../../../samples/no-check-left-over.sheet");
        let mut worked = *bytes;
        procedure::call(&mut worked, &mut [0; TABLE_BYTES], u64::MAX, &mut [0; 24]);
        let mut seen = Coverage::default();
        count(&accepted(bytes), &accepted(&worked), &mut seen);
        let over = seen.lines().any(|(name, _)| name == "none: over beside a check that is none");
        assert!(over && !seen.lines().any(|(name, _)| name.contains("settled beside") || name.contains("every check")));
    }

    /// A whole chain of five junctions, each of which lists the next stage twice, and one without checks.
    #[test]
    fn repeats_and_a_climb() {
        let mut nodes: Vec<Node> = (1..=5).map(|next| junction(&[(1, &[next, next])])).collect();
        nodes.push(junction(&[]));
        let names = counted(&Sketch::new(1, 0, nodes), u64::MAX);
        assert!(names.contains("a finding listed several times") && names.contains("climbed five stages or more"), "{names}");
    }
}
