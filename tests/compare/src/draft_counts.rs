//! What the drafts had that were rearranged and restored. All is taken from the drafts, not from how they were drawn.

use crate::coverage::Coverage;
use crate::sketch::{FEW_STATES, MOST_STATES};
use order::{Cost, Node, Sheet, State, CEILING};
use std::collections::BTreeSet;

/// Of a draft of so many bytes, with the order in which its stages were placed.
pub fn count(length: usize, draft: &Sheet, order: &[usize], seen: &mut Coverage) {
    let states = draft.states.len();
    seen.saw(if draft.whole { "draft: whole" } else { "draft: worst" });
    seen.saw_if(length == 17, "draft: 17 bytes");
    seen.saw_if(length == 60_000, "draft: 60,000 bytes");
    seen.saw_if(states > FEW_STATES, "draft: more than 256 stages");
    seen.saw_if(states == MOST_STATES, "draft: 4,096 stages");
    seen.saw_if(order[draft.start] != draft.start, "draft: the start gets another number");
    seen.saw_if(order[0] != draft.start, "draft: another stage than the start is placed first");
    seen.saw_if(reached(draft).contains(&false), "draft: stages that the start does not reach");
    let back = (0..states).any(|state| draft.states[state].points_to().any(|finding| finding < state));
    seen.saw_if(back, "draft: findings below their junction's number");
    seen.saw_if(states <= FEW_STATES && order != in_rounds(draft), "draft: another order than in rounds from 0 up");
    count_findings(draft, order, seen);
    count_states(draft, seen);
}

/// Which stages the start leads to, by whatever checks.
pub fn reached(draft: &Sheet) -> Vec<bool> {
    let mut reached = vec![false; draft.states.len()];
    let mut fresh = vec![draft.start];
    while let Some(state) = fresh.pop() {
        if !std::mem::replace(&mut reached[state], true) {
            fresh.extend(draft.states[state].points_to().filter(|&finding| finding < draft.states.len()));
        }
    }
    reached
}

/// The order that does not look for the lowest anew each time, but goes on from there, and begins again at 0 behind the last stage.
fn in_rounds(draft: &Sheet) -> Vec<usize> {
    let mut pointing = vec![0; draft.states.len()];
    let all = draft.states.iter().flat_map(State::points_to);
    all.for_each(|finding| pointing[finding] += 1);
    let mut left: BTreeSet<usize> = (0..draft.states.len()).collect();
    let mut order = Vec::new();
    let mut from = 0;
    while !left.is_empty() {
        match left.range(from..).copied().find(|&state| pointing[state] == 0) {
            Some(state) => {
                left.remove(&state);
                draft.states[state].points_to().for_each(|finding| pointing[finding] -= 1);
                order.push(state);
                from = state;
            }
            None => from = 0,
        }
    }
    order
}

/// Findings whose new numbers do not ascend before they are sorted.
fn count_findings(draft: &Sheet, order: &[usize], seen: &mut Coverage) {
    let mut numbers = vec![0; order.len()];
    order.iter().enumerate().for_each(|(number, &old)| numbers[old] = number);
    let lists = draft.states.iter().flat_map(State::actions).map(|action| &action.successors);
    let repeats = |list: &[usize]| list.windows(2).any(|pair| pair[0] == pair[1]);
    let moved: Vec<_> = lists.clone().filter(|list| !list.is_sorted_by_key(|&finding| numbers[finding])).collect();
    seen.saw_if(lists.clone().any(|list| repeats(list)), "draft: findings listed several times");
    seen.saw_if(!moved.is_empty(), "draft: findings that are sorted anew");
    seen.saw_if(moved.iter().any(|list| repeats(list)), "draft: findings listed several times that are sorted anew");
}

/// The forms of junctions, and what work has written already.
fn count_states(draft: &Sheet, seen: &mut Coverage) {
    let any = |had: fn(&State) -> bool| draft.states.iter().any(had);
    let (plain, counted) = (any(|state| form(state) == Some(false)), any(|state| form(state) == Some(true)));
    let emptied = any(|state| form(state).is_some() && state.actions().is_empty());
    seen.saw_if(emptied, "draft: a junction without checks");
    seen.saw_if(counted && !plain, "draft: counted junctions only");
    seen.saw_if(counted && plain, "draft: junctions of both forms");
    let (touched, settled) = (any(|state| state.value > 0 || state.mark == 1), draft.states[draft.start].mark == 1);
    seen.saw_if(touched && !settled, "draft: partly worked");
    seen.saw_if(settled, "draft: settled");
    seen.saw_if(any(|state| state.chosen > 0), "draft: another chosen check than the first");
}

/// Is the stage a counted junction? An ending has no form.
fn form(state: &State) -> Option<bool> {
    match &state.node {
        Node::Terminal { .. } => None,
        Node::Decision { written, .. } => Some(written.is_some()),
    }
}

/// Of the least costs of a draft.
pub fn count_costs(costs: &[Cost], seen: &mut Coverage) {
    let beyond = |limit: u64| costs.iter().flatten().any(|cost| cost.small().is_none_or(|number| number > limit));
    seen.saw_if(costs.contains(&None), "draft: a least cost of none");
    seen.saw_if(beyond(CEILING), "draft: a least cost above the ceiling");
    seen.saw_if(beyond(u64::MAX), "draft: a least cost above 64 bits");
}

/// Of a draft before and after the new sheet was worked and restored, with what the last call returned.
pub fn count_worked(before: &Sheet, after: &Sheet, order: &[usize], number: u32, seen: &mut Coverage) {
    let kind = if after.whole { "whole" } else { "worst" };
    match number {
        100 => seen.saw(&format!("restored: settled {kind}")),
        101 => seen.saw("restored: over"),
        103 => seen.saw("restored: none"),
        _ => seen.saw("restored: stopped"),
    }
    let moved: Vec<usize> = (0..order.len()).filter(|&state| order[state] != state).collect();
    let (was, is) = (|state: usize| &before.states[state], |state: usize| &after.states[state]);
    let raised = moved.iter().any(|&state| was(state).value < is(state).value && is(state).mark == 0);
    let settled: Vec<usize> = moved.into_iter().filter(|&state| was(state).mark < is(state).mark).collect();
    seen.saw_if(raised, "restored: raised by work under another number, and open still");
    seen.saw_if(!settled.is_empty(), "restored: settled by work under another number");
    let chosen = settled.iter().any(|&state| is(state).chosen > 0);
    seen.saw_if(chosen, "restored: settled by another check than the first");
    let by_work = number == 100 && before.states[before.start].mark == 0 && !after.states[after.start].actions().is_empty();
    seen.saw_if(by_work, "restored: the plan of a junction that work settled costs the price");
}

#[cfg(test)]
mod tests {
    use super::{count, count_worked, in_rounds, reached};
    use crate::coverage::Coverage;
    use crate::rows::{but, check, sheet_a};
    use crate::sketch::{Form, Node, Sketch};
    use order::Sheet;

    /// The sketch as a draft.
    fn read(sketch: &Sketch) -> Sheet {
        let mut bytes = sketch.bytes();
        bytes[0] = order::DRAFT_TAG;
        order::draft(&bytes).unwrap_or_else(|number| panic!("refused {number}"))
    }

    fn junction(checks: &[(u32, &[u16])]) -> Node {
        Node::Decision(checks.iter().map(|&(cost, findings)| check(cost, findings)).collect())
    }

    /// Sheet L (S11): junction 3 could be placed all along, and waits until 0 is placed.
    #[test]
    fn rounds() {
        let to = |finding| junction(&[(1, &[finding])]);
        let sheet_l = read(&Sketch::new(0, 2, vec![to(1), Node::Terminal(0), to(0), to(1)]));
        assert_eq!((in_rounds(&sheet_l), sheet_l.order()), (vec![2, 3, 0, 1], vec![2, 0, 3, 1]));
        assert_eq!(reached(&sheet_l), [true, true, true, false]);
    }

    fn names(seen: &Coverage) -> String {
        seen.lines().map(|(name, _)| name.as_str()).collect::<Vec<_>>().join("; ")
    }

    /// Sheet N (S11) is whole. Stage 1 is placed first, and 0 next, so that its findings 0, 0 and 2 keep their order as 1, 1 and 2. In
    /// rounds 2 would come before 0.
    #[test]
    fn sheet_n() {
        let mut sketch = Sketch::new(1, 1, vec![junction(&[]), junction(&[(1, &[0, 0, 2])]), Node::Terminal(0)]);
        sketch.states[1].form = Form::Counted(1);
        let mut seen = Coverage::default();
        count(52, &read(&sketch), &[1, 0, 2], &mut seen);
        let expected = [
            "draft: a junction without checks",
            "draft: another order than in rounds from 0 up",
            "draft: findings below their junction's number",
            "draft: findings listed several times",
            "draft: junctions of both forms",
            "draft: the start gets another number",
            "draft: whole",
        ];
        assert_eq!(names(&seen), expected.join("; "));
    }

    /// Junction 1 has findings 0 and 2, and the order is 1, 0, 2: they become 1 and 2. Junction 2 has findings 0 and 1, and the order is 2,
    /// 1, 0: they become 2 and 1.
    #[test]
    fn findings_sorted_anew() {
        let counted = |sketch: Sketch, order: &[usize]| {
            let mut seen = Coverage::default();
            count(0, &read(&sketch), order, &mut seen);
            names(&seen).contains("draft: findings that are sorted anew")
        };
        let kept = vec![junction(&[(1, &[2])]), junction(&[(1, &[0, 2])]), Node::Terminal(0)];
        assert!(!counted(Sketch::new(0, 1, kept), &[1, 0, 2]));
        let sorted = vec![Node::Terminal(0), junction(&[(1, &[0])]), junction(&[(1, &[0, 1])])];
        assert!(counted(Sketch::new(0, 2, sorted), &[2, 1, 0]));
    }

    /// Sheet A keeps its numbers, so what work does there is under no other number; by another order it is.
    #[test]
    fn worked_drafts() {
        let settled = |a: &mut Sketch| {
            (a.states[0].value, a.states[0].mark, a.states[0].chosen) = (500, 1, 1);
            (a.states[1].value, a.states[3].mark) = (400, 1);
        };
        let mut bytes = but(sheet_a(), settled);
        bytes[0] = order::DRAFT_TAG;
        let (before, after) = (read(&sheet_a()), order::draft(&bytes).unwrap_or_else(|number| panic!("refused {number}")));
        let worked = |order: &[usize]| {
            let mut seen = Coverage::default();
            count_worked(&before, &after, order, 100, &mut seen);
            names(&seen).replace("restored: ", "")
        };
        let (plan, worst) = ("the plan of a junction that work settled costs the price", "settled worst");
        assert_eq!(worked(&[0, 1, 2, 3]), format!("{worst}; {plan}"));
        let (open, moved) = ("raised by work under another number, and open still", "settled by work under another number");
        assert_eq!(worked(&[0, 2, 1, 3]), format!("{open}; {worst}; {plan}"));
        assert_eq!(worked(&[0, 1, 3, 2]), format!("{moved}; {worst}; {plan}"));
        let other = "settled by another check than the first";
        assert_eq!(worked(&[2, 1, 0, 3]), format!("{other}; {moved}; {worst}; {plan}"));
    }
}
