//! Findings that are listed several times (S2.10): what they cost, and what the sheets had of them. All is taken from the sheets, not from
//! how they were drawn.

use crate::check::{actions, settled, sum};
use crate::coverage::Coverage;
use crate::sketch::{FEW_STATES, MOST_STATES};
use sweep::{meant, written, Action, Cost, Node, Sheet, CEILING};

/// The findings that a check lists several times side by side, and how often.
pub fn groups(action: &Action) -> Vec<(usize, usize)> {
    let runs = action.successors.chunk_by(|a, b| a == b);
    runs.filter(|run| run.len() > 1).map(|run| (run[0], run.len())).collect()
}

/// A check that lists one finding n times, and no other, costs its cost plus n times that finding's least cost, or none where that is none;
/// its price, and the value of a junction that it settled, is that by the values. How many such checks the sheet has.
pub fn multiplied(sheet: &Sheet) -> Result<u64, String> {
    let least = sheet.least_costs();
    let mut checks = 0;
    for (state, action) in numbered(sheet) {
        let [(finding, times)] = groups(action)[..] else { continue };
        if times < action.successors.len() {
            continue;
        }
        let direct = |each: Cost| each.map(|each| CEILING.min(action.cost + times as u64 * each));
        let by_values = written(direct(meant(sheet.cells[finding].value)));
        let costs = sheet.q_value(action, |t| least[t]) == direct(least[finding]) && sheet.price(action) == by_values;
        if !costs || settles(sheet, state, action) && sheet.cells[state].value != by_values {
            return Err(format!("stage {state}: stage {finding}, listed {times} times, does not count {times} times"));
        }
        checks += 1;
    }
    Ok(checks)
}

/// Is this the chosen check of a settled junction?
fn settles(sheet: &Sheet, state: usize, action: &Action) -> bool {
    sheet.solved(state) && sheet.chosen(state).is_some_and(|chosen| std::ptr::eq(chosen, action))
}

/// Of an accepted sheet that was worked: what it had, and what work made of it.
pub fn count(first: &Sheet, last: &Sheet, carried_on: bool, seen: &mut Coverage) {
    let checks: Vec<_> = actions(first).map(groups).filter(|groups| !groups.is_empty()).collect();
    if checks.is_empty() {
        return;
    }
    let listed = |least: usize, most: usize| checks.iter().flatten().any(|(_, times)| (least..=most).contains(times));
    let junction = |&(finding, _): &(usize, usize)| matches!(first.nodes[finding], Node::Decision(_));
    let touched = first.cells.iter().any(|cell| cell.value > 0 || cell.mark == 1);
    seen.saw("repeats: accepted");
    seen.saw_if(first.nodes.len() == MOST_STATES, "repeats: 4,096 states");
    seen.saw_if(listed(2, 2), "repeats: a finding listed twice");
    seen.saw_if(listed(3, 15), "repeats: a finding listed 3 to 15 times");
    seen.saw_if(listed(16, 16), "repeats: a finding listed 16 times");
    seen.saw_if(checks.iter().any(|groups| groups.len() == 2), "repeats: two groups in one check");
    seen.saw_if(checks.iter().any(|groups| groups.len() > 2), "repeats: three or more groups in one check");
    seen.saw_if(checks.iter().flatten().any(junction), "repeats: of a junction");
    seen.saw_if(!checks.iter().flatten().all(junction), "repeats: of an ending");
    seen.saw_if(touched && !first.solved(first.start), "repeats: partly worked at the outset");
    seen.saw_if(carried_on, "repeats: stopped and carried on");
    let large = actions(last).any(|action| !groups(action).is_empty() && sum(last, action) > Some(u64::from(u32::MAX)));
    seen.saw_if(large, "repeats: sum above 32 bits");
    if settled(first, last, first.start) {
        count_plan(last, seen);
    }
}

/// Of a sheet whose start was settled by work, and not at none: what its plan had.
fn count_plan(sheet: &Sheet, seen: &mut Coverage) {
    let deep = depth(sheet);
    let Some(price) = sheet.chosen(sheet.start).and_then(|chosen| sum(sheet, chosen)).filter(|_| deep > 0) else { return };
    let many = sheet.nodes.len() > FEW_STATES;
    seen.saw_if(price < CEILING, "repeats: worked to settled");
    seen.saw_if(price < CEILING && many, "repeats: worked to settled with more than 256 states");
    seen.saw_if(price >= CEILING, "repeats: worked to over");
    seen.saw_if(price == CEILING - 1, "repeats: a price one cent below the ceiling");
    seen.saw_if(price == CEILING, "repeats: a price of the ceiling to the cent");
    seen.saw_if(deep >= 5, "repeats: five within one another");
}

/// How many repeated findings of the written plan lead on from one another.
fn depth(sheet: &Sheet) -> usize {
    let mut above = vec![0; sheet.nodes.len()];
    for state in sheet.plan_states() {
        if let Some(chosen) = sheet.chosen(state) {
            chosen.successors.iter().for_each(|&t| above[t] = above[t].max(above[state]));
            groups(chosen).iter().for_each(|&(t, _)| above[t] = above[t].max(above[state] + 1));
        }
    }
    above.into_iter().max().unwrap_or(0)
}

/// Of a sheet that was refused by this question: what was wrong with its repeats.
pub fn count_refused(bytes: &[u8], question: u32, seen: &mut Coverage) {
    let Ok(sheet) = sweep::fields(bytes) else { return };
    match question {
        6 if sheet.whole => count_order(&sheet, seen),
        6 => seen.saw_if(equals_alone(&sheet), "refused 6: equal findings on a worst sheet, and nothing else"),
        7 => seen.saw_if(miscounted(&sheet, once_more), "refused 7: a repeated finding counted once more"),
        8 => seen.saw_if(miscounted(&sheet, once_less), "refused 8: a repeated finding counted once less"),
        _ => (),
    }
}

/// Is there nothing that question 6 would refuse on a whole sheet?
fn equals_alone(sheet: &Sheet) -> bool {
    let good = |(state, action): (usize, &Action)| {
        let bounded = action.successors.iter().all(|&t| state < t && t < sheet.nodes.len());
        bounded && action.successors.is_sorted()
    };
    numbered(sheet).all(good)
}

/// The ways in which equal findings of a whole sheet are refused.
fn count_order(sheet: &Sheet, seen: &mut Coverage) {
    let stages = sheet.nodes.len();
    let any = |wrong: fn(&[usize], usize, usize) -> bool| numbered(sheet).any(|(state, a)| wrong(&a.successors, state, stages));
    let moved = any(|list, _, _| before_smaller(list) && !apart(list));
    let back = any(|list, state, _| list.is_sorted() && list.starts_with(&[state, state]));
    let beyond = any(|list, _, stages| list.is_sorted() && list.ends_with(&[stages, stages]));
    seen.saw_if(any(|list, _, _| apart(list)), "refused 6: equal findings apart on a whole sheet");
    seen.saw_if(moved, "refused 6: equal findings before a smaller one on a whole sheet");
    seen.saw_if(back, "refused 6: equal findings at their junction's number on a whole sheet");
    seen.saw_if(beyond, "refused 6: equal findings at the number of stages on a whole sheet");
}

/// Does a number stand before and behind another one?
fn apart(list: &[usize]) -> bool {
    (1..list.len()).any(|place| list[place] != list[place - 1] && list[..place].contains(&list[place]))
}

/// Do equal ones stand somewhere before a smaller one?
fn before_smaller(list: &[usize]) -> bool {
    (2..list.len()).any(|place| list[..place].windows(2).any(|pair| pair[0] == pair[1] && pair[0] > list[place]))
}

/// The checks, each with its junction's number.
fn numbered(sheet: &Sheet) -> impl Iterator<Item = (usize, &Action)> {
    (0..sheet.nodes.len()).flat_map(|state| sheet.actions(state).iter().map(move |action| (state, action)))
}

/// A junction, one of its checks, and what a finding that it repeats is worth, which is not 0: is the junction's value that far off?
type Off = fn(&Sheet, usize, &Action, u64) -> bool;

fn miscounted(sheet: &Sheet, off: Off) -> bool {
    let worth = |finding: usize| sheet.cells[finding].value;
    numbered(sheet).any(|(state, action)| {
        let groups = groups(action);
        groups.iter().any(|&(finding, _)| worth(finding) > 0 && off(sheet, state, action, worth(finding)))
    })
}

fn once_more(sheet: &Sheet, state: usize, action: &Action, worth: u64) -> bool {
    sum(sheet, action).is_some_and(|sum| sheet.cells[state].value == sum + worth)
}

/// Only where nothing else is wrong with the mark.
fn once_less(sheet: &Sheet, state: usize, action: &Action, worth: u64) -> bool {
    let all_settled = action.successors.iter().all(|&t| sheet.solved(t));
    settles(sheet, state, action) && all_settled && sum(sheet, action) == Some(sheet.cells[state].value + worth)
}

#[cfg(test)]
mod tests {
    use super::{apart, before_smaller, count_refused, groups, multiplied};
    use crate::coverage::Coverage;
    use crate::sketch::{Action, Node, Sketch};

    fn list(successors: &[usize]) -> sweep::Action {
        sweep::Action { cost: 1, successors: successors.to_vec() }
    }

    #[test]
    fn groups_of_a_check() {
        assert_eq!(groups(&list(&[1, 2, 3])), []);
        assert_eq!(groups(&list(&[1, 1, 2, 3, 3, 3])), [(1, 2), (3, 3)]);
    }

    #[test]
    fn order_of_a_list() {
        assert!(apart(&[1, 2, 1]) && apart(&[2, 1, 1, 2]));
        assert!(!apart(&[2, 2, 1]) && !apart(&[1, 1, 2]));
        assert!(before_smaller(&[2, 2, 1]) && before_smaller(&[1, 3, 3, 2]));
        assert!(!before_smaller(&[2, 1, 1]) && !before_smaller(&[1, 1, 2]));
    }

    /// Sheet D with other findings, of either kind, with a value and a mark for both stages.
    fn sheet_d(kind: u8, successors: &[u16], values: [u32; 2], mark: u8) -> Vec<u8> {
        let check = Action { cost: 100, successors: successors.to_vec() };
        let mut sketch = Sketch::new(kind, 0, vec![Node::Decision(vec![check]), Node::Terminal(30)]);
        for (state, value) in sketch.states.iter_mut().zip(values) {
            (state.value, state.mark) = (value, mark);
        }
        sketch.bytes()
    }

    #[test]
    fn settled_with_one_cradle() {
        let count = |values| sweep::fields(&sheet_d(1, &[1, 1], values, 1)).map(|sheet| multiplied(&sheet));
        assert_eq!(count([160, 30]), Ok(Ok(1)));
        assert!(count([130, 30]).is_ok_and(|counted| counted.is_err()));
    }

    /// What is counted of a sheet that is refused by this question.
    fn counted(bytes: &[u8], question: u32) -> String {
        assert_eq!(sweep::read(bytes).err(), Some(question));
        let mut seen = Coverage::default();
        count_refused(bytes, question, &mut seen);
        seen.lines().map(|(name, _)| name.as_str()).collect::<Vec<_>>().join(", ")
    }

    #[test]
    fn refused_for_the_order() {
        let counted = |kind, successors: &[u16]| counted(&sheet_d(kind, successors, [0; 2], 0), 6);
        assert_eq!(counted(0, &[1, 1]), "refused 6: equal findings on a worst sheet, and nothing else");
        assert_eq!(counted(0, &[0, 0]), "");
        assert_eq!(counted(1, &[1, 0, 1]), "refused 6: equal findings apart on a whole sheet");
        assert_eq!(counted(1, &[1, 1, 0]), "refused 6: equal findings before a smaller one on a whole sheet");
        assert_eq!(counted(1, &[0, 0]), "refused 6: equal findings at their junction's number on a whole sheet");
        assert_eq!(counted(1, &[1, 2, 2]), "refused 6: equal findings at the number of stages on a whole sheet");
        assert_eq!(counted(1, &[1, 2]), "");
    }

    #[test]
    fn refused_for_the_value() {
        let counted = |value, mark, question| counted(&sheet_d(1, &[1, 1], [value, 30], mark), question);
        assert_eq!(counted(190, 0, 7), "refused 7: a repeated finding counted once more");
        assert_eq!(counted(189, 0, 7), "");
        assert_eq!(counted(130, 1, 8), "refused 8: a repeated finding counted once less");
        assert_eq!(counted(131, 1, 8), "");
    }
}
