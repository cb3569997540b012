//! One case: a sheet and a list of calls, put to the library and to the two other programs.

use crate::calls::{Call, ENTRY_BYTES, FORMER_TABLE_BYTES, TABLE_BYTES};
use crate::coverage::Coverage;
use crate::lent::Lent;
use crate::sketch::{FEW_STATES, FORMER_MOST, MOST_STATES};
use crate::{counted, none, none_refused, repeats};
use sweep::{meant, written, Action, Cost, Node, Sheet, CEILING};

/// Makes the calls one after another, each on the bytes that the last one left, and compares everything that each of them leaves.
/// The error says what differs.
pub fn run(outset: &[u8], calls: &[Call], seen: &mut Coverage) -> Result<(), String> {
    let mut bytes = outset.to_vec();
    let mut raises = 0;
    let (mut stopped_before, mut carried_on) = (false, false);
    // What the calls returned: 100 or more where the sheet was worked, and on a refused sheet its question's number.
    let mut numbers = Vec::new();
    for (place, call) in calls.iter().enumerate() {
        let before = bytes.clone();
        let answer = one(&mut bytes, call).map_err(|why| format!("call {place}, budget {}: {why}", call.budget))?;
        refusal_by_sweep(&before, call, answer.number)?;
        budget_is_spent(call, &answer)?;
        raises += answer.raises;
        count(call, &answer, &before, stopped_before, seen);
        carried_on |= stopped_before && answer.number >= 100;
        stopped_before = answer.number == 102;
        numbers.push(answer.number);
    }
    let highest = numbers.iter().copied().max().unwrap_or(0);
    let Ok(first) = sweep::read(outset) else {
        repeats::count_refused(outset, highest, seen);
        none_refused::count_refused(outset, highest, seen);
        counted::count_refused(outset, highest, seen);
        return Ok(());
    };
    let last = sweep::read(&bytes).map_err(|number| format!("a worked sheet is refused {number}"))?;
    worked(&first, &last, raises)?;
    none::outcomes(&first, &numbers)?;
    counted::lost(outset, &first, calls, seen)?;
    count_sheet(outset, &first, &last, seen);
    counted::count_sizes(outset.len(), &first, seen);
    seen.add("repeats: one finding n times costs n times", repeats::multiplied(&last)?);
    if highest >= 100 {
        repeats::count(&first, &last, carried_on, seen);
        none::count(&first, &last, seen);
        counted::count(&first, &last, carried_on, seen);
    }
    Ok(())
}

pub struct Answer {
    pub number: u32,
    raises: u64,
    passes: u64,
}

/// One call, by the library and by `procedure`.
pub fn one(bytes: &mut [u8], call: &Call) -> Result<Answer, String> {
    let (mut table, mut result) = (call.table.clone(), call.result.clone());
    let mut lent = Lent::new(bytes, call.before);
    let mut lent_table = Lent::new(&table, call.before + 1);
    let mut lent_result = Lent::new(&result, call.before + 3);

    let number = procedure::call(bytes, &mut table, call.budget, &mut result);
    let found = library::solve(lent.slice(), lent_table.slice(), call.budget, lent_result.slice());

    if found != number {
        return Err(format!("returned {found}, expected {number}"));
    }
    same("result", lent_result.slice(), &result)?;
    same("sheet", lent.slice(), bytes)?;
    same("table", lent_table.slice(), &table)?;
    if !(lent.guards_hold() && lent_table.guards_hold() && lent_result.guards_hold()) {
        return Err("bytes outside the slices are written".to_string());
    }
    let unrefused = number >= 100;
    Ok(Answer {
        number,
        passes: if unrefused { number64(&result, 8) } else { 0 },
        raises: if unrefused { number64(&result, 16) } else { 0 },
    })
}

/// The error has the first byte that differs.
pub fn same(what: &str, found: &[u8], expected: &[u8]) -> Result<(), String> {
    if found == expected {
        return Ok(());
    }
    match found.iter().zip(expected).position(|(found, expected)| found != expected) {
        Some(i) => Err(format!("{what}: byte {i} is {}, expected {}", found[i], expected[i])),
        None => Err(format!("{what}: {} bytes, expected {}", found.len(), expected.len())),
    }
}

/// Eight bytes, the least significant first.
pub fn number64(bytes: &[u8], at: usize) -> u64 {
    u64::from_le_bytes(bytes[at..at + 8].try_into().expect("eight bytes"))
}

/// The refusal again, by the other reader of bytes.
pub fn refusal_by_sweep(bytes: &[u8], call: &Call, number: u32) -> Result<(), String> {
    let expected = if call.result.len() < 24 || call.table.len() < TABLE_BYTES {
        1
    } else {
        match sweep::read(bytes) {
            Err(refusal) => refusal,
            Ok(_) if call.budget == 0 => 9,
            Ok(_) => 0,
        }
    };
    let agrees = if expected == 0 { number >= 100 } else { number == expected };
    if agrees {
        Ok(())
    } else {
        Err(format!("returned {number}, but sweep's reader says {expected}"))
    }
}

/// Passes are at most raises plus 1, and raises at most the budget (S7.3); who stops has spent it.
fn budget_is_spent(call: &Call, answer: &Answer) -> Result<(), String> {
    if answer.raises > call.budget {
        return Err(format!("{} raises with a budget of {}", answer.raises, call.budget));
    }
    if answer.passes > answer.raises + 1 {
        return Err(format!("{} passes with {} raises", answer.passes, answer.raises));
    }
    if answer.number == 102 && answer.raises != call.budget {
        return Err(format!("stopped after {} raises of {}", answer.raises, call.budget));
    }
    Ok(())
}

/// Demand 3: what holds of a sheet after any list of calls, by the least costs as they are written (S8.5 to S8.10).
fn worked(first: &Sheet, last: &Sheet, raises: u64) -> Result<(), String> {
    let least = last.least_costs();
    if least != first.least_costs() {
        return Err("work has changed the problem".to_string());
    }
    if last.counts != first.counts {
        return Err("work has changed a junction's form or its number".to_string());
    }
    let mut gap_at_outset = 0;
    let mut gap_left = 0;
    for state in 0..least.len() {
        let (low, value, high) = (first.cells[state].value, last.cells[state].value, written(least[state]));
        if value < low || value > high {
            return Err(format!("state {state}: value {value} is not in {low} to {high}"));
        }
        gap_at_outset += high - low;
        gap_left += high - value;
    }
    if raises + gap_left > gap_at_outset {
        return Err(format!("{raises} raises and gaps of {gap_left} left, with gaps of {gap_at_outset} at the outset"));
    }
    if last.solved(last.start) {
        plan_is_best(last, &least)
    } else {
        Ok(())
    }
}

/// A settled start has the least cost, and up to the ceiling its plan is complete, costs that, cut, and reaches settled states only
/// (S8.2, S8.3).
fn plan_is_best(sheet: &Sheet, least: &[Cost]) -> Result<(), String> {
    let (price, due) = (sheet.cells[sheet.start].value, written(least[sheet.start]));
    if price != due {
        return Err(format!("settled at {price}, but the least cost is {due}"));
    }
    if price > CEILING {
        return Ok(());
    }
    let cost = sheet.plan_costs()[sheet.start];
    if cost != Some(price) {
        return Err(format!("settled at {price}, but the written plan costs {cost:?}"));
    }
    match sheet.plan_states().into_iter().find(|&state| !sheet.solved(state)) {
        Some(state) => Err(format!("the plan reaches state {state}, which is open")),
        None => Ok(()),
    }
}

fn count(call: &Call, answer: &Answer, before: &[u8], stopped_before: bool, seen: &mut Coverage) {
    let kind = if before.get(3) == Some(&1) { "whole" } else { "worst" };
    match answer.number {
        100 => seen.saw(&format!("settled {kind}")),
        101 => seen.saw(&format!("over {kind}")),
        102 => seen.saw(&format!("stopped {kind}")),
        103 => seen.saw(&format!("none {kind}")),
        refusal => seen.saw(&format!("refused {refusal}")),
    }
    let unrefused = answer.number >= 100;
    seen.saw_if(answer.number == 10 && call.budget == 0, "refused 10: with the budget 0");
    seen.add("raises", answer.raises);
    seen.saw_if(answer.raises > 65_536, "more than 65,536 raises in one call");
    seen.saw_if(stopped_before && unrefused, "carried on");
    seen.saw_if(stopped_before && answer.number == 103, "none: carried on after a stop");
    seen.saw_if(unrefused && call.budget == u64::MAX, "largest budget");
    seen.saw_if(answer.number != 1 && call.table.len() >= TABLE_BYTES + ENTRY_BYTES, "table longer than 4,096 entries");
    let for_the_table = answer.number == 1 && call.result.len() >= 24;
    seen.saw_if(for_the_table && call.table.len() >= FORMER_TABLE_BYTES, "table of 1,024 to 4,095 entries refused");
    seen.saw_if(answer.number != 1 && call.table.len() % 4 != 0, "bytes left over behind the table");
    seen.saw_if(call.result.len() < 24, "result shorter than 24");
    seen.saw_if(answer.number != 1 && call.result.len() > 24, "result longer than 24");
}

/// What an accepted sheet had, and what work made of it.
fn count_sheet(outset: &[u8], first: &Sheet, last: &Sheet, seen: &mut Coverage) {
    let states = first.nodes.len();
    let touched = first.cells.iter().any(|cell| cell.value > 0 || cell.mark == 1);
    seen.saw_if(outset.len() == 17, "17 bytes");
    seen.saw_if(outset.len() == 20, "20 bytes");
    seen.saw_if(outset.len() == 60_000, "60,000 bytes");
    seen.saw_if(states == FEW_STATES, "256 states");
    seen.saw_if(states == FEW_STATES + 1, "257 states");
    seen.saw_if(states == FORMER_MOST, "1,024 states");
    seen.saw_if(FORMER_MOST < states && states < MOST_STATES, "1,025 to 4,095 states");
    seen.saw_if(states == MOST_STATES, "4,096 states");
    seen.saw_if(states == MOST_STATES && outset.len() == 60_000, "4,096 states and 60,000 bytes");
    seen.saw_if(first.start > 0, "start is not 0");
    seen.saw_if(first.solved(first.start), "settled at the outset");
    seen.saw_if(touched && !first.solved(first.start), "partly worked at the outset");
    seen.saw_if(states == MOST_STATES && settled(first, last, states - 1), "stage 4,095 settled by work");
    let depth = if settled(first, last, first.start) { depth(last) } else { 0 };
    seen.saw_if(depth >= 1_000, "chain of 1,000 or more worked to its end");
    seen.saw_if(depth >= 3_000, "chain of 3,000 or more worked to its end");
    let sums: Vec<u64> = if last.whole { actions(last).filter_map(|a| sum(last, a)).collect() } else { Vec::new() };
    seen.saw_if(sums.iter().any(|&sum| sum > u64::from(u32::MAX)), "sum above 32 bits");
    let wraps = |&sum: &u64| sum > u64::from(u32::MAX) && sum % (1 << 32) < CEILING;
    seen.saw_if(sums.iter().any(wraps), "sum that wraps to below the ceiling");
    seen.saw_if((0..states).any(|s| abandoned(first, last, s)), "chosen check is not the first of its price");
    seen.saw_if(first.nodes.iter().any(|n| matches!(n, Node::Decision(actions) if actions.len() == 16)), "16 checks");
    seen.saw_if(actions(first).any(|a| a.successors.len() == 16), "16 findings");
}

/// Has work settled a state?
pub fn settled(first: &Sheet, last: &Sheet, state: usize) -> bool {
    last.solved(state) && !first.solved(state)
}

/// How many junctions stand on the longest run of the written plan.
fn depth(sheet: &Sheet) -> usize {
    let mut above = vec![0; sheet.nodes.len()];
    for state in sheet.plan_states() {
        for &successor in sheet.chosen(state).into_iter().flat_map(|chosen| &chosen.successors) {
            above[successor] = above[successor].max(above[state] + 1);
        }
    }
    above.into_iter().max().unwrap_or(0)
}

pub fn actions(sheet: &Sheet) -> impl Iterator<Item = &Action> {
    (0..sheet.nodes.len()).flat_map(|state| sheet.actions(state))
}

/// Cost plus values, uncut; nothing where one of them is none.
pub fn sum(sheet: &Sheet, action: &Action) -> Option<u64> {
    let values = action.successors.iter().map(|&t| meant(sheet.cells[t].value));
    Some(action.cost + values.sum::<Option<u64>>()?)
}

/// Work has settled a junction by a check although one before it has the same price.
fn abandoned(first: &Sheet, last: &Sheet, state: usize) -> bool {
    let cell = &last.cells[state];
    settled(first, last, state) && last.actions(state)[..cell.chosen].iter().any(|a| last.price(a) == cell.value)
}
