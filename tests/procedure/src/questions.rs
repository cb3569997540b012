//! Questions 2 to 4, 10 and 5 to 8 (S4.2 to S4.8, S4.10), in this order, each put to the whole sheet before the next.

use crate::reader::{has_head, number16, read};
use crate::{Sheet, State, MOST_STATES, NONE};

/// The sheet, or the number of the first question that is answered no.
pub fn accept(bytes: &[u8]) -> Result<Sheet, u32> {
    if bytes.len() < 17 || bytes.len() > 60_000 {
        return Err(2);
    }
    if !has_head(bytes) || bytes[3] > 1 {
        return Err(3);
    }
    let count = number16(bytes, 4);
    if !(1..=MOST_STATES).contains(&count) || number16(bytes, 6) >= count {
        return Err(3);
    }
    let Some(sheet) = read(bytes) else {
        return Err(4);
    };
    if !sheet.states.iter().all(count_right) {
        return Err(10);
    }
    if !sheet.states.iter().all(numbers_in_range) {
        return Err(5);
    }
    if !(0..count).all(|s| successors_in_order(&sheet, s)) {
        return Err(6);
    }
    if !(0..count).all(|s| value_not_above(&sheet, s)) {
        return Err(7);
    }
    if !(0..count).all(|s| mark_earned(&sheet, s)) {
        return Err(8);
    }
    Ok(sheet)
}

/// A counted junction writes the number of checks that follow it (S4.10).
fn count_right(state: &State) -> bool {
    state.count.is_none_or(|written| written == state.actions.len())
}

fn numbers_in_range(state: &State) -> bool {
    if state.value > NONE || state.mark > 1 {
        return false;
    }
    if let Some(cost) = state.terminal_cost {
        return cost <= 1_000_000;
    }
    for action in &state.actions {
        if action.cost < 1 || action.cost > 1_000_000 {
            return false;
        }
    }
    if state.mark == 0 || state.actions.is_empty() {
        state.chosen == 0
    } else {
        state.chosen < state.actions.len()
    }
}

/// A finding is above its junction's number; the next one is above it on a worst sheet, and not below it on a whole one (S4.6).
fn successors_in_order(sheet: &Sheet, s: usize) -> bool {
    let step = if sheet.kind == 0 { 1 } else { 0 };
    for action in &sheet.states[s].actions {
        let mut least = s + 1;
        for &successor in &action.successors {
            if successor < least || successor >= sheet.states.len() {
                return false;
            }
            least = successor + step;
        }
    }
    true
}

fn value_not_above(sheet: &Sheet, s: usize) -> bool {
    let state = &sheet.states[s];
    match state.terminal_cost {
        Some(cost) => state.value <= cost,
        None => (0..state.actions.len()).all(|a| state.value <= sheet.q_value(s, a)),
    }
}

fn mark_earned(sheet: &Sheet, s: usize) -> bool {
    let state = &sheet.states[s];
    if state.mark == 0 {
        return true;
    }
    match state.terminal_cost {
        Some(cost) => state.value == cost,
        None if state.actions.is_empty() => state.value == NONE,
        None => {
            let successors = &state.actions[state.chosen].successors;
            let all_solved = successors.iter().all(|&t| sheet.states[t].mark == 1);
            all_solved && state.value == sheet.q_value(s, state.chosen)
        }
    }
}
