//! The text that `price` prints (S10).

use crate::ldfs::{work, Outcome};
use crate::questions::accept;
use crate::Sheet;

/// Works a sheet with the largest budget and gives the lines that are printed.
pub fn listing(bytes: &[u8]) -> String {
    let mut sheet = match accept(bytes) {
        Ok(sheet) => sheet,
        Err(number) => return format!("refused {number}\n"),
    };
    let done = work(&mut sheet, u64::MAX);
    let value = sheet.states[sheet.start].value;
    let (word, lines) = match done.outcome {
        Outcome::Settled => ("settled", plan_lines(&sheet)),
        Outcome::Over => ("over", String::new()),
        Outcome::NoPlan => ("none", String::new()),
        Outcome::Stopped => ("stopped", String::new()),
    };
    format!("{word} {value} {} {}\n{lines}", done.passes, done.raises)
}

/// A line for each state that the plan reaches from the start, ascending.
fn plan_lines(sheet: &Sheet) -> String {
    let mut reached = vec![false; sheet.states.len()];
    reached[sheet.start] = true;
    let mut lines = String::new();
    for (number, state) in sheet.states.iter().enumerate() {
        if !reached[number] {
            continue;
        }
        lines += &line(sheet, number);
        if state.terminal_cost.is_none() {
            for &successor in &state.actions[state.chosen].successors {
                reached[successor] = true;
            }
        }
    }
    lines
}

/// The line of a state. That of a junction ends in the dearest finding of the chosen check (S2.9).
fn line(sheet: &Sheet, number: usize) -> String {
    let state = &sheet.states[number];
    let (value, chosen) = (state.value, state.chosen);
    match state.terminal_cost {
        Some(_) => format!("stage {number} end value {value}\n"),
        None => format!("stage {number} check {chosen} value {value} by {}\n", sheet.dearest(number, chosen)),
    }
}
