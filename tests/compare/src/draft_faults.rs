//! Faults of a right sheet or draft, one for each question, through its bytes. The question is answered no then, unless an earlier one has
//! a fault too.

use crate::blocks::{blocks, checks, findings, set_findings, COUNTED_TAG, TERMINAL_TAG};
use crate::draft_calls::Which;
use crate::rng::Rng;
use crate::sketch::{HEAD_BYTES, NONE};

/// Where fields have these: an ending's cost, value and mark; a junction's value, mark, chosen check and written number; a check's cost.
const ENDING_COST: usize = 3;
const ENDING_VALUE: usize = 7;
const ENDING_MARK: usize = 11;
const JUNCTION_VALUE: usize = 3;
const JUNCTION_MARK: usize = 7;
const JUNCTION_CHOSEN: usize = 8;
const WRITTEN: usize = 9;
const CHECK_COST: usize = 3;

/// A sheet in its blocks.
struct Cut {
    whole: bool,
    blocks: Vec<Vec<u8>>,
}

/// Makes a stage wrong, and says whether it could.
type Fault = fn(&mut Cut, usize, &mut Rng) -> bool;

/// Puts a fault of a question, 4 to 8 or 10, into the sheet of a call. Says whether there was a stage for it.
pub fn put(which: Which, bytes: &mut Vec<u8>, question: u32, rng: &mut Rng) -> bool {
    let faults: &[Fault] = match question {
        4 => return out_of_place(bytes, rng),
        10 => &[wrong_number],
        5 => &[cost_out_of_range, value_out_of_range, mark_out_of_range, chosen_out_of_range],
        6 if which == Which::Restore => &[no_stage, out_of_order, equal, not_above, not_above],
        6 => &[no_stage, out_of_order, equal],
        7 => &[ending_above_cost, junction_at_none],
        _ => &[marked_too_soon, opened],
    };
    in_a_block(bytes, rng, faults)
}

/// Stages are tried from any one on, until one can be made wrong.
fn in_a_block(bytes: &mut Vec<u8>, rng: &mut Rng, faults: &[Fault]) -> bool {
    let mut cut = Cut { whole: bytes[3] == 1, blocks: blocks(bytes) };
    let states = cut.blocks.len();
    let (first, fault) = (rng.below(states), rng.pick(faults));
    let done = (0..states).any(|turn| fault(&mut cut, (first + turn) % states, rng));
    bytes.splice(HEAD_BYTES.., cut.blocks.concat());
    done
}

/// Question 4: a byte too few or too many, or a tag that no stage has. The size stays within its bounds.
fn out_of_place(bytes: &mut Vec<u8>, rng: &mut Rng) -> bool {
    match rng.below(3) {
        0 if bytes.len() > 17 => bytes.truncate(bytes.len() - 1),
        1 if bytes.len() < 60_000 => bytes.push(0),
        _ => bytes[HEAD_BYTES] = rng.pick(&[0, 1, 6, 255]),
    }
    true
}

/// Question 10.
fn wrong_number(cut: &mut Cut, stage: usize, rng: &mut Rng) -> bool {
    let block = &mut cut.blocks[stage];
    let counted = block[0] == COUNTED_TAG;
    if counted {
        block[WRITTEN] = block[WRITTEN].wrapping_add(rng.pick(&[1, 1, 255, 200]));
    }
    counted
}

// Question 5.

fn cost_out_of_range(cut: &mut Cut, stage: usize, rng: &mut Rng) -> bool {
    let block = &mut cut.blocks[stage];
    let too_much = rng.pick(&[1_000_001, u32::MAX]);
    let checks = checks(block);
    if block[0] == TERMINAL_TAG {
        set32(block, ENDING_COST, too_much);
    } else if !checks.is_empty() {
        set32(block, rng.pick(&checks) + CHECK_COST, rng.pick(&[0, too_much]));
    }
    block[0] == TERMINAL_TAG || !checks.is_empty()
}

fn value_out_of_range(cut: &mut Cut, stage: usize, rng: &mut Rng) -> bool {
    let block = &mut cut.blocks[stage];
    let at = value_at(block);
    set32(block, at, rng.pick(&[NONE + 1, u32::MAX]));
    true
}

fn mark_out_of_range(cut: &mut Cut, stage: usize, rng: &mut Rng) -> bool {
    let block = &mut cut.blocks[stage];
    let at = mark_at(block);
    block[at] = rng.pick(&[2, 255]);
    true
}

/// At an open junction 1 is wrong, and at a settled one the number of its checks, or 1 where there are none.
fn chosen_out_of_range(cut: &mut Cut, stage: usize, _: &mut Rng) -> bool {
    let block = &mut cut.blocks[stage];
    if block[0] == TERMINAL_TAG {
        return false;
    }
    let checks = checks(block).len() as u8;
    block[JUNCTION_CHOSEN] = if block[JUNCTION_MARK] == 0 { 1 } else { checks.max(1) };
    true
}

// Question 6.

/// One of a stage's checks, which has findings of the wanted sort, gets them changed.
fn change(block: &mut Vec<u8>, rng: &mut Rng, wanted: fn(&[usize]) -> bool, change: impl Fn(&mut [usize], &mut Rng)) -> bool {
    let checks: Vec<usize> = checks(block).into_iter().filter(|&at| wanted(&findings(block, at))).collect();
    if checks.is_empty() {
        return false;
    }
    let at = rng.pick(&checks);
    let mut list = findings(block, at);
    change(&mut list, rng);
    set_findings(block, at, &list);
    true
}

fn no_stage(cut: &mut Cut, stage: usize, rng: &mut Rng) -> bool {
    let states = cut.blocks.len();
    change(
        &mut cut.blocks[stage],
        rng,
        |_| true,
        |list, rng| list[list.len() - 1] = rng.pick(&[states, states, states + 1, usize::from(u16::MAX)]),
    )
}

/// Two findings that are not equal change places.
fn out_of_order(cut: &mut Cut, stage: usize, rng: &mut Rng) -> bool {
    let ascending = |list: &[usize]| list.first() < list.last();
    change(&mut cut.blocks[stage], rng, ascending, |list, _| list.swap(0, list.len() - 1))
}

/// On a worst sheet a finding is listed twice.
fn equal(cut: &mut Cut, stage: usize, rng: &mut Rng) -> bool {
    !cut.whole && change(&mut cut.blocks[stage], rng, |list| list.len() > 1, |list, _| list[1] = list[0])
}

/// Of an ordinary sheet: the first finding is its junction, or below it.
fn not_above(cut: &mut Cut, stage: usize, rng: &mut Rng) -> bool {
    change(&mut cut.blocks[stage], rng, |_| true, |list, rng| list[0] = rng.between(0, stage))
}

// Question 7.

fn ending_above_cost(cut: &mut Cut, stage: usize, _: &mut Rng) -> bool {
    let block = &mut cut.blocks[stage];
    let ending = block[0] == TERMINAL_TAG;
    if ending {
        let cost = number32(block, ENDING_COST);
        set32(block, ENDING_VALUE, cost + 1);
    }
    ending
}

/// A junction is at none, and a check of it has a price.
fn junction_at_none(cut: &mut Cut, stage: usize, _: &mut Rng) -> bool {
    let block = &cut.blocks[stage];
    let below = |finding: &usize| number32(&cut.blocks[*finding], value_at(&cut.blocks[*finding])) < NONE;
    let priced = checks(block).into_iter().any(|at| findings(block, at).iter().all(below));
    if priced {
        set32(&mut cut.blocks[stage], JUNCTION_VALUE, NONE);
    }
    priced
}

// Question 8. Values stay as they are.

/// An open ending below its cost, or a junction without checks below none, is marked.
fn marked_too_soon(cut: &mut Cut, stage: usize, _: &mut Rng) -> bool {
    let block = &mut cut.blocks[stage];
    let (value, mark) = (number32(block, value_at(block)), mark_at(block));
    let due = match block[0] {
        TERMINAL_TAG => number32(block, ENDING_COST),
        _ if checks(block).is_empty() => NONE,
        _ => return false,
    };
    if block[mark] == 1 || value == due {
        return false;
    }
    block[mark] = 1;
    true
}

/// A finding of a settled junction's chosen check is open again.
fn opened(cut: &mut Cut, stage: usize, rng: &mut Rng) -> bool {
    let block = &cut.blocks[stage];
    let chosen = checks(block).get(usize::from(block[JUNCTION_CHOSEN])).copied();
    let Some(at) = chosen.filter(|_| block[JUNCTION_MARK] == 1) else { return false };
    let finding = rng.pick(&findings(block, at));
    let block = &mut cut.blocks[finding];
    let mark = mark_at(block);
    block[mark] = 0;
    if block[0] != TERMINAL_TAG {
        block[JUNCTION_CHOSEN] = 0;
    }
    true
}

fn value_at(block: &[u8]) -> usize {
    if block[0] == TERMINAL_TAG {
        ENDING_VALUE
    } else {
        JUNCTION_VALUE
    }
}

fn mark_at(block: &[u8]) -> usize {
    if block[0] == TERMINAL_TAG {
        ENDING_MARK
    } else {
        JUNCTION_MARK
    }
}

fn number32(bytes: &[u8], at: usize) -> u32 {
    u32::from_be_bytes(bytes[at..at + 4].try_into().expect("four bytes"))
}

fn set32(bytes: &mut [u8], at: usize, number: u32) {
    bytes[at..at + 4].copy_from_slice(&number.to_be_bytes());
}
