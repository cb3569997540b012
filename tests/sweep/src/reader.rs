//! Reading a sheet: fields are taken off the front of the bytes, one after another. Questions 2 to 8 and 10 are answered on
//! the way.

use crate::{Action, Cell, Node, Sheet, NONE};

/// The fewest bytes of a sheet, and the most (S4.2).
const LEAST_BYTES: usize = 17;
const MOST_BYTES: usize = 60_000;

/// The most states of a sheet (S4.3).
const MOST_STATES: usize = 4096;

/// A question about one state: is it answered yes?
type Question = fn(&Sheet, usize) -> bool;

/// The sheet that the bytes say, or the number of the first question whose answer is no, of 2 to 8 and 10.
pub fn read(bytes: &[u8]) -> Result<Sheet, u32> {
    let sheet = fields(bytes)?;
    ask(&sheet)?;
    Ok(sheet)
}

/// Questions 10 and 5 to 8, of a sheet whose fields are in place: the number of the first whose answer is no.
pub fn ask(sheet: &Sheet) -> Result<(), u32> {
    let questions: [(u32, Question); 5] = [(10, well_counted), (5, in_range), (6, in_order), (7, not_above), (8, earned)];
    for (number, passes) in questions {
        if !(0..sheet.nodes.len()).all(|state| passes(sheet, state)) {
            return Err(number);
        }
    }
    Ok(())
}

/// The same by questions 2 to 4 alone: the fields are in place, and their numbers may be any.
pub fn fields(bytes: &[u8]) -> Result<Sheet, u32> {
    if !(LEAST_BYTES..=MOST_BYTES).contains(&bytes.len()) {
        return Err(2);
    }
    let (whole, count, start, rest) = head(bytes).ok_or(3u32)?;
    let (nodes, counts, cells) = states(count, rest).ok_or(4u32)?;
    Ok(Sheet { whole, start, nodes, counts, cells })
}

/// The next field: its tag, its content, and what follows it.
fn field(bytes: &[u8]) -> Option<(u8, &[u8], &[u8])> {
    let [tag, high, low, rest @ ..] = bytes else { return None };
    let length = number(&[*high, *low]) as usize;
    (length <= rest.len()).then(|| (*tag, &rest[..length], &rest[length..]))
}

/// A number, most significant byte first.
fn number(bytes: &[u8]) -> u64 {
    bytes.iter().fold(0, |n, &byte| n << 8 | u64::from(byte))
}

/// Is the sheet whole, how many states has it, which is the start; and what follows the head.
fn head(bytes: &[u8]) -> Option<(bool, usize, usize, &[u8])> {
    let (1, content, rest) = field(bytes)? else { return None };
    let [kind @ 0..=1, c1, c0, s1, s0] = content else { return None };
    let count = number(&[*c1, *c0]) as usize;
    let start = number(&[*s1, *s0]) as usize;
    ((1..=MOST_STATES).contains(&count) && start < count).then_some((*kind == 1, count, start, rest))
}

/// Exactly this many states, and nothing behind them. A counted junction's content is a plain one's and its count (S3.2).
fn states(count: usize, mut rest: &[u8]) -> Option<(Vec<Node>, Vec<Option<u8>>, Vec<Cell>)> {
    let (mut nodes, mut counts, mut cells) = (Vec::new(), Vec::new(), Vec::new());
    for _ in 0..count {
        let (said, (node, cell, after)) = match field(rest)? {
            (2, content, after) => (None, terminal(content, after)?),
            (3, content, after) => (None, decision(content, after)?),
            (5, [content @ .., said], after) => (Some(*said), decision(content, after)?),
            _ => return None,
        };
        nodes.push(node);
        counts.push(said);
        cells.push(cell);
        rest = after;
    }
    rest.is_empty().then_some((nodes, counts, cells))
}

fn terminal<'a>(content: &[u8], after: &'a [u8]) -> Option<(Node, Cell, &'a [u8])> {
    if content.len() != 9 {
        return None;
    }
    let cell = Cell { value: number(&content[4..8]), mark: content[8], chosen: 0 };
    Some((Node::Terminal(number(&content[..4])), cell, after))
}

fn decision<'a>(content: &[u8], mut after: &'a [u8]) -> Option<(Node, Cell, &'a [u8])> {
    if content.len() != 6 {
        return None;
    }
    let mut actions = Vec::new();
    while after.first() == Some(&4) {
        let (_, check, rest) = field(after)?;
        actions.push(action(check)?);
        after = rest;
    }
    let cell = Cell { value: number(&content[..4]), mark: content[4], chosen: content[5] as usize };
    (actions.len() <= 16).then_some((Node::Decision(actions), cell, after))
}

fn action(content: &[u8]) -> Option<Action> {
    if !(6..=36).contains(&content.len()) || content.len() % 2 != 0 {
        return None;
    }
    let successors = content[4..].chunks(2).map(|pair| number(pair) as usize).collect();
    Some(Action { cost: number(&content[..4]), successors })
}

/// Question 10: a junction that says how many checks it has says it rightly.
fn well_counted(sheet: &Sheet, state: usize) -> bool {
    match sheet.counts[state] {
        Some(said) => usize::from(said) == sheet.actions(state).len(),
        None => true,
    }
}

/// Question 5: costs, value, mark and chosen check are in their ranges. Where there is nothing to choose from, 0 is chosen.
fn in_range(sheet: &Sheet, state: usize) -> bool {
    let cell = &sheet.cells[state];
    let cell_fits = cell.value <= NONE && cell.mark <= 1;
    let node_fits = match &sheet.nodes[state] {
        Node::Terminal(cost) => *cost <= 1_000_000,
        Node::Decision(actions) => {
            let choices = if cell.mark == 0 { 1 } else { actions.len().max(1) };
            cell.chosen < choices && actions.iter().all(|a| (1..=1_000_000).contains(&a.cost))
        }
    };
    cell_fits && node_fits
}

/// Question 6: successors ascend, from above the state's own number to below the number of states; whole sheets may repeat one.
fn in_order(sheet: &Sheet, state: usize) -> bool {
    sheet.actions(state).iter().all(|action| {
        let numbers = &action.successors;
        let ascending = numbers.windows(2).all(|pair| pair[0] < pair[1] || sheet.whole && pair[0] == pair[1]);
        ascending && numbers.iter().all(|&t| state < t && t < sheet.nodes.len())
    })
}

/// Question 7: the value is not above the cost, or not above the price of any check.
fn not_above(sheet: &Sheet, state: usize) -> bool {
    let value = sheet.cells[state].value;
    match &sheet.nodes[state] {
        Node::Terminal(cost) => value <= *cost,
        Node::Decision(actions) => actions.iter().all(|a| value <= sheet.price(a)),
    }
}

/// Question 8: a mark is earned, by the cost, by none where there are no checks, or by the chosen check, whose findings are all settled.
fn earned(sheet: &Sheet, state: usize) -> bool {
    let cell = &sheet.cells[state];
    if cell.mark == 0 {
        return true;
    }
    match &sheet.nodes[state] {
        Node::Terminal(cost) => cell.value == *cost,
        Node::Decision(actions) if actions.is_empty() => cell.value == NONE,
        Node::Decision(actions) => {
            let chosen = &actions[cell.chosen];
            cell.value == sheet.price(chosen) && chosen.successors.iter().all(|&t| sheet.solved(t))
        }
    }
}
