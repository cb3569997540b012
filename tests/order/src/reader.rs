//! Reading a sheet (S3): the bytes behind the head are cut into fields, and the fields are gathered into stages. Questions 2 to 4.

use crate::{Action, Node, Sheet, State, MOST_STATES};

/// A field: its tag, where that stands, and the content.
struct Field<'a> {
    tag: u8,
    at: usize,
    content: &'a [u8],
}

const HEAD_BYTES: usize = 8;
const MOST_ACTIONS: usize = 16;

/// The sheet whose head has this tag, by questions 2 to 4 alone: its numbers may be any. Or the first of them that is answered no.
pub fn fields(bytes: &[u8], tag: u8) -> Result<Sheet, u32> {
    if bytes.len() < 17 || bytes.len() > 60_000 {
        return Err(2);
    }
    let (whole, count, start) = head(bytes, tag).ok_or(3u32)?;
    let states = states(bytes).filter(|states| states.len() == count).ok_or(4u32)?;
    Ok(Sheet { whole, start, states })
}

/// Is it whole, how many stages are there, and which is the start.
fn head(bytes: &[u8], tag: u8) -> Option<(bool, usize, usize)> {
    let &[found, 0, 5, kind, count_high, count_low, start_high, start_low, ..] = bytes else { return None };
    let count = usize::from(u16::from_be_bytes([count_high, count_low]));
    let start = usize::from(u16::from_be_bytes([start_high, start_low]));
    let right = found == tag && kind <= 1 && (1..=MOST_STATES).contains(&count) && start < count;
    right.then_some((kind == 1, count, start))
}

/// The stages, as many as there are, if every field is in place.
fn states(bytes: &[u8]) -> Option<Vec<State>> {
    let mut states = Vec::new();
    for field in cut(bytes)? {
        match (field.tag, field.content.len()) {
            (2, 9) => states.push(terminal(&field)),
            (3, 6) | (5, 7) => states.push(decision(&field)),
            (4, length) if (6..=36).contains(&length) && length % 2 == 0 => add(states.last_mut()?, action(&field))?,
            _ => return None,
        }
    }
    Some(states)
}

/// The fields behind the head, if they fill the bytes to the end.
fn cut(bytes: &[u8]) -> Option<Vec<Field<'_>>> {
    let mut fields = Vec::new();
    let mut at = HEAD_BYTES;
    while at < bytes.len() {
        let high = usize::from(*bytes.get(at + 1)?);
        let low = usize::from(*bytes.get(at + 2)?);
        let end = at + 3 + 256 * high + low;
        fields.push(Field { tag: bytes[at], at, content: bytes.get(at + 3..end)? });
        at = end;
    }
    Some(fields)
}

fn terminal(field: &Field) -> State {
    let node = Node::Terminal { cost: number(&field.content[..4]) };
    State { at: field.at, node, value: number(&field.content[4..8]), mark: field.content[8], chosen: 0 }
}

/// A junction of either form, without its checks.
fn decision(field: &Field) -> State {
    let node = Node::Decision { written: field.content.get(6).copied(), actions: Vec::new() };
    State { at: field.at, node, value: number(&field.content[..4]), mark: field.content[4], chosen: field.content[5] }
}

fn action(field: &Field) -> Action {
    let successors = field.content[4..].chunks(2).map(|pair| number(pair) as usize).collect();
    Action { cost: number(&field.content[..4]), successors }
}

/// A check behind a stage: it has to be a junction that has fewer than 16.
fn add(state: &mut State, action: Action) -> Option<()> {
    match &mut state.node {
        Node::Decision { actions, .. } if actions.len() < MOST_ACTIONS => {
            actions.push(action);
            Some(())
        }
        _ => None,
    }
}

/// Up to four bytes, the most significant first.
fn number(bytes: &[u8]) -> u32 {
    let mut number = 0;
    for &byte in bytes {
        number = number * 256 + u32::from(byte);
    }
    number
}
