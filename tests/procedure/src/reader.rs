//! Bytes to a sheet and back (S3). The reader keeps an offset into the bytes and moves it on.

use crate::{Action, Sheet, State};

pub fn number16(bytes: &[u8], at: usize) -> usize {
    usize::from(bytes[at]) * 256 + usize::from(bytes[at + 1])
}

fn number32(bytes: &[u8], at: usize) -> u64 {
    u64::from(u32::from_be_bytes([bytes[at], bytes[at + 1], bytes[at + 2], bytes[at + 3]]))
}

/// The length of the content of the field at an offset, if its tag is this one and all of it is there.
fn content_length(bytes: &[u8], at: usize, tag: u8) -> Option<usize> {
    if at + 3 > bytes.len() || bytes[at] != tag {
        return None;
    }
    let length = number16(bytes, at + 1);
    if at + 3 + length > bytes.len() {
        return None;
    }
    Some(length)
}

/// Does the sheet begin with a head of the right length?
pub fn has_head(bytes: &[u8]) -> bool {
    content_length(bytes, 0, 0x01) == Some(5)
}

/// The sheet, if what follows the head is exactly the stages that the head announces. The first field out of place ends the reading.
pub fn read(bytes: &[u8]) -> Option<Sheet> {
    let mut states = Vec::new();
    let mut at = 8;
    for _ in 0..number16(bytes, 4) {
        states.push(read_state(bytes, &mut at)?);
    }
    if at != bytes.len() {
        return None;
    }
    Some(Sheet { kind: bytes[3], start: number16(bytes, 6), states })
}

fn read_state(bytes: &[u8], at: &mut usize) -> Option<State> {
    let offset = *at;
    if content_length(bytes, offset, 0x02) == Some(9) {
        *at = offset + 12;
        return Some(State {
            offset,
            terminal_cost: Some(number32(bytes, offset + 3)),
            actions: Vec::new(),
            count: None,
            value: number32(bytes, offset + 7),
            mark: bytes[offset + 11],
            chosen: 0,
        });
    }
    if content_length(bytes, offset, 0x03) == Some(6) {
        *at = offset + 9;
        return read_decision(bytes, offset, None, at);
    }
    if content_length(bytes, offset, 0x05) == Some(7) {
        *at = offset + 10;
        return read_decision(bytes, offset, Some(usize::from(bytes[offset + 9])), at);
    }
    None
}

/// The junction of a field, in either form (S3.6), with the checks that follow it, whatever number it writes.
fn read_decision(bytes: &[u8], offset: usize, count: Option<usize>, at: &mut usize) -> Option<State> {
    Some(State {
        offset,
        terminal_cost: None,
        actions: read_actions(bytes, at)?,
        count,
        value: number32(bytes, offset + 3),
        mark: bytes[offset + 7],
        chosen: usize::from(bytes[offset + 8]),
    })
}

/// The checks that follow a junction's field: 0 to 16.
fn read_actions(bytes: &[u8], at: &mut usize) -> Option<Vec<Action>> {
    let mut actions = Vec::new();
    while *at < bytes.len() && bytes[*at] == 0x04 {
        let length = content_length(bytes, *at, 0x04)?;
        if !(6..=36).contains(&length) || length % 2 == 1 || actions.len() == 16 {
            return None;
        }
        let end = *at + 3 + length;
        let successors = (*at + 7..end).step_by(2).map(|place| number16(bytes, place)).collect();
        actions.push(Action { cost: number32(bytes, *at + 3), successors });
        *at = end;
    }
    Some(actions)
}

/// Stores values, marks and chosen checks at their places, and nothing else: a junction keeps its form.
pub fn store(sheet: &Sheet, bytes: &mut [u8]) {
    for state in &sheet.states {
        let at = state.offset;
        let value = (state.value as u32).to_be_bytes();
        if state.terminal_cost.is_some() {
            bytes[at + 7..at + 11].copy_from_slice(&value);
            bytes[at + 11] = state.mark;
        } else {
            bytes[at + 3..at + 7].copy_from_slice(&value);
            bytes[at + 7] = state.mark;
            bytes[at + 8] = state.chosen as u8;
        }
    }
}
