//! The new sheet of a draft (S13.5), and the draft of an ordinary sheet (S13.6). Both have as many bytes as what they are made from.

use crate::{Action, Node, Sheet, State, DRAFT_TAG, SHEET_TAG};

/// The number that each stage gets in the sheet that is written, and which stage gets each number there.
struct Numbers {
    of: Vec<usize>,
    at: Vec<usize>,
}

/// By an order: entry k is the old number of the stage that gets the number k.
pub fn new_sheet(draft: &Sheet, order: &[usize]) -> Vec<u8> {
    write(draft, SHEET_TAG, &Numbers { of: inverse(order), at: order.to_vec() })
}

/// By a list of old numbers: entry k is the number that stage k gets.
pub fn restored(sheet: &Sheet, list: &[usize]) -> Vec<u8> {
    write(sheet, DRAFT_TAG, &Numbers { of: list.to_vec(), at: inverse(list) })
}

/// Where each number stands in a list that has every number once.
fn inverse(list: &[usize]) -> Vec<usize> {
    let mut places = vec![0; list.len()];
    for (place, &number) in list.iter().enumerate() {
        places[number] = place;
    }
    places
}

fn write(sheet: &Sheet, tag: u8, numbers: &Numbers) -> Vec<u8> {
    let mut bytes = vec![tag, 0, 5, u8::from(sheet.whole)];
    bytes.extend((sheet.states.len() as u16).to_be_bytes());
    bytes.extend((numbers.of[sheet.start] as u16).to_be_bytes());
    for &state in &numbers.at {
        write_state(&mut bytes, &sheet.states[state], numbers);
    }
    bytes
}

fn write_state(bytes: &mut Vec<u8>, state: &State, numbers: &Numbers) {
    let value = state.value.to_be_bytes();
    match &state.node {
        Node::Terminal { cost } => {
            bytes.extend([2, 0, 9]);
            bytes.extend(cost.to_be_bytes());
            bytes.extend(value);
            bytes.push(state.mark);
        }
        Node::Decision { written, actions } => {
            bytes.extend(if written.is_some() { [5, 0, 7] } else { [3, 0, 6] });
            bytes.extend(value);
            bytes.extend([state.mark, state.chosen]);
            bytes.extend(written);
            actions.iter().for_each(|action| write_action(bytes, action, numbers));
        }
    }
}

/// The findings get their numbers and are sorted by them.
fn write_action(bytes: &mut Vec<u8>, action: &Action, numbers: &Numbers) {
    let mut successors: Vec<usize> = action.successors.iter().map(|&t| numbers.of[t]).collect();
    successors.sort();
    bytes.extend([4, 0, 4 + 2 * successors.len() as u8]);
    bytes.extend(action.cost.to_be_bytes());
    for successor in successors {
        bytes.extend((successor as u16).to_be_bytes());
    }
}
