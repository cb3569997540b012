//! The drafts that are measured. Every one is the same in every run.

use crate::sheets::{fans, head, push_action, push_decision, push_terminal, Draws, Sample};

/// As many stages as a draft may have.
const STAGES: usize = 4_096;

/// The most of them that can be junctions with one check of one finding, of 18 bytes each, where the others are endings of 12.
const JUNCTIONS: usize = (60_000 - 8 - 12 * STAGES) / (18 - 12);

pub fn all() -> Vec<Sample> {
    let sample = |name, bytes| Sample { name, bytes };
    let in_order: Vec<usize> = (0..STAGES).collect();
    let reversed: Vec<usize> = (0..STAGES).rev().collect();
    let to_and_fro: Vec<usize> = (0..STAGES).map(|k| if k % 2 == 0 { k / 2 } else { STAGES - 1 - k / 2 }).collect();
    vec![
        sample("sheet K", sheet_k()),
        sample("in order", chain(&in_order, JUNCTIONS)),
        sample("in reverse", chain(&reversed, JUNCTIONS)),
        sample("at random", chain(&shuffled(), JUNCTIONS)),
        sample("to and fro", chain(&to_and_fro, JUNCTIONS)),
        sample("one circle", chain(&in_order, 0)),
        sample("wide, in order", wide()),
        sample("wide, in reverse", in_reverse(wide())),
    ]
}

/// Junctions with 16 checks of 16 findings each, and endings, in order already: 59,645 bytes.
fn wide() -> Vec<u8> {
    let mut bytes = fans(93, 64, 16, 16);
    bytes[0] = 6;
    bytes
}

/// The draft with its numbers in reverse: the stages the other way round, and so the findings of each check.
fn in_reverse(bytes: Vec<u8>) -> Vec<u8> {
    let number = |at: usize| usize::from(u16::from_be_bytes([bytes[at], bytes[at + 1]]));
    let turned = |at: usize| ((number(4) - 1 - number(at)) as u16).to_be_bytes();
    let mut stages: Vec<Vec<u8>> = Vec::new();
    let mut at = 8;
    while at < bytes.len() {
        let end = at + 3 + number(at + 1);
        if bytes[at] == 4 {
            let findings = (at + 7..end).step_by(2).rev().flat_map(turned);
            let stage = stages.last_mut().expect("checks stand behind their junction");
            stage.extend(bytes[at..at + 7].iter().copied().chain(findings));
        } else {
            stages.push(bytes[at..end].to_vec());
        }
        at = end;
    }
    let head = [&bytes[..6], &turned(6)[..]].concat();
    head.into_iter().chain(stages.into_iter().rev().flatten()).collect()
}

/// Sheet K of S11.
pub fn sheet_k() -> Vec<u8> {
    let mut bytes = draft_head(4, 2);
    push_terminal(&mut bytes, 100);
    push_terminal(&mut bytes, 0);
    push_decision(&mut bytes);
    push_action(&mut bytes, 200, vec![1, 3]);
    push_action(&mut bytes, 500, vec![1]);
    push_decision(&mut bytes);
    push_action(&mut bytes, 400, vec![0, 1]);
    bytes
}

fn draft_head(stages: usize, start: usize) -> Vec<u8> {
    let mut bytes = head(0, stages);
    bytes[0] = 6;
    bytes[6..8].copy_from_slice(&(start as u16).to_be_bytes());
    bytes
}

/// A chain of junctions, each with one check that leads to the next, and endings; `numbers` has their numbers, junctions first, in the order
/// of the chain. The last junction leads to entry `behind` of them: the first ending or, for a circle, the first junction.
fn chain(numbers: &[usize], behind: usize) -> Vec<u8> {
    let mut links = [None; STAGES];
    for k in 0..JUNCTIONS {
        links[numbers[k]] = Some(numbers[if k + 1 < JUNCTIONS { k + 1 } else { behind }]);
    }
    let mut bytes = draft_head(STAGES, numbers[0]);
    for (number, link) in links.into_iter().enumerate() {
        match link {
            Some(next) => {
                push_decision(&mut bytes);
                push_action(&mut bytes, 10 + number % 7, vec![next]);
            }
            None => push_terminal(&mut bytes, 500),
        }
    }
    bytes
}

/// All numbers in an order that is drawn, the same in every run.
fn shuffled() -> Vec<usize> {
    let mut draws = Draws(4_096);
    let mut numbers: Vec<usize> = (0..STAGES).collect();
    for left in (1..STAGES).rev() {
        numbers.swap(left, draws.below(left + 1));
    }
    numbers
}
