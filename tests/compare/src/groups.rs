//! Groups of equal findings (S2.10), put into the checks of a drawn sheet.

use crate::rng::Rng;
use crate::shapes::FULL;
use crate::sketch::{size, Node, Sketch, HEAD_BYTES};

/// The most findings of a check (S3.2).
const MOST_FINDINGS: usize = 16;

/// How often a finding is listed.
const TIMES: [usize; 9] = [2, 2, 2, 3, 3, 5, 9, 15, 16];

/// One to three groups, in one check of so many.
pub fn put(sketch: &mut Sketch, rng: &mut Rng) {
    let one_in = rng.pick(&[1, 2, 6]);
    let mut left = room(sketch);
    for state in &mut sketch.states {
        let Node::Decision(actions) = &mut state.node else { continue };
        for action in actions {
            let groups = if rng.one_in(one_in) { rng.pick(&[1, 1, 2, 3]) } else { 0 };
            for _ in 0..groups {
                left -= repeat(&mut action.successors, rng, left);
            }
        }
    }
}

/// Does a check of the sheet list a finding several times?
pub fn any(sketch: &Sketch) -> bool {
    sketch.states.iter().any(|state| match &state.node {
        Node::Terminal(_) => false,
        Node::Decision(actions) => actions.iter().any(|action| action.successors.windows(2).any(|pair| pair[0] == pair[1])),
    })
}

/// The bytes that a sheet may grow by. A counted junction takes one more than a plain one.
pub fn room(sketch: &Sketch) -> usize {
    let bytes = HEAD_BYTES + sketch.states.iter().map(|state| size(&state.node)).sum::<usize>();
    let counted = (0..sketch.states.len()).filter(|&state| sketch.counted(state)).count();
    FULL.saturating_sub(bytes + counted)
}

/// Lists a finding several times, as far as the check and the sheet have room; where they have none, in the place of those that follow it.
/// The number of bytes that are added.
pub fn repeat(successors: &mut Vec<u16>, rng: &mut Rng, room: usize) -> usize {
    let place = rng.below(successors.len());
    let finding = successors[place];
    let more = (rng.pick(&TIMES) - 1).min(MOST_FINDINGS.saturating_sub(successors.len())).min(room / 2);
    if more > 0 {
        successors.splice(place..place, vec![finding; more]);
    } else {
        let last = rng.between(place, successors.len() - 1);
        successors[place..=last].fill(finding);
    }
    2 * more
}
