//! The forms of junctions (S3.6), put into a drawn sheet, and damage of what counted ones write.

use crate::damage;
use crate::groups;
use crate::rng::Rng;
use crate::sketch::{Form, Node, Sketch};

/// Half of the sheets have plain junctions only, a quarter counted ones only, a quarter both: of eight junctions so many are counted. One
/// junction alone has either form as often.
const COUNTED_IN_EIGHT: [usize; 8] = [0, 0, 0, 0, 8, 8, 4, 1];
const COUNTED_ALONE: [usize; 2] = [0, 8];

/// Counted junctions write the number of their checks. They take a byte more than plain ones, as long as the sheet has room.
pub fn put(sketch: &mut Sketch, rng: &mut Rng) {
    let counted = rng.pick(if sketch.states.len() == 1 { &COUNTED_ALONE[..] } else { &COUNTED_IN_EIGHT });
    let mut left = groups::room(sketch);
    for state in &mut sketch.states {
        let Node::Decision(actions) = &state.node else { continue };
        if left > 0 && rng.below(8) < counted {
            state.form = Form::Counted(actions.len() as u8);
            left -= 1;
        }
    }
}

/// Damages of a counted junction's checks and of its number.
const IN_SKETCH: [fn(&mut Sketch, &mut Rng); 6] = [numbers, numbers, numbers, lost, crowded, crowded];

/// Damages some of the sheets that have a counted junction, most often where something else is wrong too. Says whether it did.
pub fn sketch(sketch: &mut Sketch, rng: &mut Rng, wrong: bool) -> bool {
    let drawn = rng.one_in(if wrong { 3 } else { 8 });
    let damaged = drawn && (0..sketch.states.len()).any(|state| sketch.counted(state));
    if damaged {
        rng.pick(&IN_SKETCH)(sketch, rng);
    }
    damaged
}

/// A counted junction writes another number, or several do; often one without checks, if there is any.
fn numbers(sketch: &mut Sketch, rng: &mut Rng) {
    for _ in 0..rng.pick(&[1, 1, 1, 2, 5]) {
        let emptied = if rng.one_in(3) { any(sketch, rng, |sketch, s| sketch.emptied(s)) } else { None };
        let Some(state) = emptied.or_else(|| any(sketch, rng, |_, _| true)) else { return };
        let checks = sketch.actions(state).len() as u8;
        let (less, some) = (checks.wrapping_sub(1), rng.below(256) as u8);
        sketch.states[state].form = Form::Counted(rng.pick(&[checks + 1, checks + 1, less, less, 0, 200, 255, some]));
    }
}

/// The field of a check is lost, the last one's or another's, and the number stays.
fn lost(sketch: &mut Sketch, rng: &mut Rng) {
    let Some(state) = any(sketch, rng, |sketch, s| !sketch.actions(s).is_empty()) else { return };
    if let Node::Decision(actions) = &mut sketch.states[state].node {
        let some = rng.below(actions.len());
        let place = rng.pick(&[actions.len() - 1, some]);
        actions.remove(place);
    }
}

/// About as many checks as there may be, and the number that is written.
const CROWDED: [(usize, u8); 9] = [(15, 15), (16, 16), (16, 15), (16, 17), (16, 17), (17, 17), (17, 17), (17, 16), (18, 18)];

/// A counted junction gets that many, the last of which are equal, and that number.
fn crowded(sketch: &mut Sketch, rng: &mut Rng) {
    let Some(state) = any(sketch, rng, |sketch, s| !sketch.actions(s).is_empty()) else { return };
    let (checks, number) = rng.pick(&CROWDED);
    let state = &mut sketch.states[state];
    if let Node::Decision(actions) = &mut state.node {
        let last = actions[actions.len() - 1].clone();
        actions.resize(checks, last);
    }
    state.form = Form::Counted(number);
}

/// A counted junction that is wanted, at random.
fn any(sketch: &Sketch, rng: &mut Rng, wanted: fn(&Sketch, usize) -> bool) -> Option<usize> {
    let drawn: Vec<usize> = (0..sketch.states.len()).filter(|&s| sketch.counted(s) && wanted(sketch, s)).collect();
    (!drawn.is_empty()).then(|| rng.pick(&drawn))
}

/// In one sheet of so many a junction gets the tag of the other form, its length, or both, and nothing else changes. Says whether it did.
pub fn bytes(bytes: &mut [u8], rng: &mut Rng) -> bool {
    let junctions: Vec<usize> = damage::places(bytes).into_iter().filter(|&at| matches!(bytes[at], 3 | 5)).collect();
    if junctions.is_empty() || !rng.one_in(40) {
        return false;
    }
    let at = rng.pick(&junctions);
    let (tag, length) = if bytes[at] == 3 { (5, 7) } else { (3, 6) };
    let way = rng.below(3);
    if way != 0 {
        bytes[at] = tag;
    }
    if way != 1 {
        bytes[at + 2] = length;
    }
    true
}
