//! Values, marks and chosen checks of a sheet that has been worked to some extent: questions 5, 7 and 8 hold by the way they are made.

use crate::rng::Rng;
use crate::sketch::{Node, Sketch, AT_CEILING, NONE};

#[derive(Clone, Copy)]
pub enum Worked {
    /// As sketched: values 0 and open, for nearly all shapes.
    Blank,
    /// Values anywhere below what is allowed.
    Low,
    /// Values a little below what is allowed, or at it.
    Near,
    /// Values at the least costs, but for a few states that are lower, and so those that depend on them.
    Dented,
    /// Every value at the least cost.
    Optimal,
}

/// One state in so many is dented, and on large sheets about so many in all: at a dent in a chain every state above it is raised too.
const ONE_DENT_IN: usize = 60;
const MOST_DENTS: usize = 20;

/// From the last state backwards: a value up to what its successors' values allow, then perhaps a mark.
pub fn fill(sketch: &mut Sketch, rng: &mut Rng, worked: Worked) {
    if let Worked::Blank = worked {
        return;
    }
    let marked_in_eight = rng.pick(&[0, 4, 7, 8]);
    let one_dent_in = ONE_DENT_IN.max(sketch.states.len() / MOST_DENTS);
    for state in (0..sketch.states.len()).rev() {
        let top = sketch.top(state);
        sketch.states[state].value = match worked {
            Worked::Low if sketch.emptied(state) => anything(rng),
            _ => value(rng, worked, top, one_dent_in),
        };
        if rng.below(8) < marked_in_eight {
            mark(sketch, rng, state);
        }
    }
}

/// Every value at the least cost, and every state marked.
pub fn finish(sketch: &mut Sketch, rng: &mut Rng) {
    for state in (0..sketch.states.len()).rev() {
        sketch.states[state].value = sketch.top(state);
        mark(sketch, rng, state);
    }
}

fn value(rng: &mut Rng, worked: Worked, top: u32, one_dent_in: usize) -> u32 {
    let below = match worked {
        Worked::Blank => top,
        Worked::Low => rng.below(top as usize + 1) as u32,
        Worked::Near => rng.pick(&[0, 0, 0, 1, 2, 10]),
        Worked::Dented if rng.one_in(one_dent_in) => rng.below(4) as u32,
        Worked::Dented => 0,
        Worked::Optimal => 0,
    };
    top.saturating_sub(below)
}

/// The value of an open junction without checks may be any, up to none.
fn anything(rng: &mut Rng) -> u32 {
    let drawn = rng.below(NONE as usize + 1) as u32;
    rng.pick(&[0, drawn, drawn, AT_CEILING - 1, AT_CEILING, NONE])
}

/// Marks a state if its value has earned it, with any check that passes as the chosen one.
fn mark(sketch: &mut Sketch, rng: &mut Rng, state: usize) {
    let value = sketch.states[state].value;
    let passing: Vec<usize> = match &sketch.states[state].node {
        Node::Terminal(cost) if value == *cost => vec![0],
        Node::Terminal(_) => Vec::new(),
        Node::Decision(actions) if actions.is_empty() && value == NONE => vec![0],
        Node::Decision(actions) => {
            let solved = |t: &u16| sketch.states[usize::from(*t)].mark == 1;
            let passes = |i: &usize| {
                let action = &actions[*i];
                sketch.price(action) == u64::from(value) && action.successors.iter().all(solved)
            };
            (0..actions.len()).filter(passes).collect()
        }
    };
    if !passing.is_empty() {
        sketch.states[state].chosen = rng.pick(&passing) as u8;
        sketch.states[state].mark = 1;
    }
}
