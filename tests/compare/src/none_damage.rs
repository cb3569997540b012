//! Damage of sheets that have a junction without checks: each question on both sides of none (S2.11).

use crate::cells;
use crate::rng::Rng;
use crate::sketch::{Node, Sketch, AT_CEILING, NONE};

/// Says whether it found a stage to damage.
type InSketch = fn(&mut Sketch, &mut Rng) -> bool;

/// Those that need certain checks stand there more than once: they miss often.
const OF_NONE: [InSketch; 23] = [
    settled_elsewhere,
    settled_elsewhere,
    settled_elsewhere,
    nothing_to_choose,
    nothing_to_choose,
    beyond_none,
    beyond_none,
    ending_at_none,
    raised_too_far,
    raised_too_far,
    raised_too_far,
    raised_too_far,
    finding_opened,
    finding_opened,
    finding_opened,
    ceiling_for_none,
    ceiling_for_none,
    ceiling_for_none,
    none_for_ceiling,
    none_for_ceiling,
    none_for_ceiling,
    none_for_ceiling,
    none_for_ceiling,
];

/// One of them, the first that finds its stage.
pub fn sketch(sketch: &mut Sketch, rng: &mut Rng) {
    for _ in 0..OF_NONE.len() {
        if rng.pick(&OF_NONE)(sketch, rng) {
            return;
        }
    }
}

/// Question 8: a settled junction without checks is at none.
fn settled_elsewhere(sketch: &mut Sketch, rng: &mut Rng) -> bool {
    let Some(number) = any(sketch, rng, |sketch, s| sketch.emptied(s)) else { return false };
    let value = rng.pick(&[0, 0, AT_CEILING, AT_CEILING, AT_CEILING - 1, AT_CEILING - 1, NONE, 7]);
    let state = &mut sketch.states[number];
    (state.value, state.mark, state.chosen) = (value, 1, 0);
    unwork(sketch, number);
    true
}

/// Question 5: where there are no checks, 0 is chosen.
fn nothing_to_choose(sketch: &mut Sketch, rng: &mut Rng) -> bool {
    let Some(number) = any(sketch, rng, |sketch, s| sketch.emptied(s)) else { return false };
    let state = &mut sketch.states[number];
    (state.value, state.mark) = rng.pick(&[(0, 0), (NONE, 0), (NONE, 1), (NONE, 1)]);
    state.chosen = rng.pick(&[1, 1, 15, 16, 255]);
    true
}

/// Question 5: no value is above none, wherever.
fn beyond_none(sketch: &mut Sketch, rng: &mut Rng) -> bool {
    let kinds: [Wanted; 3] = [is_ending, |sketch, s| sketch.emptied(s), |sketch, s| !sketch.actions(s).is_empty()];
    let kind = rng.pick(&kinds);
    let Some(number) = any(sketch, rng, kind) else { return false };
    sketch.states[number].value = NONE + 1;
    true
}

/// Question 7: an ending is never at none.
fn ending_at_none(sketch: &mut Sketch, rng: &mut Rng) -> bool {
    let Some(number) = any(sketch, rng, is_ending) else { return false };
    sketch.states[number].value = NONE;
    true
}

/// Question 7: an open junction at none or at the ceiling, although one of its checks is below; where one is none already, if there is any.
fn raised_too_far(sketch: &mut Sketch, rng: &mut Rng) -> bool {
    let below: Wanted = |sketch, s| !sketch.actions(s).is_empty() && sketch.top(s) < AT_CEILING;
    let beside: Wanted = |sketch, s| sketch.actions(s).iter().any(|action| sketch.price(action) == u64::from(NONE));
    let both: Wanted = if (0..sketch.states.len()).any(|s| below(sketch, s) && beside(sketch, s)) { beside } else { below };
    let Some(number) = any(sketch, rng, |sketch, s| below(sketch, s) && both(sketch, s)) else { return false };
    let state = &mut sketch.states[number];
    (state.value, state.mark, state.chosen) = (rng.pick(&[NONE, AT_CEILING]), 0, 0);
    true
}

/// Question 8: the chosen check of a junction that is settled at none has an open finding.
fn finding_opened(sketch: &mut Sketch, rng: &mut Rng) -> bool {
    let Some(number) = settled_at(sketch, rng, NONE) else { return false };
    let chosen = &sketch.actions(number)[usize::from(sketch.states[number].chosen)];
    let finding = usize::from(rng.pick(&chosen.successors));
    let state = &mut sketch.states[finding];
    (state.mark, state.chosen) = (0, 0);
    true
}

/// Question 8: a junction is settled at the ceiling, and the price of its chosen check is none.
fn ceiling_for_none(sketch: &mut Sketch, rng: &mut Rng) -> bool {
    let Some(number) = settled_at(sketch, rng, NONE) else { return false };
    sketch.states[number].value = AT_CEILING;
    unwork(sketch, number);
    true
}

/// Question 7: a junction is settled at none, and the price of its chosen check is the ceiling.
fn none_for_ceiling(sketch: &mut Sketch, rng: &mut Rng) -> bool {
    let Some(number) = settled_at(sketch, rng, AT_CEILING) else { return false };
    sketch.states[number].value = NONE;
    true
}

type Wanted = fn(&Sketch, usize) -> bool;

fn is_ending(sketch: &Sketch, state: usize) -> bool {
    matches!(sketch.states[state].node, Node::Terminal(_))
}

/// A junction with checks that is settled at a value; where there is none, the work is finished first.
fn settled_at(sketch: &mut Sketch, rng: &mut Rng, value: u32) -> Option<usize> {
    let wanted = |sketch: &Sketch, s: usize| {
        !sketch.actions(s).is_empty() && sketch.states[s].mark == 1 && sketch.states[s].value == value
    };
    if !(0..sketch.states.len()).any(|state| wanted(sketch, state)) {
        cells::finish(sketch, rng);
    }
    any(sketch, rng, wanted)
}

/// A stage that is wanted, at random.
fn any(sketch: &Sketch, rng: &mut Rng, wanted: impl Fn(&Sketch, usize) -> bool) -> Option<usize> {
    let drawn: Vec<usize> = (0..sketch.states.len()).filter(|&state| wanted(sketch, state)).collect();
    (!drawn.is_empty()).then(|| rng.pick(&drawn))
}

/// Stages before this one become unworked: they may lead to it, and would be wrong too.
fn unwork(sketch: &mut Sketch, number: usize) {
    for state in &mut sketch.states[..number] {
        (state.value, state.mark, state.chosen) = (0, 0, 0);
    }
}
