//! Damage. Each question is tried on both sides of its boundary, in the sketch; then bytes are flipped, cut off and added.

use crate::rng::Rng;
use crate::sketch::{Action, Form, Node, Sketch, FEW_STATES, FORMER_MOST, MOST_STATES};
use crate::{emptied, groups, none_damage};

type InSketch = fn(&mut Sketch, &mut Rng);

/// Damages of a sketch, in the order of the questions that they are about. The late ones stand there more than once: they miss often.
const IN_SKETCH: [InSketch; 22] = [
    kind,
    count,
    start,
    number_of_checks,
    number_of_findings,
    check_cost,
    ending_cost,
    value_range,
    mark_range,
    chosen_range,
    finding_bounds,
    finding_bounds,
    finding_repeated,
    finding_order,
    finding_order,
    value_above,
    value_above,
    value_miscounted,
    mark_unearned,
    mark_unearned,
    mark_unearned,
    mark_unearned,
];

/// Where findings are listed several times, it is mostly one of these.
const OF_REPEATS: [InSketch; 5] = [finding_bounds, finding_order, finding_order, value_miscounted, value_miscounted];

/// Damages of bytes.
const IN_BYTES: [fn(&mut Vec<u8>, &mut Rng); 7] = [flip, cut, extend, size_limits, tag, length, repeat_field];

/// One damage of the sketch, or several: the first question that is answered no decides.
pub fn sketch(sketch: &mut Sketch, rng: &mut Rng) {
    if emptied::any(sketch) && !rng.one_in(4) {
        return none_damage::sketch(sketch, rng);
    }
    if groups::any(sketch) && !rng.one_in(4) {
        return rng.pick(&OF_REPEATS)(sketch, rng);
    }
    for _ in 0..rng.pick(&[1, 1, 2, 3, 6]) {
        rng.pick(&IN_SKETCH)(sketch, rng);
    }
}

/// One or two damages of the bytes.
pub fn bytes(bytes: &mut Vec<u8>, rng: &mut Rng) {
    for _ in 0..rng.pick(&[1, 1, 2]) {
        rng.pick(&IN_BYTES)(bytes, rng);
    }
}

// Question 3.

fn kind(sketch: &mut Sketch, rng: &mut Rng) {
    sketch.kind = rng.pick(&[0, 1, 2, 255]);
}

fn count(sketch: &mut Sketch, rng: &mut Rng) {
    let count = sketch.states.len() as u16;
    let [few, former, most] = [FEW_STATES, FORMER_MOST, MOST_STATES].map(|states| states as u16);
    sketch.count = rng.pick(&[0, 1, count - 1, count + 1, few, few + 1, former, former + 1, most, most + 1, u16::MAX]);
}

fn start(sketch: &mut Sketch, rng: &mut Rng) {
    let count = sketch.states.len() as u16;
    sketch.start = rng.pick(&[count - 1, count, count + 1, u16::MAX]);
}

// Question 4.

/// 0 to 16 checks are as many as a junction may have. A counted one writes their number every other time.
fn number_of_checks(sketch: &mut Sketch, rng: &mut Rng) {
    let wanted = rng.pick(&[0, 1, 15, 16, 17, 18]);
    let Some((number, actions)) = decision(sketch, rng) else { return };
    let last = actions[actions.len() - 1].clone();
    actions.resize(wanted, last);
    if sketch.counted(number) && rng.one_in(2) {
        sketch.states[number].form = Form::Counted(wanted as u8);
    }
}

fn number_of_findings(sketch: &mut Sketch, rng: &mut Rng) {
    let wanted = rng.pick(&[0, 1, 15, 16, 17, 18]);
    let states = sketch.states.len();
    let Some((number, actions)) = decision(sketch, rng) else { return };
    let place = rng.below(actions.len());
    let successors = &mut actions[place].successors;
    let first = (number + 1).min(states.saturating_sub(wanted));
    *successors = (first..first + wanted).map(|t| t as u16).collect();
}

// Question 5.

fn check_cost(sketch: &mut Sketch, rng: &mut Rng) {
    let cost = rng.pick(&[0, 1, 1_000_000, 1_000_001, u32::MAX]);
    if let Some((_, actions)) = decision(sketch, rng) {
        let place = rng.below(actions.len());
        actions[place].cost = cost;
    }
}

fn ending_cost(sketch: &mut Sketch, rng: &mut Rng) {
    let wanted = rng.pick(&[0, 1_000_000, 1_000_001, u32::MAX]);
    let number = rng.below(sketch.states.len());
    if let Node::Terminal(cost) = &mut sketch.states[number].node {
        *cost = wanted;
    }
}

fn value_range(sketch: &mut Sketch, rng: &mut Rng) {
    let number = rng.below(sketch.states.len());
    sketch.states[number].value = rng.pick(&[0, 999_999_999, 1_000_000_000, 1_000_000_001, 1_000_000_002, u32::MAX]);
}

fn mark_range(sketch: &mut Sketch, rng: &mut Rng) {
    let number = rng.below(sketch.states.len());
    sketch.states[number].mark = rng.pick(&[0, 1, 2, 255]);
}

fn chosen_range(sketch: &mut Sketch, rng: &mut Rng) {
    let number = rng.below(sketch.states.len());
    if let Node::Decision(actions) = &sketch.states[number].node {
        let count = actions.len() as u8;
        sketch.states[number].chosen = rng.pick(&[0, 1, count.saturating_sub(1), count, 255]);
    }
}

// Question 6.

/// The first findings at their junction's number, or the last at the number of stages; or just within.
fn finding_bounds(sketch: &mut Sketch, rng: &mut Rng) {
    let (states, room) = (sketch.states.len() as u16, groups::room(sketch));
    let Some((number, successors)) = findings(sketch, rng, |_| true) else { return };
    let own = number as u16;
    if rng.one_in(2) {
        groups::repeat(successors, rng, room);
    }
    let count = successors.len();
    let some = count.min(rng.pick(&[1, 2, 2, count]));
    if rng.one_in(2) {
        successors[..some].fill(rng.pick(&[own, own, own + 1, own.saturating_sub(1)]));
    } else {
        successors[count - some..].fill(rng.pick(&[states, states, states - 1, u16::MAX]));
    }
}

/// Equal findings side by side, which only a worst sheet is refused for.
fn finding_repeated(sketch: &mut Sketch, rng: &mut Rng) {
    let room = groups::room(sketch);
    if let Some((_, successors)) = findings(sketch, rng, |_| true) {
        groups::repeat(successors, rng, room);
    }
}

/// Two findings change places, or those that are smaller than one go behind it: equal ones come apart, or stand before a smaller one.
fn finding_order(sketch: &mut Sketch, rng: &mut Rng) {
    let room = groups::room(sketch);
    let Some((_, successors)) = findings(sketch, rng, |list| list.first() != list.last()) else { return };
    if rng.one_in(2) {
        groups::repeat(successors, rng, room);
    }
    let (place, other) = (rng.below(successors.len()), rng.below(successors.len()));
    let smaller = successors.iter().position(|&t| t == successors[place]).unwrap_or(0);
    match rng.below(4) {
        0 => successors.swap(place, other),
        1 => successors.swap(place, place.saturating_sub(1)),
        _ => successors.rotate_left(smaller),
    }
}

/// The findings of a check that has any and is wanted, and its junction's number, at random.
fn findings<'a>(sketch: &'a mut Sketch, rng: &mut Rng, wanted: fn(&[u16]) -> bool) -> Option<(usize, &'a mut Vec<u16>)> {
    let mut all = Vec::new();
    for (number, state) in sketch.states.iter_mut().enumerate() {
        let Node::Decision(actions) = &mut state.node else { continue };
        for Action { successors, .. } in actions {
            if !successors.is_empty() && wanted(successors) {
                all.push((number, successors));
            }
        }
    }
    if all.is_empty() {
        return None;
    }
    let place = rng.below(all.len());
    Some(all.swap_remove(place))
}

// Questions 7 and 8. Prices are asked only where every successor is there.

fn value_above(sketch: &mut Sketch, rng: &mut Rng) {
    let number = rng.below(sketch.states.len());
    let Some(top) = top(sketch, number) else { return };
    sketch.states[number].value = top + rng.pick(&[0, 1, 1, 100]);
}

/// The value of a junction, a settled one if there is any, as if a finding that its chosen check repeats were listed once more or once
/// less. Stages before it become unworked: they may lead to it, and would be wrong too.
fn value_miscounted(sketch: &mut Sketch, rng: &mut Rng) {
    let repeating: Vec<usize> = (0..sketch.states.len()).filter(|&s| repeated(sketch, s).is_some()).collect();
    let settled: Vec<usize> = repeating.iter().copied().filter(|&s| sketch.states[s].mark == 1).collect();
    let drawn = if settled.is_empty() { repeating } else { settled };
    if drawn.is_empty() {
        return;
    }
    let number = rng.pick(&drawn);
    let (Some(_), Some((action, finding))) = (top(sketch, number), repeated(sketch, number)) else { return };
    let (price, each) = (sketch.price(action) as u32, sketch.states[usize::from(finding)].value);
    sketch.states[number].value = if rng.one_in(3) { price.saturating_add(each) } else { price.saturating_sub(each) };
    for state in &mut sketch.states[..number] {
        (state.value, state.mark, state.chosen) = (0, 0, 0);
    }
}

/// A junction's chosen check, and the first finding that it repeats and that has a value.
fn repeated(sketch: &Sketch, number: usize) -> Option<(&Action, u16)> {
    let state = &sketch.states[number];
    let Node::Decision(actions) = &state.node else { return None };
    let action = actions.get(usize::from(state.chosen))?;
    let valued = |t: u16| sketch.states.get(usize::from(t)).is_some_and(|state| state.value > 0);
    let pair = action.successors.windows(2).find(|pair| pair[0] == pair[1] && valued(pair[0]))?;
    Some((action, pair[0]))
}

fn mark_unearned(sketch: &mut Sketch, rng: &mut Rng) {
    let number = rng.below(sketch.states.len());
    let Some(top) = top(sketch, number) else { return };
    let state = &mut sketch.states[number];
    match rng.below(4) {
        0 => state.mark = 1,
        1 => state.mark = 0,
        2 => {
            state.mark = 1;
            state.value = top;
        }
        _ => {
            state.mark = 1;
            state.value = top.saturating_sub(1);
        }
    }
}

fn top(sketch: &Sketch, number: usize) -> Option<u32> {
    let states = sketch.states.len();
    let there = match &sketch.states[number].node {
        Node::Terminal(_) => true,
        Node::Decision(actions) => actions.iter().flat_map(|a| &a.successors).all(|&t| usize::from(t) < states),
    };
    there.then(|| sketch.top(number).min(u32::MAX - 100))
}

/// A decision with actions, at random, if the state that is drawn is one.
fn decision<'a>(sketch: &'a mut Sketch, rng: &mut Rng) -> Option<(usize, &'a mut Vec<Action>)> {
    let number = rng.below(sketch.states.len());
    match &mut sketch.states[number].node {
        Node::Decision(actions) if !actions.is_empty() => Some((number, actions)),
        _ => None,
    }
}

// Bytes.

fn flip(bytes: &mut Vec<u8>, rng: &mut Rng) {
    for _ in 0..rng.between(1, 3) {
        if !bytes.is_empty() {
            let place = rng.below(bytes.len());
            bytes[place] ^= 1 << rng.below(8);
        }
    }
}

fn cut(bytes: &mut Vec<u8>, rng: &mut Rng) {
    let length = bytes.len();
    let anywhere = rng.below(length + 1);
    bytes.truncate(rng.pick(&[0, 7, 8, 16, 17, 19, 20, length.saturating_sub(1), length.saturating_sub(12), anywhere]));
}

fn extend(bytes: &mut Vec<u8>, rng: &mut Rng) {
    let more = rng.pick(&[1, 2, 3, 9, 12, 100]);
    match rng.below(3) {
        0 => bytes.extend(vec![0; more]),
        1 => bytes.extend(rng.bytes(more)),
        _ => bytes.extend([2, 0, 9, 0, 0, 0, 0, 0, 0, 0, 0, 0]),
    }
}

/// Question 2, with whatever the sheet has.
fn size_limits(bytes: &mut Vec<u8>, rng: &mut Rng) {
    let length = rng.pick(&[16, 17, 19, 20, 60_000, 60_001, 65_000]);
    bytes.resize(length, 0);
}

fn tag(bytes: &mut Vec<u8>, rng: &mut Rng) {
    if let Some(place) = field(bytes, rng) {
        bytes[place] = rng.pick(&[0, 1, 2, 3, 4, 5, 6, 255]);
    }
}

fn length(bytes: &mut Vec<u8>, rng: &mut Rng) {
    if let Some(place) = field(bytes, rng) {
        match rng.below(4) {
            0 => bytes[place + 1] = rng.pick(&[1, 255]),
            1 => bytes[place + 2] = bytes[place + 2].wrapping_add(rng.pick(&[1, 2])),
            2 => bytes[place + 2] = bytes[place + 2].wrapping_sub(rng.pick(&[1, 2])),
            _ => bytes[place + 2] = rng.pick(&[0, 4, 5, 6, 7, 9, 36, 37, 38]),
        }
    }
}

/// A field is there twice, or not at all.
fn repeat_field(bytes: &mut Vec<u8>, rng: &mut Rng) {
    let Some(place) = field(bytes, rng) else { return };
    let end = bytes.len().min(place + 3 + usize::from(bytes[place + 2]));
    if rng.one_in(2) {
        let copy = bytes[place..end].to_vec();
        bytes.splice(place..place, copy);
    } else {
        bytes.drain(place..end);
    }
}

/// Where fields begin, as far as they follow one another.
pub fn places(bytes: &[u8]) -> Vec<usize> {
    let mut places = Vec::new();
    let mut at = 0;
    while at + 3 <= bytes.len() {
        places.push(at);
        at += 3 + usize::from(bytes[at + 1]) * 256 + usize::from(bytes[at + 2]);
    }
    places
}

/// Where a field begins; the last ones are drawn as often as all others.
fn field(bytes: &[u8], rng: &mut Rng) -> Option<usize> {
    let places = places(bytes);
    if places.is_empty() {
        return None;
    }
    let late = places.len().saturating_sub(3);
    let from = if rng.one_in(2) { late } else { 0 };
    Some(places[rng.between(from, places.len() - 1)])
}
