//! The problems: which states there are and how they hang together. They are good problems, but for a few sheets that have one byte or
//! one state too many; damage comes later.

use crate::emptied;
use crate::rng::Rng;
use crate::sketch::{size, Action, Node, Sketch, CEILING, FEW_STATES, FORMER_MOST, HEAD_BYTES, MOST_STATES, TERMINAL_BYTES};
use std::collections::BTreeSet;

/// The largest sheet.
pub const FULL: usize = 60_000;

/// The bytes that random states take, at most: less than any wanted size that they are padded to.
const UNPADDED: usize = 58_000;

/// A junction of a chain, with one check of one finding; and what another check may take there.
const LINK_BYTES: usize = 18;
const FORK_BYTES: usize = 11;

/// The most junctions of a chain.
const DEEPEST: usize = (FULL - HEAD_BYTES - TERMINAL_BYTES) / LINK_BYTES;

/// What is drawn for the states of a random problem.
struct Spec {
    states: usize,
    /// How many of eight states are decisions.
    decisions: usize,
    actions: usize,
    successors: usize,
    /// How far behind a state its successors stand, at most.
    reach: usize,
    costs: Costs,
}

#[derive(Clone, Copy)]
enum Costs {
    /// Up to 3, so that many prices are equal.
    Ties,
    /// One of three, and mostly the largest of them, so that many values are equal.
    Few,
    /// Up to 40.
    Small,
    /// Up to 2,000, in steps of 50.
    Steps,
    /// Up to the largest cost.
    Wide,
    /// The largest cost and those just below it.
    Top,
}

type Draw = fn(&mut Rng) -> Sketch;

pub const SHAPES: [(&str, Draw); 15] = [
    ("tiny", tiny),
    ("small", small),
    ("medium", medium),
    ("broad", broad),
    ("chain", chain),
    ("deep chain", deep_chain),
    ("chain at the ceiling", chain_at_ceiling),
    ("sums at the ceiling", sums_at_ceiling),
    ("abandoned check", abandoned_check),
    ("full size", full_size),
    ("findings of equal value", equal_values),
    ("many stages", many_stages),
    ("chain of repeats", repeated_chain),
    ("repeats at the ceiling", repeats_at_ceiling),
    ("none beside the ceiling", emptied::beside_ceiling),
];

/// How often each shape is drawn: small ones are quick and have the most to show.
const WEIGHTS: [usize; 15] = [40, 40, 12, 10, 8, 5, 3, 8, 4, 6, 10, 6, 6, 6, 8];

/// The number of a shape.
pub fn draw(rng: &mut Rng) -> usize {
    let mut left = rng.below(WEIGHTS.iter().sum());
    let mut shape = 0;
    while left >= WEIGHTS[shape] {
        left -= WEIGHTS[shape];
        shape += 1;
    }
    shape
}

fn tiny(rng: &mut Rng) -> Sketch {
    let costs = rng.pick(&[Costs::Ties, Costs::Ties, Costs::Small, Costs::Steps]);
    let states = rng.between(1, 6);
    random(rng, Spec { states, decisions: 5, actions: 3, successors: 3, reach: 6, costs })
}

fn small(rng: &mut Rng) -> Sketch {
    sized(rng, 4, 40, 2, 4)
}

fn medium(rng: &mut Rng) -> Sketch {
    sized(rng, 40, 250, 3, 5)
}

/// `least` to `most` stages, with at most `width` checks and findings; `near` is the smallest reach.
fn sized(rng: &mut Rng, least: usize, most: usize, near: usize, width: usize) -> Sketch {
    let costs = rng.pick(&[Costs::Ties, Costs::Small, Costs::Steps, Costs::Wide, Costs::Top]);
    let states = rng.between(least, most);
    let reach = rng.between(near, most);
    let decisions = rng.between(3, 7);
    random(rng, Spec { states, decisions, actions: width, successors: width, reach, costs })
}

/// One junction with 16 checks, one check with 16 findings, others up to that.
fn broad(rng: &mut Rng) -> Sketch {
    let costs = rng.pick(&[Costs::Ties, Costs::Small, Costs::Wide]);
    let states = rng.between(18, 60);
    let mut sketch = random(rng, Spec { states, decisions: 3, actions: 16, successors: 16, reach: 60, costs });
    let mut actions: Vec<Action> = (0..16).map(|_| action(rng, 0, states, 16, 60, costs)).collect();
    let widest = rng.below(16);
    actions[widest].successors = draw_successors(rng, 0, states, 16, 60);
    sketch.states[0].node = Node::Decision(actions);
    sketch
}

/// Each junction leads to the next; some have another check that leads further on.
fn chain(rng: &mut Rng) -> Sketch {
    let junctions = if rng.one_in(8) { rng.pick(&[FEW_STATES - 1, FEW_STATES]) } else { rng.between(1, 450) };
    let costs = rng.pick(&[Costs::Ties, Costs::Small, Costs::Wide]);
    chain_of(rng, junctions, costs)
}

fn deep_chain(rng: &mut Rng) -> Sketch {
    let junctions = rng.pick(&[DEEPEST, DEEPEST, DEEPEST - 1, 3_000, 2_000, FORMER_MOST - 1, 1_000]);
    let costs = rng.pick(&[Costs::Ties, Costs::Small, Costs::Wide, Costs::Top]);
    chain_of(rng, junctions, costs)
}

/// Forks are drawn as long as there is room for them.
fn chain_of(rng: &mut Rng, junctions: usize, costs: Costs) -> Sketch {
    let mut nodes = Vec::new();
    let forks = rng.one_in(2);
    let mut room = FULL - HEAD_BYTES - TERMINAL_BYTES - LINK_BYTES * junctions;
    for number in 0..junctions {
        let next = Action { cost: cost(rng, costs).max(1), successors: vec![number as u16 + 1] };
        let mut actions = vec![next];
        if forks && room >= FORK_BYTES && rng.one_in(4) {
            let place = rng.below(2);
            actions.insert(place, action(rng, number, junctions + 1, 2, 3, costs));
            room -= FORK_BYTES;
        }
        nodes.push(Node::Decision(actions));
    }
    nodes.push(Node::Terminal(cost(rng, costs)));
    Sketch::new(rng.below(2) as u8, 0, nodes)
}

/// About a thousand junctions of the largest cost: the least cost is a little below the ceiling, at it or above it.
fn chain_at_ceiling(rng: &mut Rng) -> Sketch {
    let junctions = rng.between(997, 1002);
    let next = |number: usize| Action { cost: 1_000_000, successors: vec![number as u16 + 1] };
    let mut nodes: Vec<Node> = (0..junctions).map(|number| Node::Decision(vec![next(number)])).collect();
    nodes.push(Node::Terminal(rng.pick(&[0, 999_998, 999_999, 1_000_000])));
    Sketch::new(rng.below(2) as u8, 0, nodes)
}

/// A whole sheet whose costs double from state to state until they stand at the ceiling, and checks that add several of those up: 5 and 9
/// of them wrap to below the ceiling in 32 bits.
fn sums_at_ceiling(rng: &mut Rng) -> Sketch {
    let summed = rng.pick(&[1, 2, 4, 5, 5, 5, 9, 9, 9, 12, 16]);
    let behind = summed + rng.between(9, 11);
    let mut nodes = vec![Node::Decision(vec![Action { cost: 1, successors: (1..=summed as u16).collect() }])];
    for number in 1..behind {
        let last = behind.min(number + 16);
        let successors = (number as u16 + 1..=last as u16).collect();
        nodes.push(Node::Decision(vec![Action { cost: 1_000_000, successors }]));
    }
    nodes.push(Node::Terminal(1_000_000));
    if rng.one_in(2) {
        let other = action(rng, 0, behind + 1, 16, behind, Costs::Wide);
        if let Node::Decision(actions) = &mut nodes[0] {
            actions.push(other);
        }
    }
    Sketch::new(1, 0, nodes)
}

/// A whole chain whose checks list the next stage several times: costs grow by that factor from stage to stage, soon to the ceiling.
fn repeated_chain(rng: &mut Rng) -> Sketch {
    let (junctions, times) = (rng.between(1, 40), rng.pick(&[2, 2, 2, 3, 5, 16]));
    let costs = rng.pick(&[Costs::Ties, Costs::Small, Costs::Wide, Costs::Top]);
    let mut sketch = chain_of(rng, junctions, costs);
    sketch.kind = 1;
    for state in &mut sketch.states {
        let Node::Decision(actions) = &mut state.node else { continue };
        for action in actions.iter_mut().filter(|action| action.successors.len() == 1) {
            action.successors = vec![action.successors[0]; times];
        }
    }
    sketch
}

/// Such a chain whose least cost is the ceiling to the cent, or a few cents below or above it.
fn repeats_at_ceiling(rng: &mut Rng) -> Sketch {
    let mut left = CEILING - 3 + rng.pick(&[1, 2, 2, 2, 3, 3, 3, 4, 5]);
    let mut nodes = Vec::new();
    while left > 1_000_000 {
        let times = rng.between(2, 16) as u64;
        let cost = 1 + (left - 1) % times;
        let next = nodes.len() as u16 + 1;
        nodes.push(Node::Decision(vec![Action { cost: cost as u32, successors: vec![next; times as usize] }]));
        left = (left - cost) / times;
    }
    nodes.push(Node::Terminal(left as u32));
    Sketch::new(1, 0, nodes)
}

/// A worst sheet where a check is given up although its price does not move, and one of equal price passes after it.
fn abandoned_check(rng: &mut Rng) -> Sketch {
    let (low, step) = (rng.between(1, 20) as u32, rng.between(1, 20) as u32);
    let dear = rng.between(21, 60) as u32;
    let cost = rng.between(1, 100) as u32;
    let nodes = vec![
        Node::Decision(vec![Action { cost, successors: vec![1, 3] }, Action { cost: cost + dear, successors: vec![2] }]),
        Node::Decision(vec![Action { cost: step, successors: vec![4] }]),
        Node::Terminal(0),
        Node::Terminal(dear),
        Node::Terminal(low),
    ];
    let mut sketch = Sketch::new(0, 0, nodes);
    sketch.states[3].value = dear;
    sketch.states[0].value = cost + dear;
    sketch
}

/// Many states and many bytes: often 4,096 states, often 60,000 bytes to the byte, and now and then one byte more.
fn full_size(rng: &mut Rng) -> Sketch {
    let states = rng.pick(&[MOST_STATES, MOST_STATES, MOST_STATES - 1, 2_500, FORMER_MOST + 1, FORMER_MOST, 1_000, 700]);
    let bytes = rng.pick(&[FULL, FULL, FULL - 1, FULL + 1, 59_000]);
    let reach = rng.pick(&[20, 100, states]);
    let costs = rng.pick(&[Costs::Ties, Costs::Small, Costs::Steps, Costs::Wide]);
    let decisions = if states > 2_000 { rng.pick(&[1, 3, 6]) } else { 6 };
    let mut sketch = random(rng, Spec { states, decisions, actions: 3, successors: 4, reach, costs });
    sketch.start = 0;
    start_at_decision(&mut sketch);
    pad(rng, &mut sketch, bytes, reach, costs);
    sketch
}

/// More states than version 1 of the interface allowed, with few small checks; now and then one state too many.
fn many_stages(rng: &mut Rng) -> Sketch {
    let some = rng.between(FORMER_MOST + 1, MOST_STATES);
    let states = rng.pick(&[some, some, some, some, MOST_STATES - 1, MOST_STATES, MOST_STATES, MOST_STATES + 1]);
    let reach = rng.pick(&[3, 30, 300, states]);
    let costs = rng.pick(&[Costs::Ties, Costs::Small, Costs::Steps, Costs::Wide, Costs::Top]);
    let decisions = rng.between(1, 7);
    let mut sketch = random(rng, Spec { states, decisions, actions: 2, successors: 3, reach, costs });
    start_at_decision(&mut sketch);
    sketch
}

/// The start becomes the next decision behind it, if there is one, and its first check leads to the last state too.
fn start_at_decision(sketch: &mut Sketch) {
    let last = sketch.states.len() - 1;
    for state in usize::from(sketch.start)..last {
        if let Node::Decision(actions) = &mut sketch.states[state].node {
            sketch.start = state as u16;
            let successors = &mut actions[0].successors;
            successors.retain(|&t| t != last as u16);
            successors.push(last as u16);
            return;
        }
    }
}

/// Checks of several findings, of which some share the largest value, wherever they stand.
fn equal_values(rng: &mut Rng) -> Sketch {
    let states = rng.between(6, 30);
    let mut sketch = random(rng, Spec { states, decisions: 2, actions: 2, successors: 8, reach: states, costs: Costs::Few });
    let wide = |_| {
        let findings = rng.between(3, 8);
        Action { cost: cost(rng, Costs::Few).max(1), successors: draw_successors(rng, 0, states, findings, states) }
    };
    sketch.states[0].node = Node::Decision((0..2).map(wide).collect());
    sketch
}

/// Adds checks and findings until the sheet has this many bytes.
fn pad(rng: &mut Rng, sketch: &mut Sketch, bytes: usize, reach: usize, costs: Costs) {
    let states = sketch.states.len();
    let mut left = bytes - HEAD_BYTES - sketch.states.iter().map(|s| size(&s.node)).sum::<usize>();
    while left > 0 {
        let number = rng.below(states - 20);
        let Node::Decision(actions) = &mut sketch.states[number].node else { continue };
        if left >= 9 && (left > 200 || left % 2 == 1) {
            let most = (left - 7) / 2;
            if actions.len() < 16 {
                actions.push(action(rng, number, states, most.min(8), reach, costs));
                left -= 7 + 2 * actions[actions.len() - 1].successors.len();
            }
        } else if left % 2 == 0 {
            left -= widen(&mut actions[0], number, states);
        } else {
            return;
        }
    }
}

/// Adds one finding to a check with fewer than 16; the number of bytes that it takes.
fn widen(action: &mut Action, number: usize, states: usize) -> usize {
    let free = (number + 1..states).map(|t| t as u16).find(|t| !action.successors.contains(t));
    match free {
        Some(t) if action.successors.len() < 16 => {
            action.successors.push(t);
            action.successors.sort();
            2
        }
        _ => 0,
    }
}

/// Random states; the last one is always a terminal, and so are those that come when decisions have taken all the room.
fn random(rng: &mut Rng, spec: Spec) -> Sketch {
    let mut nodes = Vec::new();
    let mut room = UNPADDED - HEAD_BYTES - TERMINAL_BYTES * spec.states;
    let largest = 9 + spec.actions * (7 + 2 * spec.successors);
    for number in 0..spec.states {
        let last = number + 1 == spec.states;
        let node = if last || room < largest || rng.below(8) >= spec.decisions {
            Node::Terminal(cost(rng, spec.costs))
        } else {
            let actions = rng.between(1, spec.actions);
            let draw = |_| action(rng, number, spec.states, spec.successors, spec.reach, spec.costs);
            Node::Decision((0..actions).map(draw).collect())
        };
        room -= size(&node) - TERMINAL_BYTES;
        nodes.push(node);
    }
    let start = if rng.one_in(4) { rng.below(spec.states) } else { 0 };
    Sketch::new(rng.below(2) as u8, start, nodes)
}

fn action(rng: &mut Rng, number: usize, states: usize, successors: usize, reach: usize, costs: Costs) -> Action {
    let count = rng.between(1, successors);
    Action { cost: cost(rng, costs).max(1), successors: draw_successors(rng, number, states, count, reach) }
}

/// So many states behind a number, as far as there are so many within reach.
fn draw_successors(rng: &mut Rng, number: usize, states: usize, count: usize, reach: usize) -> Vec<u16> {
    let far = reach.min(states - 1 - number);
    let mut drawn = BTreeSet::new();
    while drawn.len() < count.min(far) {
        drawn.insert((number + rng.between(1, far)) as u16);
    }
    drawn.into_iter().collect()
}

fn cost(rng: &mut Rng, costs: Costs) -> u32 {
    let cost = match costs {
        Costs::Ties => rng.below(4),
        Costs::Few => rng.pick(&[0, 10, 40, 40, 40]),
        Costs::Small => rng.below(41),
        Costs::Steps => 50 * rng.below(41),
        Costs::Wide => rng.below(1_000_001),
        Costs::Top => rng.between(999_995, 1_000_000),
    };
    cost as u32
}
