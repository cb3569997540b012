//! Junctions that have no check left (S1.2), put into a drawn sheet.

use crate::groups;
use crate::rng::Rng;
use crate::sketch::{Action, Node, Sketch};

/// The most findings of a check (S3.2).
const MOST_FINDINGS: usize = 16;

type Way = fn(&mut Sketch, &mut Rng);

/// Where they stand. Checks that lead to them, and others that do not, have the most to show.
const WAYS: [Way; 11] =
    [start, last, last, anywhere, several, several, one_check, one_check, one_check, every_check, every_check];

/// One to three ways at once.
pub fn put(sketch: &mut Sketch, rng: &mut Rng) {
    for _ in 0..rng.pick(&[1, 1, 1, 2, 3]) {
        rng.pick(&WAYS)(sketch, rng);
    }
}

/// Has the sheet a junction without checks?
pub fn any(sketch: &Sketch) -> bool {
    (0..sketch.states.len()).any(|state| sketch.emptied(state))
}

/// A stage becomes a junction without checks. Its value stays, and may be any.
fn empty(sketch: &mut Sketch, state: usize) {
    sketch.states[state].node = Node::Decision(Vec::new());
}

fn start(sketch: &mut Sketch, _: &mut Rng) {
    empty(sketch, usize::from(sketch.start));
}

/// Where the sheet is a chain, none climbs from its end to its start.
fn last(sketch: &mut Sketch, _: &mut Rng) {
    empty(sketch, sketch.states.len() - 1);
}

fn anywhere(sketch: &mut Sketch, rng: &mut Rng) {
    empty(sketch, rng.below(sketch.states.len()));
}

/// One stage in so many.
fn several(sketch: &mut Sketch, rng: &mut Rng) {
    let one_in = rng.pick(&[3, 20, 100, 500]);
    for state in 0..sketch.states.len() {
        if rng.one_in(one_in) {
            empty(sketch, state);
        }
    }
}

/// One check of a junction leads to it, among its findings, and the others do not.
fn one_check(sketch: &mut Sketch, rng: &mut Rng) {
    let Some(junction) = junction(sketch, rng, 2) else { return };
    let place = rng.below(sketch.actions(junction).len());
    let others = sketch.actions(junction).iter().enumerate().filter(|(other, _)| *other != place);
    let taken: Vec<u16> = others.flat_map(|(_, action)| &action.successors).copied().collect();
    let own = sketch.actions(junction)[place].successors.iter().copied();
    let behind = (junction + 1..sketch.states.len()).map(|state| state as u16);
    let own: Vec<u16> = own.filter(|t| !taken.contains(t)).collect();
    let free: Vec<u16> = if own.is_empty() { behind.filter(|t| !taken.contains(t)).collect() } else { own };
    if !free.is_empty() {
        let finding = rng.pick(&free);
        empty(sketch, usize::from(finding));
        lead(sketch, junction, place, finding);
    }
}

/// Every check of a junction leads to it, wherever it stands among their findings.
fn every_check(sketch: &mut Sketch, rng: &mut Rng) {
    let Some(junction) = junction(sketch, rng, 1) else { return };
    let finding = rng.between(junction + 1, sketch.states.len() - 1);
    empty(sketch, finding);
    for place in 0..sketch.actions(junction).len() {
        lead(sketch, junction, place, finding as u16);
    }
}

/// A junction with so many checks or more: the start, or any.
fn junction(sketch: &Sketch, rng: &mut Rng, checks: usize) -> Option<usize> {
    let wanted: Vec<usize> = (0..sketch.states.len()).filter(|&state| sketch.actions(state).len() >= checks).collect();
    let start = usize::from(sketch.start);
    if wanted.is_empty() {
        None
    } else if wanted.contains(&start) && rng.one_in(2) {
        Some(start)
    } else {
        Some(rng.pick(&wanted))
    }
}

/// A check gets one more finding, in its place; where check or sheet have no room, in the place of the next one.
fn lead(sketch: &mut Sketch, junction: usize, place: usize, finding: u16) {
    let room = groups::room(sketch) >= 2;
    let Node::Decision(actions) = &mut sketch.states[junction].node else { return };
    let successors = &mut actions[place].successors;
    let at = successors.partition_point(|&t| t < finding);
    if successors.contains(&finding) {
        return;
    }
    if room && successors.len() < MOST_FINDINGS {
        successors.insert(at, finding);
    } else {
        let last = successors.len() - 1;
        successors[at.min(last)] = finding;
    }
}

/// A whole sheet whose costs double from stage to stage until they stand at the ceiling, as in sheet I (S11), and a junction without checks
/// before or behind those stages. One of the start's checks adds some of them up; others lead to that junction, alone or beside them.
pub fn beside_ceiling(rng: &mut Rng) -> Sketch {
    let summed = rng.pick(&[1, 2, 2, 4, 5, 9, 15]) as u16;
    let first = rng.pick(&[1, 2]);
    let ending = first + summed + rng.between(8, 10) as u16;
    let emptied = if first == 1 { ending + 1 } else { 1 };
    let check = |successors: Vec<u16>| Action { cost: 1, successors };
    let sums: Vec<u16> = (first..first + summed).collect();
    let with = |mut findings: Vec<u16>| {
        findings.push(emptied);
        findings.sort();
        check(findings)
    };
    let (alone, among) = (with(Vec::new()), with(sums.clone()));
    let checks = match rng.below(6) {
        0 => vec![alone, check(sums)],
        1 => vec![check(sums), alone],
        2 => vec![among, check(sums)],
        3 => vec![with(vec![ending]), check(sums), among],
        4 => vec![alone, among],
        _ => vec![among],
    };
    let mut nodes = vec![Node::Decision(checks)];
    nodes.extend((1..first).map(|_| Node::Decision(Vec::new())));
    nodes.extend((first..ending).map(|stage| Node::Decision(vec![doubling(stage, ending)])));
    nodes.push(Node::Terminal(1_000_000));
    nodes.extend((ending..emptied).map(|_| Node::Decision(Vec::new())));
    Sketch::new(1, 0, nodes)
}

/// The check of a stage whose findings are those behind it, up to the ending.
fn doubling(stage: u16, ending: u16) -> Action {
    let last = ending.min(stage + MOST_FINDINGS as u16);
    Action { cost: 1_000_000, successors: (stage + 1..=last).collect() }
}
