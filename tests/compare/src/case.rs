//! A case from a seed: a sheet, perhaps with junctions emptied, perhaps with repeats, perhaps with counted junctions, perhaps worked,
//! perhaps damaged, and a list of calls.

use crate::calls::{self, Call, TABLE_BYTES};
use crate::cells::{self, Worked};
use crate::damage;
use crate::emptied;
use crate::forms;
use crate::groups;
use crate::rng::Rng;
use crate::shapes::{self, SHAPES};
use crate::sketch::Sketch;

pub struct Case {
    pub shape: &'static str,
    pub damaged: bool,
    /// How many stages were drawn.
    pub states: usize,
    pub bytes: Vec<u8>,
    /// The sheet before it was damaged.
    pub sound: Vec<u8>,
    pub calls: Vec<Call>,
    /// The sheet as work with the largest budget leaves it, where that ends soon.
    pub worked: Option<Vec<u8>>,
}

pub fn make(seed: u64) -> Case {
    let mut rng = Rng::new(seed);
    // Forms and their damage are drawn from numbers of their own, so that they change nothing else of a sheet.
    let mut of_forms = Rng::new(!seed);
    let (shape, draw) = SHAPES[shapes::draw(&mut rng)];
    let mut sketch = draw(&mut rng);
    if rng.one_in(3) {
        emptied::put(&mut sketch, &mut rng);
    }
    if sketch.kind == 1 && rng.one_in(2) {
        groups::put(&mut sketch, &mut rng);
    }
    forms::put(&mut sketch, &mut of_forms);
    let filled = how_worked(&mut rng, shape, &sketch);
    cells::fill(&mut sketch, &mut rng, filled);
    let (in_sketch, in_bytes) =
        rng.pick(&[(false, false), (false, false), (false, false), (true, false), (false, true), (true, true)]);
    let sound = sketch.bytes();
    if in_sketch {
        damage::sketch(&mut sketch, &mut rng);
    }
    let in_numbers = forms::sketch(&mut sketch, &mut of_forms, in_sketch || in_bytes);
    let mut bytes = sketch.bytes();
    if in_bytes {
        damage::bytes(&mut bytes, &mut rng);
    }
    let in_tags = forms::bytes(&mut bytes, &mut of_forms);
    let mut calls: Vec<Call> = (0..rng.between(1, 5)).map(|_| calls::draw(&mut rng)).collect();
    let states = sketch.states.len();
    let most = most_raises(states);
    let worked = worked_within(&bytes, most);
    if worked.is_none() {
        calls.iter_mut().for_each(|call| call.budget = call.budget.min(most));
    }
    let damaged = in_sketch || in_bytes || in_numbers || in_tags;
    Case { shape, damaged, states, bytes, sound, calls, worked }
}

/// Large sheets are worked nearly to their end, or visits would never get far into them; those with repeats, or with a junction without
/// checks, more often than others.
fn how_worked(rng: &mut Rng, shape: &str, sketch: &Sketch) -> Worked {
    use Worked::*;
    match shape {
        "deep chain" | "chain at the ceiling" => rng.pick(&[Blank, Near, Dented, Dented, Optimal, Optimal]),
        "sums at the ceiling" | "none beside the ceiling" => rng.pick(&[Blank, Low, Near, Dented, Optimal]),
        "full size" | "many stages" => rng.pick(&[Blank, Low, Near, Dented, Optimal]),
        _ if groups::any(sketch) || emptied::any(sketch) => rng.pick(&[Blank, Blank, Low, Near, Dented, Optimal, Optimal]),
        _ => rng.pick(&[Blank, Blank, Blank, Low, Near, Dented, Optimal]),
    }
}

/// A budget that keeps the work on a sheet of so many states within milliseconds.
fn most_raises(states: usize) -> u64 {
    (40_000_000 / states as u64).clamp(40_000, 120_000)
}

/// The sheet as work leaves it, if that ends within a budget. A refused sheet stays as it is.
fn worked_within(bytes: &[u8], budget: u64) -> Option<Vec<u8>> {
    let mut copy = bytes.to_vec();
    let number = procedure::call(&mut copy, &mut [0; TABLE_BYTES], budget, &mut [0; 24]);
    (number != 102).then_some(copy)
}
