//! Numbers for the stages of a draft, and the draft that they make of an ordinary sheet (S13.6), through its bytes.

use crate::blocks::{blocks, checks, findings, number16, set_findings};
use crate::rng::Rng;

/// The tag of a draft's head (S13.1), and where a head has its start.
pub const DRAFT_TAG: u8 = 6;
pub const START_AT: usize = 6;

type Way = fn(&mut Rng, usize) -> Vec<usize>;

const WAYS: [Way; 9] = [at_random, at_random, at_random, at_random, swapped, swapped, in_reverse, to_and_fro, in_order];

/// Entry k is the number that stage k gets, of so many stages.
pub fn draw(rng: &mut Rng, states: usize) -> Vec<usize> {
    rng.pick(&WAYS)(rng, states)
}

pub fn at_random(rng: &mut Rng, states: usize) -> Vec<usize> {
    let mut list: Vec<usize> = (0..states).collect();
    shuffle(&mut list, rng);
    list
}

/// Every order is as likely as any other.
pub fn shuffle(list: &mut [usize], rng: &mut Rng) {
    for place in (1..list.len()).rev() {
        list.swap(place, rng.below(place + 1));
    }
}

/// As they were, but for a few that change places.
fn swapped(rng: &mut Rng, states: usize) -> Vec<usize> {
    let mut list: Vec<usize> = (0..states).collect();
    for _ in 0..rng.between(1, 3) {
        list.swap(rng.below(states), rng.below(states));
    }
    list
}

fn in_reverse(_: &mut Rng, states: usize) -> Vec<usize> {
    (0..states).rev().collect()
}

/// The first, the last, the second, the last but one and so on, so that a chain goes to and fro between the ends.
fn to_and_fro(_: &mut Rng, states: usize) -> Vec<usize> {
    (0..states).map(|place| if place % 2 == 0 { place / 2 } else { states - 1 - place / 2 }).collect()
}

fn in_order(_: &mut Rng, states: usize) -> Vec<usize> {
    (0..states).collect()
}

/// A list as entries of 32 bits.
pub fn entries(list: &[usize]) -> Vec<u32> {
    list.iter().map(|&number| number as u32).collect()
}

/// How a list numbers stages.
pub fn told(list: &[usize]) -> &'static str {
    let states = list.len();
    if list.is_sorted() {
        "in order already"
    } else if list.iter().copied().eq((0..states).rev()) {
        "in reverse order"
    } else if list == to_and_fro(&mut Rng::new(0), states) {
        "to and fro between the ends"
    } else {
        "in any order"
    }
}

/// The draft of an ordinary sheet: stage k gets entry k of the list for its number.
pub fn draft(sheet: &[u8], list: &[usize]) -> Vec<u8> {
    let mut placed = vec![Vec::new(); list.len()];
    for (block, &number) in blocks(sheet).into_iter().zip(list) {
        placed[number] = renumbered(block, list);
    }
    let start = list[number16(sheet, START_AT)] as u16;
    let head = [&[DRAFT_TAG], &sheet[1..START_AT], &start.to_be_bytes()].concat();
    [head, placed.concat()].concat()
}

/// The block of a stage, with its findings numbered anew and sorted.
fn renumbered(mut block: Vec<u8>, list: &[usize]) -> Vec<u8> {
    for at in checks(&block) {
        let mut numbers: Vec<usize> = findings(&block, at).into_iter().map(|finding| list[finding]).collect();
        numbers.sort();
        set_findings(&mut block, at, &numbers);
    }
    block
}

#[cfg(test)]
mod tests {
    use super::{draft, in_order, in_reverse, to_and_fro, told};
    use crate::rng::Rng;
    use crate::rows::sheet_a;

    #[test]
    fn ways() {
        let rng = &mut Rng::new(1);
        assert_eq!(to_and_fro(rng, 5), [0, 4, 1, 3, 2]);
        assert_eq!(told(&to_and_fro(rng, 5)), "to and fro between the ends");
        assert_eq!(told(&in_reverse(rng, 5)), "in reverse order");
        assert_eq!(told(&in_order(rng, 5)), "in order already");
        assert_eq!(told(&[0, 4, 1, 2, 3]), "in any order");
    }

    /// Sheet K is the draft that 2, 3, 0, 1 make of A (S11.52).
    #[test]
    fn sheet_k() {
        let sheet_k = [
            &[6, 0, 5, 0, 0, 4, 0, 2][..],
            &[2, 0, 9, 0, 0, 0, 100, 0, 0, 0, 0, 0],
            &[2, 0, 9, 0, 0, 0, 0, 0, 0, 0, 0, 0],
            &[3, 0, 6, 0, 0, 0, 0, 0, 0, 4, 0, 8, 0, 0, 0, 200, 0, 1, 0, 3, 4, 0, 6, 0, 0, 1, 244, 0, 1],
            &[3, 0, 6, 0, 0, 0, 0, 0, 0, 4, 0, 8, 0, 0, 1, 144, 0, 0, 0, 1],
        ];
        assert_eq!(draft(&sheet_a().bytes(), &[2, 3, 0, 1]), sheet_k.concat());
    }
}
