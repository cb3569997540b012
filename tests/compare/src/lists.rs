//! Lists for the inverse (S13.6): wrong ones, what they had, and right ones that hold the sheet.

use crate::blocks::stages;
use crate::calls::TABLE_BYTES;
use crate::check::same;
use crate::coverage::Coverage;
use crate::draft_calls::{Which, LIST_BYTES};
use crate::numbering;
use crate::rng::Rng;
use std::collections::BTreeSet;

/// An entry of a list becomes wrong; the list has one or more, for as many stages.
type Fault = fn(&mut [u32], usize, &mut Rng);

const FAULTS: [Fault; 6] = [repeated, repeated, no_stage, beyond_16_bits, beyond_31_bits, all_equal];

/// A list in which a stage number is missing. Behind its entries stands what was missing there, which is not read.
pub fn wrong(right: &[usize], rng: &mut Rng) -> Vec<u32> {
    let mut list = numbering::entries(right);
    let place = rng.below(list.len());
    let missing = list[place];
    let faults = if list.len() == 1 { &FAULTS[2..5] } else { &FAULTS[..] };
    rng.pick(faults)(&mut list, place, rng);
    list.extend([missing; 3]);
    list.extend(numbering::entries(right));
    list
}

/// Another stage's number.
fn repeated(list: &mut [u32], place: usize, rng: &mut Rng) {
    let other = (place + rng.between(1, list.len() - 1)) % list.len();
    list[place] = list[other];
}

fn no_stage(list: &mut [u32], place: usize, rng: &mut Rng) {
    let states = list.len() as u32;
    list[place] = rng.pick(&[states, states, states + 1, 4_096, 65_535, u32::MAX]).max(states);
}

/// The lower half is the right number.
fn beyond_16_bits(list: &mut [u32], place: usize, rng: &mut Rng) {
    list[place] += 65_536 * rng.pick(&[1, 1, 2, 65_535]);
}

fn beyond_31_bits(list: &mut [u32], place: usize, _: &mut Rng) {
    list[place] += 1 << 31;
}

fn all_equal(list: &mut [u32], place: usize, _: &mut Rng) {
    list.fill(list[place]);
}

/// A right list that holds the sheet itself, behind the entries of its stages: the inverse only reads both, so they may overlap (S13.22).
pub fn within(sheet: &[u8], rng: &mut Rng, seen: &mut Coverage) -> Result<(), String> {
    let numbers = numbering::draw(rng, stages(sheet).len());
    let mut list: Vec<u8> = numbering::entries(&numbers).into_iter().flat_map(u32::to_le_bytes).collect();
    let at = list.len();
    list.extend(sheet);
    list.resize(LIST_BYTES.max(list.len()), 0);
    let mut output = vec![0xee; sheet.len()];
    let number = library::restore(&list[at..][..sheet.len()], &mut [0xee; TABLE_BYTES], &list, &mut output);
    if number != Which::Restore.done() {
        return Err(format!("returned {number} where the sheet stands in the list"));
    }
    seen.saw("restore: the sheet stands in the list");
    same("draft of a sheet in the list", &output, &numbering::draft(sheet, &numbers))
}

/// Of a list that was refused for so many stages.
pub fn count(list: &[u32], states: usize, seen: &mut Coverage) {
    let (first, behind) = list.split_at(states);
    let (first, behind): (BTreeSet<u32>, BTreeSet<u32>) = (first.iter().copied().collect(), behind.iter().copied().collect());
    let missing: BTreeSet<u32> = (0..states as u32).filter(|number| !first.contains(number)).collect();
    let any = |wrong: &dyn Fn(u32) -> bool| first.iter().any(|&entry| wrong(entry));
    seen.saw_if(!any(&|entry| entry as usize >= states), "list: a number is repeated");
    seen.saw_if(any(&|entry| entry as usize == states), "list: the number of stages");
    seen.saw_if(any(&|entry| entry >= 65_536 && missing.contains(&(entry % 65_536))), "list: right but for its upper half");
    seen.saw_if(any(&|entry| entry >= 1 << 31 && missing.contains(&(entry - (1 << 31)))), "list: right but for its highest bit");
    seen.saw_if(first.contains(&u32::MAX), "list: the largest number");
    seen.saw_if(states > 2 && first.len() == 1, "list: the same number everywhere");
    seen.saw_if(missing.is_subset(&behind), "list: what is missing stands behind the stages");
}

#[cfg(test)]
mod tests {
    use super::{count, wrong};
    use crate::coverage::Coverage;
    use crate::rng::Rng;

    /// A stage number is missing from whatever is drawn, be it for one stage or for several, and it stands behind them.
    #[test]
    fn wrong_lists() {
        for seed in 0..500 {
            let states = 1 + seed as usize % 4;
            let right: Vec<usize> = (0..states).rev().collect();
            let list = wrong(&right, &mut Rng::new(seed));
            let lacks = |entries: &[u32]| (0..states as u32).any(|number| !entries.contains(&number));
            assert!(lacks(&list[..states]) && !lacks(&list[states..]), "{list:?}");
        }
    }

    #[test]
    fn lists_that_are_counted() {
        let counted = |list: &[u32]| {
            let mut seen = Coverage::default();
            count(list, 3, &mut seen);
            seen.lines().map(|(name, _)| name.trim_start_matches("list: ")).collect::<Vec<_>>().join("; ")
        };
        assert_eq!(counted(&[2, 0, 2, 0, 1]), "a number is repeated; what is missing stands behind the stages");
        assert_eq!(counted(&[2, 0, 3, 0]), "the number of stages");
        assert_eq!(counted(&[2, 65_536, 1, 7]), "right but for its upper half");
        assert_eq!(counted(&[2, 65_538, 1, 7]), "");
        assert_eq!(counted(&[2, 1 << 31, 1]), "right but for its highest bit; right but for its upper half");
        assert_eq!(counted(&[0, u32::MAX, 1]), "the largest number");
        assert_eq!(counted(&[1, 1, 1]), "a number is repeated; the same number everywhere");
    }
}
