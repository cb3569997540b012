//! Drafts (S13): what becomes of each seed's sheet and is put to both calls. It is drawn from numbers of its own, so that it changes
//! nothing else of a case.

use crate::case::Case;
use crate::coverage::Coverage;
use crate::draft_calls::BOTH;
use crate::rng::Rng;
use crate::shapes::FULL;
use crate::sketch::MOST_STATES;
use crate::{arranged, draft_damage, draft_lengths, draft_refusals, draft_tags, lists};

/// Seeds with these bits turned over give the numbers that drafts are drawn from.
const OWN_NUMBERS: u64 = 0x6472_6166_7473;

/// What is done with a right sheet.
type Part = fn(&[u8], &mut Rng, &mut Coverage) -> Result<(), String>;

/// How often that is done, and the sheet of the seed is taken as it is: one in so many small sheets.
const PARTS: [(Part, usize); 6] =
    [(arranged::run, 1), (refused, 1), (lengths, 3), (damaged, 3), (draft_tags::run, 16), (lists::within, 16)];
const AS_IT_IS: usize = 2;

/// A sheet of more bytes is large. Few of those are taken, more of those that are as large as can be, and one thing is done with each.
const LARGE: usize = 8_000;
const ONE_LARGE_IN: usize = 6;
const ONE_LARGEST_IN: usize = 3;
const PARTS_OF_LARGE: [Part; 5] = [arranged::run, arranged::run, refused, refused, lengths];
const LARGE_AS_IT_IS: usize = 6;

/// Of a small sheet each part has its turn; the error says what differs.
pub fn run(seed: u64, case: &Case, seen: &mut Coverage) -> Result<(), String> {
    let mut rng = Rng::new(seed ^ OWN_NUMBERS);
    if case.bytes.len().max(case.sound.len()) > LARGE {
        return large(case, &mut rng, seen);
    }
    if rng.one_in(AS_IT_IS) {
        draft_damage::as_it_is(case, &mut rng, seen)?;
    }
    if sweep::read(&case.sound).is_ok() {
        for (part, one_in) in PARTS {
            if rng.one_in(one_in) {
                part(&case.sound, &mut rng, seen)?;
            }
        }
    }
    Ok(())
}

fn large(case: &Case, rng: &mut Rng, seen: &mut Coverage) -> Result<(), String> {
    let largest = case.states == MOST_STATES || case.sound.len() == FULL;
    if !rng.one_in(if largest { ONE_LARGEST_IN } else { ONE_LARGE_IN }) {
        return Ok(());
    }
    if rng.one_in(LARGE_AS_IT_IS) {
        draft_damage::as_it_is(case, rng, seen)
    } else if sweep::read(&case.sound).is_ok() {
        rng.pick(&PARTS_OF_LARGE)(&case.sound, rng, seen)
    } else {
        Ok(())
    }
}

fn refused(sheet: &[u8], rng: &mut Rng, seen: &mut Coverage) -> Result<(), String> {
    BOTH.into_iter().try_for_each(|which| draft_refusals::run(which, sheet, rng, seen))
}

fn lengths(sheet: &[u8], rng: &mut Rng, seen: &mut Coverage) -> Result<(), String> {
    BOTH.into_iter().try_for_each(|which| draft_lengths::run(which, sheet, rng, seen))
}

fn damaged(sheet: &[u8], rng: &mut Rng, seen: &mut Coverage) -> Result<(), String> {
    BOTH.into_iter().try_for_each(|which| draft_damage::run(which, sheet, rng, seen))
}
