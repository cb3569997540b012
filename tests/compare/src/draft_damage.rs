//! Damaged drafts and sheets, put to both calls.

use crate::blocks::stages;
use crate::case::Case;
use crate::coverage::Coverage;
use crate::draft_calls::{call, Slices, Which, BOTH};
use crate::rng::Rng;
use crate::{damage, numbering};

/// The sheet of the seed, damaged or not, as a draft, and to the inverse with a list for as many stages as were drawn. The numbers are
/// those of `sweep`'s reader: a sheet in which findings lead on has no circle. But what that refuses by 6 may be a draft; damage may have
/// made a draft of it already; and the list may be that of another number of stages.
pub fn as_it_is(case: &Case, rng: &mut Rng, seen: &mut Coverage) -> Result<(), String> {
    let refusal = sweep::read(&case.bytes).err();
    let list = numbering::entries(&numbering::draw(rng, case.states));
    for which in BOTH {
        let mut bytes = case.bytes.clone();
        if bytes.first() == Some(&order::SHEET_TAG) {
            bytes[0] = which.tag();
        }
        let mut slices = Slices::enough(rng, bytes.len()).with_list(&list);
        let number = call(which, &bytes, &mut slices, seen)?;
        let known = match which {
            Which::Rearrange => refusal != Some(6) && case.bytes.first() != Some(&order::DRAFT_TAG),
            Which::Restore => number != 11,
        };
        if known && number != refusal.unwrap_or(which.done()) {
            return Err(format!("{which}: returned {number}, but sweep's reader says {refusal:?}"));
        }
    }
    Ok(())
}

/// A right draft or sheet with bytes flipped, cut off or added.
pub fn run(which: Which, sheet: &[u8], rng: &mut Rng, seen: &mut Coverage) -> Result<(), String> {
    let numbers = numbering::draw(rng, stages(sheet).len());
    let mut bytes = which.lent(sheet, &numbers);
    damage::bytes(&mut bytes, rng);
    let mut slices = Slices::enough(rng, bytes.len()).with_list(&numbering::entries(&numbers));
    let number = call(which, &bytes, &mut slices, seen)?;
    seen.saw(&format!("{which}: damaged bytes, {}", if number == which.done() { "done" } else { "refused" }));
    Ok(())
}
