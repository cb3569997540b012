//! Heads with the wrong tag (S13.1, S13.8): all of them are refused 3.

use crate::blocks::stages;
use crate::calls::{Call, TABLE_BYTES};
use crate::coverage::Coverage;
use crate::draft_calls::{expect, Slices, Which, BOTH};
use crate::rng::Rng;
use crate::{check, numbering};

/// Tags that no head has.
const OTHERS: [u8; 7] = [0, 2, 3, 4, 5, 7, 255];

/// Each call gets the draft or sheet with the other's tag, and with one that no head has. A draft is not worked.
pub fn run(sheet: &[u8], rng: &mut Rng, seen: &mut Coverage) -> Result<(), String> {
    let numbers = numbering::draw(rng, stages(sheet).len());
    for which in BOTH {
        let mut bytes = which.lent(sheet, &numbers);
        let other = if which == Which::Rearrange { Which::Restore } else { Which::Rearrange };
        for (tag, name) in [(other.tag(), "the other call's tag"), (rng.pick(&OTHERS), "the tag of neither")] {
            bytes[0] = tag;
            let mut slices = Slices::enough(rng, bytes.len()).with_list(&numbering::entries(&numbers));
            expect(which, &bytes, &mut slices, 3, seen)?;
            seen.saw(&format!("{which}: {name}"));
        }
    }
    worked(numbering::draft(sheet, &numbers), rng, seen)
}

/// Work on a draft, by the library and by `procedure`.
fn worked(mut draft: Vec<u8>, rng: &mut Rng, seen: &mut Coverage) -> Result<(), String> {
    let call = Call { budget: rng.next(), table: vec![0xee; TABLE_BYTES], result: vec![0xee; 24], before: 16 };
    let number = check::one(&mut draft, &call)?.number;
    if number != 3 {
        return Err(format!("work on a draft returned {number}"));
    }
    seen.saw("draft: refused 3 by work");
    Ok(())
}
