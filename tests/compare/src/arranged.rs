//! An accepted sheet, numbered as a draft, rearranged, worked and restored (S13.5, S13.6, S13.13 to S13.19).

use crate::blocks::{stages, TERMINAL_TAG};
use crate::calls::{ENTRY_BYTES, TABLE_BYTES};
use crate::check::{number64, same};
use crate::coverage::Coverage;
use crate::draft_calls::{expect, Slices, Which};
use crate::rng::Rng;
use crate::{draft_counts, numbering};
use order::{written, Cost, Sheet};

/// A draft, as `order` reads it, with the least costs of its stages and the order in which they are placed.
struct Draft {
    bytes: Vec<u8>,
    read: Sheet,
    least: Vec<Cost>,
    order: Vec<usize>,
}

/// The sheet becomes a draft by a list, and that is rearranged. What the inverse makes of the new sheet is the draft again.
pub fn run(sheet: &[u8], rng: &mut Rng, seen: &mut Coverage) -> Result<(), String> {
    let list = numbering::draw(rng, stages(sheet).len());
    let bytes = numbering::draft(sheet, &list);
    restored(sheet, &list, &bytes, rng, seen)?;
    let (new, order) = rearranged(&bytes, rng, seen)?;
    accepted(&new)?;
    if list.is_sorted() {
        unaltered(sheet, &new, &order)?;
    }
    restored(&new, &order, &bytes, rng, seen)?;
    let read = read(&bytes)?;
    let draft = Draft { bytes, least: read.least_costs(), read, order };
    same_costs(&draft, &new)?;
    seen.saw(&format!("draft: numbered {}", numbering::told(&list)));
    draft_counts::count(draft.bytes.len(), &draft.read, &draft.order, seen);
    draft_counts::count_costs(&draft.least, seen);
    worked(&draft, new, rng, seen)
}

fn read(draft: &[u8]) -> Result<Sheet, String> {
    order::draft(draft).map_err(|number| format!("order refuses the draft {number}"))
}

/// The new sheet and the order. No draft of an accepted sheet is refused (S13.19).
fn rearranged(draft: &[u8], rng: &mut Rng, seen: &mut Coverage) -> Result<(Vec<u8>, Vec<usize>), String> {
    let mut slices = Slices::enough(rng, draft.len());
    expect(Which::Rearrange, draft, &mut slices, Which::Rearrange.done(), seen)?;
    Ok((slices.output[..draft.len()].to_vec(), slices.listed(stages(draft).len())))
}

/// By this list the inverse makes this draft of a sheet (S13.6, S13.17, S13.18), whatever stands behind the stages in the list.
fn restored(sheet: &[u8], list: &[usize], draft: &[u8], rng: &mut Rng, seen: &mut Coverage) -> Result<(), String> {
    let mut slices = Slices::enough(rng, sheet.len()).with_list(&numbering::entries(list));
    expect(Which::Restore, sheet, &mut slices, Which::Restore.done(), seen)?;
    let behind = slices.list.iter().skip(ENTRY_BYTES * list.len()).any(|&byte| byte != 0);
    seen.saw_if(behind, "restored: something stands behind the stages in the list");
    same("restored draft", &slices.output[..sheet.len()], draft)
}

/// Every question about the sheet is answered yes (S13.13): 9 is the last.
fn accepted(new: &[u8]) -> Result<(), String> {
    match library::solve(&mut new.to_vec(), &mut [0; TABLE_BYTES], 0, &mut [0; 24]) {
        9 => Ok(()),
        number => Err(format!("with the budget 0 the new sheet is refused {number}")),
    }
}

/// Where every finding is above its junction already, only the tag differs (S13.16).
fn unaltered(sheet: &[u8], new: &[u8], order: &[usize]) -> Result<(), String> {
    if !order.iter().copied().eq(0..order.len()) {
        return Err("stages that stood in order are placed in another".to_string());
    }
    same("new sheet of a draft in order", new, sheet)
}

/// Least costs of the draft, by `order`, and of the new sheet, by `sweep`, are the same; and so are those of the written plan (S13.14,
/// S13.15).
fn same_costs(draft: &Draft, new: &[u8]) -> Result<(), String> {
    let new = sweep::read(new).map_err(|number| format!("sweep refuses the new sheet {number}"))?;
    let plan = draft.read.plan_costs();
    let pairs = [("least cost", &draft.least, new.least_costs()), ("plan's cost", &plan, new.plan_costs())];
    for (what, old_costs, new_costs) in pairs {
        for (number, &old) in draft.order.iter().enumerate() {
            let (in_draft, in_new) = (written(&old_costs[old]), sweep::written(new_costs[number]));
            if in_draft != in_new {
                return Err(format!("stage {old} becomes {number}: its {what} is {in_draft} in the draft and {in_new} after"));
            }
        }
    }
    Ok(())
}

/// After one to three calls the inverse gives the draft with the cells that they left (S13.18), and a settled start shows what it costs.
fn worked(draft: &Draft, mut new: Vec<u8>, rng: &mut Rng, seen: &mut Coverage) -> Result<(), String> {
    let mut result = [0; 24];
    let mut number = 0;
    for _ in 0..rng.between(1, 3) {
        let budget = budget(rng);
        number = library::solve(&mut new, &mut [0; TABLE_BYTES], budget, &mut result);
        if number < 100 {
            return Err(format!("the new sheet is refused {number}"));
        }
    }
    let expected = with_cells(&draft.bytes, &new, &draft.order);
    restored(&new, &draft.order, &expected, rng, seen)?;
    let after = read(&expected)?;
    costs_the_price(&draft.least[after.start], &after, number, number64(&result, 0))?;
    draft_counts::count_worked(&draft.read, &after, &draft.order, number, seen);
    if rng.one_in(4) {
        again(&expected, &new, &draft.order, rng, seen)?;
    }
    Ok(())
}

/// The restored draft is rearranged to the worked sheet: cells make no difference to the order (S13.2, S13.5).
fn again(restored: &[u8], worked: &[u8], order: &[usize], rng: &mut Rng, seen: &mut Coverage) -> Result<(), String> {
    let (sheet, order_again) = rearranged(restored, rng, seen)?;
    if order_again != order {
        return Err("work on the sheet has changed the order of its draft".to_string());
    }
    seen.saw("restored: rearranged again");
    same("worked sheet, rearranged again", &sheet, worked)
}

/// Few raises, or as many as nearly all sheets are settled by.
fn budget(rng: &mut Rng) -> u64 {
    let few = rng.between(1, 60) as u64;
    rng.pick(&[1, few, 10_000, 10_000])
}

/// The draft with the values, marks and chosen checks of the worked sheet, each at the old number of its stage.
fn with_cells(draft: &[u8], worked: &[u8], order: &[usize]) -> Vec<u8> {
    let mut draft = draft.to_vec();
    let (old, new) = (stages(&draft), stages(worked));
    for (from, to) in new.into_iter().zip(order.iter().map(|&stage| old[stage])) {
        let cells = if draft[to] == TERMINAL_TAG { 7..12 } else { 3..9 };
        let found = &worked[from..][cells.clone()];
        draft[to..][cells].copy_from_slice(found);
    }
    draft
}

/// In the restored draft the plan costs the price, and that is the least cost; where the start is open, the price is a lower bound.
fn costs_the_price(least: &Cost, restored: &Sheet, number: u32, price: u64) -> Result<(), String> {
    let (least, plan) = (written(least), written(&restored.plan_costs()[restored.start]));
    let holds = if number == 102 { price <= least } else { (price, price) == (least, plan) };
    if holds {
        Ok(())
    } else {
        Err(format!("ended {number} at {price}, but the least cost is {least} and the plan of the restored draft costs {plan}"))
    }
}

#[cfg(test)]
mod tests {
    use super::{costs_the_price, read, same_costs, with_cells, Draft};
    use crate::numbering::draft;
    use crate::rows::{but, sheet_a};

    /// Sheet A as work leaves it: junction 0 is settled at 500 by check 1, junction 1 is open at 400, and ending 3 is settled at 0.
    fn settled() -> Vec<u8> {
        but(sheet_a(), |a| {
            (a.states[0].value, a.states[0].mark, a.states[0].chosen) = (500, 1, 1);
            (a.states[1].value, a.states[3].mark) = (400, 1);
        })
    }

    /// K is a draft of A; 2, 3, 0, 1 is its order. Junctions 0 and 1 become 2 and 3, whose fields stand at 32 and 61, and ending 3
    /// becomes 1, at 20.
    #[test]
    fn cells_of_a_worked_sheet() {
        let sheet_k = draft(&sheet_a().bytes(), &[2, 3, 0, 1]);
        let mut expected = sheet_k.clone();
        expected[35..41].copy_from_slice(&[0, 0, 1, 244, 1, 1]);
        expected[64..68].copy_from_slice(&[0, 0, 1, 144]);
        expected[31] = 1;
        assert_eq!(with_cells(&sheet_k, &settled(), &[2, 3, 0, 1]), expected);
    }

    /// K, or the draft that 2, 3, 0, 1 make of A with other cells; with another order, if that is wanted.
    fn draft_of(sheet: &[u8], order: &[usize]) -> Draft {
        let bytes = draft(sheet, &[2, 3, 0, 1]);
        let read = read(&bytes).expect("it is a draft");
        Draft { bytes, least: read.least_costs(), read, order: order.to_vec() }
    }

    #[test]
    fn prices() {
        let restored = draft_of(&settled(), &[2, 3, 0, 1]);
        let holds = |number, price| costs_the_price(&restored.least[2], &restored.read, number, price).is_ok();
        assert!(holds(100, 500) && !holds(100, 499) && !holds(100, 700));
        assert!(holds(102, 500) && holds(102, 499) && !holds(102, 501));
    }

    /// Where the plan is another: check 0 of the start, which costs 700.
    #[test]
    fn prices_of_another_plan() {
        let open = draft_of(&sheet_a().bytes(), &[2, 3, 0, 1]);
        let holds = |number, price| costs_the_price(&open.least[2], &open.read, number, price).is_ok();
        assert!(holds(102, 500) && !holds(100, 500) && !holds(100, 700));
    }

    /// Ending 2 costs 100 and ending 3 nothing, so they cannot be taken for one another; and the settled sheet has another plan.
    #[test]
    fn costs_under_other_numbers() {
        let sheet_a = sheet_a().bytes();
        assert_eq!(same_costs(&draft_of(&sheet_a, &[2, 3, 0, 1]), &sheet_a), Ok(()));
        assert!(same_costs(&draft_of(&sheet_a, &[2, 3, 1, 0]), &sheet_a).is_err());
        assert!(same_costs(&draft_of(&sheet_a, &[2, 3, 0, 1]), &settled()).is_err());
    }
}
