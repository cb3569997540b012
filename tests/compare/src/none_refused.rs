//! Refusals for the sake of none (S2.11): what was wrong with the sheets. All is taken from the sheets, not from how they were damaged.

use crate::coverage::Coverage;
use crate::none::a_check_is_none;
use sweep::{Cell, Node, Sheet, CEILING, NONE};

/// What is wrong with a stage: the question that refuses it, how it is told, and the cell that would be right.
struct Wrong {
    question: u32,
    name: &'static str,
    told: fn(&Sheet, usize) -> bool,
    right: fn(&Sheet, usize) -> Cell,
}

const WRONG: [Wrong; 14] = [
    Wrong {
        question: 5,
        name: "a chosen check at an open junction without checks",
        told: |s, i| chosen_at(s, i, 0),
        right: unchosen,
    },
    Wrong {
        question: 5,
        name: "a chosen check at a settled junction without checks",
        told: |s, i| chosen_at(s, i, 1),
        right: unchosen,
    },
    Wrong { question: 5, name: "1,000,000,002 at an ending", told: |s, i| is_ending(s, i) && beyond(s, i), right: lowered },
    Wrong { question: 5, name: "1,000,000,002 at a junction", told: |s, i| has_checks(s, i) && beyond(s, i), right: lowered },
    Wrong {
        question: 5,
        name: "1,000,000,002 at a junction without checks",
        told: |s, i| s.emptied(i) && beyond(s, i),
        right: lowered,
    },
    Wrong { question: 7, name: "an ending at none", told: |s, i| is_ending(s, i) && at(s, i, NONE), right: at_most },
    Wrong {
        question: 7,
        name: "a junction at none beside a check that is none",
        told: |s, i| open_beside(s, i, NONE),
        right: at_most,
    },
    Wrong {
        question: 7,
        name: "a junction at the ceiling beside a check that is none",
        told: |s, i| open_beside(s, i, CEILING),
        right: at_most,
    },
    Wrong { question: 7, name: "settled at none for the ceiling", told: |s, i| settled_for(s, i, NONE, CEILING), right: at_most },
    Wrong { question: 8, name: "settled at the ceiling for none", told: |s, i| settled_for(s, i, CEILING, NONE), right: at_most },
    Wrong { question: 8, name: "settled at none with an open finding", told: opened, right: |s, i| cell(s.cells[i].value, 1, 0) },
    Wrong { question: 8, name: "settled without checks at 0", told: |s, i| s.emptied(i) && marked_at(s, i, 0), right: at_most },
    Wrong {
        question: 8,
        name: "settled without checks a cent below the ceiling",
        told: |s, i| s.emptied(i) && marked_at(s, i, CEILING - 1),
        right: at_most,
    },
    Wrong {
        question: 8,
        name: "settled without checks at the ceiling",
        told: |s, i| s.emptied(i) && marked_at(s, i, CEILING),
        right: at_most,
    },
];

/// Of a sheet that was refused by this question: what was wrong with it as to none, where nothing else was by this question.
pub fn count_refused(bytes: &[u8], question: u32, seen: &mut Coverage) {
    seen.saw_if(question == 2 && bytes.len() == 16, "refused 2: 16 bytes");
    seen.saw_if(question == 4 && (17..20).contains(&bytes.len()), "refused 4: 17 to 19 bytes");
    let Ok(mut sheet) = sweep::fields(bytes) else { return };
    for wrong in WRONG.iter().filter(|wrong| wrong.question == question) {
        let told = (0..sheet.nodes.len()).find(|&state| (wrong.told)(&sheet, state));
        let alone = told.is_some_and(|state| passes(&mut sheet, state, wrong));
        seen.saw_if(alone, &format!("refused {question}: {}", wrong.name));
    }
}

/// Would the sheet pass the question with the right cell?
fn passes(sheet: &mut Sheet, state: usize, wrong: &Wrong) -> bool {
    let right = (wrong.right)(sheet, state);
    let was = std::mem::replace(&mut sheet.cells[state], right);
    let refusal = sweep::ask(sheet).err();
    sheet.cells[state] = was;
    refusal.is_none_or(|number| number > wrong.question)
}

fn cell(value: u64, mark: u8, chosen: usize) -> Cell {
    Cell { value, mark, chosen }
}

fn at(sheet: &Sheet, state: usize, value: u64) -> bool {
    sheet.cells[state].value == value
}

fn marked_at(sheet: &Sheet, state: usize, value: u64) -> bool {
    sheet.solved(state) && at(sheet, state, value)
}

fn beyond(sheet: &Sheet, state: usize) -> bool {
    at(sheet, state, NONE + 1)
}

fn is_ending(sheet: &Sheet, state: usize) -> bool {
    matches!(sheet.nodes[state], Node::Terminal(_))
}

fn has_checks(sheet: &Sheet, state: usize) -> bool {
    !sheet.actions(state).is_empty()
}

fn chosen_at(sheet: &Sheet, state: usize, mark: u8) -> bool {
    sheet.emptied(state) && sheet.cells[state].mark == mark && sheet.cells[state].chosen != 0
}

fn unchosen(sheet: &Sheet, state: usize) -> Cell {
    cell(sheet.cells[state].value, sheet.cells[state].mark, 0)
}

fn lowered(sheet: &Sheet, state: usize) -> Cell {
    cell(0, sheet.cells[state].mark, sheet.cells[state].chosen)
}

/// An open junction at a value, with a check priced none and one priced below the ceiling.
fn open_beside(sheet: &Sheet, state: usize, value: u64) -> bool {
    let below = sheet.actions(state).iter().any(|action| sheet.price(action) < CEILING);
    !sheet.solved(state) && at(sheet, state, value) && below && a_check_is_none(sheet, state)
}

/// A junction that is settled at a value, and the price of its chosen check is another.
fn settled_for(sheet: &Sheet, state: usize, value: u64, price: u64) -> bool {
    marked_at(sheet, state, value) && sheet.chosen(state).is_some_and(|chosen| sheet.price(chosen) == price)
}

/// An open stage that the chosen check of a junction leads to which is settled at none.
fn opened(sheet: &Sheet, state: usize) -> bool {
    let leads = |junction| sheet.chosen(junction).is_some_and(|chosen| chosen.successors.contains(&state));
    !sheet.solved(state) && (0..state).any(|junction| marked_at(sheet, junction, NONE) && leads(junction))
}

/// The cell with the largest value that question 7 allows.
fn at_most(sheet: &Sheet, state: usize) -> Cell {
    let value = match &sheet.nodes[state] {
        Node::Terminal(cost) => *cost,
        Node::Decision(actions) => actions.iter().map(|action| sheet.price(action)).min().unwrap_or(NONE),
    };
    cell(value, sheet.cells[state].mark, sheet.cells[state].chosen)
}

#[cfg(test)]
mod tests {
    use super::count_refused;
    use crate::coverage::Coverage;
    use crate::rows::{sheet_f, sheet_g, sheet_h};
    use crate::sketch::{Node, Sketch, AT_CEILING, NONE};

    /// What is counted of a sheet that is refused by this question.
    fn counted(bytes: &[u8], question: u32) -> String {
        assert_eq!(sweep::read(bytes).err(), Some(question));
        let mut seen = Coverage::default();
        count_refused(bytes, question, &mut seen);
        seen.lines().map(|(name, _)| name.as_str()).collect::<Vec<_>>().join(", ")
    }

    /// The sheet with a value, a mark and a chosen check for each stage.
    fn at(mut sketch: Sketch, cells: &[(u32, u8, u8)]) -> Vec<u8> {
        for (state, cell) in sketch.states.iter_mut().zip(cells) {
            (state.value, state.mark, state.chosen) = *cell;
        }
        sketch.bytes()
    }

    #[test]
    fn sizes() {
        assert_eq!(counted(&sheet_f().bytes()[..16], 2), "refused 2: 16 bytes");
        assert_eq!(counted(&sheet_f().bytes()[..15], 2), "");
        let ending = Sketch::new(0, 0, vec![Node::Terminal(0)]).bytes();
        assert_eq!(counted(&ending[..19], 4), "refused 4: 17 to 19 bytes");
        assert_eq!(counted(&[&ending[..], &[0]].concat(), 4), "");
    }

    #[test]
    fn ranges() {
        let f = |cell| counted(&at(sheet_f(), &[cell]), 5);
        assert_eq!(f((0, 0, 1)), "refused 5: a chosen check at an open junction without checks");
        assert_eq!(f((NONE, 1, 1)), "refused 5: a chosen check at a settled junction without checks");
        assert_eq!(f((NONE + 1, 0, 0)), "refused 5: 1,000,000,002 at a junction without checks");
        assert_eq!(f((NONE + 2, 0, 0)), "");
        assert_eq!(f((NONE + 1, 0, 1)), "");
        assert_eq!(counted(&at(sheet_g(0), &[(NONE + 1, 0, 0)]), 5), "refused 5: 1,000,000,002 at a junction");
        assert_eq!(
            counted(&at(sheet_g(0), &[(0, 0, 0), (0, 0, 0), (NONE + 1, 0, 0)]), 5),
            "refused 5: 1,000,000,002 at an ending"
        );
    }

    #[test]
    fn values() {
        let g = |first, second| counted(&at(sheet_g(0), &[(first, 0, 0), (second, 0, 0)]), 7);
        assert_eq!(g(NONE, NONE), "refused 7: a junction at none beside a check that is none");
        assert_eq!(g(AT_CEILING, NONE), "refused 7: a junction at the ceiling beside a check that is none");
        assert_eq!(g(NONE, AT_CEILING), "");
        assert_eq!(g(101, NONE), "");
        assert_eq!(counted(&at(sheet_g(0), &[(0, 0, 0), (0, 0, 0), (NONE, 0, 0)]), 7), "refused 7: an ending at none");
        assert_eq!(counted(&at(sheet_g(0), &[(0, 0, 0), (0, 0, 0), (31, 0, 0)]), 7), "");
    }

    /// Stage 1 is at the ceiling, so both checks are priced so.
    #[test]
    fn settled_at_none() {
        let h = |cells: [(u32, u8, u8); 2], question| counted(&at(sheet_h(), &cells), question);
        assert_eq!(h([(NONE, 1, 1), (AT_CEILING, 0, 0)], 7), "refused 7: settled at none for the ceiling");
        assert_eq!(h([(AT_CEILING, 1, 1), (NONE, 1, 0)], 8), "refused 8: settled at the ceiling for none");
        assert_eq!(h([(NONE, 1, 1), (NONE, 0, 0)], 8), "refused 8: settled at none with an open finding");
        assert_eq!(h([(AT_CEILING - 1, 1, 1), (NONE, 1, 0)], 8), "");
        assert_eq!(h([(0, 0, 0), (AT_CEILING, 1, 0)], 8), "refused 8: settled without checks at the ceiling");
    }

    #[test]
    fn settled_without_checks() {
        let f = |value| counted(&at(sheet_f(), &[(value, 1, 0)]), 8);
        assert_eq!(f(0), "refused 8: settled without checks at 0");
        assert_eq!(f(AT_CEILING - 1), "refused 8: settled without checks a cent below the ceiling");
        assert_eq!(f(AT_CEILING), "refused 8: settled without checks at the ceiling");
        assert_eq!(f(7), "");
    }
}
