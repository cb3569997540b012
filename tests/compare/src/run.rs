//! The run along `by` (S10.9), followed through the lines that `price` printed.

use std::collections::BTreeMap;
use sweep::{Action, Node, Sheet};

/// What a line says of its stage.
enum Step {
    Check { check: usize, by: usize },
    End,
}

/// Follows the run of a worst sheet: it goes from the start over findings of the printed checks to an ending, and what is paid on it is the
/// price. Costs are the sheet's. The number of junctions on the run.
pub fn follow(text: &str, sheet: &Sheet) -> Result<usize, String> {
    let (price, steps) = read(text).ok_or("price printed a line that is no stage's")?;
    let (mut state, mut paid, mut junctions) = (sheet.start, 0, 0);
    loop {
        match (steps.get(&state), sheet.nodes.get(state)) {
            (Some(Step::End), Some(Node::Terminal(cost))) => {
                paid += cost;
                break;
            }
            (Some(&Step::Check { check, by }), Some(Node::Decision(actions))) if leads(actions.get(check), by) => {
                paid += actions[check].cost;
                junctions += 1;
                state = by;
            }
            _ => return Err(format!("the run along by is lost at stage {state}")),
        }
    }
    if paid == price {
        Ok(junctions)
    } else {
        Err(format!("the run along by costs {paid}, and the price is {price}"))
    }
}

fn leads(action: Option<&Action>, by: usize) -> bool {
    action.is_some_and(|action| action.successors.contains(&by))
}

/// The price of line one, and what the other lines say.
fn read(text: &str) -> Option<(u64, BTreeMap<usize, Step>)> {
    let mut lines = text.lines().map(|line| line.split(' ').collect::<Vec<_>>());
    let price = match lines.next()?[..] {
        ["settled", price, _, _] => price.parse().ok()?,
        _ => return None,
    };
    let steps = lines.map(|words| step(&words)).collect::<Option<_>>()?;
    Some((price, steps))
}

/// The stage of a line, and what it says of it.
fn step(words: &[&str]) -> Option<(usize, Step)> {
    match words {
        ["stage", stage, "check", check, "value", _, "by", by] => {
            let (check, by) = (check.parse().ok()?, by.parse().ok()?);
            Some((stage.parse().ok()?, Step::Check { check, by }))
        }
        ["stage", stage, "end", "value", _] => Some((stage.parse().ok()?, Step::End)),
        _ => None,
    }
}

#[cfg(test)]
mod tests {
    use super::follow;

    fn follow_c(text: &str) -> Result<usize, String> {
        let sheet = sweep::read(include_bytes!("../../../samples/c-worst.sheet")).expect("sheet C is accepted");
        follow(text, &sheet)
    }

    const ENDINGS: &str = "stage 1 end value 10\nstage 2 end value 40\nstage 3 end value 40\nstage 4 end value 20\n";

    #[test]
    fn a_run_that_adds_up() {
        assert_eq!(follow_c(&format!("settled 50 4 7\nstage 0 check 0 value 50 by 2\n{ENDINGS}")), Ok(1));
    }

    #[test]
    fn runs_that_cost_something_else() {
        assert!(follow_c(&format!("settled 50 4 7\nstage 0 check 0 value 50 by 1\n{ENDINGS}")).is_err());
        assert!(follow_c(&format!("settled 50 4 7\nstage 0 check 0 value 50 by 4\n{ENDINGS}")).is_err());
        assert!(follow_c(&format!("settled 51 4 7\nstage 0 check 0 value 51 by 2\n{ENDINGS}")).is_err());
    }

    #[test]
    fn runs_that_get_lost() {
        assert!(follow_c("settled 50 4 7\nstage 0 check 0 value 50 by 2\n").is_err());
        assert!(follow_c(&format!("settled 50 4 7\nstage 0 check 0 value 50 by 0\n{ENDINGS}")).is_err());
        assert!(follow_c(&format!("settled 50 4 7\nstage 0 check 1 value 50 by 2\n{ENDINGS}")).is_err());
        assert!(follow_c(&format!("settled 50 4 7\nstage 0 check 0 value 50 by 5\nstage 5 end value 40\n{ENDINGS}")).is_err());
        assert!(follow_c(&format!("settled 50 4 7\nstage 0 check 0 value 50\n{ENDINGS}")).is_err());
    }
}
