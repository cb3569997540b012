//! The driver and the visits of LDFS, with a budget of raises (S6).

use crate::{Sheet, CEILING, NONE};

/// How work ended: the start was marked, below the ceiling, at it or at none, or the budget ran out (S7.1).
pub enum Outcome {
    Settled,
    Over,
    NoPlan,
    Stopped,
}

pub struct Work {
    pub outcome: Outcome,
    pub passes: u64,
    pub raises: u64,
}

/// Work stopped just before a raise that would have gone beyond the budget.
struct OutOfBudget;

struct Search<'a> {
    sheet: &'a mut Sheet,
    budget: u64,
    raises: u64,
}

/// LDFS-DRIVER: repeat LDFS(start) until it succeeds.
pub fn work(sheet: &mut Sheet, budget: u64) -> Work {
    let start = sheet.start;
    let mut search = Search { sheet, budget, raises: 0 };
    let mut passes = 0;
    let outcome = loop {
        passes += 1;
        match search.visit(start) {
            Ok(false) => continue,
            Ok(true) => break marked(search.sheet.states[start].value),
            Err(OutOfBudget) => break Outcome::Stopped,
        }
    };
    Work { outcome, passes, raises: search.raises }
}

/// What the value of a marked start says.
fn marked(value: u64) -> Outcome {
    if value < CEILING {
        Outcome::Settled
    } else if value == CEILING {
        Outcome::Over
    } else {
        Outcome::NoPlan
    }
}

impl Search<'_> {
    /// LDFS(s)
    fn visit(&mut self, s: usize) -> Result<bool, OutOfBudget> {
        if self.sheet.states[s].mark == 1 {
            return Ok(true);
        }
        if let Some(cost) = self.sheet.states[s].terminal_cost {
            self.update(s, cost)?;
            self.sheet.states[s].mark = 1;
            return Ok(true);
        }
        let actions = self.sheet.states[s].actions.len();
        if actions == 0 {
            self.update(s, NONE)?;
            self.sheet.states[s].chosen = 0;
            self.sheet.states[s].mark = 1;
            return Ok(true);
        }
        for a in 0..actions {
            if self.dear(s, a) {
                continue;
            }
            if self.visit_successors(s, a)? {
                self.sheet.states[s].chosen = a;
                self.sheet.states[s].mark = 1;
                return Ok(true);
            }
        }
        let mut least = NONE;
        for a in 0..actions {
            least = least.min(self.sheet.q_value(s, a));
        }
        self.update(s, least)?;
        Ok(false)
    }

    /// The inner loop: flag := LDFS(s') & [Q_V(a, s) <= V(s)], until that is false or no successor is left.
    fn visit_successors(&mut self, s: usize, a: usize) -> Result<bool, OutOfBudget> {
        for i in 0..self.sheet.states[s].actions[a].successors.len() {
            let successor = self.sheet.states[s].actions[a].successors[i];
            if !self.visit(successor)? || self.dear(s, a) {
                return Ok(false);
            }
        }
        Ok(true)
    }

    /// Q_V(a, s) > V(s)
    fn dear(&self, s: usize, a: usize) -> bool {
        self.sheet.q_value(s, a) > self.sheet.states[s].value
    }

    /// V(s) := value. Only a change to a larger value is a raise; the budget is asked before it.
    fn update(&mut self, s: usize, value: u64) -> Result<(), OutOfBudget> {
        if value > self.sheet.states[s].value {
            if self.raises == self.budget {
                return Err(OutOfBudget);
            }
            self.raises += 1;
        }
        self.sheet.states[s].value = value;
        Ok(())
    }
}
