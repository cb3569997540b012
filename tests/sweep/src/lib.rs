//! Least costs of a sheet's states (S2 of docs/SPEC.md), by one sweep from the last state backwards.
//!
//! This program knows nothing of visits, passes or budgets: it solves the Bellman equation directly. It has its own reader of bytes
//! and shares no code with the program `procedure`.

#[cfg(test)]
mod counted;
#[cfg(test)]
mod emptied;
mod lost;
mod reader;
#[cfg(test)]
mod repeats;

pub use reader::{ask, fields, read};

/// "That much or more": any number above the ceiling counts as the ceiling.
pub const CEILING: u64 = 1_000_000_000;

/// How none is written (S2.11).
pub const NONE: u64 = 1_000_000_001;

/// A cost, cut to the ceiling, or none (S2.3, S2.5). Cut at every state it comes to the same as cut at the last.
pub type Cost = Option<u64>;

/// A cost as it is compared with values (S2.7, S2.11).
pub fn written(cost: Cost) -> u64 {
    cost.unwrap_or(NONE)
}

/// The cost that a value stands for.
pub fn meant(value: u64) -> Cost {
    (value != NONE).then_some(value)
}

/// A check: its cost, and the states that its findings lead to, each as often as it is listed (S2.10).
pub struct Action {
    pub cost: u64,
    pub successors: Vec<usize>,
}

/// An ending with its cost, or a junction with its checks, of which none may be left (S1.2).
pub enum Node {
    Terminal(u64),
    Decision(Vec<Action>),
}

/// What work changes at a state: its value, its mark, and the number of the chosen check (0 at a terminal).
pub struct Cell {
    pub value: u64,
    pub mark: u8,
    pub chosen: usize,
}

pub struct Sheet {
    /// A whole sheet adds its findings up; a worst sheet takes the largest.
    pub whole: bool,
    pub start: usize,
    pub nodes: Vec<Node>,
    /// How many checks each counted junction says it has (S3.6); plain ones and endings say nothing.
    pub counts: Vec<Option<u8>>,
    pub cells: Vec<Cell>,
}

impl Sheet {
    pub fn solved(&self, state: usize) -> bool {
        self.cells[state].mark == 1
    }

    /// A junction's checks; a terminal has none.
    pub fn actions(&self, state: usize) -> &[Action] {
        match &self.nodes[state] {
            Node::Terminal(_) => &[],
            Node::Decision(actions) => actions,
        }
    }

    /// Is the state a junction that has no checks?
    pub fn emptied(&self, state: usize) -> bool {
        matches!(&self.nodes[state], Node::Decision(actions) if actions.is_empty())
    }

    /// The chosen check of a junction, where it has that check.
    pub fn chosen(&self, state: usize) -> Option<&Action> {
        self.actions(state).get(self.cells[state].chosen)
    }

    /// The q-value of an action, for any cost of each successor, cut to the ceiling: none where one of them is none.
    pub fn q_value(&self, action: &Action, cost_of: impl Fn(usize) -> Cost) -> Cost {
        let costs: Vec<u64> = action.successors.iter().map(|&t| cost_of(t)).collect::<Option<_>>()?;
        let joined = if self.whole { costs.iter().sum() } else { costs.into_iter().max().unwrap_or(0) };
        Some(CEILING.min(action.cost + joined))
    }

    /// The price of a check: its q-value by the current values, as it is written (S2.8).
    pub fn price(&self, action: &Action) -> u64 {
        written(self.q_value(action, |t| meant(self.cells[t].value)))
    }

    /// The least cost of every state (S2.5). None is more than any number, and the least of no checks is none.
    pub fn least_costs(&self) -> Vec<Cost> {
        self.backwards(|state, costs| self.actions(state).iter().filter_map(|a| self.q_value(a, |t| costs[t])).min())
    }

    /// What the written plan costs at every state (S2.3). The plan takes the chosen action at every decision that has it.
    pub fn plan_costs(&self) -> Vec<Cost> {
        self.backwards(|state, costs| self.q_value(self.chosen(state)?, |t| costs[t]))
    }

    /// The states that the written plan reaches from the start, ascending.
    pub fn plan_states(&self) -> Vec<usize> {
        let mut reached = vec![false; self.nodes.len()];
        reached[self.start] = true;
        for state in self.start..self.nodes.len() {
            if let (true, Some(chosen)) = (reached[state], self.chosen(state)) {
                for &successor in &chosen.successors {
                    reached[successor] = true;
                }
            }
        }
        (0..reached.len()).filter(|&state| reached[state]).collect()
    }

    /// The sweep. Successors have larger numbers, so their costs are there when a decision's turn comes.
    fn backwards(&self, decide: impl Fn(usize, &[Cost]) -> Cost) -> Vec<Cost> {
        let mut costs = vec![None; self.nodes.len()];
        for state in (0..self.nodes.len()).rev() {
            costs[state] = match &self.nodes[state] {
                Node::Terminal(cost) => Some(CEILING.min(*cost)),
                Node::Decision(_) => decide(state, &costs),
            };
        }
        costs
    }
}

#[cfg(test)]
mod tests {
    use super::{read, Cost};

    fn least_cost(bytes: &[u8]) -> Result<Cost, u32> {
        read(bytes).map(|sheet| sheet.least_costs()[sheet.start])
    }

    #[test]
    fn least_costs_of_the_worked_examples() {
        assert_eq!(least_cost(include_bytes!("../../../samples/a.sheet")), Ok(Some(500)));
        assert_eq!(least_cost(include_bytes!("../../../samples/b-worst.sheet")), Ok(Some(150)));
        assert_eq!(least_cost(include_bytes!("../../../samples/b-whole.sheet")), Ok(Some(180)));
        assert_eq!(least_cost(include_bytes!("../../../samples/c-worst.sheet")), Ok(Some(50)));
        assert_eq!(least_cost(include_bytes!("../../../samples/c-whole.sheet")), Ok(Some(120)));
    }

    #[test]
    fn least_costs_of_the_largest_samples() {
        assert_eq!(least_cost(include_bytes!("../../../samples/stages-4096.sheet")), Ok(Some(4195)));
        assert_eq!(least_cost(include_bytes!("../../../samples/deep.sheet")), Ok(Some(3332)));
    }

    #[test]
    fn refused_samples() {
        assert_eq!(least_cost(include_bytes!("../../../samples/refused-2.sheet")), Err(2));
        assert_eq!(least_cost(include_bytes!("../../../samples/refused-3.sheet")), Err(3));
        assert_eq!(least_cost(include_bytes!("../../../samples/stages-4097.sheet")), Err(3));
        assert_eq!(least_cost(include_bytes!("../../../samples/refused-4.sheet")), Err(4));
        assert_eq!(least_cost(include_bytes!("../../../samples/refused-5.sheet")), Err(5));
        assert_eq!(least_cost(include_bytes!("../../../samples/refused-6.sheet")), Err(6));
        assert_eq!(least_cost(include_bytes!("../../../samples/refused-7.sheet")), Err(7));
        assert_eq!(least_cost(include_bytes!("../../../samples/refused-8.sheet")), Err(8));
        assert_eq!(least_cost(include_bytes!("../../../samples/refused-10.sheet")), Err(10));
    }
}
