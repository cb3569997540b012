//! Costs of the stages of a draft as it stands (S2.3, S2.5), by recursion along its findings, which remembers what it has worked out. It
//! asks for no order of the stages, and needs that findings lead in no circle.

use crate::{Action, Amount, Node, Sheet, State, CEILING, NONE};

/// A number, not cut, or none.
pub type Cost = Option<Amount>;

/// A cost as it is compared with values: cut to the ceiling (S2.7), or 1,000,000,001 for none (S2.11).
pub fn written(cost: &Cost) -> u64 {
    match cost {
        Some(amount) => amount.small().map_or(CEILING, |number| number.min(CEILING)),
        None => NONE,
    }
}

/// Which of a junction's checks are considered.
type Considered = fn(&State) -> &[Action];

impl Sheet {
    /// The least cost of every stage (S2.5).
    pub fn least_costs(&self) -> Vec<Cost> {
        self.costs(State::actions)
    }

    /// What the written plan costs from every stage (S2.3, S13.15): it takes the chosen check where the junction has that one.
    pub fn plan_costs(&self) -> Vec<Cost> {
        self.costs(|state| {
            let chosen = usize::from(state.chosen);
            state.actions().get(chosen..=chosen).unwrap_or(&[])
        })
    }

    fn costs(&self, considered: Considered) -> Vec<Cost> {
        let mut known = vec![None; self.states.len()];
        (0..self.states.len()).map(|state| self.cost(state, considered, &mut known)).collect()
    }

    /// The least over the considered checks; none where there are none of them, or all are none.
    fn cost(&self, state: usize, considered: Considered, known: &mut [Option<Cost>]) -> Cost {
        if let Some(cost) = &known[state] {
            return cost.clone();
        }
        let cost = match &self.states[state].node {
            Node::Terminal { cost } => Some(Amount::from(*cost)),
            Node::Decision { .. } => {
                let actions = considered(&self.states[state]);
                actions.iter().filter_map(|action| self.cost_of_check(action, considered, known)).min()
            }
        };
        known[state] = Some(cost.clone());
        cost
    }

    /// A check's cost plus the largest of its findings' costs, or their sum.
    fn cost_of_check(&self, action: &Action, considered: Considered, known: &mut [Option<Cost>]) -> Cost {
        let mut joined = Amount::from(0);
        for &successor in &action.successors {
            let cost = self.cost(successor, considered, known)?;
            joined = if self.whole { joined + &cost } else { joined.max(cost) };
        }
        Some(joined + &Amount::from(action.cost))
    }
}
