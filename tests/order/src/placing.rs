//! The order (S13.2, S13.3), as the specification says it.

use crate::Sheet;

impl Sheet {
    /// The old numbers in the order in which their stages are placed, as far as any can be placed. Every finding has to be a stage.
    pub fn order(&self) -> Vec<usize> {
        let pointing = self.pointing();
        let mut placed = vec![false; self.states.len()];
        let mut unplaced: Vec<usize> = (0..self.states.len()).collect();
        let mut order = Vec::new();
        while let Some(place) = unplaced.iter().position(|&state| pointing[state].iter().all(|&junction| placed[junction])) {
            let state = unplaced.remove(place);
            placed[state] = true;
            order.push(state);
        }
        order
    }

    /// The junctions that point to each stage, each as often as it does.
    fn pointing(&self) -> Vec<Vec<usize>> {
        let mut pointing = vec![Vec::new(); self.states.len()];
        for (junction, state) in self.states.iter().enumerate() {
            state.points_to().for_each(|finding| pointing[finding].push(junction));
        }
        pointing
    }
}

#[cfg(test)]
mod tests {
    use crate::{Action, Node, Sheet, State};

    /// A draft of so many stages, by as many bits of a number for each: it has one check with these findings, or is an ending.
    fn drawn(states: usize, number: usize) -> Sheet {
        let findings = |state: usize| number >> (state * states) & ((1 << states) - 1);
        let state = |number| {
            let successors: Vec<usize> = (0..states).filter(|t| findings(number) >> t & 1 == 1).collect();
            let node = match successors.is_empty() {
                true => Node::Terminal { cost: 0 },
                false => Node::Decision { written: None, actions: vec![Action { cost: 1, successors }] },
            };
            State { at: 0, node, value: 0, mark: 0, chosen: 0 }
        };
        Sheet { whole: false, start: 0, states: (0..states).map(state).collect() }
    }

    /// May this stage be placed behind those?
    fn free(draft: &Sheet, placed: &[usize], state: usize) -> bool {
        let points = |junction: usize| draft.states[junction].points_to().any(|finding| finding == state);
        !placed.contains(&state) && (0..draft.states.len()).all(|junction| placed.contains(&junction) || !points(junction))
    }

    /// All drafts of four stages: each stage of the order is the lowest that may be placed, and nothing may be placed behind the last one
    /// (S13.12). Stages are left over exactly where there is a circle (S13.11), and what is found is one.
    #[test]
    fn all_drafts_of_four_stages() {
        for number in 0..1 << 16 {
            let draft = drawn(4, number);
            let order = draft.order();
            for place in 0..=order.len() {
                let lowest = (0..4).find(|&state| free(&draft, &order[..place], state));
                assert_eq!(lowest, order.get(place).copied(), "draft {number}, place {place}");
            }
            let circle = draft.circle();
            assert_eq!(circle.is_some(), order.len() < 4, "draft {number}");
            let circle = circle.unwrap_or_default();
            for (place, &state) in circle.iter().enumerate() {
                let next = circle[(place + 1) % circle.len()];
                assert!(draft.states[state].points_to().any(|finding| finding == next), "draft {number}: {circle:?}");
            }
        }
    }

    /// 4,096 stages, each of which points to the one before it: the search for the next stage looks at all that are left.
    #[test]
    fn in_reverse() {
        let node = |number: usize| match number {
            0 => Node::Terminal { cost: 0 },
            _ => Node::Decision { written: None, actions: vec![Action { cost: 1, successors: vec![number - 1] }] },
        };
        let state = |number| State { at: 0, node: node(number), value: 0, mark: 0, chosen: 0 };
        let draft = Sheet { whole: false, start: 4095, states: (0..4096).map(state).collect() };
        assert_eq!(draft.order(), (0..4096).rev().collect::<Vec<_>>());
        assert_eq!(draft.circle(), None);
    }
}
