//! The states from which no complete plan exists (S2.6), by striking out. Costs are not asked, nor the order of the states.

use crate::{Node, Sheet};

/// A check: its junction, and its number there.
type Check = (usize, usize);

impl Sheet {
    /// A junction without checks is lost. A check that leads to a lost state is struck out, and a junction is lost when its last check is.
    pub fn lost(&self) -> Vec<bool> {
        let leading = self.leading();
        let mut left: Vec<Vec<bool>> = self.nodes.iter().map(checks_left).collect();
        let mut lost: Vec<bool> = (0..self.nodes.len()).map(|state| self.emptied(state)).collect();
        let mut fresh: Vec<usize> = (0..lost.len()).filter(|&state| lost[state]).collect();
        while let Some(state) = fresh.pop() {
            for &(junction, check) in &leading[state] {
                left[junction][check] = false;
                if !lost[junction] && !left[junction].contains(&true) {
                    lost[junction] = true;
                    fresh.push(junction);
                }
            }
        }
        lost
    }

    /// The checks that lead to each state, each as often as it lists it.
    fn leading(&self) -> Vec<Vec<Check>> {
        let mut leading = vec![Vec::new(); self.nodes.len()];
        for junction in 0..self.nodes.len() {
            for (check, action) in self.actions(junction).iter().enumerate() {
                action.successors.iter().for_each(|&t| leading[t].push((junction, check)));
            }
        }
        leading
    }
}

/// All of its checks.
fn checks_left(node: &Node) -> Vec<bool> {
    match node {
        Node::Terminal(_) => Vec::new(),
        Node::Decision(actions) => vec![true; actions.len()],
    }
}
