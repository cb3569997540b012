//! The questions that the two calls put (S13.8), behind question 1: 2, 3, 4, 10, 5, 6, 11, 7 and 8, each settled before the next.

use crate::reader::fields;
use crate::{Action, Node, Sheet, State, CEILING, DRAFT_TAG, ENTRY_BYTES, NONE, SHEET_TAG};

/// The draft, by the questions of the rearranger: a finding may be any stage, and findings lead in no circle.
pub fn draft(bytes: &[u8]) -> Result<Sheet, u32> {
    let sheet = fields(bytes, DRAFT_TAG)?;
    first_no(&[
        (10, &|| sheet.counts_hold()),
        (5, &|| sheet.in_ranges()),
        (6, &|| sheet.in_order()),
        (11, &|| sheet.circle().is_none()),
        (7, &|| sheet.values_hold()),
        (8, &|| sheet.marks_hold()),
    ])?;
    Ok(sheet)
}

/// The ordinary sheet, by the questions of the inverse, which is lent this list too, of 4,096 entries or more.
pub fn ordinary(bytes: &[u8], list: &[u8]) -> Result<Sheet, u32> {
    let sheet = fields(bytes, SHEET_TAG)?;
    first_no(&[
        (10, &|| sheet.counts_hold()),
        (5, &|| sheet.in_ranges()),
        (6, &|| sheet.in_order() && sheet.leads_on()),
        (11, &|| sheet.all_listed(list)),
        (7, &|| sheet.values_hold()),
        (8, &|| sheet.marks_hold()),
    ])?;
    Ok(sheet)
}

/// The number of the first question that is answered no.
fn first_no(questions: &[(u32, &dyn Fn() -> bool)]) -> Result<(), u32> {
    match questions.iter().find(|(_, answer)| !answer()) {
        Some(&(number, _)) => Err(number),
        None => Ok(()),
    }
}

impl Sheet {
    /// Question 10: each counted junction writes the number of its checks.
    pub fn counts_hold(&self) -> bool {
        self.states.iter().all(|state| match &state.node {
            Node::Decision { written: Some(written), actions } => usize::from(*written) == actions.len(),
            _ => true,
        })
    }

    /// Question 5.
    pub fn in_ranges(&self) -> bool {
        self.states.iter().all(in_range)
    }

    /// Question 6, but for what `leads_on` asks: findings are stages and ascend, on a worst sheet strictly.
    pub fn in_order(&self) -> bool {
        let ascends = |pair: &[usize]| if self.whole { pair[0] <= pair[1] } else { pair[0] < pair[1] };
        let right = |action: &Action| {
            action.successors.iter().all(|&t| t < self.states.len()) && action.successors.windows(2).all(ascends)
        };
        self.states.iter().all(|state| state.actions().iter().all(right))
    }

    /// The rest of question 6: every finding is above the number of its own junction.
    pub fn leads_on(&self) -> bool {
        self.states.iter().enumerate().all(|(number, state)| state.points_to().all(|finding| finding > number))
    }

    /// The first entries of a list, as many as there are stages.
    pub(crate) fn listed<'a>(&self, list: &'a [u8]) -> impl Iterator<Item = usize> + 'a {
        let entry = |bytes: &[u8]| u32::from_le_bytes([bytes[0], bytes[1], bytes[2], bytes[3]]) as usize;
        list.chunks_exact(ENTRY_BYTES).take(self.states.len()).map(entry)
    }

    /// Question 11 of the inverse: is every stage number among those entries?
    fn all_listed(&self, list: &[u8]) -> bool {
        let mut missing = vec![true; self.states.len()];
        for entry in self.listed(list) {
            if let Some(flag) = missing.get_mut(entry) {
                *flag = false;
            }
        }
        !missing.contains(&true)
    }

    /// Question 7. Findings have to be stages.
    pub fn values_hold(&self) -> bool {
        self.states.iter().all(|state| {
            let value = u64::from(state.value);
            match &state.node {
                Node::Terminal { cost } => value <= u64::from(*cost),
                Node::Decision { actions, .. } => actions.iter().all(|action| value <= self.price(action)),
            }
        })
    }

    /// Question 8. Findings have to be stages, and chosen checks checks.
    pub fn marks_hold(&self) -> bool {
        self.states.iter().all(|state| state.mark == 0 || self.earned(state))
    }

    fn earned(&self, state: &State) -> bool {
        let value = u64::from(state.value);
        match &state.node {
            Node::Terminal { cost } => value == u64::from(*cost),
            Node::Decision { actions, .. } if actions.is_empty() => value == NONE,
            Node::Decision { actions, .. } => {
                let chosen = &actions[usize::from(state.chosen)];
                value == self.price(chosen) && chosen.successors.iter().all(|&t| self.states[t].mark == 1)
            }
        }
    }

    /// The price of a check (S2.8).
    fn price(&self, action: &Action) -> u64 {
        let values = || action.successors.iter().map(|&t| u64::from(self.states[t].value));
        if values().any(|value| value == NONE) {
            return NONE;
        }
        let joined = if self.whole { values().sum() } else { values().max().unwrap_or(0) };
        CEILING.min(u64::from(action.cost) + joined)
    }
}

fn in_range(state: &State) -> bool {
    if u64::from(state.value) > NONE {
        return false;
    }
    let checks = state.actions().len();
    let costs_hold = match &state.node {
        Node::Terminal { cost } => *cost <= 1_000_000,
        Node::Decision { actions, .. } => actions.iter().all(|action| 1 <= action.cost && action.cost <= 1_000_000),
    };
    let chosen_holds = match state.mark {
        0 => state.chosen == 0,
        1 => state.chosen == 0 || usize::from(state.chosen) < checks,
        _ => false,
    };
    costs_hold && chosen_holds
}
