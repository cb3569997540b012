//! Drafts (S13 of docs/SPEC.md): the order in which stages are placed, the new sheet, the restored draft, the two host functions with the
//! questions that they put, and least costs of a draft as it stands.
//!
//! It was written from the specification, has its own reader of bytes, and shares no code with the programs `sweep` and `procedure`.

mod amount;
#[cfg(test)]
mod by_hand;
mod circle;
mod costs;
mod host;
mod placing;
mod questions;
mod reader;
#[cfg(test)]
mod refusals;
mod renumbering;
#[cfg(test)]
mod rows;

pub use amount::Amount;
pub use costs::{written, Cost};
pub use host::{rearrange, restore};
pub use questions::{draft, ordinary};
pub use reader::fields;

pub const CEILING: u64 = 1_000_000_000;

/// How none is written (S2.11).
pub const NONE: u64 = 1_000_000_001;

/// The tags of an ordinary sheet's head and of a draft's (S13.1).
pub const SHEET_TAG: u8 = 1;
pub const DRAFT_TAG: u8 = 6;

/// The most stages of a sheet (S4.3), and the fewest entries of a table or a list (S4.1, S13.8).
const MOST_STATES: usize = 4096;

/// An entry of a table or a list, the least significant byte first (S9.2, S13.21).
const ENTRY_BYTES: usize = 4;

/// A check: its cost, and its findings as they are listed.
pub struct Action {
    pub cost: u32,
    pub successors: Vec<usize>,
}

/// What a stage is. A counted junction writes a number of checks, be it right or wrong (S3.6).
pub enum Node {
    Terminal { cost: u32 },
    Decision { written: Option<u8>, actions: Vec<Action> },
}

/// A stage: where its field stands, what it is, and what work writes. An ending's chosen check is 0.
pub struct State {
    pub at: usize,
    pub node: Node,
    pub value: u32,
    pub mark: u8,
    pub chosen: u8,
}

impl State {
    /// A junction's checks; an ending has none.
    pub fn actions(&self) -> &[Action] {
        match &self.node {
            Node::Terminal { .. } => &[],
            Node::Decision { actions, .. } => actions,
        }
    }

    /// The stages that a junction points to (S13.2), each as often as its checks list it.
    pub fn points_to(&self) -> impl Iterator<Item = usize> + '_ {
        self.actions().iter().flat_map(|action| action.successors.iter().copied())
    }
}

/// A sheet, ordinary or a draft.
pub struct Sheet {
    pub whole: bool,
    pub start: usize,
    pub states: Vec<State>,
}
