//! A simple copy of the procedure, LDFS (S6 of docs/SPEC.md), with the questions (S4), the budget, the host's call (S9) and the listing (S10).
//!
//! It reads a sheet into lists, works on those and stores them back. It shares no code with the program `sweep`.

#[cfg(test)]
mod by_hand;
#[cfg(test)]
mod counted;
#[cfg(test)]
mod emptied;
mod host;
mod ldfs;
mod listing;
mod questions;
mod reader;
#[cfg(test)]
mod repeats;

pub use host::call;
pub use listing::listing;

pub const CEILING: u64 = 1_000_000_000;

/// The value and the price that say none: there is no complete plan (S2.11).
pub const NONE: u64 = 1_000_000_001;

/// The most stages of a sheet (S4.3), and the fewest entries of an index table (S4.1).
pub(crate) const MOST_STATES: usize = 4096;

/// A check: its cost and its findings. On a whole sheet one may be listed several times (S2.10).
pub struct Action {
    pub cost: u64,
    pub successors: Vec<usize>,
}

/// A stage: where its field stands, what it is, and its value, mark and chosen check.
pub struct State {
    pub offset: usize,
    /// An ending's cost; a junction has none.
    pub terminal_cost: Option<u64>,
    /// A junction's checks, of which none may be left (S1.2); an ending has none.
    pub actions: Vec<Action>,
    /// The number of checks that a counted junction writes, be it right or wrong (S3.6); a plain one and an ending write none.
    pub count: Option<usize>,
    pub value: u64,
    pub mark: u8,
    pub chosen: usize,
}

pub struct Sheet {
    /// 0 worst, 1 whole.
    pub kind: u8,
    pub start: usize,
    pub states: Vec<State>,
}

impl Sheet {
    /// Q_V(a, s): none where a successor's value is none; else the cost of an action plus the largest, or the sum, of its successors'
    /// values, cut to the ceiling (S2.8).
    pub fn q_value(&self, state: usize, action: usize) -> u64 {
        let action = &self.states[state].actions[action];
        let mut joined = 0;
        for &successor in &action.successors {
            let value = self.states[successor].value;
            if value == NONE {
                return NONE;
            }
            joined = if self.kind == 0 { joined.max(value) } else { joined + value };
        }
        (action.cost + joined).min(CEILING)
    }

    /// The dearest finding of a check (S2.9): the lowest-numbered of those whose value is largest, on both kinds of sheet.
    pub fn dearest(&self, state: usize, action: usize) -> usize {
        let successors = &self.states[state].actions[action].successors;
        let mut dearest = successors[0];
        for &successor in successors {
            let (value, largest) = (self.states[successor].value, self.states[dearest].value);
            if value > largest || value == largest && successor < dearest {
                dearest = successor;
            }
        }
        dearest
    }
}

/// The worked examples (S11), each with the whole text that `price` prints for it, and the largest samples, worked out by hand.
#[cfg(test)]
mod tests {
    use super::listing;
    use std::thread::Builder;

    #[test]
    fn sheet_a() {
        let expected = "settled 500 3 3\nstage 0 check 1 value 500 by 3\nstage 3 end value 0\n";
        assert_eq!(listing(include_bytes!("../../../samples/a.sheet")), expected);
    }

    #[test]
    fn sheet_b_worst() {
        let expected = "settled 150 4 5\nstage 0 check 0 value 150 by 2\nstage 1 end value 30\nstage 2 end value 50\n";
        assert_eq!(listing(include_bytes!("../../../samples/b-worst.sheet")), expected);
    }

    #[test]
    fn sheet_b_whole() {
        let expected = "settled 180 4 5\nstage 0 check 0 value 180 by 2\nstage 1 end value 30\nstage 2 end value 50\n";
        assert_eq!(listing(include_bytes!("../../../samples/b-whole.sheet")), expected);
    }

    /// The lines of the endings of sheet C.
    const ENDINGS_OF_C: &str = "stage 1 end value 10\nstage 2 end value 40\nstage 3 end value 40\nstage 4 end value 20\n";

    #[test]
    fn sheet_c_worst() {
        let expected = format!("settled 50 4 7\nstage 0 check 0 value 50 by 2\n{ENDINGS_OF_C}");
        assert_eq!(listing(include_bytes!("../../../samples/c-worst.sheet")), expected);
    }

    #[test]
    fn sheet_c_whole() {
        let expected = format!("settled 120 6 9\nstage 0 check 0 value 120 by 2\n{ENDINGS_OF_C}");
        assert_eq!(listing(include_bytes!("../../../samples/c-whole.sheet")), expected);
    }

    /// Where all values are equal, the first finding is the dearest.
    #[test]
    fn sheet_c_without_costs() {
        let mut bytes = include_bytes!("../../../samples/c-worst.sheet").to_vec();
        for ending in [32, 44, 56, 68] {
            bytes[ending + 3..ending + 7].fill(0);
        }
        let endings = "stage 1 end value 0\nstage 2 end value 0\nstage 3 end value 0\nstage 4 end value 0\n";
        assert_eq!(listing(&bytes), format!("settled 10 2 1\nstage 0 check 0 value 10 by 1\n{endings}"));
    }

    /// Worked out in samples/README.md.
    #[test]
    fn most_stages() {
        let expected = "settled 4195 4 5\nstage 0 check 0 value 4195 by 4095\nstage 1 end value 1\nstage 4095 end value 4095\n";
        assert_eq!(listing(include_bytes!("../../../samples/stages-4096.sheet")), expected);
        assert_eq!(listing(include_bytes!("../../../samples/stages-4097.sheet")), "refused 3\n");
    }

    /// Visits go as deep as there are stages.
    const STACK_BYTES: usize = 16 << 20;

    #[test]
    fn deepest_chain() {
        let work = || listing(include_bytes!("../../../samples/deep.sheet"));
        let worker = Builder::new().stack_size(STACK_BYTES).spawn(work).expect("a thread starts");
        let text = worker.join().expect("the work ends");
        assert!(text.starts_with("settled 3332 1 0\nstage 0 check 0 value 3332 by 1\n"));
        assert!(text.ends_with("stage 3331 check 0 value 1 by 3332\nstage 3332 end value 0\n"));
        assert_eq!(text.lines().count(), 3334);
    }
}
