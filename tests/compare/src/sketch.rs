//! A sheet in the making, and how it is written. Nothing is checked: a sketch may be as wrong as a damaged sheet needs.

#[derive(Clone)]
pub struct Action {
    pub cost: u32,
    pub successors: Vec<u16>,
}

#[derive(Clone)]
pub enum Node {
    Terminal(u32),
    Decision(Vec<Action>),
}

/// The form of a junction's field (S3.6): a counted one writes a number of checks, which need not be that of its own.
#[derive(Clone, Copy, PartialEq)]
pub enum Form {
    Plain,
    Counted(u8),
}

/// An ending has a form too, which is not written.
#[derive(Clone)]
pub struct State {
    pub node: Node,
    pub form: Form,
    pub value: u32,
    pub mark: u8,
    pub chosen: u8,
}

/// The head's three numbers stand apart from the states, so that they can disagree with them.
#[derive(Clone)]
pub struct Sketch {
    pub kind: u8,
    pub count: u16,
    pub start: u16,
    pub states: Vec<State>,
}

pub const CEILING: u64 = 1_000_000_000;

/// The ceiling as a value.
pub const AT_CEILING: u32 = CEILING as u32;

/// How none is written (S2.11).
pub const NONE: u32 = 1_000_000_001;

/// The most states of a sheet (S4.3).
pub const MOST_STATES: usize = 4096;

/// What that limit was in version 1 of the interface.
pub const FORMER_MOST: usize = 1024;

/// The library works a sheet of no more states than this on a short table of its own.
pub const FEW_STATES: usize = 256;

pub const HEAD_BYTES: usize = 8;
pub const TERMINAL_BYTES: usize = 12;

impl Sketch {
    /// All states open, with value 0, and all junctions plain.
    pub fn new(kind: u8, start: usize, nodes: Vec<Node>) -> Sketch {
        let blank = |node| State { node, form: Form::Plain, value: 0, mark: 0, chosen: 0 };
        Sketch { kind, count: nodes.len() as u16, start: start as u16, states: nodes.into_iter().map(blank).collect() }
    }

    /// The bytes of the sheet.
    pub fn bytes(&self) -> Vec<u8> {
        let mut content = vec![self.kind];
        content.extend(self.count.to_be_bytes());
        content.extend(self.start.to_be_bytes());
        let mut bytes = Vec::new();
        push_field(&mut bytes, 1, &content);
        for state in &self.states {
            push_state(&mut bytes, state);
        }
        bytes
    }

    /// The price of a check by the values sketched so far.
    pub fn price(&self, action: &Action) -> u64 {
        let values: Vec<u32> = action.successors.iter().map(|&t| self.states[usize::from(t)].value).collect();
        if values.contains(&NONE) {
            return u64::from(NONE);
        }
        let values = values.into_iter().map(u64::from);
        let joined = if self.kind == 0 { values.max().unwrap_or(0) } else { values.sum() };
        CEILING.min(u64::from(action.cost) + joined)
    }

    /// The most that question 7 allows as the value of a state, and question 5 where there are no checks.
    pub fn top(&self, state: usize) -> u32 {
        match &self.states[state].node {
            Node::Terminal(cost) => *cost,
            Node::Decision(actions) => actions.iter().map(|a| self.price(a) as u32).min().unwrap_or(NONE),
        }
    }

    /// A junction's checks; a terminal has none.
    pub fn actions(&self, state: usize) -> &[Action] {
        match &self.states[state].node {
            Node::Terminal(_) => &[],
            Node::Decision(actions) => actions,
        }
    }

    /// Is the state a counted junction?
    pub fn counted(&self, state: usize) -> bool {
        let state = &self.states[state];
        matches!(state.node, Node::Decision(_)) && state.form != Form::Plain
    }

    /// Is the state a junction that has no checks?
    pub fn emptied(&self, state: usize) -> bool {
        matches!(&self.states[state].node, Node::Decision(actions) if actions.is_empty())
    }
}

/// The number of bytes that a state's fields take, where it is plain.
pub fn size(node: &Node) -> usize {
    match node {
        Node::Terminal(_) => TERMINAL_BYTES,
        Node::Decision(actions) => 9 + actions.iter().map(|a| 7 + 2 * a.successors.len()).sum::<usize>(),
    }
}

fn push_field(bytes: &mut Vec<u8>, tag: u8, content: &[u8]) {
    bytes.push(tag);
    bytes.extend((content.len() as u16).to_be_bytes());
    bytes.extend(content);
}

fn push_state(bytes: &mut Vec<u8>, state: &State) {
    let value = state.value.to_be_bytes();
    match &state.node {
        Node::Terminal(cost) => {
            let content = [&cost.to_be_bytes()[..], &value, &[state.mark]].concat();
            push_field(bytes, 2, &content);
        }
        Node::Decision(actions) => {
            let mut content = [&value[..], &[state.mark, state.chosen]].concat();
            match state.form {
                Form::Plain => push_field(bytes, 3, &content),
                Form::Counted(number) => {
                    content.push(number);
                    push_field(bytes, 5, &content);
                }
            }
            for action in actions {
                push_action(bytes, action);
            }
        }
    }
}

fn push_action(bytes: &mut Vec<u8>, action: &Action) {
    let mut content = action.cost.to_be_bytes().to_vec();
    for successor in &action.successors {
        content.extend(successor.to_be_bytes());
    }
    push_field(bytes, 4, &content);
}
