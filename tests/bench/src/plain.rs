//! A plain Rust copy of the host function: the same bytes, questions, procedure and answers, written as one writes it by hand. It works
//! in place on the sheet's bytes, as the library does.

const CEILING: u32 = 1_000_000_000;
const NONE: u32 = 1_000_000_001;
const MOST_COST: u32 = 1_000_000;
const MOST_STATES: usize = 4096;

const HEAD: u8 = 1;
const TERMINAL: u8 = 2;
const PLAIN: u8 = 3;
const ACTION: u8 = 4;
const COUNTED: u8 = 5;

#[derive(PartialEq)]
enum Visit {
    Success,
    Failure,
    Halt,
}

struct Search<'a> {
    bytes: &'a mut [u8],
    offsets: [u32; MOST_STATES],
    states: usize,
    start: usize,
    whole: bool,
    /// No counted junction was met that writes another number than that of its checks.
    counts_good: bool,
    budget: u64,
    raises: u64,
}

pub fn solve(sheet: &mut [u8], table: &mut [u8], budget: u64, result: &mut [u8]) -> u32 {
    if result.len() < 24 {
        return 1;
    }
    result[..24].fill(0);
    if table.len() < 4 * MOST_STATES {
        return 1;
    }
    let entries = table.len() / 4;
    table[..4 * entries].fill(0);
    let offsets = [0; MOST_STATES];
    let mut search = Search { bytes: sheet, offsets, states: 0, start: 0, whole: false, counts_good: true, budget, raises: 0 };
    let refused = search.refusal();
    if refused != 0 {
        return refused;
    }
    for (entry, offset) in table.chunks_exact_mut(4).zip(&search.offsets[..search.states]) {
        entry.copy_from_slice(&offset.to_le_bytes());
    }
    let mut passes: u64 = 0;
    let way = loop {
        passes += 1;
        match search.visit(search.start) {
            Visit::Failure => continue,
            way => break way,
        }
    };
    let value = search.value(search.start);
    result[..8].copy_from_slice(&u64::from(value).to_le_bytes());
    result[8..16].copy_from_slice(&passes.to_le_bytes());
    result[16..24].copy_from_slice(&search.raises.to_le_bytes());
    match way {
        Visit::Halt => 102,
        _ if value < CEILING => 100,
        _ if value == CEILING => 101,
        _ => 103,
    }
}

impl Search<'_> {
    // Fields.

    fn get16(&self, at: usize) -> usize {
        usize::from(u16::from_be_bytes([self.bytes[at], self.bytes[at + 1]]))
    }

    fn get32(&self, at: usize) -> u32 {
        u32::from_be_bytes(self.bytes[at..at + 4].try_into().expect("four bytes"))
    }

    fn offset(&self, state: usize) -> usize {
        self.offsets[state] as usize
    }

    fn is_terminal(&self, state: usize) -> bool {
        self.bytes[self.offset(state)] == TERMINAL
    }

    /// Where the value of a state stands; its mark stands four bytes on.
    fn value_place(&self, state: usize) -> usize {
        self.offset(state) + if self.is_terminal(state) { 7 } else { 3 }
    }

    fn value(&self, state: usize) -> u32 {
        self.get32(self.value_place(state))
    }

    fn mark(&self, state: usize) -> u8 {
        self.bytes[self.value_place(state) + 4]
    }

    fn terminal_cost(&self, state: usize) -> u32 {
        self.get32(self.offset(state) + 3)
    }

    /// Behind the junction's own field, whose length is that of its form; it is read where that is not plain, so that no place
    /// waits for it.
    fn first_action(&self, state: usize) -> usize {
        let at = self.offset(state);
        if self.bytes[at] == PLAIN {
            at + 9
        } else {
            at + 3 + usize::from(self.bytes[at + 2])
        }
    }

    fn action_here(&self, at: usize) -> bool {
        self.bytes.get(at) == Some(&ACTION)
    }

    fn next_action(&self, action: usize) -> usize {
        action + 3 + self.get16(action + 1)
    }

    fn successors(&self, action: usize) -> usize {
        (self.get16(action + 1) - 4) / 2
    }

    fn successor(&self, action: usize, i: usize) -> usize {
        self.get16(action + 7 + 2 * i)
    }

    fn any_none(&self, action: usize) -> bool {
        (0..self.successors(action)).any(|i| self.value(self.successor(action, i)) == NONE)
    }

    /// The price of a check by the current values. Only one that reaches the ceiling can be none.
    fn price(&self, action: usize) -> u32 {
        let mut joined: u64 = 0;
        for i in 0..self.successors(action) {
            let value = u64::from(self.value(self.successor(action, i)));
            joined = if self.whole { joined + value } else { joined.max(value) };
        }
        joined += u64::from(self.get32(action + 3));
        if joined < u64::from(CEILING) {
            joined as u32
        } else if self.any_none(action) {
            NONE
        } else {
            CEILING
        }
    }

    // Questions 2 to 10.

    fn refusal(&mut self) -> u32 {
        if self.bytes.len() < 17 || self.bytes.len() > 60_000 {
            2
        } else if !self.head_good() {
            3
        } else if !self.states_good() {
            4
        } else if !self.counts_good {
            10
        } else if !(0..self.states).all(|s| self.numbers_good(s)) {
            5
        } else if !(0..self.states).all(|s| self.order_good(s)) {
            6
        } else if !(0..self.states).all(|s| self.value_good(s)) {
            7
        } else if !(0..self.states).all(|s| self.mark_good(s)) {
            8
        } else if self.budget < 1 {
            9
        } else {
            0
        }
    }

    fn head_good(&mut self) -> bool {
        if self.bytes[0] != HEAD || self.get16(1) != 5 || self.bytes[3] > 1 {
            return false;
        }
        self.whole = self.bytes[3] == 1;
        self.states = self.get16(4);
        self.start = self.get16(6);
        self.states >= 1 && self.states <= MOST_STATES && self.start < self.states
    }

    /// The length of the field at an offset, 0 if it has another tag or is cut.
    fn field_length(&self, at: usize, tag: u8) -> usize {
        if self.bytes.len() - at < 3 || self.bytes[at] != tag {
            return 0;
        }
        let length = 3 + self.get16(at + 1);
        if length <= self.bytes.len() - at {
            length
        } else {
            0
        }
    }

    /// Question 4. Written numbers are held to the checks that follow on the way; question 10 comes when all fields are read.
    fn states_good(&mut self) -> bool {
        let mut at = 8;
        for state in 0..self.states {
            self.offsets[state] = at as u32;
            if self.field_length(at, TERMINAL) == 12 {
                at += 12;
                continue;
            }
            let written = if self.field_length(at, PLAIN) == 9 {
                at += 9;
                None
            } else if self.field_length(at, COUNTED) == 10 {
                at += 10;
                Some(self.bytes[at - 1])
            } else {
                return false;
            };
            let mut actions = 0;
            while self.action_here(at) {
                let length = self.field_length(at, ACTION);
                if length < 9 || length > 39 || length % 2 == 0 || actions == 16 {
                    return false;
                }
                at += length;
                actions += 1;
            }
            self.counts_good &= written.is_none_or(|count| count == actions);
        }
        at == self.bytes.len()
    }

    fn numbers_good(&self, state: usize) -> bool {
        let cell = self.value_place(state);
        if self.get32(cell) > NONE || self.bytes[cell + 4] > 1 {
            return false;
        }
        if self.is_terminal(state) {
            return self.terminal_cost(state) <= MOST_COST;
        }
        let mut actions = 0;
        let mut action = self.first_action(state);
        while self.action_here(action) {
            let cost = self.get32(action + 3);
            if cost < 1 || cost > MOST_COST {
                return false;
            }
            actions += 1;
            action = self.next_action(action);
        }
        let chosen = self.bytes[cell + 5];
        if self.bytes[cell + 4] == 0 || actions == 0 {
            chosen == 0
        } else {
            chosen < actions
        }
    }

    fn order_good(&self, state: usize) -> bool {
        if self.is_terminal(state) {
            return true;
        }
        let mut action = self.first_action(state);
        while self.action_here(action) {
            let mut least = state + 1;
            for i in 0..self.successors(action) {
                let successor = self.successor(action, i);
                if successor < least || successor >= self.states {
                    return false;
                }
                least = if self.whole { successor } else { successor + 1 };
            }
            action = self.next_action(action);
        }
        true
    }

    fn value_good(&self, state: usize) -> bool {
        let value = self.value(state);
        if self.is_terminal(state) {
            return value <= self.terminal_cost(state);
        }
        let mut action = self.first_action(state);
        while self.action_here(action) {
            if self.price(action) < value {
                return false;
            }
            action = self.next_action(action);
        }
        true
    }

    fn mark_good(&self, state: usize) -> bool {
        if self.mark(state) == 0 {
            return true;
        }
        if self.is_terminal(state) {
            return self.value(state) == self.terminal_cost(state);
        }
        let mut action = self.first_action(state);
        if !self.action_here(action) {
            return self.value(state) == NONE;
        }
        for _ in 0..self.bytes[self.value_place(state) + 5] {
            action = self.next_action(action);
        }
        let all_solved = (0..self.successors(action)).all(|i| self.mark(self.successor(action, i)) == 1);
        all_solved && self.value(state) == self.price(action)
    }

    // The procedure.

    /// False where the budget has no room for the raise.
    fn update(&mut self, state: usize, x: u32) -> bool {
        if x > self.value(state) {
            if self.raises == self.budget {
                return false;
            }
            self.raises += 1;
            let at = self.value_place(state);
            self.bytes[at..at + 4].copy_from_slice(&x.to_be_bytes());
        }
        true
    }

    fn visit(&mut self, state: usize) -> Visit {
        let cell = self.value_place(state);
        if self.bytes[cell + 4] == 1 {
            return Visit::Success;
        }
        if self.is_terminal(state) {
            if !self.update(state, self.terminal_cost(state)) {
                return Visit::Halt;
            }
            self.bytes[cell + 4] = 1;
            return Visit::Success;
        }
        let value = self.value(state);
        let mut number = 0;
        let mut action = self.first_action(state);
        while self.action_here(action) {
            if self.price(action) <= value {
                match self.visit_all(action, value) {
                    Visit::Failure => {}
                    Visit::Halt => return Visit::Halt,
                    Visit::Success => {
                        self.bytes[cell + 4] = 1;
                        self.bytes[cell + 5] = number;
                        return Visit::Success;
                    }
                }
            }
            number += 1;
            action = self.next_action(action);
        }
        let least = self.least_price(state);
        if !self.update(state, least) {
            return Visit::Halt;
        }
        if number > 0 {
            return Visit::Failure;
        }
        // It has no checks.
        self.bytes[cell + 4] = 1;
        self.bytes[cell + 5] = 0;
        Visit::Success
    }

    /// A visit that raised nothing has changed no price, so only after others is the check priced anew.
    fn visit_all(&mut self, action: usize, value: u32) -> Visit {
        for i in 0..self.successors(action) {
            let before = self.raises;
            let way = self.visit(self.successor(action, i));
            if way != Visit::Success {
                return way;
            }
            if self.raises != before && self.price(action) > value {
                return Visit::Failure;
            }
        }
        Visit::Success
    }

    fn least_price(&self, state: usize) -> u32 {
        let mut least = NONE;
        let mut action = self.first_action(state);
        while self.action_here(action) {
            least = least.min(self.price(action));
            action = self.next_action(action);
        }
        least
    }
}
