//! The sheets that are measured. Every one is the same in every run.

/// A sheet and its name.
pub struct Sample {
    pub name: &'static str,
    pub bytes: Vec<u8>,
}

pub fn all() -> Vec<Sample> {
    let sample = |name, bytes| Sample { name, bytes };
    vec![
        sample("sheet A", include_bytes!("../../../samples/a.sheet").to_vec()),
        sample("forty junctions", include_bytes!("../../../samples/forty.sheet").to_vec()),
        sample("60,000 bytes, worst, one pass", values_at(full_size(0), 100)),
        sample("60,000 bytes, whole, one pass", values_at(full_size(1), 100)),
        sample("all counted, worst, one pass", values_at(full_size_counted(), 100)),
        sample("many raises, worst", many_raises(0)),
        sample("many raises, whole", many_raises(1)),
        sample("1,000-deep chain, one pass", values_at(chain(1_000), 100)),
        sample("1,000-deep chain, blank", chain(1_000)),
        sample("3,332-deep chain, one pass", values_at(chain(3_332), 100)),
        sample("4,096 stages, one pass", values_at(most_stages(), 100)),
    ]
}

/// Junctions without checks, and counted ones: all have to agree on these too, and no times are taken.
pub fn unmeasured() -> Vec<Sample> {
    let sample = |name, bytes: &[u8]| Sample { name, bytes: bytes.to_vec() };
    vec![
        sample("no check left", include_bytes!("../../../samples/no-check-left.sheet")),
        sample("no check left, over", include_bytes!("../../../samples/no-check-left-over.sheet")),
        sample("sheet J", include_bytes!("../../../samples/counted.sheet")),
        sample("sheet J, a check lost", include_bytes!("../../../samples/refused-10.sheet")),
    ]
}

/// Park and Miller's numbers.
pub struct Draws(pub u64);

impl Draws {
    pub fn below(&mut self, limit: usize) -> usize {
        self.0 = self.0 * 16_807 % 2_147_483_647;
        self.0 as usize % limit
    }
}

fn push(bytes: &mut Vec<u8>, tag: u8, content: &[u8]) {
    bytes.push(tag);
    bytes.extend((content.len() as u16).to_be_bytes());
    bytes.extend(content);
}

pub fn head(kind: u8, states: usize) -> Vec<u8> {
    let mut bytes = Vec::new();
    let [high, low] = (states as u16).to_be_bytes();
    push(&mut bytes, 1, &[kind, high, low, 0, 0]);
    bytes
}

pub fn push_terminal(bytes: &mut Vec<u8>, cost: usize) {
    let [a, b, c, d] = (cost as u32).to_be_bytes();
    push(bytes, 2, &[a, b, c, d, 0, 0, 0, 0, 0]);
}

pub fn push_decision(bytes: &mut Vec<u8>) {
    push(bytes, 3, &[0; 6]);
}

/// A counted junction, which writes the number of its checks.
fn push_counted(bytes: &mut Vec<u8>, actions: u8) {
    push(bytes, 5, &[0, 0, 0, 0, 0, 0, actions]);
}

pub fn push_action(bytes: &mut Vec<u8>, cost: usize, mut successors: Vec<usize>) {
    successors.sort();
    let mut content = (cost as u32).to_be_bytes().to_vec();
    for successor in successors {
        content.extend((successor as u16).to_be_bytes());
    }
    push(bytes, 4, &content);
}

/// 800 junctions with four checks each and 200 endings. A check leads to one later junction, on worst sheets to two, and else to
/// endings: 4 findings, and 5 at the first 299 junctions, which makes 60,000 bytes.
pub fn full_size(kind: u8) -> Vec<u8> {
    full_size_of(kind, 299, push_decision)
}

/// A worst sheet of this kind whose junctions are all counted, each a byte longer: 5 findings at the first 199, and 60,000 bytes again.
fn full_size_counted() -> Vec<u8> {
    full_size_of(0, 199, |bytes| push_counted(bytes, 4))
}

/// The same with 5 findings at so many junctions, whose own fields are written so.
fn full_size_of(kind: u8, wider: usize, push_own: fn(&mut Vec<u8>)) -> Vec<u8> {
    const JUNCTIONS: usize = 800;
    const ENDINGS: usize = 200;
    let mut draws = Draws(60_000);
    let mut bytes = head(kind, JUNCTIONS + ENDINGS);
    for number in 0..JUNCTIONS {
        push_own(&mut bytes);
        for _ in 0..4 {
            let findings = if number < wider { 5 } else { 4 };
            let mut successors = Vec::new();
            for place in 0..findings {
                let later = number + 1 + draws.below(6);
                let repair = JUNCTIONS + 40 * place + draws.below(40);
                let leads_on = place == 0 || place == 1 && kind == 0 && later != successors[0];
                successors.push(if leads_on && later < JUNCTIONS { later } else { repair });
            }
            push_action(&mut bytes, 100 + draws.below(2_000), successors);
        }
    }
    for _ in 0..ENDINGS {
        push_terminal(&mut bytes, draws.below(5_000));
    }
    bytes
}

/// 160 junctions with three checks each and 40 endings, blank, with costs of a few cents: values rise in small steps.
fn many_raises(kind: u8) -> Vec<u8> {
    const JUNCTIONS: usize = 160;
    const ENDINGS: usize = 40;
    let mut draws = Draws(7);
    let mut bytes = head(kind, JUNCTIONS + ENDINGS);
    for number in 0..JUNCTIONS {
        push_decision(&mut bytes);
        for _ in 0..3 {
            let near = number + 1 + draws.below(2);
            let far = number + 3 + draws.below(3);
            let repair = JUNCTIONS + draws.below(ENDINGS);
            let mut successors = vec![near.min(JUNCTIONS), repair.max(JUNCTIONS + 1)];
            if kind == 0 && far < JUNCTIONS {
                successors.push(far);
            }
            push_action(&mut bytes, 1 + draws.below(20), successors);
        }
    }
    for _ in 0..ENDINGS {
        push_terminal(&mut bytes, draws.below(30));
    }
    bytes
}

/// So many junctions, each with one check that leads to the next, and an ending.
fn chain(junctions: usize) -> Vec<u8> {
    let mut bytes = head(0, junctions + 1);
    for number in 0..junctions {
        push_decision(&mut bytes);
        push_action(&mut bytes, 10 + number % 7, vec![number + 1]);
    }
    push_terminal(&mut bytes, 500);
    bytes
}

/// As many stages as a sheet may have, in 59,996 bytes.
fn most_stages() -> Vec<u8> {
    const STAGES: usize = 4_096;
    const JUNCTIONS: usize = 258;
    fans(JUNCTIONS, STAGES - JUNCTIONS, 3, 4)
}

/// Junctions with so many checks of so many findings each, and endings. A check's first finding is a junction at most eight further
/// on, the others are endings.
pub fn fans(junctions: usize, endings: usize, checks: usize, findings: usize) -> Vec<u8> {
    let mut draws = Draws(13);
    let mut bytes = head(0, junctions + endings);
    for number in 0..junctions {
        push_decision(&mut bytes);
        for _ in 0..checks {
            let share = endings / findings;
            let mut successors: Vec<usize> = (0..findings).map(|place| junctions + share * place + draws.below(share)).collect();
            let later = number + 1 + draws.below(8);
            if later < junctions {
                successors[0] = later;
            }
            push_action(&mut bytes, 1 + draws.below(40), successors);
        }
    }
    for _ in 0..endings {
        push_terminal(&mut bytes, draws.below(100));
    }
    bytes
}

/// The sheet with every value at so many per cent of its least cost, all open. At 100 work settles in one pass, without a raise.
pub fn values_at(mut bytes: Vec<u8>, per_cent: u64) -> Vec<u8> {
    let sheet = sweep::read(&bytes).unwrap_or_else(|number| panic!("the sheet is refused {number}"));
    let mut at = 8;
    for cost in sheet.least_costs() {
        let value = ((sweep::written(cost) * per_cent / 100) as u32).to_be_bytes();
        let place = if bytes[at] == 2 { at + 7 } else { at + 3 };
        bytes[place..place + 4].copy_from_slice(&value);
        at += 3 + usize::from(bytes[at + 2]);
        while at < bytes.len() && bytes[at] == 4 {
            at += 3 + usize::from(bytes[at + 2]);
        }
    }
    bytes
}
