//! Sheets of about 60,000 bytes that grow in one thing each: the raises that are left to make, the depth, the width. Then ladders, blank
//! sheets of few findings that take the most raises of all.

use crate::sheets::{fans, full_size, head, push_action, push_decision, push_terminal, values_at, Draws, Sample};

pub fn all() -> Vec<Sample> {
    let sample = |name, bytes| Sample { name, bytes };
    vec![
        sample("raises: at 100 % of least costs", values_at(full_size(0), 100)),
        sample("raises: at 99 %", values_at(full_size(0), 99)),
        sample("raises: at 90 %", values_at(full_size(0), 90)),
        sample("raises: at 50 %", values_at(full_size(0), 50)),
        sample("raises: at 0 %", full_size(0)),
        sample("depth: 10 layers, one pass", values_at(layers(10), 100)),
        sample("depth: 100 layers, one pass", values_at(layers(100), 100)),
        sample("depth: 800 layers, one pass", values_at(layers(800), 100)),
        sample("depth: 10 layers, blank", layers(10)),
        sample("depth: 100 layers, blank", layers(100)),
        sample("depth: 800 layers, blank", layers(800)),
        sample("width: 2 checks of 2, blank", wide(2, 2)),
        sample("width: 4 checks of 4, blank", wide(4, 4)),
        sample("width: 8 checks of 8, blank", wide(8, 8)),
        sample("width: 16 checks of 16, blank", wide(16, 16)),
    ]
}

/// Ladders of up to 55,316 bytes, blank. A call on the last takes minutes.
pub fn ladders() -> Vec<Sample> {
    let sample = |name, bytes| Sample { name, bytes };
    vec![
        sample("ladder: 256 junctions", ladder(256)),
        sample("ladder: 512 junctions", ladder(512)),
        sample("ladder: 1,024 junctions", ladder(1_024)),
        sample("ladder: 2,048 junctions", ladder(2_048)),
    ]
}

/// Junctions in pairs and an ending of cost 0. A junction has two checks, one for each junction of the next pair, and those of the last
/// pair lead to the ending. Checks cost 900,000 to 1,000,000 cents.
fn ladder(junctions: usize) -> Vec<u8> {
    let mut draws = Draws(2_048);
    let mut bytes = head(0, junctions + 1);
    for number in 0..junctions {
        push_decision(&mut bytes);
        let next = number / 2 * 2 + 2;
        for finding in [next, next + 1] {
            push_action(&mut bytes, 900_000 + draws.below(100_001), vec![finding.min(junctions)]);
        }
    }
    push_terminal(&mut bytes, 0);
    bytes
}

/// 800 junctions in layers, with four checks each, and 200 endings. A check leads to one junction of the next layer and to three
/// endings; those of the last layer lead to endings alone.
fn layers(count: usize) -> Vec<u8> {
    const JUNCTIONS: usize = 800;
    const ENDINGS: usize = 200;
    let breadth = JUNCTIONS / count;
    let mut draws = Draws(11);
    let mut bytes = head(0, JUNCTIONS + ENDINGS);
    for number in 0..JUNCTIONS {
        push_decision(&mut bytes);
        let next = (number / breadth + 1) * breadth;
        for _ in 0..4 {
            let mut successors: Vec<usize> = (0..4).map(|place| JUNCTIONS + 50 * place + draws.below(50)).collect();
            if next < JUNCTIONS {
                successors[0] = next + draws.below(breadth);
            }
            push_action(&mut bytes, 1 + draws.below(40), successors);
        }
    }
    for _ in 0..ENDINGS {
        push_terminal(&mut bytes, draws.below(100));
    }
    bytes
}

/// Junctions with so many checks of so many findings each, as many as 60,000 bytes and `STAGES` hold, and 64 endings.
fn wide(checks: usize, findings: usize) -> Vec<u8> {
    /// Less than a sheet may have: these sheets stay as they were first measured.
    const STAGES: usize = 1_024;
    const ENDINGS: usize = 64;
    let junctions = ((60_000 - 8 - 12 * ENDINGS) / (9 + checks * (7 + 2 * findings))).min(STAGES - ENDINGS);
    fans(junctions, ENDINGS, checks, findings)
}

#[cfg(test)]
mod tests {
    #[test]
    fn the_sample_is_a_ladder_of_512() {
        assert!(super::ladder(512) == include_bytes!("../../../samples/ladder.sheet"));
    }
}
