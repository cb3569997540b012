//! Findings listed several times (S2.10): figures worked out by hand, for the sheets D and E of S11 and a few more.

use crate::{read, Cost, Node, Sheet, CEILING};

const WORST: u8 = 0;
const WHOLE: u8 = 1;

/// A junction with one check, cost and findings, and endings with cost, value and mark. The junction is open at value 0.
fn one_check(kind: u8, cost: u32, findings: &[u16], endings: &[(u32, u32, u8)]) -> Vec<u8> {
    let mut bytes = vec![1, 0, 5, kind, 0, 1 + endings.len() as u8, 0, 0, 3, 0, 6, 0, 0, 0, 0, 0, 0];
    bytes.extend([4, 0, 4 + 2 * findings.len() as u8]);
    bytes.extend(cost.to_be_bytes());
    bytes.extend(findings.iter().flat_map(|finding| finding.to_be_bytes()));
    for (cost, value, mark) in endings {
        bytes.extend([2, 0, 9]);
        bytes.extend([cost.to_be_bytes(), value.to_be_bytes()].concat());
        bytes.push(*mark);
    }
    bytes
}

/// The same with the junction's value and mark.
fn at(mut bytes: Vec<u8>, value: u32, mark: u8) -> Vec<u8> {
    bytes[11..15].copy_from_slice(&value.to_be_bytes());
    bytes[15] = mark;
    bytes
}

fn sheet_d(kind: u8, findings: &[u16]) -> Vec<u8> {
    one_check(kind, 100, findings, &[(30, 0, 0)])
}

fn sheet_e(findings: &[u16]) -> Vec<u8> {
    one_check(WHOLE, 10, findings, &[(5, 0, 0), (7, 0, 0)])
}

fn least_cost(bytes: &[u8]) -> Result<Cost, u32> {
    read(bytes).map(|sheet| sheet.least_costs()[sheet.start])
}

fn price_of_the_check(sheet: &Sheet) -> u64 {
    match &sheet.nodes[0] {
        Node::Decision(actions) => sheet.price(&actions[0]),
        Node::Terminal(_) => panic!("stage 0 is a junction"),
    }
}

#[test]
fn each_time_counts() {
    assert_eq!(least_cost(&sheet_d(WHOLE, &[1, 1])), Ok(Some(160)));
    assert_eq!(least_cost(&sheet_d(WHOLE, &[1; 16])), Ok(Some(580)));
    assert_eq!(least_cost(&sheet_e(&[1, 1, 2, 2, 2])), Ok(Some(41)));
}

#[test]
fn worst_sheets_ascend_strictly() {
    assert_eq!(least_cost(&sheet_d(WORST, &[1])), Ok(Some(130)));
    assert_eq!(least_cost(&sheet_d(WORST, &[1, 1])), Err(6));
    assert_eq!(least_cost(&one_check(WORST, 10, &[1, 2, 2], &[(5, 0, 0), (7, 0, 0)])), Err(6));
}

#[test]
fn equals_stand_side_by_side_and_lead_on_to_stages() {
    for findings in [&[1, 2, 1][..], &[2, 2, 1], &[0, 0], &[3, 3], &[0, 1, 1], &[2, 2, 3]] {
        assert_eq!(least_cost(&sheet_e(findings)), Err(6), "{findings:?}");
    }
}

/// Prices by the current values: 10 + 3 + 3 + 7 + 7 + 7.
#[test]
fn prices_go_over_the_list() {
    let sheet = read(&one_check(WHOLE, 10, &[1, 1, 2, 2, 2], &[(5, 3, 0), (7, 7, 1)])).unwrap_or_else(|n| panic!("refused {n}"));
    assert_eq!(price_of_the_check(&sheet), 37);
}

#[test]
fn values_up_to_the_price() {
    let d = one_check(WHOLE, 100, &[1, 1], &[(30, 30, 0)]);
    assert_eq!(least_cost(&at(d.clone(), 160, 0)), Ok(Some(160)));
    assert_eq!(least_cost(&at(d, 161, 0)), Err(7));
}

/// 130 would be the price with one cradle.
#[test]
fn marks_by_the_whole_list() {
    let d = one_check(WHOLE, 100, &[1, 1], &[(30, 30, 1)]);
    assert_eq!(least_cost(&at(d.clone(), 130, 1)), Err(8));
    let sheet = read(&at(d, 160, 1)).unwrap_or_else(|n| panic!("refused {n}"));
    assert_eq!(sheet.plan_costs(), [160, 30].map(Some));
    assert_eq!(sheet.plan_states(), [0, 1]);
}

/// Four junctions, each with one check (1) that lists the next stage 16 times, and an ending of 1,000,000. The two last sums, 4,096,000,273
/// and 16,000,000,001, are cut.
#[test]
fn sums_beyond_the_ceiling() {
    let mut bytes = vec![1, 0, 5, WHOLE, 0, 5, 0, 0];
    for next in 1..=4 {
        bytes.extend([3, 0, 6, 0, 0, 0, 0, 0, 0, 4, 0, 36, 0, 0, 0, 1]);
        bytes.extend([0, next].repeat(16));
    }
    bytes.extend([2, 0, 9, 0x00, 0x0f, 0x42, 0x40, 0, 0, 0, 0, 0]);
    let sheet = read(&bytes).unwrap_or_else(|n| panic!("refused {n}"));
    assert_eq!(sheet.least_costs(), [CEILING, CEILING, 256_000_017, 16_000_001, 1_000_000].map(Some));
}

/// Worked out in samples/README.md.
#[test]
fn two_cradles() {
    assert_eq!(least_cost(include_bytes!("../../../samples/two-cradles.sheet")), Ok(Some(4400)));
    assert_eq!(least_cost(include_bytes!("../../../samples/two-cradles-worst.sheet")), Err(6));
}
