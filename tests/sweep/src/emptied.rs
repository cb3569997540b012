//! Junctions that have no check left (S1.2): figures worked out by hand, for the sheets F to I of S11 and a few more.

use crate::{read, Cost, Sheet, CEILING, NONE};

const WORST: u8 = 0;
const WHOLE: u8 = 1;
const AT_CEILING: u32 = CEILING as u32;
const AT_NONE: u32 = NONE as u32;

type Check<'a> = (u32, &'a [u16]);

fn ending(cost: u32, value: u32, mark: u8) -> Vec<u8> {
    let [cost, value] = [cost, value].map(u32::to_be_bytes);
    [&[2, 0, 9][..], &cost, &value, &[mark]].concat()
}

fn junction(checks: &[Check], value: u32, mark: u8, chosen: u8) -> Vec<u8> {
    let mut bytes = [&[3, 0, 6][..], &value.to_be_bytes(), &[mark, chosen]].concat();
    for (cost, findings) in checks {
        bytes.extend([4, 0, 4 + 2 * findings.len() as u8]);
        bytes.extend(cost.to_be_bytes());
        bytes.extend(findings.iter().flat_map(|finding| finding.to_be_bytes()));
    }
    bytes
}

/// A junction at value 0, open.
fn open(checks: &[Check]) -> Vec<u8> {
    junction(checks, 0, 0, 0)
}

fn sheet(kind: u8, stages: &[Vec<u8>]) -> Vec<u8> {
    let head = vec![1, 0, 5, kind, 0, stages.len() as u8, 0, 0];
    [&[head][..], stages].concat().concat()
}

fn accepted(bytes: &[u8]) -> Sheet {
    read(bytes).unwrap_or_else(|number| panic!("refused {number}"))
}

/// The least costs, which are none exactly at the states that are lost (S2.6).
fn least(bytes: &[u8]) -> Vec<Cost> {
    let sheet = accepted(bytes);
    let costs = sheet.least_costs();
    assert_eq!(costs.iter().map(Option::is_none).collect::<Vec<_>>(), sheet.lost());
    costs
}

fn refusal(bytes: &[u8]) -> Option<u32> {
    read(bytes).err()
}

fn sheet_f(value: u32, mark: u8, chosen: u8) -> Vec<u8> {
    sheet(WORST, &[junction(&[], value, mark, chosen)])
}

fn sheet_g(kind: u8) -> Vec<u8> {
    sheet(kind, &[open(&[(10, &[1]), (100, &[2])]), open(&[]), ending(30, 0, 0)])
}

/// I with these checks at junction 0.
fn sheet_i(checks: &[Check]) -> Vec<u8> {
    let value = |number: u32| AT_CEILING.min(1_000_000 << (12 - number));
    let mut stages = vec![junction(checks, AT_CEILING, 0, 0)];
    for number in 1..12 {
        let findings: Vec<u16> = (number as u16 + 1..=12).collect();
        stages.push(junction(&[(1_000_000, &findings)], value(number), 1, 0));
    }
    stages.push(ending(1_000_000, 1_000_000, 1));
    stages.push(junction(&[], AT_CEILING, 0, 0));
    sheet(WHOLE, &stages)
}

#[test]
fn shortest_sheet() {
    assert_eq!(sheet_f(0, 0, 0).len(), 17);
    assert_eq!(least(&sheet_f(0, 0, 0)), [None]);
    assert_eq!(refusal(&sheet_f(0, 0, 0)[..16]), Some(2));
    assert_eq!(refusal(&sheet(WORST, &[ending(0, 0, 0)])[..19]), Some(4));
}

#[test]
fn values_marks_and_chosen_checks_of_f() {
    for value in [0, 7, AT_CEILING - 1, AT_CEILING, AT_NONE] {
        assert_eq!(refusal(&sheet_f(value, 0, 0)), None, "{value}");
        assert_eq!(refusal(&sheet_f(value, 1, 0)), (value != AT_NONE).then_some(8), "{value}");
    }
    for mark in [0, 1] {
        assert_eq!(refusal(&sheet_f(AT_NONE + 1, mark, 0)), Some(5));
        assert_eq!(refusal(&sheet_f(AT_NONE, mark, 1)), Some(5));
        assert_eq!(refusal(&sheet_f(AT_NONE, mark, 255)), Some(5));
    }
}

#[test]
fn values_of_an_ending() {
    assert_eq!(refusal(&sheet(WORST, &[ending(70, AT_NONE, 0)])), Some(7));
    assert_eq!(refusal(&sheet(WORST, &[ending(70, AT_NONE + 1, 0)])), Some(5));
}

#[test]
fn one_check_is_left() {
    for kind in [WORST, WHOLE] {
        assert_eq!(least(&sheet_g(kind)), [Some(130), None, Some(30)]);
    }
}

/// The plan of an open junction takes check 0, which leads to junction 1: it is not complete. Check 1 is complete.
#[test]
fn plans_of_g() {
    let blank = accepted(&sheet_g(WORST));
    assert_eq!((blank.plan_costs(), blank.plan_states()), (vec![None, None, Some(30)], vec![0, 1]));
    let stages = [junction(&[(10, &[1]), (100, &[2])], 130, 1, 1), junction(&[], AT_NONE, 1, 0), ending(30, 30, 1)];
    let worked = accepted(&sheet(WORST, &stages));
    assert_eq!((worked.plan_costs(), worked.plan_states()), (vec![Some(130), None, Some(30)], vec![0, 2]));
}

#[test]
fn every_check_leads_there() {
    assert_eq!(least(&sheet(WORST, &[open(&[(10, &[1]), (100, &[1])]), open(&[])])), [None, None]);
    assert_eq!(least(include_bytes!("../../../samples/no-check-left.sheet")), [None, None]);
}

/// Costs double from 1,000,000 at stage 12: 512,000,000 at stage 3, and the ceiling at 2, 1 and 0.
#[test]
fn none_beside_the_ceiling() {
    let mut costs: Vec<Cost> = (1..=12).map(|number| Some(CEILING.min(1_000_000 << (12 - number)))).collect();
    costs.insert(0, Some(CEILING));
    costs.push(None);
    assert_eq!(least(&sheet_i(&[(1, &[13]), (1, &[1, 2])])), costs);
    assert_eq!(least(include_bytes!("../../../samples/no-check-left-over.sheet")), costs);
    costs[0] = None;
    assert_eq!(least(&sheet_i(&[(1, &[1, 2, 13])])), costs);
}

/// Two values of the ceiling and any cost are the ceiling; beside a none the price is none, wherever it stands and however often.
#[test]
fn prices_by_values() {
    let price = |kind, findings: &[u16], values: [u32; 3]| {
        let stages = values.map(|value| junction(&[], value, 0, 0));
        let sheet = accepted(&sheet(kind, &[&[open(&[(5, findings)])][..], &stages].concat()));
        sheet.price(&sheet.actions(0)[0])
    };
    for kind in [WORST, WHOLE] {
        for place in 0..3 {
            let mut values = [40, 30, 20];
            values[place] = AT_NONE;
            assert_eq!(price(kind, &[1, 2, 3], values), NONE);
            values[place] = AT_CEILING;
            assert_eq!(price(kind, &[1, 2, 3], values), CEILING);
        }
        assert_eq!(price(kind, &[1, 2, 3], [AT_CEILING; 3]), CEILING);
        assert_eq!(price(kind, &[1, 2, 3], [AT_CEILING, AT_CEILING, AT_NONE]), NONE);
    }
    assert_eq!(price(WHOLE, &[1, 2, 2], [3, AT_NONE, 0]), NONE);
    assert_eq!(price(WORST, &[1, 2, 3], [40, 30, 20]), 45);
    assert_eq!(price(WHOLE, &[1, 2, 3], [40, 30, 20]), 95);
}

/// A junction may be at none where every check is priced so, and nowhere else.
#[test]
fn values_up_to_none() {
    let at = |value, behind| sheet(WORST, &[junction(&[(10, &[1]), (100, &[1])], value, 0, 0), junction(&[], behind, 0, 0)]);
    assert_eq!(refusal(&at(AT_NONE, AT_NONE)), None);
    assert_eq!(refusal(&at(AT_NONE, AT_CEILING)), Some(7));
    assert_eq!(refusal(&at(AT_CEILING, AT_CEILING)), None);
    assert_eq!(refusal(&at(AT_CEILING, AT_CEILING - 10)), None);
    assert_eq!(refusal(&at(AT_CEILING, AT_CEILING - 11)), Some(7));
}

/// Settled by check 1, at none and at the ceiling, with stage 1 settled and open.
#[test]
fn marks_at_none() {
    let at = |value, mark| sheet(WORST, &[junction(&[(10, &[1]), (100, &[1])], value, 1, 1), junction(&[], AT_NONE, mark, 0)]);
    assert_eq!(refusal(&at(AT_NONE, 1)), None);
    assert_eq!(refusal(&at(AT_CEILING, 1)), Some(8));
    assert_eq!(refusal(&at(AT_NONE, 0)), Some(8));
}

/// None climbs where a check leads on to it, whatever its other findings cost: from stage 5 to 4, 3 and 1. Stages 0 and 2 have another
/// check.
#[test]
fn none_climbs() {
    for kind in [WORST, WHOLE] {
        let stages = [
            open(&[(1, &[1]), (50, &[2, 6])]),
            open(&[(1, &[2, 3, 6])]),
            open(&[(1, &[3]), (1, &[6])]),
            open(&[(1, &[4, 6]), (1, &[4])]),
            open(&[(1, &[5])]),
            open(&[]),
            ending(7, 0, 0),
        ];
        let first = if kind == WORST { 58 } else { 65 };
        assert_eq!(least(&sheet(kind, &stages)), [Some(first), None, Some(8), None, None, None, Some(7)]);
    }
}

/// The least cost of all plans that choose a check at each junction that has one.
fn least_of_all_plans(bytes: &[u8]) -> Cost {
    let mut sheet = accepted(bytes);
    let counts: Vec<usize> = (0..sheet.nodes.len()).map(|state| sheet.actions(state).len().max(1)).collect();
    let mut least: Cost = None;
    for plan in 0..counts.iter().product() {
        let mut rest: usize = plan;
        for (cell, count) in sheet.cells.iter_mut().zip(&counts) {
            (cell.chosen, rest) = (rest % count, rest / count);
        }
        least = least.into_iter().chain(sheet.plan_costs()[sheet.start]).min();
    }
    least
}

/// By hand: 20 at stage 5, 29 at 4, none at 3. Stage 2 takes check 0: 3 and 29, and 20 more on a whole sheet. Stage 1 takes check 1: 22.
#[test]
fn all_plans() {
    let stages = [
        open(&[(5, &[1, 2]), (7, &[3])]),
        open(&[(1, &[4]), (2, &[5])]),
        open(&[(3, &[4, 5]), (1, &[3])]),
        open(&[]),
        open(&[(9, &[5])]),
        ending(20, 0, 0),
    ];
    for (kind, cost) in [(WORST, 37), (WHOLE, 79)] {
        let bytes = sheet(kind, &stages);
        assert_eq!(least(&bytes)[0], Some(cost));
        assert_eq!(least_of_all_plans(&bytes), Some(cost));
        assert_eq!(least_of_all_plans(&sheet_g(kind)), Some(130));
    }
    assert_eq!(least_of_all_plans(&sheet_f(0, 0, 0)), None);
    assert_eq!(least_of_all_plans(include_bytes!("../../../samples/no-check-left.sheet")), None);
}
