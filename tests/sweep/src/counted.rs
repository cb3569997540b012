//! Counted junctions (S3.6) and question 10: figures worked out by hand, for sheet J of S11 and a few more.

use crate::{read, Cost};

type Check<'a> = (u32, &'a [u16]);

fn checks(checks: &[Check]) -> Vec<u8> {
    let mut bytes = Vec::new();
    for (cost, findings) in checks {
        bytes.extend([4, 0, 4 + 2 * findings.len() as u8]);
        bytes.extend(cost.to_be_bytes());
        bytes.extend(findings.iter().flat_map(|finding| finding.to_be_bytes()));
    }
    bytes
}

/// A plain junction, or with a number a counted one, which says that; at a value, with a mark.
fn junction(said: Option<u8>, value: u32, mark: u8, own: &[Check]) -> Vec<u8> {
    let mut bytes = if said.is_some() { vec![5, 0, 7] } else { vec![3, 0, 6] };
    bytes.extend(value.to_be_bytes());
    bytes.extend([mark, 0]);
    bytes.extend(said);
    [bytes, checks(own)].concat()
}

fn ending(cost: u8) -> Vec<u8> {
    vec![2, 0, 9, 0, 0, 0, cost, 0, 0, 0, 0, 0]
}

fn sheet(stages: &[Vec<u8>]) -> Vec<u8> {
    let head = vec![1, 0, 5, 0, 0, stages.len() as u8, 0, 0];
    [&[head][..], stages].concat().concat()
}

/// The checks of junction 0 of A and J.
const BOTH: [Check; 2] = [(200, &[1, 3]), (500, &[3])];

/// Sheet A with what its junctions say, and these checks, value and mark at junction 0.
fn sheet_a(said: [Option<u8>; 2], own: &[Check], value: u32, mark: u8) -> Vec<u8> {
    let second = junction(said[1], 0, 0, &[(400, &[2, 3])]);
    sheet(&[junction(said[0], value, mark, own), second, ending(100), ending(0)])
}

fn sheet_j(said: u8) -> Vec<u8> {
    sheet_a([Some(said), None], &BOTH, 0, 0)
}

fn costs(bytes: &[u8]) -> Result<Vec<Cost>, u32> {
    read(bytes).map(|sheet| sheet.least_costs())
}

/// What the junctions say is there to see, and nothing else differs from A.
#[test]
fn both_forms() {
    let least = Ok(vec![Some(500), Some(500), Some(100), Some(0)]);
    for (said, length) in [([None, None], 81), ([Some(2), None], 82), ([None, Some(1)], 82), ([Some(2), Some(1)], 83)] {
        let bytes = sheet_a(said, &BOTH, 0, 0);
        assert_eq!((bytes.len(), costs(&bytes)), (length, least.clone()));
        assert_eq!(read(&bytes).map(|sheet| sheet.counts), Ok(vec![said[0], said[1], None, None]));
    }
    assert_eq!(sheet_j(2), include_bytes!("../../../samples/counted.sheet"));
}

#[test]
fn wrong_numbers() {
    for said in [0, 1, 3, 200, 255] {
        assert_eq!(costs(&sheet_j(said)), Err(10), "{said}");
    }
    assert_eq!(costs(&sheet_a([None, Some(2)], &BOTH, 0, 0)), Err(10));
    assert_eq!(costs(&sheet_a([Some(2), Some(0)], &BOTH, 0, 0)), Err(10));
}

#[test]
fn a_check_is_lost() {
    assert_eq!(costs(&sheet_a([None, None], &BOTH[..1], 0, 0)).map(|least| least[0]), Ok(Some(700)));
    assert_eq!(costs(&sheet_a([Some(2), None], &BOTH[..1], 0, 0)), Err(10));
    assert_eq!(costs(&sheet_a([Some(2), None], &BOTH[1..], 0, 0)), Err(10));
    assert_eq!(sheet_a([Some(2), None], &BOTH[..1], 0, 0), include_bytes!("../../../samples/refused-10.sheet"));
}

#[test]
fn no_checks() {
    let alone = |said| sheet(&[junction(Some(said), 0, 0, &[])]);
    assert_eq!((alone(0).len(), costs(&alone(0))), (18, Ok(vec![None])));
    assert_eq!(costs(&alone(1)), Err(10));
    assert_eq!(costs(&alone(0)[..17]), Err(4));
}

#[test]
fn as_many_checks_as_there_may_be() {
    let many = |count: usize, said| costs(&sheet(&[junction(Some(said), 0, 0, &vec![(1, &[1][..]); count]), ending(0)]));
    assert_eq!(many(16, 16), Ok(vec![Some(1), Some(0)]));
    for said in [15, 17, 0] {
        assert_eq!(many(16, said), Err(10), "{said}");
    }
    for said in [16, 17] {
        assert_eq!(many(17, said), Err(4), "{said}");
    }
}

/// Faults of questions 5 to 8, with the number 2 and with 1; and a sheet that is cut.
#[test]
fn order_of_the_questions() {
    let free: [Check; 2] = [(0, &[1, 3]), (500, &[3])];
    let back: [Check; 2] = [(200, &[0, 3]), (500, &[3])];
    for (refusal, own, value, mark) in [(5, &free, 0, 0), (6, &back, 0, 0), (7, &BOTH, 201, 0), (8, &BOTH, 0, 1)] {
        assert_eq!(costs(&sheet_a([Some(2), None], own, value, mark)), Err(refusal));
        assert_eq!(costs(&sheet_a([Some(1), None], own, value, mark)), Err(10));
    }
    assert_eq!(costs(&sheet_j(1)[..81]), Err(4));
}

/// Each tag wants its own length.
#[test]
fn tags_and_lengths() {
    let changed = |bytes: Vec<u8>, place: usize, byte: u8| {
        let mut bytes = bytes;
        bytes[place] = byte;
        costs(&bytes)
    };
    assert_eq!(changed(sheet_j(2), 8, 3), Err(4));
    assert_eq!(changed(sheet_j(2), 10, 6), Err(4));
    assert_eq!(changed(sheet_j(2), 10, 0), Err(4));
    assert_eq!(changed(sheet_a([None, None], &BOTH, 0, 0), 8, 5), Err(4));
    assert_eq!(changed(sheet_a([None, None], &BOTH, 0, 0), 10, 7), Err(4));
}
