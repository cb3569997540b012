//! The rows S11.52 to S11.65, worked by hand.

use crate::by_hand::{
    entries, rearranged, restored, with, ENDING_0, ENDING_100, ENTRIES_BYTES, JUNCTION, SHEET_A, SHEET_K, SHEET_L, SHEET_M,
    SHEET_N,
};
use crate::{draft, rearrange, restore, written};

/// Where K has these: the values and marks of endings 0 and 1, and value and mark of junction 3.
const VALUE_OF_0: usize = 18;
const MARK_OF_0: usize = 19;
const MARK_OF_1: usize = 31;
const VALUE_OF_3: usize = 66;
const MARK_OF_3: usize = 68;

#[test]
fn row_52() {
    let list = entries(&[2, 3, 0, 1], 0);
    assert_eq!(rearranged(&SHEET_K), Ok((SHEET_A.to_vec(), list.clone())));
    assert_eq!(restored(&SHEET_A, &list), Ok(SHEET_K.to_vec()));
}

/// The table has the offsets of the sheet that was lent: K's, and A's.
#[test]
fn tables_of_row_52() {
    let (mut table, mut output, mut list) = ([0xee; ENTRIES_BYTES], [0; 81], [0; ENTRIES_BYTES]);
    assert_eq!(rearrange(&SHEET_K, &mut table, &mut output, &mut list), 105);
    assert_eq!(table.to_vec(), entries(&[8, 20, 32, 61], 0));
    assert_eq!(restore(&SHEET_A, &mut table, &list, &mut output), 106);
    assert_eq!(table.to_vec(), entries(&[8, 37, 57, 69], 0));
}

/// 500 is 1, 244. In A the value of junction 1 has its last two bytes at 42, its mark at 44; the endings stand at 57 and 69.
#[test]
fn row_53() {
    let settled = [(VALUE_OF_3, 1), (VALUE_OF_3 + 1, 244), (MARK_OF_3, 1), (VALUE_OF_0, 100), (MARK_OF_0, 1), (MARK_OF_1, 1)];
    let expected = with(&SHEET_A, &[(42, 1), (43, 244), (44, 1), (67, 100), (68, 1), (80, 1)]);
    let (found, list) = rearranged(&with(&SHEET_K, &settled)).expect("it is rearranged");
    assert_eq!(found, expected);
    assert_eq!(restored(&expected, &list), Ok(with(&SHEET_K, &settled)));
}

/// That K is not worked is the library's to show.
#[test]
fn row_54() {
    assert_eq!(restored(&SHEET_K, &entries(&[0, 1, 2, 3], 0)), Err(3));
    assert_eq!(rearranged(&SHEET_A), Err(3));
}

/// Stage 2 becomes 0, 0 becomes 1, 3 becomes 2 and ending 1 becomes 3. Unlike the list of K, this one is not its own inverse, so the new
/// sheet is restored too.
#[test]
fn row_55() {
    let head = [1, 0, 5, 0, 0, 4, 0, 0];
    let check = |finding| [4, 0, 6, 0, 0, 0, 1, 0, finding];
    let expected = [&head[..], &JUNCTION, &check(1), &JUNCTION, &check(3), &JUNCTION, &check(3), &ENDING_0].concat();
    assert_eq!(rearranged(&SHEET_L), Ok((expected.clone(), entries(&[2, 0, 3, 1], 0))));
    assert_eq!(restored(&expected, &entries(&[2, 0, 3, 1], 0)), Ok(SHEET_L.to_vec()));
}

/// The value of ending 0 has its last byte at 18.
#[test]
fn row_56() {
    assert_eq!(rearranged(&SHEET_M), Err(11));
    assert_eq!(rearranged(&with(&SHEET_M, &[(18, 5)])), Err(11));
    let alone = [&[6, 0, 5, 0, 0, 1, 0, 0][..], &JUNCTION, &[4, 0, 6, 0, 0, 0, 1, 0, 0]].concat();
    assert_eq!(rearranged(&alone), Err(11));
}

/// The cost of junction 1's check has its last byte at 35. Counted, junction 1 takes a byte more, with its number at 29.
#[test]
fn row_57() {
    assert_eq!(rearranged(&with(&SHEET_M, &[(35, 0)])), Err(5));
    let counted = |number| [&SHEET_M[..20], &[5, 0, 7, 0, 0, 0, 0, 0, 0, number], &SHEET_M[29..]].concat();
    assert_eq!(rearranged(&counted(2)), Err(10));
    assert_eq!(rearranged(&counted(1)), Err(11));
    assert_eq!(rearranged(&SHEET_M[..55]), Err(4));
}

/// The finding of junction 1 stands at 36.
#[test]
fn row_58() {
    let found = |findings: &[u8]| {
        let check = [4, 0, 4 + findings.len() as u8, 0, 0, 0, 1];
        rearranged(&[&SHEET_M[..29], &check, findings, &SHEET_M[38..]].concat())
    };
    assert_eq!(found(&[0, 2]), Err(11));
    assert_eq!(found(&[0, 3]), Err(6));
    assert_eq!(found(&[0, 2, 0, 1]), Err(6));
    assert_eq!(found(&[0, 1, 0, 2]), Err(11));
}

#[test]
fn row_59() {
    let twice = |kind| [&[6, 0, 5, kind, 0, 1, 0, 0][..], &JUNCTION, &[4, 0, 8, 0, 0, 0, 1, 0, 0, 0, 0]].concat();
    assert_eq!(rearranged(&twice(0)), Err(6));
    assert_eq!(rearranged(&twice(1)), Err(11));
}

#[test]
fn row_60() {
    assert_eq!(rearranged(&with(&SHEET_K, &[(VALUE_OF_0, 101)])), Err(7));
    assert_eq!(rearranged(&with(&SHEET_K, &[(MARK_OF_0, 1)])), Err(8));
}

/// Entries of four bytes: 4,095 of them and three bytes are too few still.
#[test]
fn row_61() {
    let with_room = |table: usize, output: usize, list: usize| {
        rearrange(&SHEET_K, &mut vec![0; table], &mut vec![0; output], &mut vec![0; list])
    };
    assert_eq!(with_room(16_384, 80, 16_384), 1);
    assert_eq!(with_room(16_384, 81, 16_380), 1);
    assert_eq!(with_room(16_384, 81, 16_383), 1);
    assert_eq!(with_room(16_380, 81, 16_384), 1);
    assert_eq!(with_room(16_383, 81, 16_384), 1);
    assert_eq!(with_room(16_384, 81, 16_384), 105);
}

/// Stage 1 is placed first, then 0 and 2: the numbers 0, 1 and 2.
#[test]
fn row_62() {
    let head = [1, 0, 5, 1, 0, 3, 0, 0];
    let counted = [5, 0, 7, 0, 0, 0, 0, 0, 0, 1, 4, 0, 10, 0, 0, 0, 1, 0, 1, 0, 1, 0, 2];
    let expected = [&head[..], &counted, &JUNCTION, &ENDING_0].concat();
    assert_eq!(rearranged(&SHEET_N), Ok((expected, entries(&[1, 0, 2], 0))));
}

#[test]
fn row_63() {
    let by = |last| restored(&SHEET_A, &entries(&[2, 3, 0, last], 9_999));
    assert_eq!(by(0), Err(11));
    assert_eq!(by(4), Err(11));
    assert_eq!(by(1), Ok(SHEET_K.to_vec()));
}

#[test]
fn row_64() {
    let ending = |cost| [2, 0, 9, 0, 0, 0, cost, 0, 0, 0, 0, 0];
    let sheet = [&[1, 0, 5, 0, 0, 2, 0, 0][..], &ending(5), &ending(7)].concat();
    let draft = [&[6, 0, 5, 0, 0, 2, 0, 1][..], &ending(7), &ending(5)].concat();
    let other = [&[1, 0, 5, 0, 0, 2, 0, 1][..], &ending(7), &ending(5)].concat();
    assert_eq!(restored(&sheet, &entries(&[1, 0], 0)), Ok(draft.clone()));
    assert_eq!(rearranged(&draft), Ok((other, entries(&[0, 1], 0))));
}

#[test]
fn row_65() {
    assert_eq!(rearranged(&with(&SHEET_A, &[(0, 6)])), Ok((SHEET_A.to_vec(), entries(&[0, 1, 2, 3], 0))));
}

/// Least costs of the stages, and what the written plan costs from them, as they are written.
fn costs(bytes: &[u8]) -> [Vec<u64>; 2] {
    let draft = draft(bytes).expect("it is a draft without a circle");
    [draft.least_costs(), draft.plan_costs()].map(|costs| costs.iter().map(written).collect())
}

/// Junction 3 of K costs 500: 400 and the dearer of its endings. Junction 2 costs 500 by check 1, and 700 by check 0, which is the written
/// one.
#[test]
fn costs_of_k() {
    assert_eq!(costs(&SHEET_K), [[100, 0, 500, 500], [100, 0, 700, 500]]);
}

/// A junction (1, findings 0 and 1) behind two endings that cost 100 and 100: 101 on a worst draft, 201 on a whole one.
#[test]
fn costs_of_both_kinds() {
    let draft = |kind| {
        let head = [6, 0, 5, kind, 0, 3, 0, 2];
        [&head[..], &ENDING_100, &ENDING_100, &JUNCTION, &[4, 0, 8, 0, 0, 0, 1, 0, 0, 0, 1]].concat()
    };
    assert_eq!(costs(&draft(0)), [[100, 100, 101], [100, 100, 101]]);
    assert_eq!(costs(&draft(1)), [[100, 100, 201], [100, 100, 201]]);
}

/// Junction 0 of N has no checks, so nothing that comes to it has a plan.
#[test]
fn costs_of_n() {
    assert_eq!(costs(&SHEET_N), [[1_000_000_001, 1_000_000_001, 0], [1_000_000_001, 1_000_000_001, 0]]);
}

/// An ending of 100 and 20 junctions behind it, each with one check (1) that lists the stage before it 16 times. The last of them, the
/// start, costs 100 · 16^20 + (16^20 − 1) / 15, which is more than 64 bits hold.
#[test]
fn costs_beyond_64_bits() {
    let mut bytes = vec![6, 0, 5, 1, 0, 21, 0, 20];
    bytes.extend(ENDING_100);
    for next in 0..20 {
        bytes.extend(JUNCTION);
        bytes.extend([4, 0, 36, 0, 0, 0, 1]);
        bytes.extend([0, next].repeat(16));
    }
    let least = draft(&bytes).expect("it is a draft").least_costs();
    let first_two: Vec<Option<u64>> = least[1..3].iter().map(|cost| cost.as_ref().and_then(|amount| amount.small())).collect();
    assert_eq!(first_two, [Some(1_601), Some(25_617)]);
    let start = 100 * 16u128.pow(20) + (16u128.pow(20) - 1) / 15;
    let (high, low) = ((start >> 64) as u64, start as u64);
    assert_eq!(format!("{:?}", least[20]), format!("Some(Amount([{low}, {high}]))"));
    assert_eq!(written(&least[20]), 1_000_000_000);
}
