//! What calls leave of the slices that they are lent (S13.9, S13.10), and which question comes first (S13.8).

use crate::by_hand::{entries, rearranged, restored, with, ENTRIES_BYTES, SHEET_A, SHEET_K, SHEET_M};
use crate::{rearrange, restore};

/// A call with slices of these lengths, each byte of which is `ee`: its number, and what table, output and list hold then.
fn left_by_rearrange(sheet: &[u8], lengths: [usize; 3]) -> (u32, [Vec<u8>; 3]) {
    let [mut table, mut output, mut list] = lengths.map(|length| vec![0xee; length]);
    let number = rearrange(sheet, &mut table, &mut output, &mut list);
    (number, [table, output, list])
}

/// The same of the inverse, whose list is given.
fn left_by_restore(sheet: &[u8], table: usize, list: &[u8], output: usize) -> (u32, [Vec<u8>; 2]) {
    let [mut table, mut output] = [table, output].map(|length| vec![0xee; length]);
    let number = restore(sheet, &mut table, list, &mut output);
    (number, [table, output])
}

/// As many whole entries of 0 as there are, and bytes left over.
fn cleared(length: usize) -> Vec<u8> {
    (0..length).map(|place| if place < length / 4 * 4 { 0 } else { 0xee }).collect()
}

#[test]
fn too_little_room() {
    for lengths in [[16_383, 81, 16_384], [16_384, 80, 16_384], [16_384, 81, 16_383], [0, 0, 0]] {
        let (number, left) = left_by_rearrange(&SHEET_K, lengths);
        assert_eq!((number, left), (1, lengths.map(|length| vec![0xee; length])), "{lengths:?}");
    }
    let list = entries(&[2, 3, 0, 1], 0);
    for (table, list, output) in [(16_383, &list[..], 81), (16_384, &list, 80), (16_384, &list[..16_383], 81)] {
        let (number, left) = left_by_restore(&SHEET_A, table, list, output);
        assert_eq!((number, left), (1, [vec![0xee; table], vec![0xee; output]]));
    }
}

/// The room is asked for before the size: no bytes need no output, and are refused 2.
#[test]
fn sizes() {
    assert_eq!(left_by_rearrange(&[], [16_384, 0, 16_384]).0, 2);
    assert_eq!(left_by_rearrange(&[0; 60_001], [16_384, 60_001, 16_384]).0, 2);
    assert_eq!(left_by_rearrange(&[0; 60_001], [16_384, 60_000, 16_384]).0, 1);
    assert_eq!(left_by_rearrange(&[0; 60_000], [16_384, 60_000, 16_384]).0, 3);
    assert_eq!(left_by_rearrange(&SHEET_K[..16], [16_384, 16, 16_384]).0, 2);
    assert_eq!(left_by_rearrange(&SHEET_K[..17], [16_384, 17, 16_384]).0, 4);
}

#[test]
fn refused_with_bytes_left_over() {
    let (number, [table, output, list]) = left_by_rearrange(&SHEET_M, [20_003, 60, 16_387]);
    assert_eq!((number, table, output, list), (11, cleared(20_003), vec![0xee; 60], vec![0xee; 16_387]));
    let (number, [table, output]) = left_by_restore(&SHEET_K, 16_386, &entries(&[], 0), 81);
    assert_eq!((number, table, output), (3, cleared(16_386), vec![0xee; 81]));
}

/// Table and list go on with zeros past the 4,096th entry, and what follows the last whole one stays; so does the output behind the sheet.
#[test]
fn rearranged_with_bytes_left_over() {
    let (number, [table, output, list]) = left_by_rearrange(&SHEET_K, [16_391, 83, 16_389]);
    assert_eq!(number, 105);
    let numbers = |first: &[u32], length: usize| [&entries(first, 0), &cleared(length)[ENTRIES_BYTES..]].concat();
    assert_eq!(table, numbers(&[8, 20, 32, 61], 16_391));
    assert_eq!(output, [&SHEET_A[..], &[0xee, 0xee]].concat());
    assert_eq!(list, numbers(&[2, 3, 0, 1], 16_389));
}

/// Ending 0 of M with a wrong value, with a wrong mark, and with a mark of 2: its cost has its last byte at 14, its value at 18, and its
/// mark stands at 19. Then a finding that is no stage, and the tag of an ordinary sheet.
#[test]
fn a_circle_and_something_else() {
    assert_eq!(rearranged(&with(&SHEET_M, &[(18, 1)])), Err(11));
    assert_eq!(rearranged(&with(&SHEET_M, &[(14, 9), (19, 1)])), Err(11));
    assert_eq!(rearranged(&with(&SHEET_M, &[(19, 2)])), Err(5));
    assert_eq!(rearranged(&with(&SHEET_M, &[(37, 7)])), Err(6));
    assert_eq!(rearranged(&with(&SHEET_M, &[(0, 1)])), Err(3));
}

/// The list 0, 0 .. comes behind questions 5 and 6, and before 7 and 8. In A a check's cost is at 20, its first finding at 24, and the
/// ending of cost 100 has its value at 64 and its mark at 68.
#[test]
fn a_wrong_list_and_something_else() {
    let by = |numbers: &[u32], changes: &[(usize, u8)]| restored(&with(&SHEET_A, changes), &entries(numbers, 0)).err();
    for numbers in [&[0, 0][..], &[2, 3, 0, 1]] {
        assert_eq!(by(numbers, &[(23, 0)]), Some(5));
        assert_eq!(by(numbers, &[(25, 0)]), Some(6));
    }
    for wrong in [(67, 101), (68, 1)] {
        assert_eq!(by(&[0, 0], &[wrong]), Some(11));
    }
    assert_eq!(by(&[2, 3, 0, 1], &[(67, 101)]), Some(7));
    assert_eq!(by(&[2, 3, 0, 1], &[(68, 1)]), Some(8));
}

/// Entries are 32 bits: 65,537 and 2^31 + 1 are not 1. What lacks does not count behind the stages.
#[test]
fn lists_that_lack_a_number() {
    let by = |numbers: &[u32]| restored(&SHEET_A, &entries(numbers, 1)).err();
    assert_eq!(by(&[2, 3, 0, 1]), None);
    assert_eq!(by(&[2, 3, 0, 65_537]), Some(11));
    assert_eq!(by(&[2, 3, 0, (1 << 31) + 1]), Some(11));
    assert_eq!(by(&[2, 3, 0, u32::MAX]), Some(11));
    assert_eq!(by(&[2, 3, 0, 0, 1]), Some(11));
    assert_eq!(by(&[2, 3, 1, 1, 0]), Some(11));
}
