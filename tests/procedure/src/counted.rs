//! Counted junctions (S3.6) and question 10: worked by hand, for sheet J of S11 and a few more.

use crate::by_hand::{answer, with};
use crate::{call, listing, NONE};

const LARGEST: u64 = u64::MAX;

/// Junction 0, counted, with check 0 (200, findings 1 and 3) and check 1 (500, finding 3); junction 1, plain, with one check (400, findings
/// 2 and 3); endings 2 and 3 cost 100 and 0.
const SHEET_J: [u8; 82] = [
    1, 0, 5, 0, 0, 4, 0, 0, //
    5, 0, 7, 0, 0, 0, 0, 0, 0, 2, 4, 0, 8, 0, 0, 0, 200, 0, 1, 0, 3, 4, 0, 6, 0, 0, 1, 244, 0, 3, //
    3, 0, 6, 0, 0, 0, 0, 0, 0, 4, 0, 8, 0, 0, 1, 144, 0, 2, 0, 3, //
    2, 0, 9, 0, 0, 0, 100, 0, 0, 0, 0, 0, //
    2, 0, 9, 0, 0, 0, 0, 0, 0, 0, 0, 0,
];

/// Where J has these.
const JUNCTION_0: usize = 8;
const VALUE_0: usize = 11;
const MARK_0: usize = 15;
const CHOSEN_0: usize = 16;
const NUMBER: usize = 17;
const CHECK_0: usize = 18;
const COST_LOW: usize = 24;
const FINDING_LOW: usize = 26;
const CHECK_1: usize = 29;
const JUNCTION_1: usize = 38;

const SHEET_A: &[u8; 81] = include_bytes!("../../../samples/a.sheet");
const CHECK_1_OF_A: usize = 28;
const JUNCTION_1_OF_A: usize = 37;

const LINES: &str = "settled 500 3 3\nstage 0 check 1 value 500 by 3\nstage 3 end value 0\n";

/// The sheet with the plain junction that stands there counted.
fn counted(sheet: &[u8], at: usize, number: u8) -> Vec<u8> {
    let mut bytes = with(sheet, &[(at, 5), (at + 2, 7)]);
    bytes.insert(at + 9, number);
    bytes
}

/// The sheet without the bytes from one place to another.
fn without(sheet: &[u8], from: usize, to: usize) -> Vec<u8> {
    [&sheet[..from], &sheet[to..]].concat()
}

/// A counted junction with so many checks (1, finding 1), which writes a number, and an ending.
fn with_checks(checks: usize, number: u8) -> Vec<u8> {
    let head = [1, 0, 5, 0, 0, 2, 0, 0];
    let junction = [5, 0, 7, 0, 0, 0, 0, 0, 0, number];
    let ending = [2, 0, 9, 0, 0, 0, 0, 0, 0, 0, 0, 0];
    [&head[..], &junction, &[4, 0, 6, 0, 0, 0, 1, 0, 1].repeat(checks), &ending].concat()
}

#[test]
fn sheet_j() {
    assert_eq!(listing(&SHEET_J), LINES);
    assert_eq!(listing(include_bytes!("../../../samples/counted.sheet")), LINES);
    assert_eq!(counted(SHEET_A, JUNCTION_0, 2), SHEET_J);
    let both = counted(&SHEET_J, JUNCTION_1, 1);
    assert_eq!((both.len(), listing(&both).as_str()), (83, LINES));
}

/// Entries 0 to 3 are J's offsets, the others 0. Work changes value, mark and chosen check of junction 0, the value of junction 1, which is
/// open still, and the mark of ending 3; the number stays.
#[test]
fn sheet_j_to_the_byte() {
    let (mut sheet, mut table, mut result) = (SHEET_J, [7; 16_384 + 11], [7; 24]);
    assert_eq!(call(&mut sheet, &mut table, LARGEST, &mut result), 100);
    let entries = [[8, 0, 0, 0], [38, 0, 0, 0], [58, 0, 0, 0], [70, 0, 0, 0]].concat();
    assert_eq!(table[..16], entries);
    assert_eq!((&table[16..16_392], &table[16_392..]), (&[0; 16_376][..], &[7; 3][..]));
    let value_1 = JUNCTION_1 + 3;
    let settled = [(VALUE_0 + 2, 1), (VALUE_0 + 3, 244), (MARK_0, 1), (CHOSEN_0, 1)];
    let below = [(value_1 + 2, 1), (value_1 + 3, 144), (81, 1)];
    assert_eq!(sheet.to_vec(), with(&with(&SHEET_J, &settled), &below));
}

#[test]
fn sheet_j_carried_on() {
    let mut sheet = SHEET_J;
    assert_eq!(answer(&mut sheet, 2), (102, [200, 2, 2]));
    assert_eq!((sheet[JUNCTION_0], sheet[NUMBER]), (5, 2));
    assert_eq!(answer(&mut sheet, LARGEST), (100, [500, 2, 1]));
}

/// A refused call leaves the sheet as it was, and every whole entry 0.
#[test]
fn wrong_numbers() {
    for number in [1, 3, 0, 200, 255] {
        let wrong = with(&SHEET_J, &[(NUMBER, number)]);
        let (mut sheet, mut table, mut result) = (wrong.clone(), [7; 16_384 + 11], [7; 24]);
        assert_eq!(call(&mut sheet, &mut table, LARGEST, &mut result), 10, "{number}");
        assert_eq!((sheet, result), (wrong, [0; 24]));
        assert_eq!((&table[..16_392], &table[16_392..]), (&[0; 16_392][..], &[7; 3][..]));
    }
    assert_eq!(listing(&counted(SHEET_A, JUNCTION_1_OF_A, 1)), LINES);
    assert_eq!(listing(&counted(SHEET_A, JUNCTION_1_OF_A, 2)), "refused 10\n");
}

/// Without its check 1, A costs 200 and what junction 1 costs: 400 and 100.
#[test]
fn a_check_is_lost() {
    let junctions = "stage 0 check 0 value 700 by 1\nstage 1 check 0 value 500 by 2\n";
    let left = format!("settled 700 4 6\n{junctions}stage 2 end value 100\nstage 3 end value 0\n");
    assert_eq!(listing(&without(SHEET_A, CHECK_1_OF_A, JUNCTION_1_OF_A)), left);
    assert_eq!(listing(&without(&SHEET_J, CHECK_1, JUNCTION_1)), "refused 10\n");
    assert_eq!(listing(&without(&SHEET_J, CHECK_0, CHECK_1)), "refused 10\n");
    assert_eq!(listing(include_bytes!("../../../samples/refused-10.sheet")), "refused 10\n");
    let told = with(&without(&SHEET_J, CHECK_1, JUNCTION_1), &[(NUMBER, 1)]);
    assert_eq!(listing(&told), left);
}

#[test]
fn no_checks() {
    let mut sheet = [1, 0, 5, 0, 0, 1, 0, 0, 5, 0, 7, 0, 0, 0, 0, 0, 0, 0];
    assert_eq!(listing(&with(&sheet, &[(NUMBER, 1)])), "refused 10\n");
    assert_eq!(answer(&mut sheet, LARGEST), (103, [NONE, 1, 1]));
    assert_eq!(sheet, [1, 0, 5, 0, 0, 1, 0, 0, 5, 0, 7, 0x3b, 0x9a, 0xca, 0x01, 1, 0, 0]);
}

/// The checks are counted as they follow, and a seventeenth is out of place whatever is written.
#[test]
fn as_many_checks_as_there_may_be() {
    assert_eq!(listing(&with_checks(16, 16)), "settled 1 2 1\nstage 0 check 0 value 1 by 1\nstage 1 end value 0\n");
    for number in [0, 1, 15, 17] {
        assert_eq!(listing(&with_checks(16, number)), "refused 10\n", "{number}");
    }
    for number in [16, 17, 1] {
        assert_eq!(listing(&with_checks(17, number)), "refused 4\n", "{number}");
    }
}

/// Faults of questions 4 to 8 and the budget 0, each with the number 2 and with 1. By J's values 200 is the price of check 0.
#[test]
fn order_of_the_questions() {
    let faults: [(&[(usize, u8)], &str); 4] = [
        (&[(COST_LOW, 0)], "refused 5\n"),
        (&[(FINDING_LOW, 0)], "refused 6\n"),
        (&[(VALUE_0 + 3, 201)], "refused 7\n"),
        (&[(MARK_0, 1)], "refused 8\n"),
    ];
    for (fault, refusal) in faults {
        assert_eq!(listing(&with(&SHEET_J, fault)), refusal);
        assert_eq!(listing(&with(&with(&SHEET_J, fault), &[(NUMBER, 1)])), "refused 10\n");
    }
    let mut wrong = with(&SHEET_J, &[(NUMBER, 1)]);
    assert_eq!(listing(&wrong[..81]), "refused 4\n");
    assert_eq!(answer(&mut wrong, 0), (10, [0; 3]));
    assert_eq!(answer(&mut SHEET_J.to_vec(), 0), (9, [0; 3]));
}

/// Each tag wants its own length, and all of its bytes.
#[test]
fn tags_and_lengths() {
    assert_eq!(listing(&with(&SHEET_J, &[(JUNCTION_0, 3)])), "refused 4\n");
    assert_eq!(listing(&with(&SHEET_J, &[(JUNCTION_0 + 2, 6)])), "refused 4\n");
    assert_eq!(listing(&with(SHEET_A, &[(JUNCTION_0, 5)])), "refused 4\n");
    assert_eq!(listing(&with(SHEET_A, &[(JUNCTION_0 + 2, 7)])), "refused 4\n");
    assert_eq!(listing(&with(&SHEET_J, &[(JUNCTION_0, 6)])), "refused 4\n");
    assert_eq!(listing(&[1, 0, 5, 0, 0, 1, 0, 0, 5, 0, 7, 0, 0, 0, 0, 0, 0]), "refused 4\n");
}
