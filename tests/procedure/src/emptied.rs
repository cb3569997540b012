//! Junctions that have no check left (S1.2): worked by hand, for the sheets F to I of S11 and a few more.

use crate::by_hand::{answer, with};
use crate::{listing, CEILING, NONE};

const LARGEST: u64 = u64::MAX;

/// One junction without checks.
const SHEET_F: [u8; 17] = [1, 0, 5, 0, 0, 1, 0, 0, 3, 0, 6, 0, 0, 0, 0, 0, 0];

/// Junction 0 with check 0 (10, finding 1) and check 1 (100, finding 2); junction 1 has no checks; ending 2 costs 30.
const SHEET_G: [u8; 56] = [
    1, 0, 5, 0, 0, 3, 0, 0, //
    3, 0, 6, 0, 0, 0, 0, 0, 0, 4, 0, 6, 0, 0, 0, 10, 0, 1, 4, 0, 6, 0, 0, 0, 100, 0, 2, //
    3, 0, 6, 0, 0, 0, 0, 0, 0, //
    2, 0, 9, 0, 0, 0, 30, 0, 0, 0, 0, 0,
];

/// Junction 0 with check 0 (10, finding 1) and check 1 (100, finding 1); junction 1 has no checks.
const SHEET_H: [u8; 44] = [
    1, 0, 5, 0, 0, 2, 0, 0, //
    3, 0, 6, 0, 0, 0, 0, 0, 0, 4, 0, 6, 0, 0, 0, 10, 0, 1, 4, 0, 6, 0, 0, 0, 100, 0, 1, //
    3, 0, 6, 0, 0, 0, 0, 0, 0,
];

/// Junction 0 with one check (1, findings 1, 2 and 3); endings 1 and 3 cost 5 and 9; junction 2 has no checks.
const INSIDE: [u8; 63] = [
    1, 0, 5, 0, 0, 4, 0, 0, //
    3, 0, 6, 0, 0, 0, 0, 0, 0, 4, 0, 10, 0, 0, 0, 1, 0, 1, 0, 2, 0, 3, //
    2, 0, 9, 0, 0, 0, 5, 0, 0, 0, 0, 0, //
    3, 0, 6, 0, 0, 0, 0, 0, 0, //
    2, 0, 9, 0, 0, 0, 9, 0, 0, 0, 0, 0,
];

/// Where stages have their values: stage 1 of G and H, stage 2 of the last.
const VALUE_0: usize = 11;
const VALUE_1: usize = 38;
const VALUE_2_OF_INSIDE: usize = 45;
const KIND: usize = 3;
const MARK_0: usize = 15;
const CHOSEN_0: usize = 16;

/// The sheet with these values at these places.
fn at(sheet: &[u8], values: &[(usize, u64)]) -> Vec<u8> {
    let mut bytes = sheet.to_vec();
    for &(place, value) in values {
        bytes[place..place + 4].copy_from_slice(&(value as u32).to_be_bytes());
    }
    bytes
}

#[test]
fn sheet_f() {
    let mut sheet = SHEET_F;
    assert_eq!(answer(&mut sheet, LARGEST), (103, [NONE, 1, 1]));
    let mut sheet = SHEET_F;
    assert_eq!(answer(&mut sheet, 1), (103, [NONE, 1, 1]));
    assert_eq!(sheet.to_vec(), with(&at(&SHEET_F, &[(VALUE_0, NONE)]), &[(MARK_0, 1)]));
    assert_eq!(answer(&mut sheet, LARGEST), (103, [NONE, 1, 0]));
}

/// Whatever the value is, it is raised to none at once; only none itself is no raise.
#[test]
fn sheet_f_at_values() {
    for (value, raises) in [(0, 1), (7, 1), (CEILING - 1, 1), (CEILING, 1), (NONE, 0)] {
        assert_eq!(listing(&at(&SHEET_F, &[(VALUE_0, value)])), format!("none 1000000001 1 {raises}\n"));
    }
    assert_eq!(listing(&at(&SHEET_F, &[(VALUE_0, NONE + 1)])), "refused 5\n");
}

#[test]
fn sheet_f_settled() {
    let settled = |value| listing(&with(&at(&SHEET_F, &[(VALUE_0, value)]), &[(MARK_0, 1)]));
    assert_eq!(settled(NONE), "none 1000000001 1 0\n");
    for value in [0, 7, CEILING - 1, CEILING] {
        assert_eq!(settled(value), "refused 8\n", "{value}");
    }
    assert_eq!(settled(NONE + 1), "refused 5\n");
}

#[test]
fn nothing_to_choose_from() {
    assert_eq!(listing(&with(&SHEET_F, &[(CHOSEN_0, 1)])), "refused 5\n");
    assert_eq!(listing(&with(&at(&SHEET_F, &[(VALUE_0, NONE)]), &[(MARK_0, 1), (CHOSEN_0, 1)])), "refused 5\n");
}

/// One ending of cost 70 at a value, and the sizes.
#[test]
fn endings_and_sizes() {
    let ending = [1, 0, 5, 0, 0, 1, 0, 0, 2, 0, 9, 0, 0, 0, 70, 0, 0, 0, 0, 0];
    assert_eq!(listing(&at(&ending, &[(15, NONE)])), "refused 7\n");
    assert_eq!(listing(&at(&ending, &[(15, NONE + 1)])), "refused 5\n");
    assert_eq!(listing(&SHEET_F[..16]), "refused 2\n");
    assert_eq!(listing(&ending[..19]), "refused 4\n");
}

#[test]
fn sheet_g() {
    let expected = "settled 130 4 5\nstage 0 check 1 value 130 by 2\nstage 2 end value 30\n";
    assert_eq!(listing(&SHEET_G), expected);
    assert_eq!(listing(&with(&SHEET_G, &[(KIND, 1)])), expected);
}

#[test]
fn sheet_h() {
    assert_eq!(listing(&SHEET_H), "none 1000000001 3 3\n");
    let mut sheet = SHEET_H;
    assert_eq!(answer(&mut sheet, 2), (102, [10, 2, 2]));
    assert_eq!(answer(&mut sheet, LARGEST), (103, [NONE, 2, 1]));
}

/// The first call stops before the raise of junction 1, whose value and mark stay; the second one makes it, and stops before junction 0's.
#[test]
fn sheet_h_in_steps() {
    let mut sheet = SHEET_H;
    assert_eq!(answer(&mut sheet, 1), (102, [10, 2, 1]));
    assert_eq!(sheet.to_vec(), at(&SHEET_H, &[(VALUE_0, 10)]));
    assert_eq!(answer(&mut sheet, 1), (102, [10, 1, 1]));
    assert_eq!(sheet.to_vec(), with(&at(&SHEET_H, &[(VALUE_0, 10), (VALUE_1, NONE)]), &[(VALUE_1 + 4, 1)]));
    assert_eq!(answer(&mut sheet, 1), (103, [NONE, 2, 1]));
}

/// Pass 1 raises junction 0 to 1, and pass 2 ending 1 to 5 and junction 0 to 6. Pass 3 raises junction 2 to none, and junction 0 with it.
/// Pass 4 goes on to ending 3, which is raised to 9: the price is none still, and is not above the value. A whole sheet goes the same way.
#[test]
fn none_inside_a_check() {
    assert_eq!(listing(&INSIDE), "none 1000000001 4 6\n");
    assert_eq!(listing(&with(&INSIDE, &[(KIND, 1)])), "none 1000000001 4 6\n");
}

/// Junctions 0 and 2 are at none at the outset: what is left is to raise both endings, and a budget of 1 stops in between.
#[test]
fn stopped_at_none() {
    let mut sheet = at(&INSIDE, &[(VALUE_0, NONE), (VALUE_2_OF_INSIDE, NONE)]);
    assert_eq!(answer(&mut sheet, 1), (102, [NONE, 1, 1]));
    assert_eq!(answer(&mut sheet, 1), (103, [NONE, 1, 1]));
}

/// Junction 0 at the ceiling or at none, with junction 2 a cent below what that takes, and at it: the check costs 1.
#[test]
fn values_beside_none() {
    let priced = |zero, two| listing(&at(&INSIDE, &[(VALUE_0, zero), (VALUE_2_OF_INSIDE, two)]));
    assert_eq!(priced(CEILING, CEILING - 2), "refused 7\n");
    assert_eq!(priced(CEILING, CEILING - 1), "none 1000000001 2 4\n");
    assert_eq!(priced(NONE, CEILING), "refused 7\n");
    assert_eq!(priced(NONE, NONE), "none 1000000001 1 2\n");
}

/// G with junction 1 at none: check 0 is priced none and check 1 at 100, which is the most that junction 0 may be at.
#[test]
fn values_where_a_check_is_left() {
    let priced = |zero| listing(&at(&SHEET_G, &[(VALUE_0, zero), (VALUE_1, NONE)]));
    assert_eq!(priced(100), "settled 130 2 2\nstage 0 check 1 value 130 by 2\nstage 2 end value 30\n");
    for value in [101, CEILING, NONE] {
        assert_eq!(priced(value), "refused 7\n", "{value}");
    }
}

/// H settled by check 1, at none and at the ceiling; junction 1 is at none, settled or open.
#[test]
fn marks_at_none() {
    let settled = |value, mark| {
        let bytes = at(&SHEET_H, &[(VALUE_0, value), (VALUE_1, NONE)]);
        listing(&with(&bytes, &[(MARK_0, 1), (CHOSEN_0, 1), (VALUE_1 + 4, mark)]))
    };
    assert_eq!(settled(NONE, 1), "none 1000000001 1 0\n");
    assert_eq!(settled(CEILING, 1), "refused 8\n");
    assert_eq!(settled(NONE, 0), "refused 8\n");
}

/// Whole, one check (2) that lists junction 1, which has no checks, three times: raised to 2, then both to none, then settled.
#[test]
fn none_listed_several_times() {
    let sheet = [
        1, 0, 5, 1, 0, 2, 0, 0, //
        3, 0, 6, 0, 0, 0, 0, 0, 0, 4, 0, 10, 0, 0, 0, 2, 0, 1, 0, 1, 0, 1, //
        3, 0, 6, 0, 0, 0, 0, 0, 0,
    ];
    assert_eq!(listing(&sheet), "none 1000000001 3 3\n");
}

/// Sheets H and I, worked out in samples/README.md; and I with one check at junction 0 (1, findings 1, 2 and 13) in the place of its two,
/// which take 9 and 11 bytes behind the 17th. Pass 1 raises junctions 13 and 0 to none, pass 2 settles.
#[test]
fn samples() {
    let sheet_i = include_bytes!("../../../samples/no-check-left-over.sheet");
    assert_eq!(listing(include_bytes!("../../../samples/no-check-left.sheet")), "none 1000000001 3 3\n");
    assert_eq!(listing(sheet_i), "over 1000000000 1 1\n");
    let one_check = [4, 0, 10, 0, 0, 0, 1, 0, 1, 0, 2, 0, 13];
    let changed = [&sheet_i[..17], &one_check, &sheet_i[17 + 9 + 11..]].concat();
    assert_eq!(listing(&changed), "none 1000000001 2 2\n");
}
