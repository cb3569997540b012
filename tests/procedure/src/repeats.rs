//! Findings listed several times (S2.10): worked by hand, for the sheets D and E of S11 and a few more.

use crate::by_hand::{answer, with};
use crate::listing;

/// Junction 0 with one check (100, findings 1 and 1); ending 1 costs 30.
const SHEET_D: [u8; 40] = [
    1, 0, 5, 1, 0, 2, 0, 0, //
    3, 0, 6, 0, 0, 0, 0, 0, 0, 4, 0, 8, 0, 0, 0, 100, 0, 1, 0, 1, //
    2, 0, 9, 0, 0, 0, 30, 0, 0, 0, 0, 0,
];

/// Junction 0 with one check (10, findings 1, 1, 2, 2 and 2); endings 1 and 2 cost 5 and 7.
const SHEET_E: [u8; 58] = [
    1, 0, 5, 1, 0, 3, 0, 0, //
    3, 0, 6, 0, 0, 0, 0, 0, 0, 4, 0, 14, 0, 0, 0, 10, 0, 1, 0, 1, 0, 2, 0, 2, 0, 2, //
    2, 0, 9, 0, 0, 0, 5, 0, 0, 0, 0, 0, //
    2, 0, 9, 0, 0, 0, 7, 0, 0, 0, 0, 0,
];

/// Where both sheets have these.
const KIND: usize = 3;
const VALUE_LOW: usize = 14;
const MARK: usize = 15;
const CHECK_LENGTH: usize = 19;
const FINDINGS: usize = 24;

/// The sheet with other findings of its check.
fn with_findings(sheet: &[u8], findings: &[u8]) -> Vec<u8> {
    let end = CHECK_LENGTH + 1 + usize::from(sheet[CHECK_LENGTH]);
    let mut bytes = sheet[..FINDINGS].to_vec();
    bytes[CHECK_LENGTH] = 4 + 2 * findings.len() as u8;
    bytes.extend(findings.iter().flat_map(|&finding| [0, finding]));
    bytes.extend(&sheet[end..]);
    bytes
}

#[test]
fn sheet_d() {
    assert_eq!(listing(&SHEET_D), "settled 160 3 3\nstage 0 check 0 value 160 by 1\nstage 1 end value 30\n");
    assert_eq!(listing(&with(&SHEET_D, &[(KIND, 0)])), "refused 6\n");
}

#[test]
fn sheet_d_carried_on() {
    let mut sheet = SHEET_D;
    assert_eq!(answer(&mut sheet, 2), (102, [100, 2, 2]));
    assert_eq!(answer(&mut sheet, u64::MAX), (100, [160, 2, 1]));
}

#[test]
fn sixteen_times() {
    let text = listing(&with_findings(&SHEET_D, &[1; 16]));
    assert_eq!(text, "settled 580 3 3\nstage 0 check 0 value 580 by 1\nstage 1 end value 30\n");
}

#[test]
fn sheet_e() {
    let expected = "settled 41 4 5\nstage 0 check 0 value 41 by 2\nstage 1 end value 5\nstage 2 end value 7\n";
    assert_eq!(listing(&SHEET_E), expected);
}

/// Both endings cost 7: 10 + 14 after the first is settled, 10 + 14 + 21 after the second, and the lower number is the dearest.
#[test]
fn equal_values() {
    let text = listing(&with(&SHEET_E, &[(40, 7)]));
    assert_eq!(text, "settled 45 4 5\nstage 0 check 0 value 45 by 1\nstage 1 end value 7\nstage 2 end value 7\n");
}

#[test]
fn equals_apart_or_out_of_bounds() {
    for findings in [&[1, 2, 1][..], &[2, 2, 1], &[0, 0], &[3, 3], &[0, 1, 1], &[2, 2, 3]] {
        assert_eq!(listing(&with_findings(&SHEET_E, findings)), "refused 6\n", "{findings:?}");
    }
}

/// Ending 1 is at 30. Where it is settled too, 130 would be the price with one cradle.
#[test]
fn values_and_marks_of_sheet_d() {
    let (ending_value, ending_mark) = (38, 39);
    let at = |value, mark| listing(&with(&SHEET_D, &[(ending_value, 30), (ending_mark, mark), (VALUE_LOW, value), (MARK, mark)]));
    let lines = "stage 0 check 0 value 160 by 1\nstage 1 end value 30\n";
    assert_eq!(at(160, 0), format!("settled 160 1 0\n{lines}"));
    assert_eq!(at(161, 0), "refused 7\n");
    assert_eq!(at(160, 1), format!("settled 160 1 0\n{lines}"));
    assert_eq!(at(130, 1), "refused 8\n");
}

/// Four junctions, each with one check (1) that lists the next stage 16 times, and an ending of 1,000,000. A pass goes one stage deeper
/// than the one before it, and raises what it comes to and all above: 1, 2, 3 and 4 raises. The fifth raises the ending and all four
/// junctions: to 16,000,001, to 256,000,017, and twice to the ceiling, where 4,096,000,273 and 16,000,000,001 are cut. The sixth settles.
#[test]
fn chain_beyond_the_ceiling() {
    let mut bytes = vec![1, 0, 5, 1, 0, 5, 0, 0];
    for next in 1..=4 {
        bytes.extend([3, 0, 6, 0, 0, 0, 0, 0, 0, 4, 0, 36, 0, 0, 0, 1]);
        bytes.extend([0, next].repeat(16));
    }
    bytes.extend([2, 0, 9, 0x00, 0x0f, 0x42, 0x40, 0, 0, 0, 0, 0]);
    assert_eq!(listing(&bytes), "over 1000000000 6 15\n");
}

/// Worked out in samples/README.md.
#[test]
fn two_cradles() {
    let junctions = "stage 0 check 0 value 4400 by 1\nstage 1 check 1 value 1550 by 3\n";
    let endings = "stage 3 end value 350\nstage 4 end value 900\n";
    let text = listing(include_bytes!("../../../samples/two-cradles.sheet"));
    assert_eq!(text, format!("settled 4400 6 11\n{junctions}{endings}"));
    assert_eq!(listing(include_bytes!("../../../samples/two-cradles-worst.sheet")), "refused 6\n");
}
