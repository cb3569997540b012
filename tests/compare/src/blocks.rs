//! The bytes of a sheet or a draft, cut at its stages. Its fields have to be in place (question 4), as far as they are asked for.

use crate::damage::places;

pub const TERMINAL_TAG: u8 = 2;
pub const CHECK_TAG: u8 = 4;
pub const COUNTED_TAG: u8 = 5;

/// Where a check's findings stand in its field.
const FINDINGS_IN: usize = 7;

/// Where the fields behind the head stand that are no check's.
pub fn stages(bytes: &[u8]) -> Vec<usize> {
    places(bytes).into_iter().skip(1).filter(|&at| bytes[at] != CHECK_TAG).collect()
}

/// The block of each stage: its field, and behind a junction's its checks.
pub fn blocks(bytes: &[u8]) -> Vec<Vec<u8>> {
    let from = stages(bytes);
    let to = from.iter().copied().skip(1).chain([bytes.len()]);
    from.iter().zip(to).map(|(&from, to)| bytes[from..to].to_vec()).collect()
}

/// Where the checks of a block stand.
pub fn checks(block: &[u8]) -> Vec<usize> {
    places(block).into_iter().filter(|&at| block[at] == CHECK_TAG).collect()
}

/// Two bytes, the most significant first.
pub fn number16(bytes: &[u8], at: usize) -> usize {
    usize::from(u16::from_be_bytes([bytes[at], bytes[at + 1]]))
}

/// The findings of the check that stands there.
pub fn findings(block: &[u8], at: usize) -> Vec<usize> {
    let end = at + 3 + number16(block, at + 1);
    (at + FINDINGS_IN..end).step_by(2).map(|place| number16(block, place)).collect()
}

/// The check that stands there gets other findings, perhaps more or fewer.
pub fn set_findings(block: &mut Vec<u8>, at: usize, findings: &[usize]) {
    let end = at + 3 + number16(block, at + 1);
    let numbers = findings.iter().flat_map(|&finding| (finding as u16).to_be_bytes());
    block.splice(at + FINDINGS_IN..end, numbers);
    block[at + 2] = (4 + 2 * findings.len()) as u8;
}

#[cfg(test)]
mod tests {
    use super::{blocks, checks, findings, set_findings, stages};
    use crate::rows::sheet_a;

    /// The offsets of sheet A, and its checks' findings (S3).
    #[test]
    fn sheet_a_in_blocks() {
        let bytes = sheet_a().bytes();
        assert_eq!(stages(&bytes), [8, 37, 57, 69]);
        let cut = blocks(&bytes);
        assert_eq!(cut.concat(), bytes[8..]);
        assert_eq!(cut.iter().map(Vec::len).collect::<Vec<_>>(), [29, 20, 12, 12]);
        assert_eq!((checks(&cut[0]), checks(&cut[2])), (vec![9, 20], vec![]));
        assert_eq!((findings(&cut[0], 9), findings(&cut[0], 20)), (vec![1, 3], vec![3]));
    }

    #[test]
    fn other_findings() {
        let mut block = vec![3, 0, 6, 0, 0, 0, 0, 0, 0, 4, 0, 8, 0, 0, 0, 7, 0, 1, 0, 3, 4, 0, 6, 0, 0, 0, 8, 0, 3];
        set_findings(&mut block, 9, &[258, 0, 5]);
        assert_eq!(block[9..], [4, 0, 10, 0, 0, 0, 7, 1, 2, 0, 0, 0, 5, 4, 0, 6, 0, 0, 0, 8, 0, 3]);
    }
}
