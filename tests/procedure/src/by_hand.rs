//! What the tests on sheets that were worked by hand share.

use crate::call;

/// The sheet with these bytes at these places.
pub(crate) fn with(sheet: &[u8], changes: &[(usize, u8)]) -> Vec<u8> {
    let mut bytes = sheet.to_vec();
    for &(place, byte) in changes {
        bytes[place] = byte;
    }
    bytes
}

/// One call: the number, price, passes and raises.
pub(crate) fn answer(sheet: &mut [u8], budget: u64) -> (u32, [u64; 3]) {
    let mut result = [0; 24];
    let number = call(sheet, &mut [0; 16_384], budget, &mut result);
    let read = |at: usize| u64::from_le_bytes(result[at..at + 8].try_into().expect("eight bytes"));
    (number, [0, 8, 16].map(read))
}
