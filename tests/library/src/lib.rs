//! The static library, called as a C host calls it.

/// The form of `ldfs_solve`: each slice is a pointer and a length.
pub type Raw = unsafe extern "C" fn(*mut u8, usize, *mut u8, usize, u64, *mut u8, usize) -> u32;

extern "C" {
    fn ldfs_solve(
        sheet: *mut u8,
        sheet_length: usize,
        table: *mut u8,
        table_length: usize,
        budget: u64,
        result: *mut u8,
        result_length: usize,
    ) -> u32;

    fn ldfs_rearrange(
        sheet: *const u8,
        sheet_length: usize,
        table: *mut u8,
        table_length: usize,
        output: *mut u8,
        output_length: usize,
        list: *mut u8,
        list_length: usize,
    ) -> u32;

    fn ldfs_restore(
        sheet: *const u8,
        sheet_length: usize,
        table: *mut u8,
        table_length: usize,
        list: *const u8,
        list_length: usize,
        output: *mut u8,
        output_length: usize,
    ) -> u32;
}

#[inline]
pub fn solve(sheet: &mut [u8], table: &mut [u8], budget: u64, result: &mut [u8]) -> u32 {
    through(ldfs_solve, sheet, table, budget, result)
}

/// A C function of that form on slices.
#[inline]
pub fn through(raw: Raw, sheet: &mut [u8], table: &mut [u8], budget: u64, result: &mut [u8]) -> u32 {
    let (sheet_length, table_length, result_length) = (sheet.len(), table.len(), result.len());
    let (sheet, table, result) = (sheet.as_mut_ptr(), table.as_mut_ptr(), result.as_mut_ptr());
    // Each pointer is that of a slice, handed over with its length, and no two overlap.
    unsafe { raw(sheet, sheet_length, table, table_length, budget, result, result_length) }
}

/// `ldfs_rearrange` on slices.
#[inline]
pub fn rearrange(sheet: &[u8], table: &mut [u8], output: &mut [u8], list: &mut [u8]) -> u32 {
    let (table_length, output_length, list_length) = (table.len(), output.len(), list.len());
    let (table, output, list) = (table.as_mut_ptr(), output.as_mut_ptr(), list.as_mut_ptr());
    // Each pointer is that of a slice, handed over with its length; the sheet is only read, and no other two overlap.
    unsafe { ldfs_rearrange(sheet.as_ptr(), sheet.len(), table, table_length, output, output_length, list, list_length) }
}

/// `ldfs_restore` on slices.
#[inline]
pub fn restore(sheet: &[u8], table: &mut [u8], list: &[u8], output: &mut [u8]) -> u32 {
    let (table_length, output_length) = (table.len(), output.len());
    let (table, output) = (table.as_mut_ptr(), output.as_mut_ptr());
    // Each pointer is that of a slice, handed over with its length; sheet and list are only read, and no other two overlap.
    unsafe { ldfs_restore(sheet.as_ptr(), sheet.len(), table, table_length, list.as_ptr(), list.len(), output, output_length) }
}
