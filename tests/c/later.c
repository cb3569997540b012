/*
 * Stands for a later library, which returns numbers that a host of today does not know: ldfs_solve changes a byte of the sheet, so that a
 * save would show, and returns the number that NUMBER names.
 */
#include <ldfs.h>

#include <stdlib.h>

uint32_t ldfs_solve(uint8_t *sheet, size_t sheet_length, uint8_t *table, size_t table_length, uint64_t budget, uint8_t *result,
                    size_t result_length)
{
    (void)sheet_length, (void)table, (void)table_length, (void)budget, (void)result, (void)result_length;
    sheet[0] ^= 1;
    return (uint32_t)atoi(getenv("NUMBER"));
}
