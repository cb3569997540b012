#!/usr/bin/env bash
# What the archive is known to have (docs/HOST.md): three global names, ldfs_solve, ldfs_rearrange and ldfs_restore; two names of another library,
# memcpy and memset; and no data that could be written.
#
#     tests/archive.sh ARCHIVE
set -u
shown=$(nm "$1") || exit 1
# letters of nm: T and t code, r constants of the archive's own, U undefined; data would be b, d, s, c, v or w, and their capitals
found=$(sed -n 's/^[0-9a-f ]\{16\} \([A-Za-qsu-z]\) /\1 /p' <<<"$shown" | sort)
[ "$found" = $'T ldfs_rearrange\nT ldfs_restore\nT ldfs_solve\nU memcpy\nU memset' ] || { echo "$shown" && exit 1; }
! objdump -h "$1" | grep -E '^ *[0-9]+ \.(t?data|t?bss)' || exit 1
