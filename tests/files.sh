#!/usr/bin/env bash
# What a host built from examples/host.c does to files, tried in a folder of its own:
#
#     tests/files.sh HOST
#
# It says what is not as it should be; the exit status is 0 only where everything is.
set -u
here=$(cd "$(dirname "$0")/.." && pwd)
host=$(realpath "$1")
mkdir -p "$here/target" && folder=$(mktemp -d "$here/target/files.XXXXXX") || exit 2
trap 'rm -rf "$folder"' EXIT
cd "$folder" || exit 2
umask 022
failures=0

# holds SENTENCE TEST..: the sentence, where the test fails
holds() {
  local sentence=$1
  shift
  "$@" || { failures=$((failures + 1)) && echo "not so: $sentence"; }
}

# fresh: the folder holds sheet A alone, as a.sheet
fresh() {
  find . -mindepth 1 -delete && cp "$here/samples/a.sheet" a.sheet && chmod 644 a.sheet
}

# settled FILE: work was done there, and is not left to do; blank FILE: nothing was done there
settled() {
  [ "$("$host" -o spare "$1" | head -n 1)" = "settled: the least cost is 500 cents (passes 1, raises 0)" ]
}
blank() {
  cmp -s "$1" "$here/samples/a.sheet"
}

# says MESSAGE ARGUMENT..: the host fails before any work: it says just this, and prints nothing
says() {
  local message=$1 said
  shift
  said=$("$host" "$@" 2>&1)
  [ $? -eq 1 ] && [ "$said" = "$message" ]
}

# only NAME..: the folder holds these names and no other, hidden ones counted
only() {
  [ "$(ls -A | sort)" = "$(printf '%s\n' "$@" | sort)" ]
}

for mode in 640 600 664 755; do
  fresh && chmod $mode a.sheet && "$host" a.sheet >/dev/null
  holds "a file of mode $mode keeps it" [ "$(stat -c %a a.sheet)" = $mode ]
  holds "and is worked" settled a.sheet
done
fresh && "$host" -o new.sheet a.sheet >/dev/null
holds "a new file has the mode of any new file" [ "$(stat -c %a new.sheet)" = 644 ]
holds "the sheet that was read stays where another file is named" blank a.sheet

fresh && mkdir store && mv a.sheet store/real.sheet && ln -s real.sheet store/next && ln -s store/next link && "$host" link >/dev/null
holds "a link stays a link" [ "$(readlink link) $(readlink store/next)" = "store/next real.sheet" ]
holds "the file behind two links is worked" settled store/real.sheet
holds "nothing else is left beside it" [ "$(ls -A store)" = $'next\nreal.sheet' ]
fresh && mkdir store && ln -s "$PWD/store/new.sheet" link && "$host" -o link a.sheet >/dev/null
holds "a link to a file that is not there yet stays a link" [ -L link ]
holds "and the file is made where it leads" settled store/new.sheet
fresh && ln -s round link && ln -s link round
holds "links that lead round are said" says "host: link: too many links" -o link a.sheet

fresh && echo mine >a.sheet.tmp && "$host" a.sheet >/dev/null
holds "another program's a.sheet.tmp stays" [ "$(cat a.sheet.tmp)" = mine ]
holds "and the sheet is worked" settled a.sheet
rm -f spare && holds "no file is left over" only a.sheet a.sheet.tmp

fresh && mkdir other && holds "a folder is not replaced" says "host: other: not a plain file" -o other a.sheet
mkfifo pipe && holds "nor is a pipe" says "host: pipe: not a plain file" -o pipe a.sheet
holds "and no file is left over" only a.sheet other pipe
# by a link of its own, as /dev/stdout is one: a host that went wrong, run as root, would replace that
for name in stdout /dev/fd/1 //proc/self/fd/1; do
  fresh && ln -s /proc/self/fd/1 stdout && echo text >log && "$host" -o $name a.sheet >>log 2>said
  holds "nor is an open file, by $name" [ "$(cat log said)" = $'text\nhost: '"$name: not a plain file" ]
done
fresh && holds "a folder that is missing is said" \
  says "host: none/a.sheet: no new file can be made beside it: No such file or directory" -o none/a.sheet a.sheet

# only root may give a file away, and root may write every file: each of these two is tried by those who can
if fresh && chown 1234:5678 a.sheet 2>/dev/null; then
  "$host" a.sheet >/dev/null
  holds "a file keeps its owner and its group" [ "$(stat -c %u:%g a.sheet)" = 1234:5678 ]
fi
if fresh && chmod 444 a.sheet && [ ! -w a.sheet ]; then
  holds "a file that may not be written stays" says "host: a.sheet: Permission denied" a.sheet
  holds "and is blank" blank a.sheet
  fresh && mkdir store && mv a.sheet store && chmod 555 store
  holds "a folder that may not be written is said" \
    says "host: store/a.sheet: no new file can be made beside it: Permission denied" store/a.sheet
  holds "and the sheet is blank" blank store/a.sheet
  chmod 755 store
fi

# access_list set|default|same|none NAME: gives a file this access list, or a folder's new files; or asks whether the file has it, or has
# none. By it the owner and user 1234 may read and write, and the group and others may not
access_list() {
  python3 - "$@" <<'END'
import os, struct, sys
entries = [(1, 6, 2**32 - 1), (2, 6, 1234), (4, 0, 2**32 - 1), (16, 6, 2**32 - 1), (32, 0, 2**32 - 1)]
content = struct.pack("<I", 2) + b"".join(struct.pack("<HHI", *entry) for entry in entries)
what, name = sys.argv[1:]
access = "system.posix_acl_access"
try:
    if what in ("set", "default"):
        os.setxattr(name, access if what == "set" else "system.posix_acl_default", content)
    elif what == "same":
        sys.exit(0 if os.getxattr(name, access) == content else 1)
    else:
        sys.exit(1 if access in os.listxattr(name) else 0)
except OSError:
    sys.exit(1)
END
}

# where the file system has such lists
if fresh && access_list set a.sheet; then
  "$host" a.sheet >/dev/null
  holds "a file keeps its access list" access_list same a.sheet
  fresh && mkdir store && mv a.sheet store && access_list default store && "$host" store/a.sheet >/dev/null
  holds "a file without one gets none" access_list none store/a.sheet
  holds "and keeps its mode" [ "$(stat -c %a store/a.sheet)" = 644 ]
fi

fresh && "$host" a.sheet >/dev/full 2>said
holds "output that cannot be written ends the host" [ $? -eq 1 ]
holds "it is said too" [ "$(cat said)" = "host: standard output: No space left on device" ]
holds "and the sheet is saved" settled a.sheet

cc -std=c99 -Wall -Wextra -Werror -shared -fPIC "$here/tests/c/recorded.c" -o "$here/target/recorded.so" || exit 1
fresh && RECORD=record LD_PRELOAD=$here/target/recorded.so "$host" a.sheet >/dev/null
holds "the file is synced, then renamed, then its folder is synced" [ "$(cat record)" = $'sync of the file\nrename\nsync of the folder' ]
fresh && SYNC_FAILS=1 LD_PRELOAD=$here/target/recorded.so "$host" a.sheet 2>said >/dev/null
holds "a sync that fails ends the host" [ $? -eq 1 ]
holds "it is said" [ "$(cat said)" = "host: a.sheet: Input/output error" ]
holds "the sheet stays as it was" blank a.sheet
rm -f said && holds "and no file is left over" only a.sheet

[ "$failures" -eq 0 ]
