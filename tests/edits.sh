#!/usr/bin/env bash
# The must-fail edits: each one, crates/CRATE/must-fail/NAME.edit, is applied to a copy of its crate, and the check must refuse the copy because a
# proof no longer holds.
#
#     tests/edits.sh [CRATE]..          those of some crates; all where none is named
#
# It is `rt must-fail`, which begins with what `rt check` kept. There is a line for each edit with its first error. The exit status is 0 only where
# every edit is refused, and none is bad. `.ci/run` does not call it, since `rt ci` tries the edits too.
set -u
cd "$(dirname "$0")/.." || exit 2
exec rt must-fail "$@"
