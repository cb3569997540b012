#!/usr/bin/env bash
# The trace: every id of docs/SPEC.md has a row in docs/PROMISES.md, every id that a file cites is one of SPEC.md's, docs/PROMISES.md names every
# must-fail edit and no other, what it names as a definition, a theorem or a contract is there, and it names every published function. Prints what is
# missing, and fails where anything is.
set -u
cd "$(dirname "$0")/.." || exit 2
missing=0

# each WHAT: a line for each word of standard input
each() {
  local what=$1 word
  while read -r word; do
    echo "$word: $what"
    missing=1
  done
}

# quoted: the words in backticks of standard input, a line each
quoted() {
  grep -oE '`[^`]+`' | tr -d '`'
}

id='S[0-9]+\.[0-9]+'
declared=$(grep -oE "\*\*$id\*\*" docs/SPEC.md | tr -d '*' | sort -u)
answered=$(grep -oE "^\| $id \|" docs/PROMISES.md | tr -d '| ' | sort -u)
cited=$(git ls-files | grep -vE '\.sheet$' | xargs grep -ohE "\b$id\b" | sort -u)
edits=$(ls crates/*/must-fail/*.edit | sed -E 's|crates/(.*)/must-fail/(.*)\.edit|\1/\2|' | sort -u)
crates=$(sed -nE 's/^([a-z]+)( staticlib)?:.*/\1/p' crates.txt | paste -sd '|')
named=$(quoted <docs/PROMISES.md | grep -E "^($crates)/[a-z0-9_]+$" | sort -u)

[ -n "$declared" ] && [ -n "$cited" ] || { echo "no id is declared, or none is cited" && exit 1; }
each "has no row in docs/PROMISES.md" < <(comm -23 <(echo "$declared") <(echo "$answered"))
each "is cited, and docs/SPEC.md does not declare it" < <(comm -13 <(echo "$declared") <(echo "$cited"))
each "is a must-fail edit that docs/PROMISES.md does not name" < <(comm -23 <(echo "$edits") <(echo "$named"))
each "is named in docs/PROMISES.md, and is no must-fail edit" < <(comm -13 <(echo "$edits") <(echo "$named"))
[ "$(grep -oE "\*\*$id\*\*" docs/SPEC.md | sort | uniq -d | wc -l)" -eq 0 ] || { echo "docs/SPEC.md declares an id twice" && missing=1; }

# Names: in a row of the trace those of the columns `definition` and `theorem or contract`; elsewhere those with a hyphen or `::` in them. Each is
# declared by `pub NAME`, or is a function, `fn NAME`, by the last part of its path; a crate and a file of definitions or proofs may stand there too.
name="^[A-Za-z][A-Za-z0-9_]*([-:][A-Za-z0-9_:-]*)?$"
told=$({
  grep -E "^\| $id \|" docs/PROMISES.md | awk -F ' [|] ' '{ print $3, $4 }' | quoted
  grep -vE "^\| $id \|" docs/PROMISES.md | quoted | grep -E '[a-z]-[a-z]|::'
} | grep -E "$name" | sed 's/.*:://' | sort -u)
there=$({
  find crates -name out -prune -o -name '*.antt' -print0 | xargs -0 grep -ohE '^ *(unfoldable |abbrev )?pub (record |data )?[^ :({]+' | sed 's/.* //'
  find crates -name out -prune -o -name '*.rt' -print0 | xargs -0 grep -ohE '\bfn [a-z0-9_]+' | sed 's/fn //'
  find crates -name out -prune -o -name '*.antt' -printf '%f\n' | sed 's/\.antt$//'
  tr '|' '\n' <<<"$crates"
} | sort -u)
[ -n "$told" ] || { echo "docs/PROMISES.md names no theorem" && exit 1; }
each "is named in docs/PROMISES.md, and nothing of that name is public, or is a function" < <(comm -23 <(echo "$told") <(echo "$there"))

# Published functions: each `pub fn` and `pub extern "C" fn` is named, by its path in its crate, in the part on published functions.
published=$(find crates -name out -prune -o -name '*.rt' -print0 | xargs -0 grep -oE '^ *pub (extern "C" )?fn [a-z0-9_]+' |
  sed -E 's|crates/([a-z]+)/src/(.*)\.rt: *pub .*fn (.*)|\1::\2::\3|; s/::(lib|main)::/::/' | sort -u)
listed=$(sed -n '/^## The published functions/,/^## [^T]/p' docs/PROMISES.md | quoted | sort -u)
[ -n "$published" ] || { echo "no function is published" && exit 1; }
each "is published, and docs/PROMISES.md does not list it" < <(comm -23 <(echo "$published") <(echo "$listed"))
exit "$missing"
