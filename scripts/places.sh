#!/bin/sh
# Lists the places in the crates' sources where a form may be older than the language, point by point, and counts them:
#   scripts/places.sh [COMMIT]        (HEAD where none is given)
# docs/DESIGN-PASS.md says what became of each.
set -eu
cd "$(git rev-parse --show-toplevel)"
at=${1:-HEAD}

# the lines of the sources that match, tests aside
find_lines() {
    git grep -nE -e "$1" "$at" -- 'crates/*/src/*.rt' ':!crates/*_tests/*' | sed 's/^[^:]*://' || true
}

say() {
    printf '\n%s: %s\n' "$1" "$(printf '%s' "$2" | grep -c . || true)"
    printf '%s\n' "$2" | sed '/^$/d; s/^/    /'
}

say '1a refusals that a function answers as an Option' "$(find_lines '-> Option<Slip>')"
say '1b arms that only hand a value or a refusal on' "$(find_lines 'None => (None|return None)|Err\((e|slip|fault)\) => (Err|Some|return)')"
say '1c functions that carry a theorem and answer 0' "$(find_lines '^    0$')"
say '1d other functions that answer u8 or u16, and codes' "$(find_lines 'fn .*\) -> u(8|16)( |$)|^ *\) -> u(8|16)$|const [A-Z_]*: u(8|16) ' | grep -vE '(stands|spelt|fits|read)\(\)')"
say '1e a bool in a Result, or a flag among parameters' "$(find_lines 'Result<bool|\((.*, )?(has|open|upper|a|b|strict): bool|^ *(has|open|upper|strict): bool,')"
say '1f slips written out' "$(find_lines 'Slip \{( |$)' | grep -v 'struct Slip')"

twins=$(git grep -hoE '^ *(pub(\(crate\))? )?(extern "C" )?fn [a-z_]+' "$at" -- 'crates/*/src/*.rt' ':!crates/*_tests/*' | sed 's/.*fn //' | sort | uniq -c | awk '$1 > 1 { print $1, $2 }')
say '2 names that several functions have' "$twins"

say '3a loops over a range of numbers' "$(find_lines 'for .* in [^ ]*\.\.')"
say '3b while and loop' "$(find_lines '^ *(while|loop) ')"
say '3c loops that are written out' "$(find_lines 'm\[at( \+ [0-9])?\]|_count\((set, )?c, [0-9]|counts\[[0-9]\]')"

say '4 conversions, printing and order by hand' "$(find_lines 'impl.* (fmt::)?Display for|impl.* From<|fn (sign|code|set|codes|rank|gap)_of|^struct .*\(|fn (at_most|lesser_of)\(')"

clauses=$(git grep -hE '^ *(requires|ensures)' "$at" -- 'crates/*/src/*.rt' ':!crates/*_tests/*' | sed 's/^ *//; s/self\./reader./g' | sort | uniq -c | awk '$1 > 2')
say '5a clauses that stand three times or more' "$clauses"
say '5b parameters that travel together: tables' "$(find_lines 'rows: &.*live: u16|^ *live: u16,$|entries: &(mut )?Entries<')"
say '5c parameters that travel together: lines' "$(find_lines 'lines: &mut Vec<Line>')"

say '6a arrays with a number beside them that says how many count' "$(find_lines '^ *pub (list|events|rows): ')"
say '6b references to owners' "$(find_lines '&Option<Vec|&Vec<|&String')"

say '7 a switch on which step to run, tables of functions' "$(find_lines 'match (\*?step|self\.0) |: fn\(|dyn ')"

printf '\n8 proofs: files and lines by crate\n'
for crate in $(git ls-tree --name-only "$at" crates/); do
    files=$(git ls-tree -r --name-only "$at" "$crate/proofs" | grep -c . || true)
    lines=$(git ls-tree -r --name-only "$at" "$crate/proofs" | while read -r f; do git show "$at:$f"; done | wc -l)
    [ "$files" = 0 ] || printf '    %-14s %4s files %6s lines\n' "$(basename "$crate")" "$files" "$lines"
done
