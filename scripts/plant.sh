#!/usr/bin/env bash
# Plants bugs in a copy of the repository, one at a time, and prints a row of a table for each: what was planted, where, and the goal that
# the prover did not accept. It ends with 1 if a planted bug was proved, if an edit is bad, or if a
# proof fails only because a name that it cites is gone (that would say nothing of the contract).
#   scripts/plant.sh [CRATE | EDIT ...]     all edits of planted/CRATE/, or single ones, as crates/CRATE/must-fail/NAME.edit; default: all of planted/
# An edit has the form of the must-fail edits; its first comment says what it plants. The checks begin with what earlier ones kept, so it is no
# verdict: the edits that stand in crates/*/must-fail are tried by the gate.
set -u
cd "$(dirname "$0")/.." || exit 1
work=$(mktemp -d) || exit 1
trap 'rm -rf "$work"' EXIT
tar -c --exclude=out crates crates.txt | tar -x -C "$work" || exit 1
rm -f "$work"/crates/*/must-fail/*.edit

crates=()
for one in "${@:-planted/*}"; do
    case $one in
    *.edit) edits=("$one") ;;
    *) edits=(planted/${one#planted/}/*.edit) ;;
    esac
    for edit in "${edits[@]}"; do
        crate=${edit%/*} crate=${crate%/must-fail} crate=${crate##*/}
        mkdir -p "$work/crates/$crate/must-fail" && cp "$edit" "$work/crates/$crate/must-fail/" || exit 1
        crates+=("$crate")
    done
done
mapfile -t crates < <(printf '%s\n' "${crates[@]}" | sort -u)

# The function and the goal that the line $2 tells of, in the crate's folder $1: an open goal at a line of the source, or an answer that no longer fits.
refusal() {
    local at line goal
    at=$(sed -nE 's/^refused, as it must be: .*(src\/[a-z_/]+\.rt):([0-9]+):.*\(`([^`]*).*/\1 \2 \3/p' <<<"$2")
    if [ -n "$at" ]; then
        read -r at line goal <<<"$at"
        # a function with an attribute begins at the attribute
        while sed -n "${line}p" "$1/$at" | grep -q '^ *#\['; do line=$((line + 1)); done
        echo "$(head -n "$line" "$1/$at" | sed -nE 's/^ *(pub(\([a-z]+\))? )?(extern "C" )?fn ([A-Za-z0-9_]+).*/\4/p' | tail -n 1): \`$goal\`"
    else
        sed -nE 's/^refused, as it must be: [^ ]*proofs\/(.*)\/[A-Za-z]+\.antt:[0-9:]* error: `([^`]*)`.*/\1: `\2`/p' <<<"$2" | sed 's|^.*/||'
    fi
}

failed=0
echo "| crate | planted | refused by |"
echo "|---|---|---|"
for crate in "${crates[@]}"; do
    (cd "$work" && rt must-fail "$crate") >"$work/log" 2>&1
    for edit in "$work/crates/$crate/must-fail/"*.edit; do
        name=${edit##*/}
        what=$(sed -n 's/^# //p' "$edit" | head -n 1)
        says=$(sed -n "s/^rt: must-fail $crate\/$name: //p" "$work/log" | head -n 1)
        row=$(refusal "$work/crates/$crate" "$says")
        if [ -n "$row" ]; then
            says=$row
        else
            case $says in
            "refused, as it must be (only because"*) failed=1 says="**by a name alone**: a proof cites what the edit took away" ;;
            refused*) ;;
            *) failed=1 says="**${says:-NOT TRIED}**" ;;
            esac
        fi
        name=${name%.edit}
        echo "| \`$crate\` | ${what:-${name//_/ }} | ${says:0:160} |"
    done
done
exit $failed
