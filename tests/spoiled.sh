#!/usr/bin/env bash
# Spoiled definitions. Each tests/spoiled/*.edit names a crate, a change of one of its definitions, and the crate above it
# that must be refused for it, with the file in which the refusal has to stand: `crate:`, `file:`, `old:`, `new:` (one line
# each, old and new in pairs), `refused:`, `at:`; where a computed example has to refuse it, `example:` with the example's name.
#   tests/spoiled.sh         every edit
#   tests/spoiled.sh NAME    one of them
# The crates up to the refused one are copied aside, the change is made in the copy, and all that it touches is checked in one run:
# what an example says of the change does not wait for what a law says. Where a theorem has to refuse it, the computed examples
# (`crates/rules/proofs/Examples.antt`), which take the longest, are left out.
# The refusal has to be at a fact: a missing name or a definition that is no longer well formed does not count.
# First the crates are checked, where they have changed since they last were, and then the same copies unedited: where they fail by
# themselves, that an edit is refused means nothing.
# Ends with 'N passed, M failed', a copy proved unedited or an edit refused being one passed; exits non-zero where one failed.
set -uo pipefail
cd "$(dirname "$0")/.."
source tests/common.sh
root=$PWD
work=$(mktemp -d)
trap 'rm -rf "$work"' EXIT
edits=(tests/spoiled/${1:-*}.edit)
tops=$(sed -n 's/^refused: //p' "${edits[@]}" | sort -u)
up_to_date $tops || exit 1

# Checks the copies up to crate $1 unedited; writes the verdict to $work/CRATE.unedited.res.
unedited() {
    local top=$1 place=$work/$1.unedited copies
    copies=$(copies_for "$top")
    stand_in "$place" "$top" $copies
    if check_in "$place" "$top" $copies >"$place.log" 2>&1; then
        echo "proved: $top and all below it unedited" >"$place.res"
    else
        echo "unedited $top NOT PROVED: $(tail -n 1 "$place.log" | cut -c1-1000)" >"$place.res"
    fi
    rm -rf "$place"
}

# Leaves the computed examples out of the copy of rules in repository $1, if it has one.
without_examples() {
    local rules=$1/crates/rules/proofs
    if [ -d "$rules" ]; then
        rm "$rules/Examples.antt"
        sed -i '/^pub mod Examples$/d' "$rules/Lib.antt"
    fi
}

# Tries one edit; writes its verdict to $work/NAME.res.
try() {
    local edit=$1 name place log refused at found copies
    name=$(basename "$edit" .edit)
    place=$work/$name
    log=$place.log
    refused=$(sed -n 's/^refused: //p' "$edit")
    at=$(sed -n 's/^at: //p' "$edit")
    copies=$(copies_for "$refused")
    stand_in "$place" "$refused" $copies
    [ "$at" = proofs/Examples.antt ] || without_examples "$place"
    if ! only_example "$place" "$edit" || ! apply "$edit" "$place/crates"; then
        echo "spoiled $name: BAD EDIT: an old text is not in its file exactly once, or there is no such example" >"$place.res"
    elif check_in "$place" "$refused" $copies >"$log" 2>&1; then
        echo "spoiled $name: NOT REFUSED by $refused" >"$place.res"
    else
        found=$(refusals "$log" "$at")
        if [ -z "$found" ]; then
            echo "spoiled $name: NOT REFUSED in $refused/$at: $(refusals "$log" '[^ ]*' | head -n 1 | cut -c1-600), $(tail -n 1 "$log" | cut -c1-400)" >"$place.res"
        elif at_no_fact "$found" >/dev/null; then
            echo "spoiled $name: BAD EDIT: refused at a name and not at a fact: $(at_no_fact "$found" | head -n 1 | cut -c1-1000)" >"$place.res"
        else
            echo "refused: spoiled $name, as it must be ($refused, $(grep -m 1 -oE "$at:[0-9]+:[0-9]+" <<<"$found"))" >"$place.res"
        fi
    fi
    rm -rf "$place"
}

for top in $tops; do
    beside unedited "$top"
done
for edit in "${edits[@]}"; do
    beside try "$edit"
done
wait
all=$((${#edits[@]} + $(ls "$work"/*.unedited.res | wc -l)))
cat "$work"/*.res
good=$(cat "$work"/*.res | grep -cE '^(refused|proved): ')
echo "$good passed, $((all - good)) failed"
[ "$good" -eq "$all" ]
