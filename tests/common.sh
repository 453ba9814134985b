# What the scripts that try wrong changes share. Sourced by tests/facts.sh and tests/spoiled.sh, after rt ci.
#
# A change is tried on copies of the crates that it touches, in a repository made for it. A check keeps in a crate's out/ every module
# that it checked; the copies begin with those, so that of an edited copy only what the edit touches is checked. Nothing is taken for
# proved from that: it is rt ci that proves every crate, from nothing.

# Replaces the one place of text $2 in file $1 by text $3; fails where there is none, or more than one.
replace() {
    OLD=$2 NEW=$3 awk '
        { text = text $0 "\n" }
        END {
            at = index(text, ENVIRON["OLD"])
            if (!at) exit 1
            rest = substr(text, at + length(ENVIRON["OLD"]))
            if (index(rest, ENVIRON["OLD"])) exit 1
            printf "%s%s%s", substr(text, 1, at - 1), ENVIRON["NEW"], rest
        }' "$1" >"$1.new" && mv "$1.new" "$1"
}

# Makes the changes of edit $1 in the crates below folder $2. A line `crate:` or `file:` holds for the `old:` and `new:` pairs
# after it; $3 is the crate of an edit that names none.
apply() {
    local line crate=${3:-} file='' old=''
    while IFS= read -r line; do
        case $line in
        'crate: '*) crate=${line#crate: } ;;
        'file: '*) file=${line#file: } ;;
        'old: '*) old=${line#old: } ;;
        'new:'*)
            line=${line#new:}
            replace "$2/$crate/$file" "$old" "${line# }" || return 1
            ;;
        esac
    done <"$1"
    [ -n "$old" ]
}

# Runs a command in the background, beside as many others as leave each a processor of its own.
beside() {
    while [ "$(jobs -rp | wc -l)" -ge "$(nproc)" ]; do wait -n; done
    "$@" &
}

# The crates of this repository.
crates_listed() {
    sed -nE 's/^([A-Za-z0-9_]+)( [a-z0-9_=]+)*:.*/\1/p' "$root/crates.txt"
}

# What crate $1 depends on.
deps_of() {
    sed -nE "s/^$1( [a-z0-9_=]+)*: *([^#]*).*/\2/p" "$root/crates.txt"
}

# Checks the crates that are named, or all, and what they stand on, where they have changed since they were last checked: what rt has to
# say is shown if that fails.
up_to_date() {
    local crate
    if [ $# -eq 0 ]; then
        rt all check --jobs "$(nproc)" >"$work/check.log" 2>&1
    else
        for crate in "$@"; do
            (cd "crates/$crate" && rt check) || return 1
        done >"$work/check.log" 2>&1
    fi || {
        tail -n 20 "$work/check.log" | cut -c1-1000
        false
    }
}

# What crate $1 stands on, each once and after what it stands on itself; crate $1 is the last.
copies_for() {
    below "$1" | awk '!seen[$0]++'
}

below() {
    local dep
    for dep in $(deps_of "$1"); do
        [ ! -d "$root/crates/$dep" ] || below "$dep"
    done
    echo "$1"
}

# A repository in folder $1 in which crate $2 is checked, with copies of the crates named after that, itself among them. Its crates.txt
# has that crate alone: check_in passes the other copies as source, so that the check goes on to what stands on a part of them that it
# refuses.
stand_in() {
    local place=$1 top=$2 crate
    shift 2
    mkdir -p "$place/crates/$top/out/incremental"
    for crate in "$@"; do
        mkdir -p "$place/crates/$crate"
        cp -R "$root/crates/$crate"/{src,specs,proofs} "$place/crates/$crate/" 2>/dev/null
        cp -R "$root/crates/$crate/out/incremental/." "$place/crates/$top/out/incremental/" 2>/dev/null
    done
    echo "$top:" >"$place/crates.txt"
}

# Where edit $2 names the example that has to refuse it, `example: NAME`, only that one of the computed examples is left in
# repository $1: together they take longer than all else that an edit of a definition touches. Fails where there is none of that name.
only_example() {
    local name file=$1/crates/rules/proofs/Examples.antt
    name=$(sed -n 's/^example: //p' "$2")
    [ -n "$name" ] || return 0
    grep -q "^$name = refl\$" "$file" || return 1
    awk -v kept="$name = refl" '
        BEGIN { RS = ""; ORS = "\n\n" }
        { last = $0; sub(/.*\n/, "", last) }
        last !~ / = refl$/ || last == kept' "$file" >"$file.new" && mv "$file.new" "$file"
}

# Checks crate $2 in the repository $1, with the copies named after that passed as source, and all else that it stands on as it is built
# in this repository.
check_in() {
    local place=$1 top=$2 crate given=()
    shift 2
    for crate in $(copies_for "$top"); do
        case " $* " in
        *" $crate "*) [ "$crate" = "$top" ] || given+=(--lib "$crate=../$crate/src/lib.rt") ;;
        *)
            given+=(-L "dependency=$root/crates/$crate/out/rlib")
            case " $(deps_of "$top") " in *" $crate "*) given+=(--extern "$crate=$root/crates/$crate/out/rlib/$crate.rlib") ;; esac
            ;;
        esac
    done
    (cd "$place/crates/$top" && rt check --jobs 1 "${given[@]}")
}

# A refusal that is at no fact: a name, a field or a goal that is not there, a text that cannot be read; a declaration `.._spec`, which
# only hands the answers over; a path in the proof that leads to another place of the code.
shape='not in scope|no field|is no name|has no |can be named|exports no|operand is missing|expected the end|cannot continue|error\[|error: `[^`]*[-_]spec`|one has `[^ `]*\.Lts\.[A-Z][^ `]*`'

# Those of the refusals $1 that are at no fact. What a tactic says of the goal that it has not proved may have any words in it.
at_no_fact() {
    grep -vE ': error: `[^`]*`: `(omega|search|grind)`: ' <<<"$1" | grep -E "$shape"
}

# The refusals in log $1, whose lines begin with what $2 matches, a place in a crate's files. Left out is what was not checked since
# something before it was refused.
refusals() {
    grep -aE "^(note: )?(\./)?$2:[0-9]+:[0-9]+: (error|it is not proved)" "$1" | grep -avE 'was not admitted|(was|were) not checked'
}
