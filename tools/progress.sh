#!/bin/sh
# Runs a command of rt that proves a crate and all that it stands on, and shows how far it is: the crate that is being proved, how many
# of how many are done, the time so far. On a terminal that is one line that moves, elsewhere a line for each crate.
#   tools/progress.sh CRATE LOG COMMAND..   in the folder of crates.txt; what the command prints goes to LOG, its status is handed on
# rt names a crate when it begins to prove it, and says nothing of one that has not changed since it last was. How many are done by then is
# worked out here, from rt's order.
# The command runs in front and the showing behind it, so that an interrupt ends the command with all that it started.
set -u
crate=$1 log=$2
shift 2
began=$(date +%s)
terminal=false
[ ! -t 2 ] || terminal=true

# The crates to prove in rt's order: each behind those that it depends on, in the order in which crates.txt names them.
order() {
    awk -F: -v top="$crate" '
        function visit(name,    list, i, n) {
            if (name in seen) return
            seen[name] = 1
            n = split(needs[name], list, " ")
            for (i = 1; i <= n; i++) if (list[i] in needs) visit(list[i])
            print name
        }
        { sub(/#.*/, "") }
        NF > 1 { split($1, words, " "); needs[words[1]] = $2 }
        END { visit(top) }' crates.txt
}

# One line with the time so far; on a terminal it takes the place of the one before.
show() {
    spent=$(($(date +%s) - began))
    line=$(printf 'desk: %s, %d min %02d s' "$1" $((spent / 60)) $((spent % 60)))
    if "$terminal"; then printf '\r%-60s' "$line" >&2; else printf '%s\n' "$line" >&2; fi
}

# The crates that rt has begun, in order.
begun() {
    sed -n 's/^rt: chose --jobs [0-9]* for \([a-z0-9_]*\)$/\1/p' "$log" | uniq
}

# How many crates stand before one in rt's order, or nothing where it is none of them.
before() {
    printf '%s\n' "$plan" | sed -n "/^$1\$/=" | awk '{ print $1 - 1 }'
}

# Shows each crate that rt begins. Ends where the command has, and where an interrupt took this script away.
watch() {
    shown=0
    now='reading the sources'
    ! "$terminal" || show "$now"
    while :; do
        over=false
        [ ! -e "$log.ended" ] || over=true
        for name in $(begun | tail -n +$((shown + 1))); do
            shown=$((shown + 1))
            done=$(before "$name")
            [ -n "$done" ] || continue
            now="proving $name, $done of $all done"
            show "$now"
        done
        ! "$over" || return
        kill -0 $$ 2>/dev/null || return
        sleep 1
        ! "$terminal" || show "$now"
    done
}

plan=$(order)
all=$(printf '%s\n' "$plan" | wc -l)
: >"$log"
watch &
"$@" >"$log" 2>&1
status=$?
: >"$log.ended"
wait
rm -f "$log.ended"
[ "$status" -ne 0 ] || show "all $all crates proved"
! "$terminal" || echo >&2
exit "$status"
