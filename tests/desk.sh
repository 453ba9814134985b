#!/bin/sh
# The script ./desk: it runs the program from any folder, and where it cannot, it says why in a line and exits with 1.
# What the program refuses with the write-protect notch closed, and that it leaves the image's file alone then.
# Names padded with blanks, and names that a blank would cut short.
# Text with newlines here and ends of lines on the disk, and in the shell lines and a file's end.
# And what the script shows while the library is being proved, by tools/progress.sh: on lines as rt prints them, then on rt's own.
set -u
root=$(cd "$(dirname "$0")/.." && pwd)
work=$(mktemp -d)
trap 'rm -rf "$work"' EXIT
failed=0

# Expects an exit status and a part of what is printed, for the command behind them.
expect() {
    status=$1
    part=$2
    shift 2
    "$@" >"$work/printed" 2>&1
    answer=$?
    if [ "$answer" -ne "$status" ] || ! grep -qF -- "$part" "$work/printed"; then
        echo "exit status $answer, expected $status and the words '$part': $*"
        cat "$work/printed"
        failed=1
    fi
}

# The tools that the script needs first, without cargo.
mkdir "$work/tools"
for tool in dirname readlink; do
    ln -s "$(command -v "$tool")" "$work/tools/$tool"
done
ln -s "$root/desk" "$work/desk"

cd "$work" || exit 1
expect 0 "Its splits are what was written, byte for byte." "$work/desk" demo
expect 1 "desk: no command frob: see desk --help" "$work/desk" help frob
expect 1 "desk: no cargo on the PATH" env PATH="$work/tools" "$root/desk" demo
expect 1 "desk: no $work/libcapi.a, where HILUGSABAN_LIB says it is" env HILUGSABAN_LIB="$work" "$root/desk" demo
expect 1 "desk: the program could not be built" env RUSTC=/nonexistent "$root/desk" demo

# All that can be seen of the image's file: inode, permissions, times, bytes; and the names of the files beside it.
seen() {
    stat -c '%i %a %y %z' MEET.ATR
    cksum MEET.ATR
    ls -A
}

# Expects that a command of the program is refused with 144, for a reason, and leaves the image's file alone.
left_alone() {
    reason=$1
    shift
    seen >"$work/before"
    expect 1 "desk: MEET.ATR: 144 the write-protect notch is closed ($reason); the file was left alone" "$work/desk" "$@"
    seen | diff "$work/before" - || { echo "the file was not left alone: $*"; failed=1; }
}

# Expects that the shell prints the lines of $work/wanted for those of $work/script, exits with a status, and leaves the file alone.
shell_says() {
    status=$1
    shift
    seen >"$work/before"
    "$work/desk" shell "$@" <"$work/script" >"$work/printed" 2>/dev/null
    answer=$?
    if [ "$answer" -ne "$status" ] || ! diff "$work/wanted" "$work/printed"; then
        echo "exit status $answer, expected $status and the lines marked <: shell $*"
        failed=1
    fi
    seen | diff "$work/before" - || { echo "the file was not left alone: shell $*"; failed=1; }
}

# An image with a file and a deleted one that can be recovered, written long ago.
mkdir "$work/meet"
cd "$work/meet" || exit 1
printf 'LANE 1  29.31' >heats.dat
"$work/desk" new --atr MEET.ATR
"$work/desk" put MEET.ATR heats.dat
"$work/desk" put MEET.ATR heats.dat ENDS.DAT
"$work/desk" delete MEET.ATR ENDS.DAT
touch -d 2001-01-01 MEET.ATR

# Every command that would change the image, with --protect, then with a file that nobody may write: root may not either.
protect=--protect
for reason in "--protect was given" "the file may not be written"; do
    left_alone "$reason" put $protect MEET.ATR heats.dat
    left_alone "$reason" put $protect MEET.ATR heats.dat NEW.DAT
    left_alone "$reason" delete $protect MEET.ATR HEATS.DAT
    left_alone "$reason" delete MEET.ATR none $protect
    left_alone "$reason" recover MEET.ATR $protect 1
    left_alone "$reason" recover $protect MEET.ATR ENDS.DAT
    left_alone "$reason" rename $protect MEET.ATR HEATS.DAT OLD.DAT
    left_alone "$reason" lock $protect MEET.ATR HEATS.DAT
    left_alone "$reason" unlock $protect MEET.ATR HEATS.DAT

    # What only reads is served, and the list tells what can be recovered.
    expect 0 "   1  ENDS.DAT            1      13  deleted, can be recovered" "$work/desk" list $protect MEET.ATR
    expect 0 "LANE 1  29.31" "$work/desk" get $protect MEET.ATR HEATS.DAT -
    expect 0 "4C 41 4E 45" "$work/desk" sector $protect MEET.ATR 4
    "$work/desk" convert $protect MEET.ATR MEET.XFD && cmp -i 16:0 MEET.ATR MEET.XFD && rm MEET.XFD || failed=1

    # The calls that no command makes. With the notch open the image in memory can be changed; the file is left alone all the same.
    cat >"$work/script" <<'END'
format
sector $31 1 $57 4 128*00
header
delete HEATS.DAT
poke 4 0 0
notch open
delete HEATS.DAT
save
END
    cat >"$work/wanted" <<END
the notch is closed: $reason
144 the write-protect notch is closed; count 0
144 the write-protect notch is closed; count 0
144 the write-protect notch is closed; count 0
144 the write-protect notch is closed; count 0
? 144 the write-protect notch is closed
the notch is open, but save leaves the file alone: $reason
1 success; count 0
? $(pwd -P)/MEET.ATR: left alone: $reason
changes not saved
END
    shell_says 1 $protect MEET.ATR

    protect=''
    chmod 0444 MEET.ATR
done
chmod 0644 MEET.ATR
expect 1 "desk: no option --protect: see desk new --help" "$work/desk" new --protect NEW.XFD

# A writing channel whose close answers 144 stays open, and closes when the notch is open again.
cat >"$work/script" <<'END'
notch
open 0 write NEW.DAT
put 0 "abc"
notch closed
delete HEATS.DAT
close 0
put 0 "d"
notch open
close 0
delete HEATS.DAT
END
cat >"$work/wanted" <<'END'
the notch is open
1 success; count 0
1 success; count 3
the notch is closed
144 the write-protect notch is closed; count 0
144 the write-protect notch is closed; count 0
144 the write-protect notch is closed; count 0
the notch is open
1 success; count 0
1 success; count 0
changes not saved
END
shell_says 0 MEET.ATR

# Every command takes names padded with blanks, and none makes a file whose name ends in them.
mkdir "$work/padded"
cd "$work/padded" || exit 1
printf 'LANE 1  29.31' >heats.dat
"$work/desk" new MEET.XFD || failed=1
"$work/desk" put MEET.XFD heats.dat 'HEATS.DAT      ' || failed=1
"$work/desk" lock MEET.XFD 'D1:HEATS.DAT ' || failed=1
expect 1 "desk: HEATS.DAT: 167 the file is locked" "$work/desk" delete MEET.XFD 'HEATS.DAT  '
"$work/desk" unlock MEET.XFD 'HEATS.DAT ' || failed=1
"$work/desk" rename MEET.XFD 'HEATS.DAT  ' 'ENDS.DAT  ' || failed=1
"$work/desk" delete MEET.XFD 'ENDS.DAT ' || failed=1
expect 0 "slot 0 recovered, sectors taken back: 1" "$work/desk" recover MEET.XFD 'ENDS.DAT '
"$work/desk" get MEET.XFD 'D:ENDS.DAT   ' && cmp heats.dat ENDS.DAT || failed=1
[ "$(LC_ALL=C ls)" = "$(printf 'ENDS.DAT\nMEET.XFD\nheats.dat')" ] || { echo "other files than those that were to be made:"; ls; failed=1; }

# What stands behind a blank is not cut off in silence.
cut="165 a blank ends a name, and something stands behind it"
expect 1 "desk: ENDS .DAT: $cut" "$work/desk" get MEET.XFD 'ENDS .DAT'
expect 1 "desk: ENDS.DAT HEATS.DAT: $cut" "$work/desk" delete MEET.XFD 'ENDS.DAT HEATS.DAT'
expect 1 "desk: NEW 1: $cut" "$work/desk" rename MEET.XFD ENDS.DAT 'NEW 1'
expect 0 "   0  ENDS.DAT            1      13" "$work/desk" list MEET.XFD

# The shell's exact calls lend names as they are, and a name's count is the place of its ending byte.
cat >"$work/script" <<'END'
status "ENDS.DAT  "
status "ENDS .DAT"
cio 0 13 0 "D:ENDS.DAT HEATS.DAT" -
cio 0 32 0 "D:ENDS.DAT ,A " -
cio 0 32 0 "D:ENDS.DAT,A " -
name "D1:ENDS.DAT    " 11*00
END
cat >"$work/wanted" <<END
1 success; count 0
$cut; count 0
1 success; count 0
165 the name is malformed: capitals and digits, a letter first, at most 8 and 3; count 0
1 success; count 0
1 success; count 11
  0000  45 4E 44 53 20 20 20 20 44 41 54                 ENDS    DAT
changes not saved
END
"$work/desk" shell MEET.XFD <"$work/script" | diff "$work/wanted" - || { echo "the shell says otherwise (>)"; failed=1; }

# Text has newlines here and ends of lines, $9B, on the disk. A last line without an end has none in either place.
mkdir "$work/text"
cd "$work/text" || exit 1
printf 'LANE 1  29.31\nLANE 2  28.04\nno end' >heat.txt
"$work/desk" new MEET.XFD || failed=1
"$work/desk" put --text MEET.XFD heat.txt || failed=1
"$work/desk" get MEET.XFD HEAT.TXT bytes || failed=1
! cmp -s heat.txt bytes || { echo "no newline became an end of line"; failed=1; }
tr '\233' '\n' <bytes | cmp - heat.txt || failed=1
"$work/desk" get --text MEET.XFD HEAT.TXT back && cmp heat.txt back || failed=1

# What could not be told apart on the way back is refused, and nothing is written.
expect 1 'desk: bytes: byte 13 is $9B, an end of line, and could not be told from a newline; leave --text out' "$work/desk" put --text MEET.XFD bytes
"$work/desk" put MEET.XFD heat.txt PLAIN.TXT || failed=1
expect 1 'desk: PLAIN.TXT: byte 13 is $0A, a newline, and could not be told from an end of line; leave --text out' "$work/desk" get --text MEET.XFD PLAIN.TXT out
[ ! -e out ] || { echo "a refused file was written"; failed=1; }

# Lines, one longer than its buffer and a last one without an end; and the file's end, told with the last line.
cat >"$work/script" <<'END'
open 0 read HEAT.TXT
get-record 0 40
get-record 0 6
get-record 0 40
get-record 0 40
close 0
open 0 write ENDS.TXT
put-record 0 "LANE 3"
put-record 0 "LANE 4\x9Bnot written"
put-record 0 ""
close 0
show 2 6
open 0 read ENDS.TXT
get 0 14
get-record 0 40
get-record 0 40
END
cat >"$work/wanted" <<'END'
1 success; count 0
1 success; count 14
  0000  4C 41 4E 45 20 31 20 20 32 39 2E 33 31 9B        LANE 1  29.31.
137 the line did not end within the buffer, and its rest was dropped; count 6
  0000  4C 41 4E 45 20 32                                LANE 2
136 the file has ended; count 6
  0000  6E 6F 20 65 6E 64                                no end
136 the file has ended; count 0
1 success; count 0
1 success; count 0
1 success; count 6
1 success; count 7
1 success; count 0
1 success; count 0
yes; offset 640, length 15
  0000  4C 41 4E 45 20 33 9B 4C 41 4E 45 20 34 9B 9B     LANE 3.LANE 4..
1 success; count 0
1 success; count 14
  0000  4C 41 4E 45 20 33 9B 4C 41 4E 45 20 34 9B        LANE 3.LANE 4.
3 success, and the file's end was reached; count 1
  0000  9B                                               .
136 the file has ended; count 0
changes not saved
END
"$work/desk" shell MEET.XFD <"$work/script" | diff "$work/wanted" - || { echo "the shell says otherwise (>)"; failed=1; }

# Shows a command's run, the lines in $work/raw; expects an exit status, and without the times the lines of $work/wanted.
shows() {
    status=$1
    shift
    "$root/tools/progress.sh" "$@" 2>"$work/raw"
    answer=$?
    sed 's/, [0-9]* min [0-9][0-9] s$//' "$work/raw" >"$work/got"
    if [ "$answer" -ne "$status" ] || ! diff "$work/wanted" "$work/got"; then
        echo "exit status $answer, expected $status and the lines marked <: $*"
        failed=1
    fi
    [ ! -e "$work/log.ended" ] || failed=1
}

# Six crates, one of which is not needed, and one that has not changed, of which rt says nothing. They are taken in the order in which
# the crates above name them.
mkdir "$work/small"
cd "$work/small" || exit 1
printf '%s\n' 'top staticlib: left right io # above both' 'aside: base' 'left: middle' '' 'right: base' 'middle: base' 'base:' >crates.txt
printf '%s\n' 'rt: base: begins with what a check kept in /elsewhere' 'rt: chose --jobs 2 for base' 'fn base::f: proved' 'rt: chose --jobs 2 for left' 'rt: chose --jobs 4 for right' 'logic=proved functions=1' 'rt: chose --jobs 1 for top' >said
cat >"$work/wanted" <<'END'
desk: proving base, 0 of 5 done
desk: proving left, 2 of 5 done
desk: proving right, 3 of 5 done
desk: proving top, 4 of 5 done
desk: all 5 crates proved
END
shows 0 top "$work/log" cat said
cmp said "$work/log" || failed=1

# A line comes while its crate is being proved: here rt goes on when it is there, and after ten seconds gives up.
waits='head -n 5 said; for i in 1 2 3 4 5 6 7 8 9 10; do ! grep -q "proving right" "$1" || { tail -n 2 said; exit 0; }; sleep 1; done; exit 1'
shows 0 top "$work/log" sh -c "$waits" sh "$work/raw"

# On a terminal it is one line.
expect 0 "desk: all 5 crates proved" script -qec "'$root/tools/progress.sh' top '$work/log' cat said" /dev/null
[ "$(wc -l <"$work/printed")" -eq 1 ] || { echo "more than one line on a terminal"; failed=1; }

# Where a crate is not proved rt begins none above it; the status is the command's.
printf '%s\n' 'rt: chose --jobs 2 for base' 'logic=proved functions=1' 'rt: chose --jobs 2 for middle' 'logic=not-proved' 'rt: the library middle did not build, so nothing above it was checked' >said
printf '%s\n' 'desk: proving base, 0 of 5 done' 'desk: proving middle, 1 of 5 done' >"$work/wanted"
shows 7 top "$work/log" sh -c 'cat said; exit 7'

# The same with rt's own lines, of four small crates: the right one stands lower than the left one, and comes behind it. The comment in
# them is no other run's, or rt would take what that proved.
mkdir "$work/own"
cd "$work/own" || exit 1
printf '%s\n' 'shown_top: shown_left shown_right' 'shown_left: shown_base' 'shown_right:' 'shown_base:' >crates.txt
for name in base left right top; do
    mkdir -p "crates/shown_$name/src"
    echo "// Nothing, for $work." >"crates/shown_$name/src/lib.rt"
done
own='cd crates/shown_top && PATH=$PATH:/opt/rattle/bin exec rt lib'
cat >"$work/wanted" <<'END'
desk: proving shown_base, 0 of 4 done
desk: proving shown_left, 1 of 4 done
desk: proving shown_right, 2 of 4 done
desk: proving shown_top, 3 of 4 done
desk: all 4 crates proved
END
shows 0 shown_top "$work/log" sh -c "$own"
echo 'desk: all 4 crates proved' >"$work/wanted"
shows 0 shown_top "$work/log" sh -c "$own"
exit "$failed"
