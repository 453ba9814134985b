#!/bin/sh
# Makes a folder for temporary files that lies in memory, and prints its name:
#   tools/in_memory.sh JOBS
# For each wrong change that is tried, a copy of its crate is made with what a check of it kept, up to 1,600 files of 80 MB, and
# removed when that is done. On a disk that takes some seconds for each.
# Prints nothing where TMPDIR says already where such files go, where there is no such place, or not the room in memory for so many
# provers at once, and where programs may not be run in it.
set -eu
place=/dev/shm
[ -z "${TMPDIR:-}" ] && [ -w "$place" ] || exit 0
[ "$(stat -f -c %T "$place")" = tmpfs ] || exit 0
# For each prover 2 GB of memory, half a GB of it in that place.
memory=$(sed -nE 's/^MemAvailable: *([0-9]+) kB$/\1/p' /proc/meminfo)
room=$(df -Pk "$place" | awk 'NR == 2 { print $4 }')
[ "${memory:-0}" -ge $((2 * 1024 * 1024 * $1)) ] && [ "$room" -ge $((512 * 1024 * $1)) ] || exit 0
folder=$(mktemp -d "$place/hilugsaban.XXXXXX")
# rt runs the programs that it proved as nobody.
chmod 755 "$folder"
echo '#!/bin/sh' >"$folder/run"
chmod 755 "$folder/run"
if "$folder/run" 2>/dev/null; then
    rm "$folder/run"
    echo "$folder"
else
    rm -rf "$folder"
fi
