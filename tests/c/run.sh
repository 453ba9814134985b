#!/bin/sh
# Tests include/hilugsaban.h against the proved archive: it compiles without a warning as C99 and as C++,
# declares exactly the functions that the archive defines, and the calls answer as tests/c/test.c expects.
# The archive is looked for in the folder HILUGSABAN_LIB, else in target/staticlib.
set -eu
root=$(cd "$(dirname "$0")/../.." && pwd)
library=${HILUGSABAN_LIB:-$root/target/staticlib}/libcapi.a
work=$(mktemp -d)
trap 'rm -rf "$work"' EXIT

[ -f "$library" ] || { echo "tests/c/run.sh: no $library: run tools/archive.sh" >&2; exit 1; }

sed -n 's/^uint64_t \(dos_[a-z_]*\)(.*/\1/p' "$root/include/hilugsaban.h" | sort >"$work/declared"
nm --defined-only --extern-only "$library" | sed -n 's/.* T //p' | sort >"$work/defined"
diff "$work/declared" "$work/defined" || { echo "header (<) and archive (>) differ" >&2; exit 1; }

strict='-O2 -Wall -Wextra -Wpedantic -Werror'
for compiler in "${CC:-cc} -std=c99" "${CXX:-c++} -std=c++11 -x c++"; do
    $compiler $strict -I"$root/include" -c "$root/tests/c/test.c" -o "$work/test.o"
    ${CC:-cc} "$work/test.o" "$library" -o "$work/test"
    printf "%s: " "$compiler"
    "$work/test"
done
