#!/usr/bin/env bash
# Builds the library for C, and runs its programs and tests.
#
#     scripts/test_c_library.sh [--built] [CALLS]
#
# With --built it builds nothing: it takes the archive that scripts/find_c_library.sh finds. It needs `rt`, `ar` and a C
# compiler ($CC, or `cc`); the C++ test needs $CXX, or `c++`. CALLS is the number of random calls that are compared with a
# plain text, 20,000 by default; the number of random changes and of random files is a tenth of it. If the archive or a
# compiler is missing, it prints a line and skips the tests. The status is 0 if no test fails.
set -euo pipefail

top=$(cd "$(dirname "$0")/.." && pwd)
here=$top/bindings/c
library=$top/crates/ropey_c/out/libropey.a
if [ "${1:-}" = --built ]; then
    shift
    if ! library=$("$top/scripts/find_c_library.sh"); then
        echo 'C and C++: not tested, since no archive is built of these sources (scripts/build_c_library.sh)'
        exit 0
    fi
    is_built=yes
fi
calls=${1:-20000}
work=$(mktemp -d)
trap 'rm -rf "$work"' EXIT
cc=${CC:-cc}
cxx=${CXX:-c++}

"$top/scripts/compare_c_header.sh"
"$top/scripts/look_ups_touch_no_count.sh"
if ! "$cc" --version > /dev/null 2>&1; then
    echo "C: not tested, since there is no C compiler ($cc)"
    exit 0
fi
[ -n "${is_built:-}" ] || "$top/scripts/build_c_library.sh" "$library"

# Strict C11 from here on, with warnings as errors.
strict="-std=c11 -pedantic -Wall -Wextra -Werror -I$here"
refusals="-Wl,--wrap=malloc -Wl,--wrap=realloc"
"$cc" $strict -O2 "$here/constants.c" "$library" -o "$work/constants"
"$work/constants"

for example in example undo tree_sitter; do
    "$cc" $strict -Wshadow -Wconversion -O2 "$here/$example.c" "$library" -o "$work/$example"
    if [ "$example" = example ]; then
        cp "$here/example.txt" "$work/notes.txt"
        "$work/example" "$work/notes.txt" > "$work/printed"
    else
        "$work/$example" > "$work/printed"
    fi
    diff "$here/$example.stdout" "$work/printed"
done
echo 'C: the examples print what they must'

# The archive's symbols are the functions of the header.
functions() { sed -nE 's/^(ROPEY_NODISCARD )?(ropey_status|uint32_t|size_t|void|const char \*) ?\*?(ropey_\w+)\(.*/\3/p' "$@"; }
functions "$here/ropey.h" | sort > "$work/functions"
nm --defined-only --extern-only "$library" | awk 'NF == 3 { print $3 }' | sort | diff "$work/functions" -

# An installation with DESTDIR is complete.
DESTDIR=$work/stage "$top/scripts/install_c_library.sh" /opt/ropey > /dev/null
for file in include/ropey.h include/ropey.hpp lib/libropey.a lib/libropey.so.1 lib/pkgconfig/ropey.pc share/licenses/ropey/LICENSE-ropey; do
    test -e "$work/stage/opt/ropey/$file"
done

# An ignored status gives a warning.
printf '#include <ropey.h>\nint main(void) { ropey_rope rope = ROPEY_NO_ROPE; ropey_insert(&rope, 0, NULL, 0); return 0; }\n' > "$work/careless.c"
if "$cc" $strict -c "$work/careless.c" -o "$work/careless.o" 2> "$work/warnings" || ! grep -q unused-result "$work/warnings"; then
    echo 'C: no warning of an ignored status'
    exit 1
fi

"$cc" $strict -O2 "$here/checksums.c" "$library" -o "$work/checksums"
"$work/checksums" > "$work/checksums.stdout"
test "$(wc -l < "$work/checksums.stdout")" -eq 38
test -z "$(grep -vxFf "$top/crates/rope_bench/stdout" "$work/checksums.stdout")"
echo 'C: the checksums of rope_bench'

"$cc" $strict -O2 "$here/differential.c" "$library" $refusals -o "$work/differential"
"$work/differential" "$calls" 1
"$cc" $strict -O2 "$here/changes.c" "$library" $refusals -o "$work/changes"
"$work/changes" "$((calls / 10))" 1
"$cc" $strict -O2 "$here/files.c" "$library" $refusals -o "$work/files"
"$work/files" "$((calls / 10))" 1
"$cc" $strict -O2 "$here/look_ups_write_nothing.c" "$library" $refusals -Wl,--wrap=free -o "$work/look_ups"
"$work/look_ups"

# Every block is freed, and the test notices each call that is made to free nothing.
freed="$here/leaks.c $library $refusals -Wl,--wrap=free"
"$cc" $strict -O2 $freed -o "$work/leaks"
"$work/leaks"
for call in $("$work/leaks" --calls); do
    if "$work/leaks" "$call" 2> /dev/null; then
        echo "C: no test notices that $call frees nothing"
        exit 1
    fi
done

# An empty program shows whether the address checker and its leak finder work here.
checker="-g -O1 -fsanitize=address,undefined"
echo 'int main(void) { return 0; }' > "$work/nothing.c"
if "$cc" $checker "$work/nothing.c" -o "$work/nothing" 2> /dev/null && "$work/nothing" 2> /dev/null; then
    "$cc" $strict $checker "$here/differential.c" "$library" $refusals -o "$work/checked"
    "$work/checked" "$calls" 2
    "$cc" $strict $checker "$here/changes.c" "$library" $refusals -o "$work/checked_changes"
    "$work/checked_changes" "$((calls / 10))" 2
    "$cc" $strict $checker "$here/files.c" "$library" $refusals -o "$work/checked_files"
    "$work/checked_files" "$((calls / 10))" 2
    "$cc" $strict $checker $freed -o "$work/checked_leaks"
    "$work/checked_leaks" > /dev/null
    echo 'C: the same under the address checker and its leak finder'
else
    echo 'C: not run under the address checker, which does not work here'
fi

if ! "$cxx" --version > /dev/null 2>&1; then
    echo "C++: not tested, since there is no C++ compiler ($cxx)"
    exit 0
fi
clean="-pedantic-errors -Wall -Wextra -Wshadow -Wconversion -Wsign-conversion -Werror -I$here"
"$cxx" -std=c++17 $clean "$here/notes.cpp" "$library" -o "$work/notes"
cp "$here/example.txt" "$work/notes.txt"
"$work/notes" "$work/notes.txt" | diff "$here/notes.stdout" -
cmp "$here/example.txt" "$work/notes.txt"
for standard in c++17 c++20; do
    "$cxx" -std=$standard $clean -O2 "$here/wrapper.cpp" "$library" -o "$work/wrapper"
    "$work/wrapper"
    "$cxx" -std=$standard $clean -fno-exceptions -O2 "$here/expected.cpp" "$library" -o "$work/expected"
    "$work/expected"
done

# The classes cover each call of the header, except those for bindings.
sed '/^\/\* For bindings:/,$d' "$here/ropey.h" > "$work/calls"
for call in $(functions "$work/calls" | grep -vx ropey_version); do
    grep -qw "$call" "$here/ropey.hpp" || { echo "C++: no class calls $call"; exit 1; }
done
