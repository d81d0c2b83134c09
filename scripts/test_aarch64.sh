#!/usr/bin/env bash
# Runs the tests of the library for C, and programs over a release, on an emulated aarch64.
#
#     scripts/test_aarch64.sh [--built]
#
# It needs the archive of scripts/build_c_library.sh --aarch64, aarch64-linux-gnu-gcc and qemu-aarch64 (Debian's packages
# gcc-aarch64-linux-gnu, libc6-dev-arm64-cross and qemu-user; g++-aarch64-linux-gnu for C++). It builds the archive unless
# --built is given. If something is missing, it prints a line and skips the tests. The status is 0 if no test fails.
set -euo pipefail

top=$(cd "$(dirname "$0")/.." && pwd)
here=$top/bindings/c
library=$top/crates/ropey_c/out/aarch64/libropey.a
for program in aarch64-linux-gnu-gcc qemu-aarch64; do
    if ! "$program" --version > /dev/null 2>&1; then
        echo "aarch64: not tested, since there is no $program"
        exit 0
    fi
done
if [ "$(cat "${library%.a}.sources" 2> /dev/null)" != "$("$top/scripts/find_c_library.sh" --sources)" ]; then
    if [ "${1:-}" = --built ]; then
        echo 'aarch64: not tested, since no archive is built of these sources (scripts/build_c_library.sh --aarch64)'
        exit 0
    fi
    "$top/scripts/build_c_library.sh" --aarch64
fi
work=$(mktemp -d)
trap 'rm -rf "$work"' EXIT

refusals="-Wl,--wrap=malloc -Wl,--wrap=realloc"
# Compiles a test with some flags, and runs it with some arguments.
runs() {
    local test=$1 flags=$2
    shift 2
    aarch64-linux-gnu-gcc -std=c11 -O2 -I"$here" "$here/$test.c" "$library" $flags -o "$work/$test"
    qemu-aarch64 -L /usr/aarch64-linux-gnu "$work/$test" "$@"
}
runs constants ''
runs checksums '' > "$work/checksums.stdout"
test "$(wc -l < "$work/checksums.stdout")" -eq 38
test -z "$(grep -vxFf "$top/crates/rope_bench/stdout" "$work/checksums.stdout")"
runs differential "$refusals" 5000 1
runs changes "$refusals" 500 1
runs files "$refusals" 500 1
runs leaks "$refusals -Wl,--wrap=free"
"$top/scripts/make_release.sh" --aarch64 "$(sed -n 's/^#define ROPEY_VERSION "\(.*\)"$/\1/p' "$here/ropey.h")" "$work" > "$work/log" 2>&1 ||
    { cat "$work/log"; exit 1; }
grep '^Release: ' "$work/log"
echo 'aarch64: the tests pass by qemu-aarch64'
