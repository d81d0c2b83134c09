#!/usr/bin/env bash
# Builds the library for C: one archive, with nothing else to link.
#
#     scripts/build_c_library.sh [--proved] [--v3 | --aarch64] [ARCHIVE]
#
# It needs `rt`, a C compiler ($CC, or `cc`) and binutils. ARCHIVE is crates/ropey_c/out/libropey.a by default. It has one
# object: crates/ropey_c, the kit's three functions over malloc, realloc and free, and bindings/c/status_text.c. Its symbols
# are those of ropey.h. Beside it libropey.sources has the version and a checksum of the sources, and libropey.proved the last
# line of the proof, which names its assumptions.
#
# `rt lib` first proves the crate and those below it, unless they were proved before in this checkout. With --proved only the
# crate itself is proved, over the crates below as `rt ci` left them. That is for .ci/run, right after `rt ci` in a checkout
# that had no crates/*/out before: it trusts that `rt ci` proved these crates from the sources, and compares nothing. `rt lib`
# can't use them, since `rt ci` keeps their statements without their proofs.
#
# With --v3 the archive is crates/ropey_c/out/x86-64-v3/libropey.a, for processors with the instructions of x86-64-v3 (AVX2,
# BMI). The crate is proved for that processor.
#
# With --aarch64 the archive is crates/ropey_c/out/aarch64/libropey.a, for Linux on aarch64. The crate is proved for that
# processor. The kit has no heap for it: bindings/c/heap.c replaces its three functions. The C compiler and binutils are those
# that begin with aarch64-linux-gnu-.
set -euo pipefail

top=$(cd "$(dirname "$0")/.." && pwd)
kit=$(dirname "$(rt doc)")
is_proved=
flags=()
folder=$top/crates/ropey_c/out
heap=$kit/c/liblibc_c.a
while [ $# -gt 0 ]; do
    case $1 in
    --proved) is_proved=yes ;;
    --v3)
        flags=(--cpu x86-64-v3)
        folder=$folder/x86-64-v3
        ;;
    --aarch64)
        flags=(--target aarch64-unknown-linux-gnu)
        folder=$folder/aarch64
        heap=$top/bindings/c/heap.c
        export CC=aarch64-linux-gnu-gcc LD=aarch64-linux-gnu-ld OBJCOPY=aarch64-linux-gnu-objcopy AR=aarch64-linux-gnu-ar
        ;;
    *) break ;;
    esac
    shift
done
archive=$(realpath -m "${1:-$folder/libropey.a}")
work=$(mktemp -d)
trap 'rm -rf "$work"' EXIT
# It is the gate's line on another archive.
rm -f "${archive%.a}.gate"

# Writes the output of the proof to a file, and its progress to standard output.
shown() {
    awk -v log_file="$work/proofs" '
        { print > log_file }
        /^checked .*[0-9]+ of [0-9]+$/ { if (++seen % 20 == 0) print "  " $(NF - 2) " of " $NF " functions of ropey_c proved" }
        /^rt: (building|checking)/ { print "  " $0 }
        { fflush() }'
}

build() {
    cd "$top/crates/ropey_c"
    if [ -z "$is_proved" ]; then
        rt lib "${flags[@]}"
        return
    fi
    local libraries=(--extern "std=$kit/rlibs/std.rlib" -L "dependency=$kit/rlibs") crate rlib
    for crate in $("$top/scripts/find_c_library.sh" --crates); do
        rlib=$top/crates/$crate/out/rlib/$crate.rlib
        [ "$crate" = ropey_c ] || libraries+=(--extern "$crate=$rlib" -L "dependency=$(dirname "$rlib")")
    done
    mkdir -p out
    "$kit/bin/rattle" build --crate-name ropey_c --crate-type staticlib src/lib.rt "${libraries[@]}" --links ropey_c= \
        --antt-project "$kit/rattle/logic/antt-project.json" --logic-built "$kit/logic_built" --toolchain "$kit/toolchain" \
        --jobs "${RT_JOBS:-$(nproc)}" "${flags[@]}" -o out/libropey_c.a
}

echo "proving and compiling crates/ropey_c (takes minutes if it isn't proved yet)"
(build 2>&1) | shown || { tail -n 40 "$work/proofs"; exit 1; }
grep '^logic=' "$work/proofs" | tail -n 1 | tee "$work/proved"
grep -q '^logic=proved ' "$work/proved"

"$top/scripts/pack_c_library.sh" "$archive" "$top/crates/ropey_c/out/libropey_c.a" "$heap"
"$top/scripts/find_c_library.sh" --sources > "${archive%.a}.sources"
cp "$work/proved" "${archive%.a}.proved"
echo "built $archive"
