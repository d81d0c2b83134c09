#!/usr/bin/env bash
# Makes the archive for C from compiled parts: one object, whose only symbols are the functions of ropey.h.
#
#     scripts/pack_c_library.sh ARCHIVE PART..
#
# A PART is an archive or a file of C: the output of `rt lib` for crates/ropey_c, and the heap's three functions.
# bindings/c/status_text.c is compiled and added. It needs a C compiler ($CC, or `cc`), ld, objcopy and ar ($LD, $OBJCOPY,
# $AR). The archive is position-independent.
set -euo pipefail

top=$(cd "$(dirname "$0")/.." && pwd)
archive=$(realpath -m "${1:?the archive to make}")
shift
work=$(mktemp -d)
trap 'rm -rf "$work"' EXIT

parts=()
for part in "$@" "$top/bindings/c/status_text.c"; do
    if [ "$part" != "${part%.c}" ]; then
        object=$work/$(basename "${part%.c}").o
        "${CC:-cc}" -std=c11 -O2 -fPIC -Wall -Wextra -Werror -I"$top/bindings/c" -c "$part" -o "$object"
        part=$object
    fi
    parts+=("$(realpath "$part")")
done
"${LD:-ld}" -r -o "$work/ropey.o" --whole-archive "${parts[@]}"
"${OBJCOPY:-objcopy}" --wildcard --keep-global-symbol='ropey_*' "$work/ropey.o"
(cd "$work" && "${AR:-ar}" rcsD libropey.a ropey.o)
mkdir -p "$(dirname "$archive")"
cp "$work/libropey.a" "$archive"
