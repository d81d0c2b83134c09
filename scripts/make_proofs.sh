#!/usr/bin/env bash
# Makes a release for programs in Rattle: the crates that a program over `ropey` depends on, with their proofs.
#
#     scripts/make_proofs.sh [FOLDER]
#
# It writes ropey-VERSION-KIT.tar.zst to FOLDER, by default the repository's folder out. The file has rope_text, rope_leaf,
# rope_tree, rope_join, rope_slice, rope_io, ropey, rope_position and rope_changes with the results of `rt lib`, so that a
# program over them only proves itself. They are valid only for the kit KIT and these very sources. `rt ci` trusts no such
# file and re-proves them. It needs `rt`, which proves the crates first, and zstd. A program over the release is checked
# before the release is written.
set -euo pipefail

top=$(cd "$(dirname "$0")/.." && pwd)
folder=$(realpath -m "${1:-$top/out}")
version=$(sed -n 's/^#define ROPEY_VERSION "\(.*\)"$/\1/p' "$top/bindings/c/ropey.h")
kit=$(rt version | grep -oE 'rattle-kit-[0-9a-z]+' | head -n 1)
name=ropey-$version-$kit
work=$(mktemp -d)
trap 'rm -rf "$work"' EXIT

mkdir -p "$work/$name/crates" "$folder"
for crate in $("$top/scripts/find_c_library.sh" --crates | grep -vx ropey_c); do
    (cd "$top/crates/$crate" && rt lib > "$work/log" 2>&1) || { tail -n 40 "$work/log"; exit 1; }
    mkdir -p "$work/$name/crates/$crate/out"
    for part in src specs proofs; do
        if [ -d "$top/crates/$crate/$part" ]; then cp -r "$top/crates/$crate/$part" "$work/$name/crates/$crate"; fi
    done
    cp -rl "$top/crates/$crate/out/rlib" "$work/$name/crates/$crate/out"
    grep -E "^$crate:" "$top/crates.txt" >> "$work/$name/crates.txt"
done
cp "$top/HANDLES" "$top/LICENSE" "$top/LICENSE-ropey" "$work/$name"
tar -C "$work" --sort=name --owner=0 --group=0 --numeric-owner -cf - "$name" | zstd -q -10 -T0 > "$work/$name.tar.zst"

# Checks that a program over the unpacked release proves only its own crate.
mkdir "$work/unpacked"
tar -C "$work/unpacked" --zstd -xf "$work/$name.tar.zst"
cd "$work/unpacked/$name"
mkdir -p crates/greeter/src
{ printf '//! A program over the release.\n#![tactic(auto)]\n\n'; cat "$top/crates/rope_callers/src/first_edit.rt"; } > crates/greeter/src/lib.rt
echo 'greeter: ropey' >> crates.txt
(cd crates/greeter && rt check > "$work/log" 2>&1) || { tail -n 40 "$work/log"; exit 1; }
if ! grep -q '^logic=proved functions=1 ' "$work/log" || grep -q '^rt: building' "$work/log"; then
    tail -n 40 "$work/log"
    exit 1
fi
mv "$work/$name.tar.zst" "$folder"
echo "made $folder/$name.tar.zst, $(stat -c %s "$folder/$name.tar.zst") bytes: a program over it only proves itself"
