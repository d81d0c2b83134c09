#!/usr/bin/env bash
# Searches the source for a lookup that could touch a node's reference count.
#
#     scripts/look_ups_touch_no_count.sh
#
# Reference counts change only when an owned node is made, cloned (`share`) or dropped. Lookups borrow nodes by `&`. So the
# files of lookups, in crates/ropey_c too, may mention no owned node, no `Rc`, no `share`, and no `Maker`, which makes nodes.
# The exception is `Rope::from_slice`, which makes a rope; in the library for C only `ropey_clone_chars` calls it, and that is
# no lookup. It needs git and grep. The status is 0 if nothing is found.
#
# bindings/c/look_ups_write_nothing.c tests the same at run time, with nodes and handles in read-only memory.
set -euo pipefail

cd "$(dirname "$0")/.."
lookups=(
    crates/rope_tree/src/lookup.rt crates/rope_tree/src/conversions.rt crates/rope_leaf/src/search.rt crates/rope_leaf/src/search
    crates/rope_slice/src crates/rope_position/src
    crates/ropey/src/lookups.rt crates/ropey/src/slices.rt crates/ropey/src/iter.rt crates/ropey/src/compare.rt
    crates/ropey_c/src/chunks.rt crates/ropey_c/src/compare.rt crates/ropey_c/src/conversions.rt crates/ropey_c/src/copies.rt
    crates/ropey_c/src/counts.rt crates/ropey_c/src/lengths.rt crates/ropey_c/src/lent.rt crates/ropey_c/src/lookups.rt
    crates/ropey_c/src/pieces.rt crates/ropey_c/src/positions.rt crates/ropey_c/src/file_writing.rt
    crates/ropey_c/src/changes.rt crates/ropey_c/src/change_edits.rt crates/ropey_c/src/change_sets.rt
    crates/ropey_c/src/lent_changes.rt crates/rope_changes/src/splice.rt
)
for path in "${lookups[@]}"; do
    [ -e "$path" ] || { echo "no such file: $path" >&2; exit 1; }
done

# Searches code without comments. An owned node is a `Node` that doesn't follow `&`, `&'a`, `[` or `use`.
code() { git grep -nE "$1" -- "${lookups[@]}" | grep -vE ':[0-9]+: *(//|ghost |use )' || true; }
counted=$(code '\bRc\b|\bshare\(|\.clone\(|\bMaker\b|\bBuilder\b|Rope::from_slice\(|&mut Node\b' |
    grep -vE '^crates/ropey/src/slices.rt:[0-9]+: *(pub fn from_slice\(|let root = between\(&mut Maker::new\(alloc\), node,)' || true)
owned=$(code '\bNode\b' | grep -vE "(&|&'a |\[)Node\b" || true)
if [ -n "$counted$owned" ]; then
    echo "a lookup may touch a reference count:" >&2
    printf '%s\n%s\n' "$counted" "$owned" >&2
    exit 1
fi
echo "lookups only borrow nodes: ${#lookups[@]} files and folders searched"
