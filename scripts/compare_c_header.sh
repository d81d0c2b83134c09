#!/usr/bin/env bash
# Compares bindings/c/ropey.h with the functions, numbers, structs and version of crates/ropey_c that it declares. One function
# isn't in the crate: ropey_status_text, in bindings/c/status_text.c.
#
#     scripts/compare_c_header.sh
#
# It needs only sed, awk and diff. It writes a line for each exported function with its parameters in order, for each status
# and set of line breaks with its number, and for each struct with its fields in order: once from the source, once from the
# header. It compares every mention of the version: the number that `ropey_version` returns, the four that the header defines,
# the header's first line, the newest of CHANGELOG.md, and those of README.md and the Rust crate. The status is 0 if the two
# lists are equal and there is only one version.
set -euo pipefail

top=$(cd "$(dirname "$0")/.." && pwd)
header=$top/bindings/c/ropey.h
source=$top/crates/ropey_c/src
work=$(mktemp -d)
trap 'rm -rf "$work"' EXIT

# Rewrites Rust types as C types. A slice is a pointer and a length, `Global` takes no bytes, and the fields of a piece in C
# are the pointer and the length of its slice.
types='s/alloc: Global(, )?//; s/&'"'"'a /\&/g; s/<'"'"'(a|_)>//g; s/(pieces): &mut \[Piece\]/ropey_piece *\1, size_t room/; s/(lines): &mut \[Slice\]/ropey_slice *\1, size_t room/; s/(\w+): &mut Slice/ropey_slice *\1/g; s/(buffer): &mut \[u8\]/uint8_t *\1, size_t room/
s/(\w+): &\[GivenEdit\]/const ropey_edit *\1, size_t count/g; s/(\w+): &mut \[Replacement\]/ropey_replacement *\1, size_t room/g
s/(\w+): &\[u8\]/const uint8_t *\1, size_t len/g; s/(\w+): &LentChanges/const ropey_changes *\1/g; s/(\w+): &Lent/const ropey_rope *\1/g; s/(\w+): &mut Handle/ropey_rope *\1/g; s/(\w+): &mut BuilderHandle/ropey_builder *\1/g; s/(\w+): &mut ChangesHandle/ropey_changes *\1/g
s/(\w+): &mut Span/ropey_range *\1/g; s/(\w+): &mut Place/ropey_place *\1/g; s/(\w+): &mut Chunk/ropey_chunk *\1/g; s/(\w+): &mut Counts/ropey_counts *\1/g
s/(\w+): &mut \[usize\]/size_t *\1, size_t count/g; s/(\w+): &mut usize/size_t *\1/g; s/(\w+): &mut u32/uint32_t *\1/g; s/(\w+): &mut u8/uint8_t *\1/g; s/(\w+): &mut i32/int32_t *\1/g; s/(\w+): &mut bool/bool *\1/g
s/(\w+): usize/size_t \1/g; s/(\w+): u32/uint32_t \1/g; s/(\w+): u8/uint8_t \1/g; s/(\w+): i32/int32_t \1/g; s/(\w+): bool/bool \1/g'

from_source() {
    cat "$source"/*.rt | awk '/^pub extern "C" fn / { on = 1; text = "" }
        on { sub(/^ +/, ""); text = text (text ~ /[(,]$/ || text == "" ? "" : " ") $0 }
        on && /\)( -> .*)?$/ { print text; on = 0 }' |
        sed -E "s/^pub extern \"C\" fn (\w+)(<'a>)?\(/\1(/; s/,\)/)/; s/,([^ ])/, \1/g" | sed -E "$types" | sed -E 's/\) -> u32$/) status/; s/\) -> usize$/) size_t/; s/\)$/) void/; s/\(\)/(void)/' |
        sed -E 's/^ropey_version\(void\) status/ropey_version(void) uint32_t/'
    sed -nE 's/^pub const (\w+): u32 = ([0-9]+);$/ROPEY_\1 = \2/p' "$source/status.rt"
    cat "$source"/*.rt | awk '/^pub struct (Span|Place|Counts|Chunk|Piece|Slice|GivenEdit|Replacement)/ { match($0, /(Span|Place|Counts|Chunk|Piece|Slice|GivenEdit|Replacement)/); name = substr($0, RSTART, RLENGTH); on = 1; text = name ":"; next }
        on && /^}/ { print text; on = 0 }
        on { sub(/^ +pub /, ""); sub(/,$/, ""); text = text " " $0 ";" }' |
        sed -E "s/^Span/ropey_range/; s/^Place/ropey_place/; s/^Counts/ropey_counts/; s/^Chunk/ropey_chunk/; s/^Piece/ropey_piece/; s/^Slice/ropey_slice/; s/^GivenEdit/ropey_edit/; s/^Replacement/ropey_replacement/; s/counts: Counts;/ropey_counts counts;/; s/text: &'a \[u8\];/const uint8_t *text; size_t len;/; s/(\w+): usize;/size_t \1;/g"
}

from_header() {
    awk '{ text = ""; rest = $0
        while (rest != "") {
            at = index(rest, inside ? "*/" : "/*")
            if (!inside) { text = text (at ? substr(rest, 1, at - 1) : rest) }
            rest = at ? substr(rest, at + 2) : ""
            if (at) { inside = !inside }
        }
        print text }' "$header" > "$work/plain"
    sed 's/^ROPEY_NODISCARD //' "$work/plain" | awk '/^(ropey_status|uint32_t|size_t|void) ropey_[a-z0-9_]*\(/ { on = 1; text = "" }
        on { sub(/^ +/, ""); text = text (text == "" ? "" : " ") $0 }
        on && /;$/ { print text; on = 0 }' |
        sed -E 's/^(\w+) (\w+\(.*\));$/\2 \1/; s/\) ropey_status$/) status/'
    sed -nE 's/^ +(ROPEY_\w+) = ([0-9]+),? *$/\1 = \2/p' "$work/plain"
    awk '/^typedef struct \{/ { on = 1; text = ""; next }
        on && /^}/ { sub(/^} /, ""); sub(/;$/, ""); print $0 ":" text; on = 0 }
        on { sub(/^ +/, ""); sub(/ +$/, ""); text = text " " $0 }' "$work/plain" | grep -v '^ropey_\(rope\|builder\|changes\):'
}

# Each mention of a version, with the version. The source's is major * 1000000 + minor * 1000 + patch.
versions() {
    sed -nE 's/^pub const VERSION: u32 = ([0-9_]+);$/\1/p' "$source/version.rt" | tr -d _ |
        awk '{ print "crates/ropey_c/src/version.rt: " int($1 / 1000000) "." int($1 / 1000) % 1000 "." $1 % 1000 }'
    awk '$2 ~ /^ROPEY_VERSION_/ { part[$2] = $3 }
        END { print "bindings/c/ropey.h, its numbers: " part["ROPEY_VERSION_MAJOR"] "." part["ROPEY_VERSION_MINOR"] "." part["ROPEY_VERSION_PATCH"] }' "$header"
    sed -nE 's/^#define ROPEY_VERSION "(.*)"$/bindings\/c\/ropey.h, its text: \1/p; 1s/^.*Ropey ([0-9.]+[0-9]).*$/bindings\/c\/ropey.h, its first line: \1/p' "$header"
    sed -nE 's/^## (.*)$/CHANGELOG.md: \1/p' "$top/CHANGELOG.md" | head -n 1
    sed -nE 's/^Version ([0-9.]+[0-9])\..*$/README.md: \1/p' "$top/README.md"
    sed -nE 's/^version = "1\.6\.1\+(.*)"$/bindings\/rust\/Cargo.toml: \1/p' "$top/bindings/rust/Cargo.toml"
}

from_source | sort > "$work/source"
from_header | sort > "$work/header"
diff "$work/source" "$work/header"
versions > "$work/versions"
if [ "$(wc -l < "$work/versions")" -ne 7 ] || [ "$(sed 's/.*: //' "$work/versions" | sort -u | wc -l)" -ne 1 ]; then
    echo 'not the same version seven times:'
    cat "$work/versions"
    exit 1
fi
echo "C: $(grep -c '(' "$work/header") functions, $(grep -c ' = ' "$work/header") numbers and $(grep -c ':' "$work/header") structs of the header are those of the source, and its version is $(sed -n '1s/.*: //p' "$work/versions") everywhere"
