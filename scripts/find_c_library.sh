#!/usr/bin/env bash
# Prints the path of an archive libropey.a that was built from the current sources, or fails.
#
#     scripts/find_c_library.sh            # the archive's path
#     scripts/find_c_library.sh --crates   # ropey_c and all crates that it depends on
#     scripts/find_c_library.sh --sources  # the version, and a checksum of an archive's sources
#
# It searches the folder ROPEY_LIB_DIR, the output of scripts/build_c_library.sh, and the folder that pkg-config names. The
# file libropey.sources beside an archive has the version and the checksum of the sources that it was built from.
set -euo pipefail
cd "$(dirname "$0")/.."

# ropey_c and all crates of this repository that it depends on.
crates() {
    awk -F: '
        { split($1, name, " "); below[name[1]] = $2 }
        END {
            list[1] = "ropey_c"
            for (last = 1; at < last;) {
                crate = list[++at]
                if (crate in below && !seen[crate]++) print crate
                for (count = split(below[crate], names, " "); count > 0; count--)
                    if (!seen[names[count]]) list[++last] = names[count]
            }
        }' crates.txt | sort | while read -r crate; do
        if [ -d "crates/$crate" ]; then echo "$crate"; fi
    done
}

# The code of these crates, and the source in C.
sources() {
    crates | while read -r crate; do find "crates/$crate/src" -name '*.rt' | sort; done
    echo bindings/c/status_text.c
}

if [ "${1:-}" = --crates ]; then
    crates
    exit
fi

version=$(sed -n 's/^#define ROPEY_VERSION "\(.*\)"$/\1/p' bindings/c/ropey.h)
sum="$version $(sources | xargs cat | sha256sum | cut -c1-16)"
if [ "${1:-}" = --sources ]; then
    echo "$sum"
    exit
fi
installed=$(pkg-config --variable=libdir ropey 2> /dev/null || true)
for folder in "${ROPEY_LIB_DIR:-}" crates/ropey_c/out "$installed"; do
    if [ -f "$folder/libropey.a" ] && [ "$(cat "$folder/libropey.sources" 2> /dev/null)" = "$sum" ]; then
        realpath "$folder/libropey.a"
        exit
    fi
done
exit 1
