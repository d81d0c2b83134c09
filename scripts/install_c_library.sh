#!/usr/bin/env bash
# Installs the library for C below a folder, such as /usr/local.
#
#     [DESTDIR=STAGE] scripts/install_c_library.sh PREFIX
#
# It installs the archive that scripts/find_c_library.sh finds, or else builds one (scripts/build_c_library.sh), which needs
# `rt` and binutils. It always needs a C compiler. It writes the files of scripts/place_c_library.sh below PREFIX, and LICENSE
# and LICENSE-ropey in share/licenses/ropey. With DESTDIR the files are written below STAGE/PREFIX, for a package that unpacks
# them at PREFIX.
#
#     cc editor.c $(pkg-config --cflags --libs ropey)
#     find_package(ropey) and target_link_libraries(editor ropey::ropey) in CMakeLists.txt
set -euo pipefail

top=$(cd "$(dirname "$0")/.." && pwd)
prefix=$(realpath -m "${1:?the folder to install below}")
folder=$(realpath -m "${DESTDIR:-}$prefix")

tools=("${CC:-cc}")
archive=$("$top/scripts/find_c_library.sh") || tools+=(rt ar ld objcopy)
for tool in "${tools[@]}"; do
    command -v "$tool" > /dev/null || {
        echo "install_c_library.sh: $tool is not found. rt comes with the Rattle kit, which isn't part of this repository" \
            "(README.md), and ar, ld and objcopy with binutils. A release needs none of them." >&2
        exit 1
    }
done
mkdir -p "$folder/lib" "$folder/share/licenses/ropey"
if [ -z "$archive" ]; then
    archive=$folder/lib/libropey.a
    "$top/scripts/build_c_library.sh" "$archive"
fi
"$top/scripts/place_c_library.sh" "$archive" "$folder"
cp "$top/LICENSE" "$top/LICENSE-ropey" "$folder/share/licenses/ropey"
echo "installed ropey $(sed -n 's/^#define ROPEY_VERSION "\(.*\)"$/\1/p' "$top/bindings/c/ropey.h") below $folder"
