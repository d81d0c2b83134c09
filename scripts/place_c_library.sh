#!/usr/bin/env bash
# Copies a built library for C below a folder: the archive, a shared object, headers and files for build systems.
#
#     scripts/place_c_library.sh ARCHIVE FOLDER
#
# It needs a C compiler ($CC, or `cc`) to link the shared object. It writes
#
#     FOLDER/include/ropey.h, ropey.hpp
#     FOLDER/lib/libropey.a, libropey.sources, libropey.proved, and libropey.gate if the gate built the archive
#     FOLDER/lib/libropey.so -> libropey.so.1 -> libropey.so.VERSION
#     FOLDER/lib/x86-64-v3/libropey.a, .sources, .proved  if ARCHIVE has a folder x86-64-v3 beside it (--v3), of these sources
#     FOLDER/lib/glibc-hwcaps/x86-64-v3/libropey.so.1     likewise; the loader prefers it where the processor can run it
#     FOLDER/lib/pkgconfig/ropey.pc, ropey-shared.pc  for the archive, and for the shared object
#     FOLDER/lib/cmake/ropey/ropey-config.cmake       targets ropey::ropey and ropey::shared, likewise
#     FOLDER/lib/cmake/ropey/ropey-config-version.cmake
#     FOLDER/share/man/man3/ropey.3
#
# No file names FOLDER, so it may be moved.
set -euo pipefail

top=$(cd "$(dirname "$0")/.." && pwd)
archive=$(realpath "${1:?the archive libropey.a}")
folder=$(realpath -m "${2:?the folder to copy the library to}")
header=$top/bindings/c/ropey.h
version=$(sed -n 's/^#define ROPEY_VERSION "\(.*\)"$/\1/p' "$header")
major=${version%%.*}
work=$(mktemp -d)
trap 'rm -rf "$work"' EXIT

# Copies the archive and the files beside it that say what it was built of.
copy_archive() {
    local file
    mkdir -p "$2"
    for file in "$1" "${1%.a}".{sources,proved,gate}; do
        [ ! -f "$file" ] || [ "$file" -ef "$2/$(basename "$file")" ] || cp "$file" "$2"
    done
}

# Links a shared object of an archive. The functions of ropey.h are its only symbols. Its calls are bound as it is loaded.
link_shared() {
    echo '{ global: ropey_*; local: *; };' > "$work/symbols"
    "${CC:-cc}" -shared -o "$2/libropey.so.$version" -Wl,-soname,"libropey.so.$major" \
        -Wl,--version-script="$work/symbols" -Wl,-z,defs -Wl,-z,relro -Wl,-z,now \
        -Wl,--whole-archive "$1" -Wl,--no-whole-archive
    ln -sf "libropey.so.$version" "$2/libropey.so.$major"
}

mkdir -p "$folder/include" "$folder/lib/pkgconfig" "$folder/lib/cmake/ropey" "$folder/share/man/man3"
cp "$header" "$top/bindings/c/ropey.hpp" "$folder/include"
copy_archive "$archive" "$folder/lib"
link_shared "$archive" "$folder/lib"
ln -sf "libropey.so.$major" "$folder/lib/libropey.so"
wide=$(dirname "$archive")/x86-64-v3/libropey.a
if [ -f "$wide" ] && cmp -s "${wide%.a}.sources" "${archive%.a}.sources"; then
    copy_archive "$wide" "$folder/lib/x86-64-v3"
    mkdir -p "$folder/lib/glibc-hwcaps/x86-64-v3"
    link_shared "$wide" "$folder/lib/glibc-hwcaps/x86-64-v3"
else
    # The loader would prefer those of an earlier version.
    rm -f "$folder"/lib/glibc-hwcaps/x86-64-v3/libropey.so.* "$folder"/lib/x86-64-v3/libropey.*
fi
sed "s/@VERSION@/$version/" "$top/bindings/release/ropey.3" > "$folder/share/man/man3/ropey.3"

# Writes the file for pkg-config with a name, a description and the flags for the linker.
# `ropey` names the archive itself: with -lropey a linker prefers the shared object, and the program would then need a path for
# the loader.
pkgconfig() {
    cat > "$folder/lib/pkgconfig/$1.pc" <<EOF
prefix=\${pcfiledir}/../..
includedir=\${prefix}/include
libdir=\${prefix}/lib

Name: $1
Description: $2
Version: $version
Cflags: -I\${includedir}
Libs: -L\${libdir} $3
EOF
}
pkgconfig ropey 'A text buffer for editors, proved correct' '-l:libropey.a'
pkgconfig ropey-shared 'A text buffer for editors, proved correct (the shared object)' '-lropey'

cat > "$folder/lib/cmake/ropey/ropey-config.cmake" <<EOF
# The real path, since /lib may be a link to /usr/lib.
get_filename_component(ropey_folder "\${CMAKE_CURRENT_LIST_DIR}" REALPATH)
get_filename_component(ropey_prefix "\${ropey_folder}/../../.." ABSOLUTE)
if(NOT TARGET ropey::ropey)
    add_library(ropey::ropey STATIC IMPORTED)
    set_target_properties(ropey::ropey PROPERTIES
        IMPORTED_LOCATION "\${ropey_prefix}/lib/libropey.a"
        INTERFACE_INCLUDE_DIRECTORIES "\${ropey_prefix}/include")
endif()
if(NOT TARGET ropey::shared)
    add_library(ropey::shared SHARED IMPORTED)
    set_target_properties(ropey::shared PROPERTIES
        IMPORTED_LOCATION "\${ropey_prefix}/lib/libropey.so.$version"
        IMPORTED_SONAME "libropey.so.$major"
        INTERFACE_INCLUDE_DIRECTORIES "\${ropey_prefix}/include")
endif()
unset(ropey_folder)
unset(ropey_prefix)
EOF
cat > "$folder/lib/cmake/ropey/ropey-config-version.cmake" <<EOF
set(PACKAGE_VERSION "$version")
if(PACKAGE_FIND_VERSION VERSION_LESS_EQUAL PACKAGE_VERSION AND PACKAGE_FIND_VERSION_MAJOR STREQUAL "$major")
    set(PACKAGE_VERSION_COMPATIBLE TRUE)
endif()
if(PACKAGE_FIND_VERSION STREQUAL PACKAGE_VERSION)
    set(PACKAGE_VERSION_EXACT TRUE)
endif()
EOF
