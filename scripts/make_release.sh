#!/usr/bin/env bash
# Makes a release: one file with the library for C, C++ and Rust programs, which need neither `rt` nor this repository.
#
#     scripts/make_release.sh [--aarch64 | --built] VERSION [FOLDER]
#
# It writes ropey-VERSION-x86_64-linux.tar.gz to FOLDER, by default the repository's folder out, once scripts/test_release.sh
# passes on it. VERSION must be that of bindings/c/ropey.h. The archive is the one that scripts/find_c_library.sh finds, or a
# new one (scripts/build_c_library.sh). It needs a C compiler and GNU tar. The same commit, archives and compiler give the same
# file. A second archive is for processors with the instructions of x86-64-v3, which the loader and the Rust crate choose
# themselves. With --built the release has it only if it is built.
#
# With --aarch64 the file is ropey-VERSION-aarch64-linux.tar.gz, for C and C++ programs only.
set -euo pipefail

top=$(cd "$(dirname "$0")/.." && pwd)
processor=x86_64
glibc=2.14
is_built=
case "${1:-}" in
--built)
    is_built=yes
    shift
    ;;
--aarch64)
    processor=aarch64
    glibc=2.17
    export CC=aarch64-linux-gnu-gcc
    shift
    ;;
esac
version=${1:?the version of the release}
folder=$(realpath -m "${2:-$top/out}")
name=ropey-$version-$processor-linux
work=$(mktemp -d)
trap 'rm -rf "$work"' EXIT

if ! grep -qxF "#define ROPEY_VERSION \"$version\"" "$top/bindings/c/ropey.h"; then
    echo "make_release.sh: the version of bindings/c/ropey.h isn't $version" >&2
    exit 1
fi
if [ $processor = aarch64 ]; then
    archive=$top/crates/ropey_c/out/aarch64/libropey.a
    if [ "$(cat "${archive%.a}.sources" 2> /dev/null)" != "$("$top/scripts/find_c_library.sh" --sources)" ]; then
        "$top/scripts/build_c_library.sh" --aarch64
    fi
elif ! archive=$("$top/scripts/find_c_library.sh"); then
    "$top/scripts/build_c_library.sh"
    archive=$top/crates/ropey_c/out/libropey.a
fi
# An archive that is found elsewhere may stand in a folder that can't be written, without the second one beside it.
built=$top/crates/ropey_c/out
if [ $processor = x86_64 ] && [ -z "$is_built" ] &&
    ! cmp -s "$(dirname "$archive")/x86-64-v3/libropey.sources" "${archive%.a}.sources"; then
    cmp -s "$built/x86-64-v3/libropey.sources" "${archive%.a}.sources" || "$top/scripts/build_c_library.sh" --v3
    if [ "$(dirname "$archive")" != "$built" ]; then
        mkdir "$work/archives"
        for file in "$archive" "${archive%.a}".{sources,proved,gate}; do
            [ ! -f "$file" ] || cp "$file" "$work/archives"
        done
        cp -r "$built/x86-64-v3" "$work/archives"
        archive=$work/archives/libropey.a
    fi
fi

mkdir -p "$work/$name" "$folder"
"$top/scripts/place_c_library.sh" "$archive" "$work/$name"
"$top/scripts/copy_rust_crate.sh" "$work/$name/rust"
cp "$archive" "${archive%.a}.sources" "$work/$name/rust"
if [ -d "$work/$name/lib/x86-64-v3" ]; then
    mkdir "$work/$name/rust/x86-64-v3"
    cp "$work/$name"/lib/x86-64-v3/libropey.{a,sources} "$work/$name/rust/x86-64-v3"
fi
cp "$top/LICENSE" "$top/LICENSE-ropey" "$work/$name"
# Text for x86-64 only is between lines of @x86_64@, and text on the second archive between lines of @v3@.
drop=('/@x86_64@/d' '/@v3@/d')
if [ $processor = aarch64 ]; then
    drop[0]='/@x86_64@/,/@x86_64@/d'
    rm -r "$work/$name/rust"
fi
[ -d "$work/$name/lib/x86-64-v3" ] || drop[1]='/@v3@/,/@v3@/d'
sed "${drop[0]}; ${drop[1]}; s/@VERSION@/$version/g; s/@PROCESSOR@/$processor/g; s/@GLIBC@/$glibc/" \
    "$top/bindings/release/README.md" > "$work/$name/README.md"
chmod -R u=rwX,go=rX "$work/$name"
(cd "$work/$name" && find . -type f ! -name SHA256SUMS | LC_ALL=C sort | xargs sha256sum > SHA256SUMS)

# Each file has the commit's time, so that the same sources give the same file.
time=$(git -C "$top" log -1 --format=@%ct 2> /dev/null || date +@%s)
tar -C "$work" --sort=name --owner=0 --group=0 --numeric-owner --mtime="$time" -cf - "$name" |
    gzip -n9 > "$work/$name.tar.gz"
"$top/scripts/test_release.sh" "$work/$name.tar.gz"
mv "$work/$name.tar.gz" "$folder"
echo "made $folder/$name.tar.gz, $(stat -c %s "$folder/$name.tar.gz") bytes"
