#!/usr/bin/env bash
# Unpacks a release into an empty folder, and builds and runs programs in C, C++ and Rust against it.
#
#     scripts/test_release.sh FILE
#     scripts/test_release.sh --built
#
# FILE is the output of scripts/make_release.sh. With --built the script makes a release of the archive that
# scripts/find_c_library.sh finds, and tests that; if there is none, it prints a line. `rt` is removed from the PATH, and
# nothing is downloaded. It needs a C compiler ($CC, or `cc`). Tests that need a missing C++ compiler, pkg-config, CMake, cargo
# or rustc are skipped, as are those for x86-64-v3 if the release has no archive for it; the last line lists those that passed.
# The status is 0 if every program printed the expected output.
# Programs of a release for aarch64 are compiled by aarch64-linux-gnu-gcc and run by qemu-aarch64.
set -euo pipefail

top=$(cd "$(dirname "$0")/.." && pwd)
work=$(mktemp -d)
trap 'rm -rf "$work"' EXIT
cc=${CC:-cc}
cxx=${CXX:-c++}
file=${1:?the release, or --built}

if [ "$file" = --built ]; then
    if ! "$top/scripts/find_c_library.sh" > /dev/null; then
        echo 'Release: not tested, since no archive is built of these sources (scripts/build_c_library.sh)'
    elif ! "$cc" --version > /dev/null 2>&1; then
        echo "Release: not tested, since there is no C compiler ($cc)"
    else
        "$top/scripts/make_release.sh" --built "$(sed -n 's/^#define ROPEY_VERSION "\(.*\)"$/\1/p' "$top/bindings/c/ropey.h")" \
            "$work" > "$work/log" 2>&1 || { cat "$work/log"; exit 1; }
        grep '^Release: ' "$work/log"
    fi
    exit 0
fi

run=()
if [[ $(basename "$file") == *-aarch64-* ]]; then
    cc=aarch64-linux-gnu-gcc
    cxx=aarch64-linux-gnu-g++
    run=(qemu-aarch64 -L /usr/aarch64-linux-gnu)
fi

# From here on only the release is visible: no library of the environment, and no `rt`. A folder of the PATH with an `rt` is
# replaced by links to its other programs.
unset ROPEY_LIB_DIR PKG_CONFIG_PATH LD_LIBRARY_PATH LIBRARY_PATH CPATH CMAKE_PREFIX_PATH CARGO_TARGET_DIR
kept=
while IFS= read -r -d : part; do
    if [ -e "$part/rt" ]; then
        links=$(mktemp -d -p "$work" path.XXX)
        ln -s "$part"/* "$links"
        rm "$links/rt"
        part=$links
    fi
    kept+=${kept:+:}$part
done <<< "$PATH:"
export PATH=$kept
if command -v rt; then
    echo 'Release: rt is still on the PATH' >&2
    exit 1
fi

# Without `rt` and an archive, the installer prints a line and installs nothing.
mkdir "$work/bare"
cp -r "$top/scripts" "$top/bindings" "$top/crates.txt" "$work/bare"
if "$work/bare/scripts/install_c_library.sh" "$work/installed" > "$work/log" 2>&1 || [ -e "$work/installed" ] ||
    ! grep -q '^install_c_library.sh: rt is not found' "$work/log" || [ "$(wc -l < "$work/log")" -ne 1 ]; then
    cat "$work/log"
    exit 1
fi

passed=C
tar -C "$work" -xzf "$file"
release=$(echo "$work"/ropey-*)
(cd "$release" && sha256sum --quiet --check SHA256SUMS)
find "$release" -type f | sed "s|^$release/|./|" | grep -vx ./SHA256SUMS | LC_ALL=C sort > "$work/files"
sed 's/^[^ ]*  //' "$release/SHA256SUMS" | diff "$work/files" -
lib=$release/lib

# The shared object exports the functions of the header, and nothing else.
grep -oE '^(ROPEY_NODISCARD )?(ropey_status|uint32_t|size_t|void|const char \*) ?\*?ropey_\w+\(' "$release/include/ropey.h" |
    grep -oE 'ropey_\w+\(' | tr -d '(' | sort > "$work/functions"
for object in "$lib"/libropey.so.1 "$lib"/glibc-hwcaps/*/libropey.so.1; do
    [ ! -f "$object" ] || nm -D --defined-only "$object" | awk '{ print $3 }' | sort | diff "$work/functions" -
done

# A program that loads the shared object by name can call them, also for the message of a status.
if [ ${#run[@]} -eq 0 ] && python3 --version > /dev/null 2>&1; then
    python3 - "$lib/libropey.so" <<'PYTHON'
import ctypes, sys
library = ctypes.CDLL(sys.argv[1])
library.ropey_status_text.restype = ctypes.c_char_p
handle = ctypes.c_void_p()
status = library.ropey_from_text(b"\xff", ctypes.c_size_t(1), 2, ctypes.byref(handle))
sys.exit(library.ropey_status_text(status) != b"the bytes are not UTF-8")
PYTHON
fi

# The release has the result of the library's proof, and that of the gate if the gate built the archive.
grep -q '^logic=proved functions=' "$lib/libropey.proved"
[ ! -f "$lib/libropey.gate" ] || grep -qE '^[0-9]+ passed, 0 failed$' "$lib/libropey.gate"

# The shared object needs no newer C library than the release's README says.
newest=$(nm -D "$lib/libropey.so" | sed -n 's/.*@GLIBC_//p' | sort -V | tail -n 1)
glibc=$(sed -nE 's/.* glibc ([0-9.]+) or later.*/\1/p' "$release/README.md")
if [ "$(printf '%s\n' "$newest" "$glibc" | sort -V | tail -n 1)" != "$glibc" ]; then
    echo "Release: the shared object needs glibc $newest, and README.md says $glibc" >&2
    exit 1
fi

# Runs a program linked with the archive, and compares its output with NAME.stdout. The example works on a file.
static_prints() {
    cp "$work/programs/example.txt" "$work/notes.txt"
    "${run[@]}" "$2" "$work/notes.txt" > "$work/printed"
    diff "$work/programs/$1.stdout" "$work/printed"
}

# Where the processor has the instructions of x86-64-v3, the loader finds the object for these.
archives=("$lib/libropey.a")
loaded=$lib
if [ -d "$lib/x86-64-v3" ] && /lib64/ld-linux-x86-64.so.2 --help 2> /dev/null | grep -q 'x86-64-v3 (supported'; then
    archives+=("$lib/x86-64-v3/libropey.a")
    loaded=$lib/glibc-hwcaps/x86-64-v3
    passed+=', x86-64-v3'
elif [ ${#run[@]} -eq 0 ]; then
    echo 'Release: nothing is tested for x86-64-v3: no archive (scripts/build_c_library.sh --v3), or no processor or loader for it'
fi

# Runs a program linked with the shared object, after checking that the loader finds that object.
shared_prints() {
    if [ ${#run[@]} -eq 0 ]; then
        LD_LIBRARY_PATH=$lib ldd "$2" > "$work/loaded"
        grep -qE "$loaded/libropey.so.1(\.|\s)" "$work/loaded" || { cat "$work/loaded"; exit 1; }
    fi
    LD_LIBRARY_PATH=$lib QEMU_SET_ENV=LD_LIBRARY_PATH=$lib static_prints "$1" "$2"
}

# The programs are copied, so that they can't include the headers of the repository.
mkdir "$work/programs"
cp "$top"/bindings/c/{example,undo,tree_sitter}.{c,stdout} "$top"/bindings/c/{example.txt,notes.stdout,{notes,wrapper,expected}.cpp} "$work/programs"
echo 'C++: as it must be' > "$work/programs/wrapper.stdout"
echo 'C++ without exceptions: as it must be' > "$work/programs/expected.stdout"
cd "$work/programs"

strict=(-std=c11 -pedantic -Wall -Wextra -Werror "-I$release/include")
for program in example undo tree_sitter; do
    for archive in "${archives[@]}"; do
        "$cc" "${strict[@]}" "$program.c" "$archive" -o "$work/static"
        static_prints "$program" "$work/static"
    done
    "$cc" "${strict[@]}" "$program.c" -L"$lib" -lropey -o "$work/shared"
    shared_prints "$program" "$work/shared"
done

if "$cxx" --version > /dev/null 2>&1; then
    for program in notes wrapper; do
        "$cxx" -std=c++17 -I"$release/include" "$program.cpp" "$lib/libropey.a" -o "$work/static"
        static_prints "$program" "$work/static"
        "$cxx" -std=c++17 -I"$release/include" "$program.cpp" -L"$lib" -lropey -o "$work/shared"
        shared_prints "$program" "$work/shared"
    done
    "$cxx" -std=c++17 -fno-exceptions -I"$release/include" expected.cpp "$lib/libropey.a" -o "$work/static"
    static_prints expected "$work/static"
    passed+=', C++'
fi

if pkg-config --version > /dev/null 2>&1; then
    export PKG_CONFIG_PATH=$lib/pkgconfig
    "$cc" example.c $(pkg-config --cflags --libs ropey) -o "$work/static"
    static_prints example "$work/static"
    "$cc" example.c $(pkg-config --cflags --libs ropey-shared) -o "$work/shared"
    shared_prints example "$work/shared"
    unset PKG_CONFIG_PATH
    passed+=', pkg-config'
fi

if [ ${#run[@]} -eq 0 ] && cmake --version > /dev/null 2>&1 && "$cxx" --version > /dev/null 2>&1; then
    cat > CMakeLists.txt <<'CMAKE'
cmake_minimum_required(VERSION 3.16)
project(editor C CXX)
set(CMAKE_CXX_STANDARD 17)
find_package(ropey 1.0 REQUIRED)
add_executable(static example.c)
target_link_libraries(static ropey::ropey)
add_executable(shared wrapper.cpp)
target_link_libraries(shared ropey::shared)
CMAKE
    flags=(-DCMAKE_PREFIX_PATH="$release" -DCMAKE_C_COMPILER="$cc" -DCMAKE_CXX_COMPILER="$cxx")
    { cmake -B "$work/cmake" "${flags[@]}" && cmake --build "$work/cmake"; } > "$work/log" 2>&1 || { cat "$work/log"; exit 1; }
    static_prints example "$work/cmake/static"
    shared_prints wrapper "$work/cmake/shared"
    sed -i 's/ropey 1.0/ropey 2.0/' CMakeLists.txt
    if cmake -B "$work/cmake_2" "${flags[@]}" > "$work/log" 2>&1; then
        echo 'Release: CMake accepts it as version 2' >&2
        exit 1
    fi
    passed+=', CMake'
fi

if [ -d "$release/rust" ] && cargo --version > /dev/null 2>&1 && rustc --version > /dev/null 2>&1; then
    mkdir "$work/rust"
    cd "$work/rust"
    { cargo new --quiet --vcs none notes && cd notes && cargo add --quiet --offline ropey --path "$release/rust" &&
        cp "$top/bindings/rust/examples/notes.rs" src/main.rs && printf 'one\ntwo\n' > notes.txt &&
        cargo run --quiet --offline; } > "$work/log" 2>&1 || { cat "$work/log"; exit 1; }
    printf 'one\na new line\ntwo\n' | diff - notes.txt
    if [ ${#archives[@]} -eq 2 ]; then
        printf 'one\ntwo\n' > notes.txt
        RUSTFLAGS='-C target-cpu=x86-64-v3' cargo run --quiet --offline --target-dir "$work/wide" > "$work/log" 2>&1 || { cat "$work/log"; exit 1; }
        printf 'one\na new line\ntwo\n' | diff - notes.txt
        grep -q 'native=.*/x86-64-v3$' "$work"/wide/debug/build/ropey-*/output
    fi
    passed+=', Rust'
fi
echo "Release: $passed: the programs print what they must over $(basename "$file"), with its archive and its shared object"
