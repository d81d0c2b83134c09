#!/usr/bin/env bash
# Builds and tests the Rust crate in bindings/rust over the library for C.
#
#     scripts/test_rust_crate.sh [--built]
#
# It needs cargo, rustc, cc (which rustc links with), and the archive libropey.a: in the folder ROPEY_LIB_DIR, as the output of
# scripts/build_c_library.sh, or as pkg-config finds it; with --built the archive that scripts/find_c_library.sh finds. If one
# is missing, it prints a line and skips the tests. Nothing is downloaded, and nothing is left in the checkout. The tests run
# for each set of line breaks that the features choose, and without the lock. Then the crate replaces ropey in a workspace,
# once from inside of it, and is packaged; a build for another platform, or over an archive of another version, must fail. The
# status is 0 if no test fails.
set -euo pipefail

top=$(cd "$(dirname "$0")/.." && pwd)
crate=$top/bindings/rust

for program in cargo rustc cc; do
    if ! "$program" --version > /dev/null 2>&1; then
        echo "Rust crate: not tested, since there is no $program"
        exit 0
    fi
done

if [ "${1:-}" = --built ]; then
    if ! library=$("$top/scripts/find_c_library.sh"); then
        echo 'Rust crate: not tested, since no archive is built of these sources (scripts/build_c_library.sh)'
        exit 0
    fi
    folder=$(dirname "$library")
elif [ -n "${ROPEY_LIB_DIR:-}" ]; then
    folder=$ROPEY_LIB_DIR
elif [ -f "$top/crates/ropey_c/out/libropey.a" ]; then
    folder=$top/crates/ropey_c/out
else
    folder=$(pkg-config --variable=libdir ropey)
fi
folder=$(realpath "$folder")
unset ROPEY_LIB_DIR PKG_CONFIG_PATH CARGO_TARGET_DIR

# The crate must stay thin. Comments and blank lines don't count.
lines=$(find "$crate/src" "$crate/build.rs" -name '*.rs' -print0 | xargs -0 cat | grep -cvE '^[[:space:]]*(//|$)')
if [ "$lines" -gt 2650 ]; then
    echo "Rust crate: $lines lines of code, more than 2650"
    exit 1
fi

# Each public function has an example, its own or its macro's.
find "$crate/src" -name '*.rs' -print0 | xargs -0 awk '
    FNR == 1 { has = 0 }
    /^ *(\/\/\/|#\[)/ { if (/```|example!/) has = 1; next }
    /^ *pub fn / && !has { print FILENAME ": no example: " $0; missing = 1 }
    { has = 0 }
    END { exit missing }'

work=$(mktemp -d)
trap 'rm -rf "$work"' EXIT
mkdir -p "$work/bindings" "$work/crates/ropey_c"
cp -r "$crate" "$work/bindings/rust"
rm -rf "$work/bindings/rust/target"
ln -s "$folder" "$work/crates/ropey_c/out"
cd "$work/bindings/rust"
# The tests compare with plain texts, which is slow without optimization.
export CARGO_PROFILE_TEST_OPT_LEVEL=1

# Runs the tests with some flags, and prints the number that passed.
try() {
    local name=$1
    shift
    if ! cargo test --quiet --offline "$@" > "$work/log" 2>&1; then
        tail -n 60 "$work/log"
        echo "Rust crate, $name: FAILED"
        exit 1
    fi
    local passed
    passed=$(sed -n 's/^test result: ok\. \([0-9]*\) passed.*/\1/p' "$work/log" | paste -sd+)
    echo "Rust crate, $name: $((passed)) tests passed"
}

# Runs a command that must succeed without a warning.
must() {
    local name=$1
    shift
    if ! "$@" > "$work/said" 2> "$work/log" || grep '^warning' "$work/log" | grep -qv 'manifest has no documentation'; then
        tail -n 60 "$work/said" "$work/log"
        echo "Rust crate, $name: FAILED"
        exit 1
    fi
}

# Runs a command that must fail with a given text.
must_fail() {
    local name=$1 text=$2
    shift 2
    if "$@" > "$work/log" 2>&1 || ! grep -q "$text" "$work/log"; then
        tail -n 60 "$work/log"
        echo "Rust crate, $name: FAILED"
        exit 1
    fi
}

echo "Rust crate: $lines lines of code"
try "Unicode's line breaks, and the examples"
try 'LF, CR and CR LF' --tests --no-default-features --features cr_lines
try 'LF alone' --tests --no-default-features
try 'without the lock' --tests --features single_thread

# A patch replaces ropey 1.6 in a workspace whose member requests it with features, also if the crate is inside the workspace.
# Ropes are Send and Sync with any features.
for path in "$work/bindings/rust" vendor/ropey; do
    rm -rf "$work/editor"
    mkdir -p "$work/editor/app/src" "$work/editor/crates/ropey_c"
    cat > "$work/editor/Cargo.toml" <<TOML
[workspace]
members = ["app"]
resolver = "2"
[patch.crates-io]
ropey = { path = "$path" }
TOML
    cat > "$work/editor/app/Cargo.toml" <<'TOML'
[package]
name = "app"
version = "0.1.0"
edition = "2021"
[dependencies]
ropey = { version = "1.6", default-features = false, features = ["simd", "cr_lines"] }
TOML
    cat > "$work/editor/app/src/main.rs" <<'RUST'
fn sends<T: Send + Sync + 'static>(value: T) -> T {
    value
}

fn main() {
    let rope = sends(ropey::Rope::from_str("one\r\ntwo\u{2028}"));
    println!("{}", std::thread::spawn(move || rope.len_lines()).join().unwrap());
}
RUST
    cd "$work/editor"
    if [ "$path" = vendor/ropey ]; then
        mkdir vendor
        cp -r "$crate" vendor/ropey
        rm -rf vendor/ropey/target
        ln -s "$folder" crates/ropey_c/out
    fi
    must "in place of ropey 1.6 from $path" cargo run --quiet --offline
    test "$(cat "$work/said")" = 2
done
echo 'Rust crate, in place of ropey 1.6: workspaces that patch it run'

# The package is built from its own files.
cd "$work/bindings/rust"
must 'as a package' cargo package --offline --allow-dirty
for file in Cargo.toml README.md LICENSE LICENSE-ropey build.rs src/lib.rs; do
    cargo package --offline --allow-dirty --list 2> "$work/log" | grep -qx "$file" || { echo "Rust crate: the package has no $file"; exit 1; }
done

# As a package of another name it has the address of its repository, and its library is still called ropey.
"$top/scripts/copy_rust_crate.sh" --name ropey-rattle --repository https://example.org/ropey.git "$work/named"
cd "$work/named"
must 'as a package of another name' env ROPEY_LIB_DIR="$folder" cargo package --offline
if grep 'manifest has no documentation' "$work/log"; then
    exit 1
fi
mkdir -p "$work/reader/src"
cat > "$work/reader/Cargo.toml" <<'TOML'
[package]
name = "reader"
version = "0.1.0"
edition = "2021"
[dependencies]
ropey-rattle = { path = "../named" }
TOML
echo 'fn main() { println!("{}", ropey::Rope::from_str("one\ntwo").len_lines()) }' > "$work/reader/src/main.rs"
cd "$work/reader"
must 'over a package of another name' env ROPEY_LIB_DIR="$folder" cargo run --quiet --offline
test "$(cat "$work/said")" = 2
cd "$work/bindings/rust"

# A build fails for another platform, and over an archive of another version.
must_fail 'for another platform' 'this build is for linux on aarch64' cargo check --offline --target aarch64-unknown-linux-gnu
mkdir "$work/stale"
cp "$folder/libropey.a" "$work/stale"
must_fail 'over an archive of no version' 'of an unknown version' env ROPEY_LIB_DIR="$work/stale" cargo check --offline
echo '0.9.0 0123456789abcdef' > "$work/stale/libropey.sources"
must_fail 'over an older archive' 'is 0.9.0, and this crate is for' env ROPEY_LIB_DIR="$work/stale" cargo check --offline
must_fail 'over no archive' "ROPEY_LIB_DIR is $work, which has no libropey.a" env ROPEY_LIB_DIR="$work" cargo check --offline
echo 'Rust crate: packed, and refused for another platform and over archives of another version'
