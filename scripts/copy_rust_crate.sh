#!/usr/bin/env bash
# Copies the Rust crate in bindings/rust to a folder, as a package that can be published.
#
#     scripts/copy_rust_crate.sh [--name NAME] [--repository URL] FOLDER
#
# The package is called ropey, as a patch of crates.io needs it, or NAME; its library is called ropey in either case, so a
# program writes `use ropey::Rope`. URL is the address of the repository, by default that of its remote `origin` if it begins
# with https://. The package names it as its repository, its homepage and the place of its documentation; without an address it
# names none.
set -euo pipefail

top=$(cd "$(dirname "$0")/.." && pwd)
name=ropey
url=$(git -C "$top" remote get-url origin 2> /dev/null || true)
[[ $url == https://* ]] || url=
while [[ ${1:-} == --* ]]; do
    case $1 in
        --name) name=${2:?the name of the package} ;;
        --repository) url=${2:?the address of the repository} ;;
        *) echo "copy_rust_crate.sh: $1 is not an option" >&2; exit 2 ;;
    esac
    shift 2
done
folder=${1:?the folder to copy to}
url=${url%/}
url=${url%.git}

mkdir -p "$folder"
for file in README.md build.rs rustfmt.toml LICENSE LICENSE-ropey src examples tests; do
    cp -r "$top/bindings/rust/$file" "$folder"
done
own=()
[ "$name" = ropey ] || own=(-e '/^# A patch of crates.io/d' -e "s/^name = \"ropey\"$/name = \"$name\"/")
{
    sed "${own[@]}" -e '/^description = /q' "$top/bindings/rust/Cargo.toml"
    if [ -n "$url" ]; then
        echo "repository = \"$url\""
        echo "homepage = \"$url\""
        echo "documentation = \"$url/blob/main/docs/RUST.md\""
    fi
    sed '1,/^description = /d' "$top/bindings/rust/Cargo.toml"
    [ "$name" = ropey ] || printf '\n[lib]\nname = "ropey"\n'
} > "$folder/Cargo.toml"
