#!/usr/bin/env bash
# Runs the program rope to each of its exit statuses, and compares the status and the line on standard error. Before, it runs
# 400 random sessions, against the model of random_sessions.py.
#
#     scripts/test_program.sh
#
# It needs `rt`, which proves and builds the program if that isn't done yet. A limit on the program's address space lets it run
# out of memory; a write to /dev/full fails, and so does a read of a folder. The exit status is 0 if every run ended as
# expected.
set -euo pipefail

top=$(cd "$(dirname "$0")/.." && pwd)
crate=$top/crates/rope
program=$crate/out/rope
work=$(mktemp -d)
trap 'rm -rf "$work"' EXIT
wrong=0

(cd "$crate" && rt run < stdin > "$work/printed" 2> "$work/said") || { cat "$work/said" >&2; exit 1; }
cmp "$work/printed" "$crate/stdout"
"$top/scripts/random_sessions.py" 2 400 0 "$work/commands" "$work/replies"
"$program" < "$work/commands" > "$work/printed"
cmp "$work/printed" "$work/replies"

# Runs a command, and compares its status and its output on standard error with the expected ones.
expect() {
    local case=$1 status=$2 line=$3 found=0 said
    shift 3
    said=$("$@" 2>&1 > "$work/printed") || found=$?
    if [ "$found $said" = "$status $line" ]; then
        echo "$case: status $found, '$said'"
    else
        echo "$case: status $found, '$said', and not $status, '$line'" >&2
        wrong=1
    fi
}

# A line that doesn't fit into the memory that `in_little_memory` leaves a program.
long_line() { printf 'text '; head -c 64M /dev/zero | tr '\0' a; echo; }
in_little_memory() { (ulimit -v 65536; exec "$@"); }
to_a_full_device() { "$@" > /dev/full; }

expect 'the input ends' 0 '' "$program" <<< 'text a'
expect 'a bad line' 2 'bad line 2' "$program" <<< $'text a\nfrob\nlen 0'
expect 'memory is refused' 3 'out of memory' in_little_memory "$program" < <(long_line)
expect 'a write fails' 4 'input or output failed' to_a_full_device "$program" <<< 'text a'
expect 'a read fails' 4 'input or output failed' "$program" < "$work"
exit "$wrong"
