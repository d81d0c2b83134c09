#!/usr/bin/env bash
# Runs the program rope_memory with each of its allocations failing in turn, and compares its output with that of a run in
# which none fails, and with its file stdout.
#
#     scripts/refuse_each_allocation.sh [FIRST [LAST]]
#
# By default it goes from 1 to the last allocation of a run in which none fails. It needs `rt`, which proves and builds the
# program first, and a C compiler ($CC, or `cc`) for an allocator whose Nth call fails: LLVM builds the program over the C
# library's allocator, and a preloaded library replaces that. A run takes some milliseconds. The status is 0 if every run
# prints the same and ends with status 0.
set -euo pipefail

top=$(cd "$(dirname "$0")/.." && pwd)
crate=$top/crates/rope_memory
program=$crate/out/rope_memory
work=$(mktemp -d)
trap 'rm -rf "$work"' EXIT

cat > "$work/refuse.c" <<'C'
// The C library's allocator, except that call number $REFUSED of `malloc` or `realloc` fails. At the end of the program the
// file $COUNTED gets the number of calls.
#include <fcntl.h>
#include <stddef.h>
#include <stdlib.h>
#include <unistd.h>

extern void *__libc_malloc(size_t);
extern void *__libc_realloc(void *, size_t);

static long refused = -1;
static long calls = 0;

static int is_refused(void) {
    if (refused < 0) {
        const char *number = getenv("REFUSED");
        refused = number == NULL ? 0 : atol(number);
    }
    calls += 1;
    return calls == refused;
}

void *malloc(size_t size) { return is_refused() ? NULL : __libc_malloc(size); }

void *realloc(void *block, size_t size) { return is_refused() ? NULL : __libc_realloc(block, size); }

__attribute__((destructor)) static void tell(void) {
    const char *name = getenv("COUNTED");
    int file = name == NULL ? -1 : open(name, O_WRONLY | O_CREAT | O_TRUNC, 0600);
    char digits[20];
    int at = sizeof digits;
    long rest = calls;
    digits[--at] = '\n';
    do {
        digits[--at] = (char)('0' + rest % 10);
        rest /= 10;
    } while (rest > 0);
    if (file >= 0 && write(file, digits + at, sizeof digits - at) < 0) {
        _exit(9);
    }
}
C
"${CC:-cc}" -shared -fPIC -O1 -fno-builtin -o "$work/refuse.so" "$work/refuse.c"

# Proves the program if it isn't proved yet, builds it, and runs it once.
(cd "$crate" && rt run < /dev/null > "$work/built" 2> "$work/said") || { cat "$work/said"; exit 1; }
cmp "$work/built" "$crate/stdout"

# Runs the program with one allocation refused, none if the number is 0, and prints the number of allocations.
run() {
    local status=0
    rm -f "$work/counted"
    env -i LD_PRELOAD="$work/refuse.so" REFUSED="$1" COUNTED="$work/counted" \
        "$program" < /dev/null > "$work/printed" 2> "$work/error" || status=$?
    if [ "$status" != 0 ] || ! cmp -s "$work/printed" "$crate/stdout"; then
        echo "allocation $1 refused: status $status, other output" >&2
        diff "$crate/stdout" "$work/printed" >&2 || true
        return 1
    fi
    cat "$work/counted"
}

calls=$(run 0)
first=${1:-1}
last=${2:-$calls}
other=0
for ((number = first; number <= last; number++)); do
    run "$number" > "$work/after" || other=$((other + 1))
done
echo "$calls allocations; refused $first to $last, each in a run of its own: $((last - first + 1 - other)) runs printed the same, $other did not"
[ "$other" = 0 ]
