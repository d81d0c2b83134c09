/* Runs lookups on ropes and handles in read-only memory: a lookup that wrote to a node, for instance to its reference count,
 * would crash. The program is linked with --wrap=malloc, --wrap=realloc and --wrap=free, so that all allocations of the library
 * are in that memory. For Linux only. */
#define _GNU_SOURCE
#include "ropey.h"
#include <stdio.h>
#include <stdlib.h>
#include <string.h>
#include <sys/mman.h>

enum { ROPES = 6, PIECES = 16 };

static const size_t ARENA = (size_t)256 << 20;
static uint8_t *arena;
static size_t used = 0;

/* An arena that is never freed. The size of a block is stored before it. */
void *__wrap_malloc(size_t size) {
    size_t whole = (size + 31) / 16 * 16;
    if (used + whole > ARENA) {
        return NULL;
    }
    memcpy(arena + used, &size, sizeof size);
    used += whole;
    return arena + used - whole + 16;
}

void *__wrap_realloc(void *block, size_t size) {
    void *next = __wrap_malloc(size);
    if (block != NULL && next != NULL) {
        size_t old = 0;
        memcpy(&old, (uint8_t *)block - 16, sizeof old);
        memcpy(next, block, old < size ? old : size);
    }
    return next;
}

void __wrap_free(void *block) { (void)block; }

static void expect(ropey_status status) {
    if (status != ROPEY_OK) {
        fprintf(stderr, "look_ups_write_nothing: %s\n", ropey_status_text(status));
        exit(1);
    }
}

static uint64_t state = 1;

static size_t below(size_t n) {
    state = state * UINT64_C(6364136223846793005) + 1442695040888963407u;
    return (size_t)(state >> 33) % n;
}

/* Makes ropes that share nodes: each is an edited clone of the previous one. */
static void make(ropey_rope *ropes) {
    static const char text[] = "a line\r\nanother, \xC3\xA9 \xE4\xB8\xAD \xF0\x9F\x98\x80\n\xE2\x80\xA8";
    expect(ropey_from_text((const uint8_t *)text, sizeof text - 1, ROPEY_UNICODE, &ropes[0]));
    for (int k = 0; k < 20000; k++) {
        expect(ropey_insert(&ropes[0], below(ropey_len_chars(&ropes[0]) + 1), (const uint8_t *)text, sizeof text - 1));
    }
    for (int i = 1; i < ROPES; i++) {
        expect(ropey_clone(&ropes[i - 1], &ropes[i]));
        for (int k = 0; k < 100; k++) {
            expect(ropey_insert(&ropes[i], below(ropey_len_chars(&ropes[i]) + 1), (const uint8_t *)text, sizeof text - 1));
        }
    }
}

/* Runs every lookup of ropes and of changes, except ropey_clone, ropey_clone_chars and ropey_changes_invert. */
static void look(const ropey_rope *rope, const ropey_rope *other, const ropey_changes *changes) {
    size_t bytes = ropey_len_bytes(rope), chars = ropey_len_chars(rope), lines = ropey_len_lines(rope), units = ropey_len_utf16(rope);
    size_t i = below(chars), line = below(lines), index = 0, count = 0, before = 0;
    static uint8_t buffer[1 << 16], file[4 << 20];
    uint32_t number = 0;
    uint8_t byte = 0;
    int32_t order = 0;
    bool equal = false;
    ropey_place place = {0, 0};
    ropey_range range = {0, 0};
    ropey_counts counts = {0, 0, 0, 0};
    ropey_chunk chunk = ROPEY_NO_CHUNK;
    ropey_piece pieces[PIECES] = {{0}};
    ropey_slice slices[PIECES] = {{0}};
    ropey_replacement replacements[PIECES] = {{0}};
    expect(ropey_get_break_set(rope, &number));
    expect(ropey_byte_to_char(rope, below(bytes), &index));
    expect(ropey_byte_to_line(rope, below(bytes), &index));
    expect(ropey_char_to_byte(rope, i, &index));
    expect(ropey_char_to_line(rope, i, &index));
    expect(ropey_char_to_utf16(rope, i, &index));
    expect(ropey_utf16_to_char(rope, below(units), &index));
    expect(ropey_line_to_byte(rope, line, &index));
    expect(ropey_line_to_char(rope, line, &index));
    expect(ropey_char_to_position(rope, i, &place));
    expect(ropey_position_to_char(rope, place.line, place.column, &index));
    expect(ropey_char_to_position_in(rope, i, (uint32_t)below(3), &place));
    expect(ropey_clamped_position_to_char(rope, place.line, place.column, (uint32_t)below(3), &index));
    expect(ropey_line_break(rope, line, &index));
    expect(ropey_byte(rope, below(bytes), &byte));
    expect(ropey_char(rope, i, &number));
    expect(ropey_line(rope, line, &range));
    expect(ropey_counts_in_chars(rope, i, chars, &counts));
    expect(ropey_line_pieces(rope, line, &range, pieces, PIECES, &count));
    expect(ropey_counts_in_bytes(rope, range.start, range.end, &counts));
    expect(ropey_copy_bytes(rope, range.start, range.end, buffer, sizeof buffer, &count));
    expect(ropey_copy_chars(rope, i, chars < i + 100 ? chars : i + 100, buffer, sizeof buffer, &count));
    if (below(1000) == 0) {
        expect(ropey_write_as(rope, (uint32_t)below(ROPEY_FILE_LATIN1), file, sizeof file, &count, &index));
    }
    expect(ropey_chunk_at_byte(rope, below(bytes), &chunk));
    expect(ropey_chunk_at_char(rope, i, &chunk));
    expect(ropey_chunk_at_line_break(rope, line, &chunk));
    expect(ropey_chunks_from_byte(rope, below(bytes), pieces, PIECES, &count, &before));
    expect(ropey_chunks_before_byte(rope, below(bytes), pieces, PIECES, &count, &before));
    expect(ropey_chunks_from_byte_with_before(rope, below(bytes), pieces, PIECES, &count, &before, &index, &index));
    expect(ropey_chunks_from_char_with_before(rope, i, pieces, PIECES, &count, &before, &index, &index));
    expect(ropey_chunks_from_line_break_with_before(rope, line, pieces, PIECES, &count, &before, &index, &index));
    expect(ropey_line_slice(rope, line, &slices[0]));
    expect(ropey_char_slice(rope, i, chars, &slices[0]));
    expect(ropey_char_slice_with_before(rope, i, chars, &slices[0], &counts));
    expect(ropey_byte_slice_with_before(rope, range.start, range.end, &slices[0], &counts));
    expect(ropey_counts_in_chars_with_before(rope, i, chars, &counts, &slices[0].counts));
    expect(ropey_lines_from(rope, line, slices, PIECES, &count));
    expect(ropey_lines_before(rope, line, slices, PIECES, &count));
    expect(ropey_lines_from_char_with_before(rope, i, slices, PIECES, &count, &counts));
    expect(ropey_lines_from_with_before(rope, line, slices, PIECES, &count, &counts));
    expect(ropey_compare(rope, other, &order));
    expect(ropey_equals_text(rope, chunk.text, chunk.len, &equal));
    expect(ropey_changes_map(changes, below(ropey_changes_len_before(changes)), (uint32_t)below(2), &index));
    expect(ropey_changes_edits(changes, replacements, PIECES, &count));
    count += ropey_changes_len_after(changes);
}

int main(void) {
    arena = mmap(NULL, ARENA, PROT_READ | PROT_WRITE, MAP_PRIVATE | MAP_ANONYMOUS, -1, 0);
    ropey_rope *ropes = arena == MAP_FAILED ? NULL : __wrap_malloc(4096 + ROPES * sizeof *ropes);
    if (ropes == NULL) {
        return 1;
    }
    for (int i = 0; i < ROPES; i++) {
        ropes[i] = (ropey_rope)ROPEY_NO_ROPE;
    }
    make(ropes);
    ropey_changes *changes = __wrap_malloc(sizeof *changes);
    *changes = (ropey_changes)ROPEY_NO_CHANGES;
    expect(ropey_changes_new(1000, changes));
    for (size_t at = 0; at < 1000; at += 50) {
        expect(ropey_changes_replace(changes, at, at + below(50), (const uint8_t *)"text", 4));
    }
    if (mprotect(arena, ARENA, PROT_READ) != 0) {
        return 1;
    }
    for (int k = 0; k < 20000; k++) {
        look(&ropes[below(ROPES)], &ropes[below(ROPES)], changes);
    }
    printf("C: lookups wrote neither to nodes nor to handles (%zu KB of them)\n", used >> 10);
    return 0;
}
