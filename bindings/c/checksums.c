/* Random edits and lookups through the library, with the texts, random numbers, workloads and checksums of
 * crates/rope_bench: each printed line is in its file stdout. */
#include "ropey.h"

#include <inttypes.h>
#include <stdio.h>
#include <stdlib.h>
#include <string.h>

enum { BYTES = 100000, EDITS = 1000, LOOKUPS = 10000, CLONES = 100, SPLITS = 10, PIECES = 7 };

static uint64_t state;
static uint8_t text[BYTES + 64];
static size_t text_len;
static char kind;

static void restart(void) { state = UINT64_C(0x9E3779B97F4A7C15); }

/* Returns a random number from 0 to most. */
static size_t up_to(size_t most) {
    state ^= state << 13;
    state ^= state >> 7;
    state ^= state << 17;
    return (size_t)(state % (most + 1));
}

static void expect(uint32_t status) {
    if (status != ROPEY_OK) {
        fprintf(stderr, "status %u\n", status);
        exit(1);
    }
}

static void put(uint32_t c) {
    if (c < 0x80) {
        text[text_len++] = (uint8_t)c;
    } else if (c < 0x800) {
        text[text_len++] = (uint8_t)(0xC0 | c >> 6);
        text[text_len++] = (uint8_t)(0x80 | (c & 63));
    } else if (c < 0x10000) {
        text[text_len++] = (uint8_t)(0xE0 | c >> 12);
        text[text_len++] = (uint8_t)(0x80 | (c >> 6 & 63));
        text[text_len++] = (uint8_t)(0x80 | (c & 63));
    } else {
        text[text_len++] = (uint8_t)(0xF0 | c >> 18);
        text[text_len++] = (uint8_t)(0x80 | (c >> 12 & 63));
        text[text_len++] = (uint8_t)(0x80 | (c >> 6 & 63));
        text[text_len++] = (uint8_t)(0x80 | (c & 63));
    }
}

static void make_prose(void) {
    size_t column = 0;
    while (text_len < BYTES) {
        size_t letters = up_to(8) + 1;
        for (size_t k = 0; k < letters; k++) put('a' + (uint32_t)up_to(25));
        column += letters;
        if (column >= 40) {
            put('\n');
            column = 0;
        } else {
            put(' ');
            column += 1;
        }
    }
}

static void make_mixed(void) {
    static const uint32_t first[8] = {'a', 'a', 'a', 'a', 0xE0, 0x430, 0x3042, 0x1F600}, range[8] = {26, 26, 26, 26, 24, 32, 80, 64};
    size_t column = 0;
    while (text_len < BYTES) {
        size_t which = up_to(7);
        put(first[which] + (uint32_t)up_to(range[which] - 1));
        if (++column == 40) {
            size_t end = up_to(7);
            if (end == 1) put('\r');
            put(end == 0 ? 0x2028 : end == 2 ? 0x85 : '\n');
            column = 0;
        }
    }
}

static void report(const char *name, size_t operations, uint64_t checksum) {
    printf("%s/%c %zu %016" PRIx64 "\n", name, kind, operations, checksum);
}

static uint64_t lens(const ropey_rope *rope) {
    return (uint64_t)ropey_len_bytes(rope) ^ (uint64_t)ropey_len_chars(rope) << 1 ^ (uint64_t)ropey_len_lines(rope) << 2
        ^ (uint64_t)ropey_len_utf16(rope) << 3;
}

/* Returns a checksum of the bytes, by FNV-1a, and of the lengths. */
static uint64_t whole(const ropey_rope *rope) {
    uint64_t sum = UINT64_C(0xCBF29CE484222325);
    size_t at = 0, count = 0, before = 0;
    ropey_piece pieces[PIECES] = {{0}};
    do {
        expect(ropey_chunks_from_byte(rope, at, pieces, PIECES, &count, &before));
        if (count > 0 && before != at) exit(1);
        for (size_t k = 0; k < count; k++) {
            for (size_t b = 0; b < pieces[k].len; b++) sum = (sum ^ pieces[k].text[b]) * UINT64_C(0x0100000001B3);
            at += pieces[k].len;
        }
    } while (count == PIECES);
    return sum ^ lens(rope);
}

static void fresh(ropey_rope *rope) {
    expect(ropey_from_text(text, text_len, ROPEY_UNICODE, rope));
    restart();
}

static void edits(void) {
    ropey_rope rope = ROPEY_NO_ROPE, back = ROPEY_NO_ROPE;
    fresh(&rope);
    for (int k = 0; k < EDITS; k++) expect(ropey_insert_char(&rope, up_to(ropey_len_chars(&rope)), 'x'));
    report("insert_char_random", EDITS, whole(&rope));
    fresh(&rope);
    size_t middle = ropey_len_chars(&rope) / 2;
    for (size_t k = 0; k < EDITS; k++) expect(ropey_insert_char(&rope, middle + k, 'x'));
    report("insert_char_coherent", EDITS, whole(&rope));
    fresh(&rope);
    for (int k = 0; k < EDITS; k++) expect(ropey_insert(&rope, up_to(ropey_len_chars(&rope)), (const uint8_t *)"hello\nworld ", 12));
    report("insert_str_random", EDITS, whole(&rope));
    fresh(&rope);
    for (int k = 0; k < EDITS; k++) {
        size_t start = up_to(ropey_len_chars(&rope) - 11), end = start + 1 + up_to(9);
        expect(ropey_remove(&rope, start, end));
    }
    report("remove_random", EDITS, whole(&rope));
    fresh(&rope);
    for (int k = 0; k < EDITS; k++) {
        size_t start = up_to(ropey_len_chars(&rope) - 11);
        expect(ropey_remove(&rope, start, start + 3));
        expect(ropey_insert(&rope, start, (const uint8_t *)"abc", 3));
    }
    report("remove_insert_random", EDITS, whole(&rope));
    fresh(&rope);
    size_t first = ropey_len_chars(&rope) / 2 - 500;
    for (int k = 0; k < SPLITS; k++) {
        expect(ropey_split_off(&rope, first + up_to(999), &back));
        expect(ropey_append(&rope, &back));
    }
    report("split_and_append", SPLITS, whole(&rope));
    ropey_free(&back);
    ropey_free(&rope);
}

typedef ropey_status conversion(const ropey_rope *, size_t, size_t *);

static void convert(const ropey_rope *rope, const char *name, conversion *call, size_t most) {
    uint64_t sum = 0;
    restart();
    for (int k = 0; k < LOOKUPS; k++) {
        size_t found = 0;
        expect(call(rope, up_to(most), &found));
        sum += found;
    }
    report(name, LOOKUPS, sum);
}

/* Adds up the results of a lookup at random indices below a length. */
#define ADD_UP(type, call, len)                           \
    do {                                                  \
        restart();                                        \
        for (int k = 0; k < LOOKUPS; k++) {              \
            type found = 0;                               \
            expect(call(rope, up_to((len) - 1), &found)); \
            sum += found;                                 \
        }                                                 \
    } while (0)

static void lookups(const ropey_rope *rope) {
    size_t bytes = ropey_len_bytes(rope), chars = ropey_len_chars(rope), lines = ropey_len_lines(rope);
    uint64_t sum = 0;
    convert(rope, "char_to_byte", ropey_char_to_byte, chars);
    convert(rope, "char_to_line", ropey_char_to_line, chars);
    convert(rope, "char_to_utf16_cu", ropey_char_to_utf16, chars);
    convert(rope, "byte_to_char", ropey_byte_to_char, bytes);
    convert(rope, "byte_to_line", ropey_byte_to_line, bytes);
    convert(rope, "line_to_char", ropey_line_to_char, lines);
    convert(rope, "line_to_byte", ropey_line_to_byte, lines);
    convert(rope, "utf16_cu_to_char", ropey_utf16_to_char, ropey_len_utf16(rope));
    ADD_UP(uint8_t, ropey_byte, bytes);
    report("byte", LOOKUPS, sum);
    sum = 0;
    ADD_UP(uint32_t, ropey_char, chars);
    report("char", LOOKUPS, sum);
    sum = 0;
    restart();
    for (int k = 0; k < LOOKUPS; k++) {
        size_t char_idx = up_to(chars);
        ropey_chunk chunk = ROPEY_NO_CHUNK;
        expect(ropey_chunk_at_char(rope, char_idx, &chunk));
        sum += chunk.chars_before <= char_idx;
    }
    report("chunk_at_char", LOOKUPS, sum);
}

static void clones(ropey_rope *rope) {
    ropey_rope copy = ROPEY_NO_ROPE, all = ROPEY_NO_ROPE;
    uint64_t sum = 0;
    restart();
    for (int k = 0; k < CLONES; k++) {
        expect(ropey_clone(rope, &copy));
        expect(ropey_insert_char(&copy, up_to(ropey_len_chars(&copy)), 'x'));
        sum += ropey_len_bytes(&copy);
    }
    report("clone_and_insert", CLONES, sum);
    expect(ropey_clone(rope, &all));
    for (int k = 1; k < 10; k++) {
        expect(ropey_clone(rope, &copy));
        expect(ropey_append(&all, &copy));
    }
    expect(ropey_shrink_to_fit(&all));
    report("shrink_to_fit_100MB", 1, lens(&all));
    ropey_free(&copy);
    ropey_free(&all);
}

static void work(char which, void (*make)(void)) {
    ropey_rope rope = ROPEY_NO_ROPE;
    kind = which;
    text_len = 0;
    restart();
    make();
    edits();
    fresh(&rope);
    lookups(&rope);
    clones(&rope);
    ropey_free(&rope);
}

int main(void) {
    work('P', make_prose);
    work('M', make_mixed);
    return 0;
}
