/* A reference implementation of ropes, for tests of the library for C: a list of characters that each lookup scans. */
#ifndef MODEL_H
#define MODEL_H

#include "ropey.h"
#include <stdlib.h>
#include <string.h>

typedef struct {
    uint32_t *chars;
    size_t len;
    uint32_t break_set;
} model;

static inline size_t width_of(uint32_t c) { return c < 0x80 ? 1 : c < 0x800 ? 2 : c < 0x10000 ? 3 : 4; }

static inline size_t encode(uint32_t c, uint8_t *out) {
    static const uint8_t leads[] = {0, 0, 0xC0, 0xE0, 0xF0};
    size_t width = width_of(c);
    for (size_t i = width; i-- > 1; c >>= 6) {
        out[i] = (uint8_t)(0x80 | (c & 0x3F));
    }
    out[0] = (uint8_t)(leads[width] | c);
    return width;
}

static inline bool is_break(uint32_t break_set, uint32_t c) {
    if (c == 0x0A) {
        return true;
    }
    if (c == 0x0D) {
        return break_set != ROPEY_LF;
    }
    return break_set == ROPEY_UNICODE && (c == 0x0B || c == 0x0C || c == 0x85 || c == 0x2028 || c == 0x2029);
}

/* Returns whether a line break ends before character i. */
static inline bool break_ends_at(const model *m, size_t i) {
    if (i == 0 || i > m->len || !is_break(m->break_set, m->chars[i - 1])) {
        return false;
    }
    return !(m->chars[i - 1] == 0x0D && i < m->len && m->chars[i] == 0x0A);
}

/* Returns the counts of the first n characters, with their line breaks in the whole text. */
static inline ropey_counts counts_before(const model *m, size_t n) {
    ropey_counts counts = {0, n, 0, 0};
    for (size_t i = 0; i < n; i++) {
        counts.bytes += width_of(m->chars[i]);
        counts.utf16 += m->chars[i] >= 0x10000 ? 2 : 1;
        counts.line_breaks += break_ends_at(m, i + 1);
    }
    return counts;
}

static inline ropey_counts counts_of(const model *m) { return counts_before(m, m->len); }

static inline size_t char_at_byte(const model *m, size_t byte) {
    size_t i = 0;
    for (size_t at = 0; i < m->len && at + width_of(m->chars[i]) <= byte; i++) {
        at += width_of(m->chars[i]);
    }
    return i;
}

static inline size_t char_at_utf16(const model *m, size_t unit) {
    size_t i = 0;
    for (size_t at = 0; i < m->len && at + (m->chars[i] >= 0x10000 ? 2 : 1) <= unit; i++) {
        at += m->chars[i] >= 0x10000 ? 2 : 1;
    }
    return i;
}

/* Returns the character at which a line starts, or the end for a line past the last one. */
static inline size_t start_of_line(const model *m, size_t line) {
    size_t i = 0;
    for (size_t seen = 0; seen < line && i < m->len; i++) {
        seen += break_ends_at(m, i + 1);
    }
    return counts_of(m).line_breaks < line ? m->len : i;
}

static inline bool is_boundary(const model *m, size_t byte) { return counts_before(m, char_at_byte(m, byte)).bytes == byte; }

static inline model model_of(const uint32_t *chars, size_t len, uint32_t break_set) {
    model m = {malloc((len + 1) * sizeof *chars), len, break_set};
    if (len > 0) {
        memcpy(m.chars, chars, len * sizeof *chars);
    }
    return m;
}

static inline model part_of(const model *m, size_t start, size_t end) { return model_of(m->chars + start, end - start, m->break_set); }

/* Replaces the characters from start up to end. */
static inline void model_replace(model *m, size_t start, size_t end, const uint32_t *chars, size_t len) {
    uint32_t *all = malloc((m->len - (end - start) + len + 1) * sizeof *all);
    memcpy(all, m->chars, start * sizeof *all);
    if (len > 0) {
        memcpy(all + start, chars, len * sizeof *all);
    }
    memcpy(all + start + len, m->chars + end, (m->len - end) * sizeof *all);
    free(m->chars);
    m->chars = all;
    m->len = m->len - (end - start) + len;
}

/* Returns the bytes of the text, which the caller frees, and writes their number to len. */
static inline uint8_t *bytes_of(const model *m, size_t *len) {
    uint8_t *bytes = malloc(m->len * 4 + 1);
    *len = 0;
    for (size_t i = 0; i < m->len; i++) {
        *len += encode(m->chars[i], bytes + *len);
    }
    return bytes;
}

#endif
