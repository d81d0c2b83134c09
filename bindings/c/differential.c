/* Random calls of the library, each compared with a plain text (model.h).
 *
 *     differential [CALLS [SEED]]
 *
 * Some allocations fail: the program is linked with --wrap=malloc and --wrap=realloc. An edit that fails must leave the text
 * unchanged, and, except out of memory, keep every pointer into the rope valid. Pointers into a clone are kept during edits of
 * the others, and read again. */
#include "random.h"

enum { HANDLES = 4, PIECES = 64, LONGEST = 6000 };

/* A rope with its model, and its first pieces at the last read. */
typedef struct {
    ropey_rope rope;
    model text;
    bool held;
    ropey_piece seen[PIECES];
    size_t seen_count;
    uint8_t *bytes;
} pair;

static pair pairs[HANDLES];

/* Reads all pieces of a rope, and compares them with its model. */
static void see(pair *p) {
    size_t len = 0, count = 0, before = 0, at = 0;
    free(p->bytes);
    p->bytes = bytes_of(&p->text, &len);
    CHECK(ropey_len_bytes(&p->rope) == len);
    p->seen_count = 0;
    do {
        ropey_piece pieces[PIECES];
        memset(pieces, 0, sizeof pieces);
        CHECK(ropey_chunks_from_byte(&p->rope, at, pieces, PIECES, &count, &before) == ROPEY_OK && before == at);
        for (size_t i = 0; i < count; i++) {
            CHECK(1 <= pieces[i].len && pieces[i].len <= 984 && memcmp(pieces[i].text, p->bytes + at, pieces[i].len) == 0);
            at += pieces[i].len;
        }
        if (p->seen_count == 0) {
            memcpy(p->seen, pieces, count * sizeof *pieces);
            p->seen_count = count;
        }
    } while (count == PIECES);
    CHECK(at == len);
}

/* Checks that the pieces of the last read are still in place. */
static void check_seen(const pair *p) {
    for (size_t i = 0, at = 0; p->held && i < p->seen_count; at += p->seen[i++].len) {
        CHECK(memcmp(p->seen[i].text, p->bytes + at, p->seen[i].len) == 0);
    }
}

static void check_all_seen(const pair *but) {
    for (size_t i = 0; i < HANDLES; i++) {
        if (&pairs[i] != but) {
            check_seen(&pairs[i]);
        }
    }
}

static void forget(pair *p) {
    free(p->text.chars);
    free(p->bytes);
    p->text = model_of(letters, 0, ROPEY_LF);
    p->bytes = NULL;
    p->seen_count = 0;
    p->held = false;
}

static void take(pair *p, model text) {
    forget(p);
    free(p->text.chars);
    p->text = text;
    p->held = true;
    see(p);
}

/* Checks all pairs after an edit, whether it succeeded or not. */
static void check_edit(pair *p, ropey_status status, ropey_status wanted) {
    check_all_seen(p);
    if (status == ROPEY_OUT_OF_MEMORY) {
        CHECK(wanted == ROPEY_OK);
        see(p);
        return;
    }
    CHECK(status == wanted);
    if (status != ROPEY_OK) {
        check_seen(p);
    }
    if (p->held) {
        see(p);
    }
}

/* Edits. Each draws its arguments, some of them wrong, runs the call, and compares the status with the expected one. */
static void make(pair *p) {
    size_t len = 0;
    model text = drawn_text(below(4) == 0 ? LONGEST : 40);
    uint32_t set = (uint32_t)below(4);
    uint8_t *bytes = bytes_of(&text, &len);
    bool broken = len > 0 && below(8) == 0;
    if (broken) {
        bytes[below(len)] = 0xFF;
    }
    text.break_set = set;
    bool is_known = !broken && below(2);
    ropey_status status = CALL((is_known ? ropey_from_text_unchecked : ropey_from_text)(len == 0 && below(2) ? NULL : bytes, len, set, &p->rope));
    ropey_status wanted = set > ROPEY_UNICODE ? ROPEY_UNKNOWN_BREAK_SET : broken ? ROPEY_INVALID_UTF8 : ROPEY_OK;
    free(bytes);
    if (status == ROPEY_OK && wanted == ROPEY_OK) {
        take(p, text);
        check_all_seen(p);
        return;
    }
    free(text.chars);
    CHECK(status == (wanted == ROPEY_OK ? ROPEY_OUT_OF_MEMORY : wanted));
    check_all_seen(NULL);
}

static void make_clone(pair *p, pair *q) {
    if (p == q) {
        return;
    }
    ropey_status status = CALL(ropey_clone(&p->rope, &q->rope));
    check_all_seen(q);
    if (status == ROPEY_OK) {
        CHECK(p->held);
        take(q, part_of(&p->text, 0, p->text.len));
        return;
    }
    CHECK(status == (p->held ? ROPEY_OUT_OF_MEMORY : ROPEY_NO_ROPE_HELD));
    check_seen(q);
}

static void release(pair *p) {
    ropey_free(&p->rope);
    forget(p);
    CHECK(ropey_len_bytes(&p->rope) == 0);
    check_all_seen(p);
}

static void shrink(pair *p) {
    ropey_status status = CALL(ropey_shrink_to_fit(&p->rope)), wanted = p->held ? ROPEY_OK : ROPEY_NO_ROPE_HELD;
    CHECK(p->text.len > 0 || status == wanted);
    check_edit(p, status, wanted);
}

/* Returns a random range in a length, sometimes out of bounds or reversed. */
static ropey_range drawn_range(size_t len) {
    ropey_range r = {below(len + 2), below(len + 2)};
    if (r.end < r.start && below(8) != 0) {
        r = (ropey_range){r.end, r.start};
    }
    if (below(2) == 0 && r.start <= r.end) {
        r.end = r.start + below(r.end - r.start + 1) / 8;
    }
    return r;
}

static ropey_status char_range_fault(const model *m, ropey_range r) {
    if (r.start > m->len || r.end > m->len) {
        return ROPEY_CHAR_RANGE_OUT_OF_BOUNDS;
    }
    return r.end < r.start ? ROPEY_CHAR_RANGE_INVALID : ROPEY_OK;
}

static void make_part(pair *p, pair *q) {
    if (p == q) {
        return;
    }
    ropey_range r = drawn_range(p->text.len);
    ropey_status wanted = !p->held ? ROPEY_NO_ROPE_HELD : char_range_fault(&p->text, r);
    ropey_status status = CALL(ropey_clone_chars(&p->rope, r.start, r.end, &q->rope));
    check_all_seen(q);
    if (status == ROPEY_OK) {
        CHECK(wanted == ROPEY_OK);
        take(q, part_of(&p->text, r.start, r.end));
        return;
    }
    CHECK(status == (wanted == ROPEY_OK ? ROPEY_OUT_OF_MEMORY : wanted));
    check_seen(q);
}

static ropey_status byte_range_fault(const model *m, ropey_range r) {
    size_t len = counts_of(m).bytes;
    if (r.end < r.start) {
        return ROPEY_BYTE_RANGE_INVALID;
    }
    if (r.start > len || r.end > len) {
        return ROPEY_BYTE_RANGE_OUT_OF_BOUNDS;
    }
    return is_boundary(m, r.start) && is_boundary(m, r.end) ? ROPEY_OK : ROPEY_BYTE_RANGE_NOT_CHAR_BOUNDARY;
}

static ropey_status byte_index_fault(const model *m, size_t byte) {
    if (byte > counts_of(m).bytes) {
        return ROPEY_BYTE_INDEX_OUT_OF_BOUNDS;
    }
    return is_boundary(m, byte) ? ROPEY_OK : ROPEY_BYTE_INDEX_NOT_CHAR_BOUNDARY;
}

/* Inserts and replacements, by character or by byte. */
static void put_text(pair *p) {
    size_t len = 0;
    model text = drawn_text(below(16) == 0 ? 2500 : 12);
    uint8_t *bytes = bytes_of(&text, &len);
    bool by_byte = below(2), replaces = below(2), broken = len > 0 && below(16) == 0;
    ropey_range r = drawn_range(by_byte ? counts_of(&p->text).bytes : p->text.len);
    if (p->text.len > LONGEST) {
        r.start = 0;
    }
    if (broken) {
        bytes[below(len)] = 0xFF;
    }
    ropey_status status, wanted;
    if (replaces) {
        status = by_byte ? CALL(ropey_replace_bytes(&p->rope, r.start, r.end, bytes, len)) : CALL(ropey_replace(&p->rope, r.start, r.end, bytes, len));
        wanted = by_byte ? byte_range_fault(&p->text, r) : char_range_fault(&p->text, r);
    } else {
        r.end = r.start;
        status = by_byte ? CALL(ropey_insert_at_byte(&p->rope, r.start, bytes, len)) : CALL(ropey_insert(&p->rope, r.start, bytes, len));
        wanted = by_byte ? byte_index_fault(&p->text, r.start) : r.start > p->text.len ? ROPEY_CHAR_INDEX_OUT_OF_BOUNDS : ROPEY_OK;
    }
    wanted = !p->held ? ROPEY_NO_ROPE_HELD : broken ? ROPEY_INVALID_UTF8 : wanted;
    CHECK(len > 0 || r.start < r.end || status == wanted);
    if (status == ROPEY_OK && wanted == ROPEY_OK) {
        ropey_range chars = by_byte ? (ropey_range){char_at_byte(&p->text, r.start), char_at_byte(&p->text, r.end)} : r;
        model_replace(&p->text, chars.start, chars.end, text.chars, text.len);
    }
    check_edit(p, status, wanted);
    free(bytes);
    free(text.chars);
}

static void put_char(pair *p) {
    uint32_t c = below(8) == 0 ? (uint32_t)draw() : letters[below(sizeof letters / sizeof *letters)];
    size_t i = below(p->text.len + 2);
    bool scalar = c < 0xD800 || (0xE000 <= c && c < 0x110000);
    ropey_status status = CALL(ropey_insert_char(&p->rope, i, c));
    ropey_status wanted = !p->held ? ROPEY_NO_ROPE_HELD : !scalar ? ROPEY_NOT_A_CHARACTER : i > p->text.len ? ROPEY_CHAR_INDEX_OUT_OF_BOUNDS : ROPEY_OK;
    if (status == ROPEY_OK && wanted == ROPEY_OK) {
        model_replace(&p->text, i, i, &c, 1);
    }
    check_edit(p, status, wanted);
}

static void cut(pair *p) {
    bool by_byte = below(2);
    ropey_range r = drawn_range(by_byte ? counts_of(&p->text).bytes : p->text.len);
    ropey_status status = by_byte ? CALL(ropey_remove_bytes(&p->rope, r.start, r.end)) : CALL(ropey_remove(&p->rope, r.start, r.end));
    ropey_status wanted = !p->held ? ROPEY_NO_ROPE_HELD : by_byte ? byte_range_fault(&p->text, r) : char_range_fault(&p->text, r);
    CHECK(r.start < r.end || status == wanted);
    if (status == ROPEY_OK && wanted == ROPEY_OK) {
        ropey_range chars = by_byte ? (ropey_range){char_at_byte(&p->text, r.start), char_at_byte(&p->text, r.end)} : r;
        model_replace(&p->text, chars.start, chars.end, NULL, 0);
    }
    check_edit(p, status, wanted);
}

static void split(pair *p, pair *q) {
    size_t i = below(p->text.len + 2);
    if (p == q) {
        return;
    }
    ropey_status status = CALL(ropey_split_off(&p->rope, i, &q->rope));
    ropey_status wanted = !p->held ? ROPEY_NO_ROPE_HELD : i > p->text.len ? ROPEY_CHAR_INDEX_OUT_OF_BOUNDS : ROPEY_OK;
    if (status == ROPEY_OK && wanted == ROPEY_OK) {
        take(q, part_of(&p->text, i, p->text.len));
        model_replace(&p->text, i, p->text.len, NULL, 0);
    }
    check_edit(p, status, wanted);
}

static void append(pair *p, pair *q) {
    if (p == q || p->text.len + q->text.len > 2 * LONGEST) {
        return;
    }
    ropey_status status = CALL(ropey_append(&p->rope, &q->rope));
    ropey_status wanted = !p->held || !q->held ? ROPEY_NO_ROPE_HELD : p->text.break_set != q->text.break_set ? ROPEY_BREAK_SETS_DIFFER : ROPEY_OK;
    if (status == ROPEY_OK && wanted == ROPEY_OK) {
        model_replace(&p->text, p->text.len, p->text.len, q->text.chars, q->text.len);
    }
    if (status == ROPEY_OK || status == ROPEY_OUT_OF_MEMORY) {
        forget(q);
    }
    CHECK(ropey_len_chars(&q->rope) == q->text.len);
    check_edit(p, status, wanted);
}

/* Lookups at indices that may be past the end, compared with the model. */
#define CHECK_LOOKUP(call, fault, out, value)                      \
    do {                                                   \
        size_t out = 77;                                   \
        ropey_status status_ = (call);                     \
        ropey_status wanted_ = held_ ? (fault) : ROPEY_NO_ROPE_HELD; \
        CHECK(status_ == wanted_);                         \
        CHECK(out == (wanted_ == ROPEY_OK ? (value) : 77)); \
    } while (0)

static void convert(pair *p) {
    const model *m = &p->text;
    const ropey_rope *rope = &p->rope;
    bool held_ = p->held;
    ropey_counts all = counts_of(m);
    size_t b = below(all.bytes + 2), i = below(m->len + 2), u = below(all.utf16 + 2), l = below(all.line_breaks + 3);
    ropey_status past_b = b > all.bytes ? ROPEY_BYTE_INDEX_OUT_OF_BOUNDS : ROPEY_OK;
    ropey_status past_i = i > m->len ? ROPEY_CHAR_INDEX_OUT_OF_BOUNDS : ROPEY_OK;
    ropey_status past_u = u > all.utf16 ? ROPEY_UTF16_INDEX_OUT_OF_BOUNDS : ROPEY_OK;
    ropey_status past_l = l > all.line_breaks + 1 ? ROPEY_LINE_INDEX_OUT_OF_BOUNDS : ROPEY_OK;
    ropey_counts before = counts_before(m, past_i == ROPEY_OK ? i : 0);
    CHECK_LOOKUP(ropey_byte_to_char(rope, b, &x), past_b, x, char_at_byte(m, b));
    CHECK_LOOKUP(ropey_byte_to_line(rope, b, &x), past_b, x, counts_before(m, char_at_byte(m, b)).line_breaks);
    CHECK_LOOKUP(ropey_char_to_byte(rope, i, &x), past_i, x, before.bytes);
    CHECK_LOOKUP(ropey_char_to_line(rope, i, &x), past_i, x, before.line_breaks);
    CHECK_LOOKUP(ropey_char_to_utf16(rope, i, &x), past_i, x, before.utf16);
    CHECK_LOOKUP(ropey_utf16_to_char(rope, u, &x), past_u, x, char_at_utf16(m, u));
    CHECK_LOOKUP(ropey_line_to_byte(rope, l, &x), past_l, x, counts_before(m, start_of_line(m, l)).bytes);
    CHECK_LOOKUP(ropey_line_to_char(rope, l, &x), past_l, x, start_of_line(m, l));
    CHECK(ropey_len_bytes(rope) == all.bytes && ropey_len_chars(rope) == m->len && ropey_len_utf16(rope) == all.utf16);
    CHECK(ropey_len_lines(rope) == (held_ ? all.line_breaks + 1 : 0));
    uint32_t set = 77;
    CHECK(ropey_get_break_set(rope, &set) == (held_ ? ROPEY_OK : ROPEY_NO_ROPE_HELD) && set == (held_ ? m->break_set : 77));
}

static void position(pair *p) {
    const model *m = &p->text;
    bool held_ = p->held;
    size_t i = below(m->len + 2), lines = counts_of(m).line_breaks + 1, line = below(lines + 2);
    ropey_place at = {77, 77};
    ropey_status status = ropey_char_to_position(&p->rope, i, &at);
    CHECK(status == (!p->held ? ROPEY_NO_ROPE_HELD : i > m->len ? ROPEY_CHAR_INDEX_OUT_OF_BOUNDS : ROPEY_OK));
    if (status == ROPEY_OK) {
        ropey_counts before = counts_before(m, i);
        CHECK(at.line == before.line_breaks && at.column == before.utf16 - counts_before(m, start_of_line(m, at.line)).utf16);
    }
    size_t start = line < lines ? start_of_line(m, line) : 0, end = line < lines ? start_of_line(m, line + 1) : 0;
    size_t units = counts_before(m, start).utf16, column = below(counts_before(m, end).utf16 - units + 2);
    ropey_status wanted = line >= lines ? ROPEY_LINE_INDEX_OUT_OF_BOUNDS
        : units + column > counts_before(m, end).utf16 ? ROPEY_UTF16_INDEX_OUT_OF_BOUNDS : ROPEY_OK;
    CHECK_LOOKUP(ropey_position_to_char(&p->rope, line, column, &x), wanted, x, char_at_utf16(m, units + column));
}

static size_t units_of(uint32_t c, uint32_t encoding) {
    return encoding == ROPEY_UTF8 ? width_of(c) : encoding == ROPEY_UTF16 && c >= 0x10000 ? 2 : 1;
}

/* Positions in an encoding, and the line breaks at the ends of lines. */
static void position_in(pair *p) {
    const model *m = &p->text;
    bool held_ = p->held;
    uint32_t encoding = (uint32_t)below(4);
    ropey_status known = encoding > ROPEY_UTF32 ? ROPEY_UNKNOWN_ENCODING : ROPEY_OK;
    size_t i = below(m->len + 2), lines = counts_of(m).line_breaks + 1, line = below(lines + 2), column = below(60), units = 0;
    ropey_place at = {77, 77};
    ropey_status status = ropey_char_to_position_in(&p->rope, i, encoding, &at);
    CHECK(status == (!held_ ? ROPEY_NO_ROPE_HELD : known != ROPEY_OK ? known : i > m->len ? ROPEY_CHAR_INDEX_OUT_OF_BOUNDS : ROPEY_OK));
    if (status == ROPEY_OK) {
        for (size_t k = start_of_line(m, at.line); k < i; k++) {
            units += units_of(m->chars[k], encoding);
        }
        CHECK(at.line == counts_before(m, i).line_breaks && at.column == units);
    } else {
        CHECK(at.line == 77 && at.column == 77);
    }
    size_t start = line < lines ? start_of_line(m, line) : m->len, end = line < lines ? start_of_line(m, line + 1) : m->len;
    size_t stop = !break_ends_at(m, end) || start == end ? end : end >= 2 && m->chars[end - 1] == '\n' && end - start >= 2
        && m->break_set != ROPEY_LF && m->chars[end - 2] == '\r' ? end - 2 : end - 1;
    CHECK_LOOKUP(ropey_line_break(&p->rope, line, &x), line < lines ? ROPEY_OK : ROPEY_LINE_INDEX_OUT_OF_BOUNDS, x, end - stop);
    size_t found = start;
    for (size_t seen = 0; found < stop && seen + units_of(m->chars[found], encoding) <= column; found++) {
        seen += units_of(m->chars[found], encoding);
    }
    CHECK_LOOKUP(ropey_clamped_position_to_char(&p->rope, line, column, encoding, &x), known, x, found);
}

static void item(pair *p) {
    const model *m = &p->text;
    size_t b = below(counts_of(m).bytes + 1), i = below(m->len + 1), lines = counts_of(m).line_breaks + 1, l = below(lines + 1);
    uint8_t byte = 77, wide[4];
    uint32_t c = 77;
    ropey_range chars = {77, 77};
    ropey_status status = ropey_byte(&p->rope, b, &byte);
    CHECK(status == (!p->held ? ROPEY_NO_ROPE_HELD : b == counts_of(m).bytes ? ROPEY_BYTE_INDEX_OUT_OF_BOUNDS : ROPEY_OK));
    if (status == ROPEY_OK) {
        size_t k = char_at_byte(m, b);
        encode(m->chars[k], wide);
        CHECK(byte == wide[b - counts_before(m, k).bytes]);
    }
    status = ropey_char(&p->rope, i, &c);
    CHECK(status == (!p->held ? ROPEY_NO_ROPE_HELD : i == m->len ? ROPEY_CHAR_INDEX_OUT_OF_BOUNDS : ROPEY_OK));
    CHECK(c == (status == ROPEY_OK ? m->chars[i] : 77));
    status = ropey_line(&p->rope, l, &chars);
    CHECK(status == (!p->held ? ROPEY_NO_ROPE_HELD : l == lines ? ROPEY_LINE_INDEX_OUT_OF_BOUNDS : ROPEY_OK));
    CHECK(chars.start == (status == ROPEY_OK ? start_of_line(m, l) : 77) && chars.end == (status == ROPEY_OK ? start_of_line(m, l + 1) : 77));
}

/* Compares a chunk, and the counts before it, with the model. */
static void see_chunk(const pair *p, const ropey_chunk *chunk) {
    size_t end = chunk->bytes_before + chunk->len;
    CHECK(chunk->text != NULL && chunk->len <= 984 && (chunk->len > 0 || p->text.len == 0));
    CHECK(memcmp(chunk->text, p->bytes + chunk->bytes_before, chunk->len) == 0 && is_boundary(&p->text, end));
    ropey_counts before = counts_before(&p->text, char_at_byte(&p->text, chunk->bytes_before));
    CHECK(before.bytes == chunk->bytes_before && before.chars == chunk->chars_before && before.line_breaks == chunk->line_breaks_before);
}

static void chunk(pair *p) {
    const model *m = &p->text;
    ropey_counts all = counts_of(m);
    size_t b = below(all.bytes + 2), i = below(m->len + 2), l = below(all.line_breaks + 3);
    ropey_chunk at = ROPEY_NO_CHUNK;
    ropey_status status = ropey_chunk_at_byte(&p->rope, b, &at);
    CHECK(status == (!p->held ? ROPEY_NO_ROPE_HELD : b > all.bytes ? ROPEY_BYTE_INDEX_OUT_OF_BOUNDS : ROPEY_OK));
    if (status == ROPEY_OK) {
        see_chunk(p, &at);
        CHECK(at.bytes_before <= b && (b < at.bytes_before + at.len || (b == all.bytes && b == at.bytes_before + at.len)));
    }
    status = ropey_chunk_at_char(&p->rope, i, &at);
    CHECK(status == (!p->held ? ROPEY_NO_ROPE_HELD : i > m->len ? ROPEY_CHAR_INDEX_OUT_OF_BOUNDS : ROPEY_OK));
    if (status == ROPEY_OK) {
        size_t end = char_at_byte(m, at.bytes_before + at.len);
        see_chunk(p, &at);
        CHECK(at.chars_before <= i && (i < end || (i == m->len && i == end)));
    }
    status = ropey_chunk_at_line_break(&p->rope, l, &at);
    CHECK(status == (!p->held ? ROPEY_NO_ROPE_HELD : l > all.line_breaks + 1 ? ROPEY_LINE_INDEX_OUT_OF_BOUNDS : ROPEY_OK));
    if (status == ROPEY_OK) {
        size_t ended = counts_before(m, char_at_byte(m, at.bytes_before + at.len)).line_breaks;
        see_chunk(p, &at);
        CHECK(l == 0 ? at.bytes_before == 0 : at.line_breaks_before < l || l > all.line_breaks);
        CHECK(ended >= l || at.bytes_before + at.len == all.bytes);
    }
}

/* Compares the chunks before and after a byte with the model. */
static void pieces(pair *p) {
    size_t len = counts_of(&p->text).bytes, b = below(len + 2), room = below(PIECES), count = 77, before = 77, at;
    ropey_piece found[PIECES];
    memset(found, 0, sizeof found);
    ropey_status wanted = !p->held ? ROPEY_NO_ROPE_HELD : b > len ? ROPEY_BYTE_INDEX_OUT_OF_BOUNDS : ROPEY_OK;
    CHECK(ropey_chunks_before_byte(&p->rope, b, room == 0 ? NULL : found, room, &count, &before) == wanted);
    CHECK(wanted == ROPEY_OK || (count == 77 && before == 77));
    if (wanted != ROPEY_OK) {
        return;
    }
    size_t joint = before;
    at = before;
    for (size_t k = 0; k < count; k++) {
        at -= found[k].len;
        CHECK(found[k].len > 0 && memcmp(found[k].text, p->bytes + at, found[k].len) == 0);
    }
    CHECK(count <= room && (count == room || at == 0));
    CHECK(ropey_chunks_from_byte(&p->rope, b, room == 0 ? NULL : found, room, &count, &before) == ROPEY_OK && before == joint);
    at = before;
    for (size_t k = 0; k < count; k++) {
        CHECK(found[k].len > 0 && memcmp(found[k].text, p->bytes + at, found[k].len) == 0);
        at += found[k].len;
    }
    CHECK(count <= room && (count == room || at == len));
}

/* Compares the chunks from a byte, a character or a line break on, and the counts before them, with the lookup of one chunk. */
static void chunks_at(pair *p) {
    typedef ropey_status one(const ropey_rope *, size_t, ropey_chunk *);
    typedef ropey_status some(const ropey_rope *, size_t, ropey_piece *, size_t, size_t *, size_t *, size_t *, size_t *);
    one *const ones[] = {ropey_chunk_at_byte, ropey_chunk_at_char, ropey_chunk_at_line_break};
    some *const alls[] = {ropey_chunks_from_byte_with_before, ropey_chunks_from_char_with_before, ropey_chunks_from_line_break_with_before};
    const model *m = &p->text;
    ropey_counts all = counts_of(m);
    size_t unit = below(3), len = unit == 0 ? all.bytes : unit == 1 ? m->len : all.line_breaks + 1, i = below(4) == 0 ? len : below(len + 2);
    size_t room = below(PIECES), count = 77, bytes = 77, chars = 77, line_breaks = 77;
    ropey_piece found[PIECES];
    memset(found, 0, sizeof found);
    ropey_chunk first = ROPEY_NO_CHUNK;
    ropey_status wanted = ones[unit](&p->rope, i, &first);
    CHECK(alls[unit](&p->rope, i, room == 0 ? NULL : found, room, &count, &bytes, &chars, &line_breaks) == wanted);
    if (wanted != ROPEY_OK) {
        CHECK(count == 77 && bytes == 77 && chars == 77 && line_breaks == 77 && found[0].text == NULL);
        return;
    }
    ropey_chunk end = {first.text, 0, all.bytes, m->len, all.line_breaks};
    first = i == len ? end : first;
    CHECK(bytes == first.bytes_before && chars == first.chars_before && line_breaks == first.line_breaks_before);
    CHECK(count == 0 || (found[0].text == first.text && found[0].len == first.len));
    for (size_t k = 0; k < count; k++) {
        CHECK(found[k].len > 0 && memcmp(found[k].text, p->bytes + bytes, found[k].len) == 0);
        bytes += found[k].len;
    }
    CHECK(count <= room && (count == room || bytes == all.bytes));
}

static void line(pair *p) {
    const model *m = &p->text;
    size_t lines = counts_of(m).line_breaks + 1, l = below(lines + 1), room = below(PIECES), count = 77;
    ropey_range bytes = {77, 77};
    ropey_piece found[PIECES];
    memset(found, 0, sizeof found);
    ropey_status wanted = !p->held ? ROPEY_NO_ROPE_HELD : l == lines ? ROPEY_LINE_INDEX_OUT_OF_BOUNDS : ROPEY_OK;
    CHECK(ropey_line_pieces(&p->rope, l, &bytes, found, room, &count) == wanted);
    if (wanted != ROPEY_OK) {
        CHECK(bytes.start == 77 && bytes.end == 77 && count == 77);
        return;
    }
    CHECK(bytes.start == counts_before(m, start_of_line(m, l)).bytes && bytes.end == counts_before(m, start_of_line(m, l + 1)).bytes);
    size_t at = bytes.start;
    for (size_t k = 0; k < count; k++) {
        CHECK(memcmp(found[k].text, p->bytes + at, found[k].len) == 0);
        at += found[k].len;
    }
    CHECK(count <= room && (count == room || at == bytes.end));
}

/* Compares a slice of the characters from start up to end with the model. */
static void see_slice(const pair *p, const ropey_slice *slice, size_t start, size_t end) {
    model part = part_of(&p->text, start, end);
    ropey_counts wanted = counts_of(&part);
    CHECK(memcmp(&slice->counts, &wanted, sizeof wanted) == 0);
    CHECK(slice->len == wanted.bytes || slice->len == 0);
    CHECK(memcmp(slice->text, p->bytes + counts_before(&p->text, start).bytes, slice->len) == 0);
    free(part.chars);
}

/* Slices: a range, a line, and the lines before and after it. */
static void slices(pair *p) {
    enum { SLICES = 8 };
    const model *m = &p->text;
    size_t lines = counts_of(m).line_breaks + 1, l = below(lines + 2), room = below(SLICES), count = 77;
    ropey_slice found[SLICES], slice = ROPEY_NO_SLICE;
    memset(found, 0, sizeof found);
    ropey_range r = drawn_range(m->len);
    ropey_status wanted = !p->held ? ROPEY_NO_ROPE_HELD : l > lines ? ROPEY_LINE_INDEX_OUT_OF_BOUNDS : ROPEY_OK;
    ropey_status fault = !p->held ? ROPEY_NO_ROPE_HELD : char_range_fault(m, r);
    CHECK(ropey_char_slice(&p->rope, r.start, r.end, &slice) == fault && (fault == ROPEY_OK || slice.counts.bytes == 0));
    if (fault == ROPEY_OK) {
        see_slice(p, &slice, r.start, r.end);
    }
    CHECK(ropey_line_slice(&p->rope, l, &slice) == (p->held && l == lines ? ROPEY_LINE_INDEX_OUT_OF_BOUNDS : wanted));
    if (wanted == ROPEY_OK && l < lines) {
        see_slice(p, &slice, start_of_line(m, l), start_of_line(m, l + 1));
    }
    CHECK(ropey_lines_from(&p->rope, l, room == 0 ? NULL : found, room, &count) == wanted);
    if (wanted != ROPEY_OK) {
        ropey_counts none = {77, 77, 77, 77};
        CHECK(count == 77 && ropey_lines_before(&p->rope, l, found, room, &count) == wanted && count == 77);
        CHECK(ropey_lines_from_with_before(&p->rope, l, found, room, &count, &none) == wanted && count == 77 && none.bytes == 77);
        return;
    }
    CHECK(count == (room < lines - l ? room : lines - l));
    for (size_t k = 0; k < count; k++) {
        see_slice(p, &found[k], start_of_line(m, l + k), start_of_line(m, l + k + 1));
    }
    ropey_slice again[SLICES];
    ropey_counts before = {77, 77, 77, 77}, front = counts_before(m, start_of_line(m, l));
    memcpy(again, found, sizeof found);
    CHECK(ropey_lines_from_with_before(&p->rope, l, room == 0 ? NULL : again, room, &count, &before) == ROPEY_OK);
    CHECK(count == (room < lines - l ? room : lines - l) && memcmp(again, found, count * sizeof *found) == 0);
    CHECK(memcmp(&before, &front, sizeof before) == 0);
    CHECK(ropey_lines_before(&p->rope, l, found, room, &count) == ROPEY_OK && count == (room < l ? room : l));
    for (size_t k = 0; k < count; k++) {
        see_slice(p, &found[k], start_of_line(m, l - k - 1), start_of_line(m, l - k));
    }
}

/* A range, and the lines from a character on, with the counts before them. */
static void slices_at(pair *p) {
    enum { SLICES = 8 };
    const model *m = &p->text;
    size_t i = below(m->len + 2), room = below(SLICES), count = 77;
    ropey_slice found[SLICES], slice = ROPEY_NO_SLICE;
    ropey_counts before = {77, 77, 77, 77}, wanted;
    memset(found, 0, sizeof found);
    ropey_range r = drawn_range(m->len);
    ropey_status fault = !p->held ? ROPEY_NO_ROPE_HELD : char_range_fault(m, r);
    CHECK(ropey_char_slice_with_before(&p->rope, r.start, r.end, &slice, &before) == fault);
    CHECK(fault == ROPEY_OK || (slice.counts.bytes == 0 && before.bytes == 77));
    if (fault == ROPEY_OK) {
        see_slice(p, &slice, r.start, r.end);
        wanted = counts_before(m, r.start);
        CHECK(memcmp(&before, &wanted, sizeof before) == 0);
    }
    ropey_counts counts = {77, 77, 77, 77};
    before = counts;
    CHECK(ropey_counts_in_chars_with_before(&p->rope, r.start, r.end, &counts, &before) == fault);
    CHECK(fault == ROPEY_OK ? memcmp(&counts, &slice.counts, sizeof counts) == 0 && memcmp(&before, &wanted, sizeof before) == 0
        : counts.bytes == 77 && before.bytes == 77);
    before.bytes = 77;
    fault = !p->held ? ROPEY_NO_ROPE_HELD : i > m->len ? ROPEY_CHAR_INDEX_OUT_OF_BOUNDS : ROPEY_OK;
    CHECK(ropey_lines_from_char_with_before(&p->rope, i, room == 0 ? NULL : found, room, &count, &before) == fault);
    if (fault != ROPEY_OK) {
        CHECK(count == 77 && before.bytes == 77);
        return;
    }
    model rest = part_of(m, i, m->len);
    size_t lines = counts_of(&rest).line_breaks + 1;
    wanted = counts_before(m, i);
    CHECK(memcmp(&before, &wanted, sizeof before) == 0 && count == (room < lines ? room : lines));
    for (size_t k = 0; k < count; k++) {
        see_slice(p, &found[k], i + start_of_line(&rest, k), i + start_of_line(&rest, k + 1));
    }
    free(rest.chars);
}

/* A range of bytes, with the counts before it. */
static void byte_slice_at(pair *p) {
    const model *m = &p->text;
    ropey_slice slice = ROPEY_NO_SLICE;
    ropey_counts before = {77, 77, 77, 77};
    ropey_range r = drawn_range(counts_of(m).bytes);
    ropey_status fault = !p->held ? ROPEY_NO_ROPE_HELD : byte_range_fault(m, r);
    CHECK(ropey_byte_slice_with_before(&p->rope, r.start, r.end, &slice, &before) == fault);
    if (fault != ROPEY_OK) {
        CHECK(slice.counts.bytes == 0 && before.bytes == 77);
        return;
    }
    size_t start = char_at_byte(m, r.start);
    ropey_counts wanted = counts_before(m, start);
    see_slice(p, &slice, start, char_at_byte(m, r.end));
    CHECK(memcmp(&before, &wanted, sizeof before) == 0);
}

/* Copies and counts of a range. */
static void range(pair *p) {
    static uint8_t buffer[16 * LONGEST];
    const model *m = &p->text;
    bool by_byte = below(2);
    ropey_range r = drawn_range(by_byte ? counts_of(m).bytes : m->len);
    ropey_status fault = !p->held ? ROPEY_NO_ROPE_HELD : by_byte ? byte_range_fault(m, r) : char_range_fault(m, r);
    ropey_counts counts = {77, 77, 77, 77};
    size_t room = below(16) == 0 ? below(64) : sizeof buffer, len = 77;
    ropey_status counted = by_byte ? ropey_counts_in_bytes(&p->rope, r.start, r.end, &counts) : ropey_counts_in_chars(&p->rope, r.start, r.end, &counts);
    ropey_status copied = by_byte ? ropey_copy_bytes(&p->rope, r.start, r.end, buffer, room, &len) : ropey_copy_chars(&p->rope, r.start, r.end, buffer, room, &len);
    CHECK(counted == fault);
    if (fault != ROPEY_OK) {
        CHECK(copied == fault && len == 77 && counts.bytes == 77);
        return;
    }
    model part = by_byte ? part_of(m, char_at_byte(m, r.start), char_at_byte(m, r.end)) : part_of(m, r.start, r.end);
    ropey_counts wanted = counts_of(&part);
    size_t size = 0;
    uint8_t *bytes = bytes_of(&part, &size);
    CHECK(memcmp(&counts, &wanted, sizeof counts) == 0);
    CHECK(copied == (size <= room ? ROPEY_OK : ROPEY_BUFFER_TOO_SMALL) && len == size);
    CHECK(copied != ROPEY_OK || memcmp(buffer, bytes, size) == 0);
    free(bytes);
    free(part.chars);
}

static void compare(pair *p, pair *q) {
    int32_t order = 77;
    bool equal = false;
    ropey_status status = ropey_compare(&p->rope, &q->rope, &order);
    CHECK(status == (p->held && q->held ? ROPEY_OK : ROPEY_NO_ROPE_HELD));
    if (status != ROPEY_OK) {
        CHECK(order == 77);
        return;
    }
    size_t n = counts_of(&p->text).bytes, k = counts_of(&q->text).bytes;
    int sign = memcmp(p->bytes, q->bytes, n < k ? n : k);
    CHECK(order == (sign != 0 ? (sign > 0) - (sign < 0) : (n > k) - (n < k)));
    CHECK(ropey_equals_text(&p->rope, q->bytes, k, &equal) == ROPEY_OK && equal == (order == 0));
}

/* Counts and conversions of a plain text, some of them not UTF-8. */
static void plain(void) {
    size_t len = 0;
    model m = drawn_text(200);
    uint32_t set = (uint32_t)below(4);
    uint8_t *bytes = bytes_of(&m, &len);
    m.break_set = set;
    ropey_counts all = counts_of(&m), counts = {77, 77, 77, 77};
    size_t bad = len > 0 && below(8) == 0 ? below(len) : len;
    size_t valid = bad == len ? len : counts_before(&m, char_at_byte(&m, bad)).bytes;
    if (bad < len) {
        bytes[bad] = 0xFF;
    }
    bool held_ = true;
    ropey_status fault = bad < len ? ROPEY_INVALID_UTF8 : ROPEY_OK, by_set = set > ROPEY_UNICODE ? ROPEY_UNKNOWN_BREAK_SET : fault;
    size_t b = below(all.bytes + 3), i = below(m.len + 3), u = below(all.utf16 + 3), l = below(all.line_breaks + 3);
    size_t at = i < m.len ? i : m.len;
    CHECK(ropey_text_valid_len(bytes, len) == valid);
    CHECK(ropey_text_counts(bytes, len, set, &counts) == by_set);
    CHECK(by_set != ROPEY_OK ? counts.bytes == 77 : memcmp(&counts, &all, sizeof all) == 0);
    if (bad == len) {
        ropey_counts again = {77, 77, 77, 77};
        CHECK(ropey_text_counts_unchecked(bytes, len, set, &again) == by_set && memcmp(&again, &counts, sizeof again) == 0);
    }
    CHECK_LOOKUP(ropey_text_byte_to_char(bytes, len, b, &x), fault, x, char_at_byte(&m, b));
    CHECK_LOOKUP(ropey_text_byte_to_line(bytes, len, set, b, &x), by_set, x, counts_before(&m, char_at_byte(&m, b)).line_breaks);
    CHECK_LOOKUP(ropey_text_char_to_byte(bytes, len, i, &x), fault, x, counts_before(&m, at).bytes);
    CHECK_LOOKUP(ropey_text_char_to_line(bytes, len, set, i, &x), by_set, x, counts_before(&m, at).line_breaks);
    CHECK_LOOKUP(ropey_text_char_to_utf16(bytes, len, i, &x), fault, x, counts_before(&m, at).utf16);
    CHECK_LOOKUP(ropey_text_utf16_to_char(bytes, len, u, &x), fault, x, char_at_utf16(&m, u));
    CHECK_LOOKUP(ropey_text_line_to_byte(bytes, len, set, l, &x), by_set, x, counts_before(&m, start_of_line(&m, l)).bytes);
    CHECK_LOOKUP(ropey_text_line_to_char(bytes, len, set, l, &x), by_set, x, start_of_line(&m, l));
    free(bytes);
    free(m.chars);
}

/* A rope of bytes in parts, cut anywhere, some of them not UTF-8. */
static void build(pair *p) {
    size_t len = 0, at = 0, valid = 77;
    model text = drawn_text(below(4) == 0 ? LONGEST : 40);
    uint8_t *bytes = bytes_of(&text, &len);
    size_t bad = len > 0 && below(4) == 0 ? below(len) : len;
    size_t whole = bad == len ? len : counts_before(&text, char_at_byte(&text, bad)).bytes;
    ropey_builder builder = ROPEY_NO_BUILDER;
    if (bad < len) {
        bytes[bad] = 0xFF;
    }
    CHECK(ropey_builder_append(&builder, bytes, len, &valid) == ROPEY_NO_BUILDER_HELD);
    CHECK(ropey_builder_finish(&builder, &p->rope, &valid) == ROPEY_NO_BUILDER_HELD && valid == 77);
    text.break_set = (uint32_t)below(4);
    ropey_status status = CALL(ropey_builder_new(text.break_set, &builder)), wanted = ROPEY_OK;
    CHECK(status == (text.break_set > ROPEY_UNICODE ? ROPEY_UNKNOWN_BREAK_SET : refused ? ROPEY_OUT_OF_MEMORY : ROPEY_OK));
    while (status == ROPEY_OK && at < len) {
        size_t part = 1 + below(below(2) ? 5 : len - at);
        part = part < len - at ? part : len - at;
        CHECK(CALL(ropey_builder_append(&builder, below(2) ? bytes + at : NULL, 0, &valid)) == ROPEY_OK);
        status = CALL(ropey_builder_append(&builder, bytes + at, part, &valid));
        at += part;
        wanted = at >= whole + 4 && bad < len ? ROPEY_INVALID_UTF8 : ROPEY_OK;
        CHECK(status == wanted || (wanted == ROPEY_OK && status == ROPEY_OUT_OF_MEMORY));
    }
    CHECK(valid == (status == ROPEY_INVALID_UTF8 ? whole : 77));
    if (builder.ptr != NULL) {
        ropey_status said = status;
        valid = 77;
        status = said == ROPEY_OK ? CALL(ropey_builder_finish(&builder, &p->rope, &valid)) : ropey_builder_finish(&builder, &p->rope, &valid);
        CHECK(said == ROPEY_OK || status == said);
        CHECK(status == ROPEY_OUT_OF_MEMORY || status == (whole < len ? ROPEY_INVALID_UTF8 : ROPEY_OK));
        CHECK(valid == (said == ROPEY_OK && status == ROPEY_INVALID_UTF8 ? whole : 77));
    }
    ropey_builder_free(&builder);
    free(bytes);
    if (status == ROPEY_OK) {
        take(p, text);
        check_all_seen(p);
        return;
    }
    free(text.chars);
    check_all_seen(NULL);
}

static const char *const names[] = {"make", "make_clone", "release", "shrink", "put_text", "put_char", "cut", "split", "append", "convert", "position",
    "item", "chunk", "pieces", "line", "range", "compare", "plain", "slices", "build"};
static const int weights[] = {2, 3, 1, 1, 24, 8, 12, 3, 4, 10, 6, 6, 6, 6, 6, 8, 3, 3, 6, 2};
enum { STEPS = sizeof weights / sizeof *weights };

static void step(int k, pair *p, pair *q) {
    now = names[k];
    switch (k) {
    case 0: make(p); break;
    case 1: below(2) ? make_clone(p, q) : make_part(p, q); break;
    case 2: release(p); break;
    case 3: shrink(p); break;
    case 4: put_text(p); break;
    case 5: put_char(p); break;
    case 6: cut(p); break;
    case 7: split(p, q); break;
    case 8: append(p, q); break;
    case 9: convert(p); break;
    case 10: (below(2) ? position : position_in)(p); break;
    case 11: item(p); break;
    case 12: chunk(p); break;
    case 13: below(2) ? pieces(p) : chunks_at(p); break;
    case 14: line(p); break;
    case 15: range(p); break;
    case 16: compare(p, q); break;
    case 17: plain(); break;
    case 18: (below(3) == 0 ? byte_slice_at : below(2) ? slices : slices_at)(p); break;
    default: build(p); break;
    }
    check_all_seen(NULL);
}

int main(int argc, char **argv) {
    long calls = rounds_of(argc, argv, 20000);
    int all = 0;
    for (size_t i = 0; i < HANDLES; i++) {
        pairs[i] = (pair){.rope = ROPEY_NO_ROPE, .text = model_of(letters, 0, ROPEY_LF)};
    }
    for (int k = 0; k < STEPS; k++) {
        all += weights[k];
    }
    for (long n = 0; n < calls; n++) {
        int k = 0;
        for (int left = (int)below((size_t)all); left >= weights[k]; k++) {
            left -= weights[k];
        }
        step(k, &pairs[below(HANDLES)], &pairs[below(HANDLES)]);
    }
    for (size_t i = 0; i < HANDLES; i++) {
        release(&pairs[i]);
        free(pairs[i].text.chars);
    }
    printf("%ld random calls agree with a plain text\n", calls);
    return 0;
}
