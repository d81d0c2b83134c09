/* Tests of the initializers of handles and outputs, and of the sizes of numbers and structs. Compiled as strict C11. */
#include "ropey.h"
#include <stdio.h>
#include <string.h>

static ropey_rope rope = ROPEY_NO_ROPE;
static ropey_builder builder = ROPEY_NO_BUILDER;
static ropey_changes changes = ROPEY_NO_CHANGES;
static ropey_chunk chunk = ROPEY_NO_CHUNK;
static ropey_piece pieces[2] = {ROPEY_NO_PIECE, ROPEY_NO_PIECE};

_Static_assert(sizeof(ropey_status) == sizeof(uint32_t), "a status is 32 bits");
_Static_assert(sizeof(ropey_rope) == sizeof(void *) && sizeof(ropey_builder) == sizeof(void *), "a handle is a pointer");
_Static_assert(sizeof(ropey_changes) == sizeof(void *), "a handle of changes is a pointer");
_Static_assert(sizeof(ropey_chunk) == 5 * sizeof(size_t) && sizeof(ropey_piece) == 2 * sizeof(size_t), "no padding");
_Static_assert(sizeof(ropey_edit) == 4 * sizeof(size_t) && sizeof(ropey_replacement) == 6 * sizeof(size_t), "no padding in edits");
_Static_assert(sizeof(ropey_range) == 2 * sizeof(size_t) && sizeof(ropey_place) == 2 * sizeof(size_t), "no padding in ranges");
_Static_assert(sizeof(ropey_counts) == 4 * sizeof(size_t) && sizeof(ropey_slice) == 6 * sizeof(size_t), "no padding in counts");

/* Returns whether calls write their results to outputs with any initial value. */
static bool outputs_need_no_value(void) {
    ropey_rope text = ROPEY_NO_ROPE;
    ropey_changes inserted = ROPEY_NO_CHANGES;
    struct {
        ropey_chunk chunk;
        ropey_slice slice, lines[2];
        ropey_piece pieces[2];
        ropey_replacement edits[1];
        ropey_counts counts;
        ropey_range range;
        ropey_place place;
        size_t count, before, index;
        uint32_t set;
        int32_t order;
        bool equal;
    } out;
    const ropey_edit edit = {1, 2, (const uint8_t *)"xyz", 3};
    memset(&out, 0xA5, sizeof out);
    bool done = ropey_from_text((const uint8_t *)"a\nb", 3, ROPEY_LF, &text) == ROPEY_OK;
    done = done && ropey_chunk_at_char(&text, 1, &out.chunk) == ROPEY_OK && out.chunk.len == 3 && out.chunk.text[2] == 'b';
    done = done && ropey_line_slice(&text, 1, &out.slice) == ROPEY_OK && out.slice.len == 1 && out.slice.counts.utf16 == 1;
    done = done && ropey_lines_from(&text, 0, out.lines, 2, &out.count) == ROPEY_OK && out.count == 2 && out.lines[1].text[0] == 'b';
    done = done && ropey_chunks_from_byte(&text, 0, out.pieces, 2, &out.count, &out.before) == ROPEY_OK && out.count == 1 && out.before == 0 && out.pieces[0].len == 3;
    done = done && ropey_counts_in_chars(&text, 0, 3, &out.counts) == ROPEY_OK && out.counts.line_breaks == 1;
    done = done && ropey_line(&text, 1, &out.range) == ROPEY_OK && out.range.start == 2 && out.range.end == 3;
    done = done && ropey_char_to_position(&text, 3, &out.place) == ROPEY_OK && out.place.line == 1 && out.place.column == 1;
    done = done && ropey_char_to_byte(&text, 2, &out.index) == ROPEY_OK && out.index == 2;
    done = done && ropey_get_break_set(&text, &out.set) == ROPEY_OK && out.set == ROPEY_LF;
    done = done && ropey_compare(&text, &text, &out.order) == ROPEY_OK && out.order == 0;
    done = done && ropey_equals_text(&text, NULL, 0, &out.equal) == ROPEY_OK && !out.equal;
    done = done && ropey_changes_of_edits(3, &edit, 1, &inserted) == ROPEY_OK;
    done = done && ropey_changes_edits(&inserted, out.edits, 1, &out.count) == ROPEY_OK && out.count == 1 && out.edits[0].len == 3 && out.edits[0].text[0] == 'x';
    ropey_changes_free(&inserted);
    ropey_free(&text);
    return done;
}

int main(void) {
    const uint32_t version = ROPEY_VERSION_MAJOR * 1000000 + ROPEY_VERSION_MINOR * 1000 + ROPEY_VERSION_PATCH;
    char text[32];
    snprintf(text, sizeof text, "%d.%d.%d", ROPEY_VERSION_MAJOR, ROPEY_VERSION_MINOR, ROPEY_VERSION_PATCH);
    for (uint32_t status = 0; status <= ROPEY_UNENCODABLE + 1; status++) {
        for (uint32_t other = 0; other < status; other++) {
            if (strcmp(ropey_status_text(status), ropey_status_text(other)) == 0) {
                return 1;
            }
        }
    }
    for (size_t i = 0; ROPEY_VERSION[i] != '\0' || text[i] != '\0'; i++) {
        if (ROPEY_VERSION[i] != text[i]) {
            return 2;
        }
    }
    if (ropey_version() != version || ropey_len_bytes(&rope) != 0 || builder.ptr != NULL || ropey_changes_len_after(&changes) != 0 || chunk.len + pieces[1].len != 0) {
        return 3;
    }
    if (!outputs_need_no_value()) {
        return 4;
    }
    puts("C: constants are static initializers, and the version is the library's");
    return 0;
}
