/* A rope as tree-sitter's input: the edit for ts_tree_edit, with rows and byte columns, and the callback with which
 * ts_parser_parse reads the text. The types are copied from tree_sitter/api.h, so that this file needs no other library.
 * Tree-sitter's rows end only after LF, so the rope has the set ROPEY_LF. */
#include "ropey.h"

#include <inttypes.h>
#include <stdio.h>
#include <stdlib.h>
#include <string.h>

typedef struct {
    uint32_t row;
    uint32_t column; /* in bytes */
} TSPoint;

typedef struct {
    uint32_t start_byte;
    uint32_t old_end_byte;
    uint32_t new_end_byte;
    TSPoint start_point;
    TSPoint old_end_point;
    TSPoint new_end_point;
} TSInputEdit;

static void expect(ropey_status status, const char *what) {
    if (status != ROPEY_OK) {
        fprintf(stderr, "%s: %s\n", what, ropey_status_text(status));
        exit(1);
    }
}

/* TSInput.read: returns the rest of the chunk that contains a byte. */
static const char *read_chunk(void *rope, uint32_t byte_index, TSPoint position, uint32_t *bytes_read) {
    ropey_chunk chunk;
    (void)position;
    *bytes_read = 0;
    if (ropey_chunk_at_byte(rope, byte_index, &chunk) != ROPEY_OK) {
        return "";
    }
    size_t skipped = byte_index - chunk.bytes_before;
    *bytes_read = (uint32_t)(chunk.len - skipped);
    return (const char *)chunk.text + skipped;
}

/* Returns the row and byte column of a byte. */
static TSPoint point_at(const ropey_rope *rope, size_t byte_idx) {
    size_t line, start;
    expect(ropey_byte_to_line(rope, byte_idx, &line), "byte_to_line");
    expect(ropey_line_to_byte(rope, line, &start), "line_to_byte");
    return (TSPoint){(uint32_t)line, (uint32_t)(byte_idx - start)};
}

/* Replaces bytes by a text, and returns the edit for tree-sitter. */
static TSInputEdit replace(ropey_rope *rope, size_t start, size_t end, const char *text) {
    const size_t len = strlen(text);
    TSInputEdit edit = {(uint32_t)start, (uint32_t)end, (uint32_t)(start + len), {0, 0}, {0, 0}, {0, 0}};
    edit.start_point = point_at(rope, start);
    edit.old_end_point = point_at(rope, end);
    expect(ropey_replace_bytes(rope, start, end, (const uint8_t *)text, len), "replace_bytes");
    edit.new_end_point = point_at(rope, start + len);
    return edit;
}

static void print(const char *name, uint32_t byte, TSPoint point) {
    printf("%s: byte %" PRIu32 ", row %" PRIu32 ", column %" PRIu32 "\n", name, byte, point.row, point.column);
}

int main(void) {
    ropey_rope rope = ROPEY_NO_ROPE;
    char text[8000] = "";
    for (int i = 0; i < 200; i++) {
        snprintf(text + strlen(text), sizeof text - strlen(text), "let caf\xc3\xa9_%d = %d;\r\n", i, i);
    }
    expect(ropey_from_text((const uint8_t *)text, strlen(text), ROPEY_LF, &rope), "from_text");

    size_t line;
    expect(ropey_line_to_byte(&rope, 100, &line), "line_to_byte");
    TSInputEdit edit = replace(&rope, line + 4, line + 9, "tea\n");
    print("start", edit.start_byte, edit.start_point);
    print("old end", edit.old_end_byte, edit.old_end_point);
    print("new end", edit.new_end_byte, edit.new_end_point);

    /* Calls the callback as a parser does, to the end of the text. */
    uint32_t at = 0, len = 0, reads = 0;
    bool equal = true;
    for (;; at += len, reads++) {
        const char *part = read_chunk(&rope, at, (TSPoint){0, 0}, &len);
        uint8_t copy[1024];
        size_t copied;
        if (len == 0) {
            break;
        }
        expect(ropey_copy_bytes(&rope, at, at + len, copy, sizeof copy, &copied), "copy_bytes");
        equal = equal && memcmp(part, copy, len) == 0;
    }
    printf("read %s in %s\n", equal && at == ropey_len_bytes(&rope) ? "the whole text" : "something else", reads > 1 ? "chunks" : "one chunk");
    ropey_free(&rope);
    return 0;
}
