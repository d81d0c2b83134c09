/* A small editor without a screen: it loads a file, prints a few lines, edits, undoes, and saves.
 *
 *     example FILE */
#include "ropey.h"

#include <stdio.h>
#include <stdlib.h>

enum { ROWS = 4, COLUMNS = 40 };

/* Ends the program if a call fails. */
static void expect(ropey_status status, const char *what) {
    if (status != ROPEY_OK) {
        fprintf(stderr, "%s: %s\n", what, ropey_status_text(status));
        exit(1);
    }
}

static FILE *opened(const char *path, const char *mode) {
    FILE *file = fopen(path, mode);
    if (file == NULL) {
        perror(path);
        exit(1);
    }
    return file;
}

/* Makes a rope of a file. Its bytes arrive in parts, which may end inside a character. */
static void load(const char *path, ropey_rope *rope) {
    ropey_builder builder = ROPEY_NO_BUILDER;
    uint8_t bytes[4096];
    size_t len, valid = 0;
    FILE *file = opened(path, "rb");
    expect(ropey_builder_new(ROPEY_UNICODE, &builder), "builder_new");
    while ((len = fread(bytes, 1, sizeof bytes, file)) > 0) {
        ropey_status status = ropey_builder_append(&builder, bytes, len, &valid);
        if (status == ROPEY_INVALID_UTF8) {
            fprintf(stderr, "%s: no UTF-8 after byte %zu\n", path, valid);
            exit(1);
        }
        expect(status, path);
    }
    if (ferror(file)) {
        perror(path);
        exit(1);
    }
    fclose(file);
    expect(ropey_builder_finish(&builder, rope, &valid), path);
}

/* Prints lines from one on, each without its line break and cut to the row. */
static void draw(const ropey_rope *rope, size_t first) {
    ropey_slice lines[ROWS];
    size_t count, start;
    expect(ropey_lines_from(rope, first, lines, ROWS, &count), "lines_from");
    expect(ropey_line_to_char(rope, first, &start), "line_to_char");
    for (size_t i = 0; i < count; i++) {
        uint8_t row[4 * COLUMNS];
        size_t line_break, len;
        expect(ropey_line_break(rope, first + i, &line_break), "line_break");
        size_t shown = lines[i].counts.chars - line_break;
        if (shown > COLUMNS) {
            shown = COLUMNS;
        }
        expect(ropey_copy_chars(rope, start, start + shown, row, sizeof row, &len), "copy_chars");
        printf("%4zu  %.*s\n", first + i + 1, (int)len, (const char *)row);
        start += lines[i].counts.chars;
    }
    printf("      %zu lines, %zu characters\n", ropey_len_lines(rope), ropey_len_chars(rope));
}

/* Applies edits atomically, and writes the changes that undo them to undo. */
static void edit(ropey_rope *rope, const ropey_edit *edits, size_t count, ropey_changes *undo) {
    ropey_changes changes = ROPEY_NO_CHANGES;
    expect(ropey_changes_of_edits(ropey_len_chars(rope), edits, count, &changes), "changes_of_edits");
    expect(ropey_changes_invert(&changes, rope, undo), "changes_invert");
    expect(ropey_changes_apply(&changes, rope), "changes_apply");
    ropey_changes_free(&changes);
}

/* Writes the text, chunk by chunk, without a copy. */
static void save(const char *path, const ropey_rope *rope) {
    ropey_piece pieces[64];
    size_t count, before, at = 0;
    bool is_written = true;
    FILE *file = opened(path, "wb");
    do {
        expect(ropey_chunks_from_byte(rope, at, pieces, 64, &count, &before), "chunks_from_byte");
        for (size_t i = 0; i < count; i++) {
            is_written = is_written && fwrite(pieces[i].text, 1, pieces[i].len, file) == pieces[i].len;
            at += pieces[i].len;
        }
    } while (count > 0);
    if (fclose(file) != 0 || !is_written) {
        perror(path);
        exit(1);
    }
}

int main(int count, char **words) {
    ropey_rope rope = ROPEY_NO_ROPE, saved = ROPEY_NO_ROPE;
    ropey_changes undo = ROPEY_NO_CHANGES;
    if (count != 2) {
        fprintf(stderr, "usage: example FILE\n");
        return 2;
    }
    load(words[1], &rope);
    draw(&rope, 2);

    /* Two carets, at the starts of the third and fourth lines. The indices are in the text before both edits. */
    size_t third, fourth;
    expect(ropey_line_to_char(&rope, 2, &third), "line_to_char");
    expect(ropey_line_to_char(&rope, 3, &fourth), "line_to_char");
    const uint8_t mark[] = {'*', ' '};
    const ropey_edit edits[] = {{third, third, mark, sizeof mark}, {fourth, fourth, mark, sizeof mark}};
    edit(&rope, edits, 2, &undo);
    draw(&rope, 2);
    save(words[1], &rope);

    expect(ropey_changes_apply(&undo, &rope), "undo");
    draw(&rope, 2);

    int32_t order;
    load(words[1], &saved);
    expect(ropey_compare(&saved, &rope, &order), "compare");
    printf("the file is %s the text\n", order == 0 ? "still" : "no longer");
    ropey_changes_free(&undo);
    ropey_free(&saved);
    ropey_free(&rope);
    return 0;
}
