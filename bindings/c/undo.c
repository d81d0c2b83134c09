/* An editor's undo: text that is typed character by character is undone word by word. */
#include "ropey.h"

#include <stdio.h>
#include <stdlib.h>
#include <string.h>

enum { STEPS = 16 };

/* A text, and a stack of changes that undo its last edits. */
typedef struct {
    ropey_rope rope;
    ropey_changes undo[STEPS];
    size_t count;
} editor;

/* Ends the program if a call fails. */
static void expect(ropey_status status, const char *what) {
    if (status != ROPEY_OK) {
        fprintf(stderr, "%s: %s\n", what, ropey_status_text(status));
        exit(1);
    }
}

static void print(const char *label, const editor *e) {
    uint8_t buffer[256];
    size_t len = 0;
    expect(ropey_copy_chars(&e->rope, 0, ropey_len_chars(&e->rope), buffer, sizeof buffer, &len), "copy");
    printf("%s: %.*s\n", label, (int)len, (const char *)buffer);
}

/* Applies edits, and pushes the changes that undo them, or joins these with the last step. */
static void edit(editor *e, const ropey_edit *edits, size_t count, bool joins) {
    ropey_changes changes = ROPEY_NO_CHANGES, back = ROPEY_NO_CHANGES, both = ROPEY_NO_CHANGES;
    expect(ropey_changes_of_edits(ropey_len_chars(&e->rope), edits, count, &changes), "changes_of_edits");
    expect(ropey_changes_invert(&changes, &e->rope, &back), "changes_invert");
    expect(ropey_changes_apply(&changes, &e->rope), "changes_apply");
    if (joins && e->count > 0) {
        expect(ropey_changes_compose(&back, &e->undo[e->count - 1], &both), "changes_compose");
        ropey_changes_free(&e->undo[e->count - 1]);
        ropey_changes_free(&back);
        e->undo[e->count - 1] = both;
    } else if (e->count < STEPS) {
        e->undo[e->count++] = back;
    } else {
        ropey_changes_free(&back);
    }
    ropey_changes_free(&changes);
}

/* Types a text at the end. A space starts a new step. */
static void type(editor *e, const char *text) {
    for (size_t i = 0; text[i] != '\0'; i++) {
        size_t end = ropey_len_chars(&e->rope);
        ropey_edit key = {end, end, (const uint8_t *)text + i, 1};
        edit(e, &key, 1, i > 0 && text[i] != ' ');
    }
}

static void undo(editor *e) {
    if (e->count > 0) {
        expect(ropey_changes_apply(&e->undo[--e->count], &e->rope), "undo");
        ropey_changes_free(&e->undo[e->count]);
    }
}

int main(void) {
    editor e = {ROPEY_NO_ROPE, {ROPEY_NO_CHANGES}, 0};
    expect(ropey_from_text(NULL, 0, ROPEY_UNICODE, &e.rope), "from_text");
    type(&e, "one two three");
    print("typed", &e);

    /* Two carets: both edits are applied at once. Their indices are in the text before both. */
    const ropey_edit carets[] = {{0, 3, (const uint8_t *)"1", 1}, {4, 7, (const uint8_t *)"2", 1}};
    edit(&e, carets, 2, false);
    print("two carets", &e);

    /* A bookmark at the end of the text moves with it. */
    size_t bookmark = 0;
    expect(ropey_changes_map(&e.undo[e.count - 1], ropey_len_chars(&e.rope), ROPEY_AFTER, &bookmark), "changes_map");
    printf("the end goes back to %zu\n", bookmark);

    while (e.count > 0) {
        undo(&e);
        print("undone", &e);
    }
    ropey_free(&e.rope);
    return 0;
}
