/* A test that the library frees every block: ropey_free, ropey_builder_free and ropey_changes_free free the handle's value, a
 * call that makes a rope, a builder or changes frees the old value of its handle, and a call that fails keeps nothing.
 *
 *     leaks          # runs each case, and again with each of its allocations refused in turn
 *     leaks CALL     # the same with a CALL that frees nothing: must fail
 *     leaks --calls  # lists the calls that can be made to free nothing
 *
 * No contract states that memory is freed. So the prover accepts these mutants, and only this test finds them:
 *   - ropey_free, ropey_builder_free or ropey_changes_free without the `drop` of the value;
 *   - `put` (handle.rt, builder_handle.rt, changes_handle.rt), the last step of every call that makes a rope, a builder or
 *     changes, without the `drop` of the old value.
 *
 * The program counts the blocks in use: it is linked with --wrap=malloc, --wrap=realloc and --wrap=free. */
/* No case needs a status. */
#define ROPEY_NODISCARD
#include "ropey.h"
#include <stdio.h>
#include <stdlib.h>
#include <string.h>

void *__real_malloc(size_t size);
void *__real_realloc(void *block, size_t size);
void __real_free(void *block);

static long blocks = 0, refuse_at = -1;
static bool refused = false;

static bool is_refused(void) {
    if (refuse_at < 0 || refuse_at-- != 0) {
        return false;
    }
    refused = true;
    return true;
}

void *__wrap_malloc(size_t size) {
    void *block = is_refused() ? NULL : __real_malloc(size);
    blocks += block != NULL;
    return block;
}

void *__wrap_realloc(void *block, size_t size) {
    void *moved = is_refused() ? NULL : __real_realloc(block, size);
    blocks += block == NULL && moved != NULL;
    return moved;
}

void __wrap_free(void *block) {
    blocks -= block != NULL;
    __real_free(block);
}

/* The call that is to free nothing: its handle is emptied before it runs. */
static const char *forgetful = "";

static void forget(const char *call, void **held) {
    if (strcmp(call, forgetful) == 0) {
        *held = NULL;
    }
}

static const char *const calls[] = {"ropey_free", "ropey_from_text", "ropey_from_text_unchecked", "ropey_from_bytes_as", "ropey_clone", "ropey_clone_chars",
    "ropey_split_off", "ropey_builder_new", "ropey_builder_finish", "ropey_builder_free", "ropey_changes_new", "ropey_changes_of_edits", "ropey_changes_invert",
    "ropey_changes_compose", "ropey_changes_rebase", "ropey_changes_free"};

#define ropey_free(rope) (forget("ropey_free", &(rope)->ptr), ropey_free(rope))
#define ropey_from_text(text, len, set, rope) (forget("ropey_from_text", &(rope)->ptr), ropey_from_text(text, len, set, rope))
#define ropey_from_text_unchecked(text, len, set, rope) \
    (forget("ropey_from_text_unchecked", &(rope)->ptr), ropey_from_text_unchecked(text, len, set, rope))
#define ropey_from_bytes_as(bytes, len, encoding, set, rope, found, offset) \
    (forget("ropey_from_bytes_as", &(rope)->ptr), ropey_from_bytes_as(bytes, len, encoding, set, rope, found, offset))
#define ropey_clone(rope, copy) (forget("ropey_clone", &(copy)->ptr), ropey_clone(rope, copy))
#define ropey_clone_chars(rope, start, end, copy) (forget("ropey_clone_chars", &(copy)->ptr), ropey_clone_chars(rope, start, end, copy))
#define ropey_split_off(rope, char_idx, tail) (forget("ropey_split_off", &(tail)->ptr), ropey_split_off(rope, char_idx, tail))
#define ropey_builder_new(set, builder) (forget("ropey_builder_new", &(builder)->ptr), ropey_builder_new(set, builder))
#define ropey_builder_finish(builder, rope, valid) (forget("ropey_builder_finish", &(rope)->ptr), ropey_builder_finish(builder, rope, valid))
#define ropey_builder_free(builder) (forget("ropey_builder_free", &(builder)->ptr), ropey_builder_free(builder))
#define ropey_changes_new(len, changes) (forget("ropey_changes_new", &(changes)->ptr), ropey_changes_new(len, changes))
#define ropey_changes_of_edits(len, edits, count, changes) \
    (forget("ropey_changes_of_edits", &(changes)->ptr), ropey_changes_of_edits(len, edits, count, changes))
#define ropey_changes_invert(changes, before, inverse) \
    (forget("ropey_changes_invert", &(inverse)->ptr), ropey_changes_invert(changes, before, inverse))
#define ropey_changes_compose(changes, later, both) (forget("ropey_changes_compose", &(both)->ptr), ropey_changes_compose(changes, later, both))
#define ropey_changes_rebase(changes, over, side, rebased) \
    (forget("ropey_changes_rebase", &(rebased)->ptr), ropey_changes_rebase(changes, over, side, rebased))
#define ropey_changes_free(changes) (forget("ropey_changes_free", &(changes)->ptr), ropey_changes_free(changes))

/* The handles of the cases, which may leave values in them. */
static ropey_rope rope = ROPEY_NO_ROPE, other = ROPEY_NO_ROPE;
static ropey_builder builder = ROPEY_NO_BUILDER;
static ropey_changes changes = ROPEY_NO_CHANGES, more = ROPEY_NO_CHANGES, moved = ROPEY_NO_CHANGES;
static size_t valid = 0;
static uint8_t text[30000];

static ropey_status make(ropey_rope *made, size_t len) { return ropey_from_text(text, len, ROPEY_UNICODE, made); }

static void frees(void) {
    make(&rope, sizeof text);
    ropey_free(&rope);
    ropey_free(&rope);
}

static void makes_over(void) {
    make(&rope, sizeof text);
    make(&rope, sizeof text / 2);
    ropey_from_text_unchecked(text, 10, ROPEY_LF, &rope);
}

static void makes_nothing(void) {
    static const uint8_t broken[] = {'a', 0xFF};
    make(&rope, 5000);
    ropey_from_text(broken, sizeof broken, ROPEY_UNICODE, &rope);
    ropey_from_text(text, 10, 77, &rope);
}

static void reads_over(void) {
    uint32_t found = 0;
    size_t offset = 0;
    make(&rope, 5000);
    ropey_from_bytes_as(text, sizeof text, ROPEY_FILE_UTF16_BE, ROPEY_UNICODE, &rope, &found, &offset);
    ropey_from_bytes_as(text, sizeof text - 1, ROPEY_FILE_UTF16_LE, ROPEY_UNICODE, &rope, &found, &offset);
    ropey_from_bytes_as(text, sizeof text, ROPEY_FILE_BY_MARK, ROPEY_LF, &rope, &found, &offset);
    ropey_from_bytes_as(text, sizeof text, ROPEY_FILE_UTF8_BOM, ROPEY_LF, &rope, &found, &offset);
    ropey_from_bytes_as(text, sizeof text, ROPEY_FILE_LATIN1, ROPEY_LF, &rope, &found, &offset);
}

static void clones_over(void) {
    make(&rope, sizeof text);
    make(&other, 5000);
    ropey_clone(&rope, &other);
    ropey_insert(&other, 100, text, 2000);
    ropey_clone_chars(&other, 50, 9000, &rope);
    ropey_clone_chars(&other, 2, 1, &rope);
}

static void splits_over(void) {
    make(&rope, sizeof text);
    make(&other, 5000);
    ropey_split_off(&rope, 7000, &other);
    ropey_split_off(&rope, sizeof text + 1, &other);
}

static void appends(void) {
    make(&rope, sizeof text);
    make(&other, 5000);
    ropey_append(&rope, &other);
    ropey_append(&rope, &other);
    ropey_from_text(text, 100, ROPEY_LF, &other);
    ropey_append(&rope, &other);
}

static void edits(void) {
    make(&rope, sizeof text);
    ropey_clone(&rope, &other);
    ropey_insert(&rope, 10, text, 100);
    ropey_insert_char(&rope, 20, 'c');
    ropey_insert_at_byte(&rope, 30, text, sizeof text);
    ropey_remove(&rope, 1000, 12000);
    ropey_remove_bytes(&rope, 40, 1500);
    ropey_replace(&rope, 50, 9000, text, 3000);
    ropey_replace_bytes(&rope, 60, 70, text, 1);
    ropey_shrink_to_fit(&rope);
    ropey_remove(&rope, 0, ropey_len_chars(&rope));
}

static void builds_over(void) {
    make(&rope, 5000);
    ropey_builder_new(ROPEY_UNICODE, &builder);
    ropey_builder_append(&builder, text, 5000, &valid);
    ropey_builder_new(ROPEY_UNICODE, &builder);
    ropey_builder_append(&builder, text, sizeof text, &valid);
    ropey_builder_append(&builder, (const uint8_t *)"\xE4", 1, &valid);
    ropey_builder_append(&builder, (const uint8_t *)"\xB8\xAD and more", 11, &valid);
    ropey_builder_finish(&builder, &rope, &valid);
}

static void builds_nothing(void) {
    make(&rope, 5000);
    ropey_builder_new(ROPEY_UNICODE, &builder);
    ropey_builder_append(&builder, text, 5000, &valid);
    ropey_builder_append(&builder, (const uint8_t *)"\xFF\xFF\xFF\xFF", 4, &valid);
    ropey_builder_finish(&builder, &rope, &valid);
    ropey_builder_new(ROPEY_UNICODE, &builder);
    ropey_builder_append(&builder, text, 5000, &valid);
    ropey_builder_free(&builder);
}

static void changes_over(void) {
    const ropey_edit list[] = {{10, 20, text, 3000}, {500, 900, NULL, 0}, {2000, 2000, text, 5}};
    make(&rope, 5000);
    ropey_changes_new(5000, &changes);
    ropey_changes_replace(&changes, 10, 10, text, 100);
    ropey_changes_replace(&changes, 10, 30, text, 100);
    ropey_changes_replace(&changes, 9, 9, text, 100);
    ropey_changes_of_edits(5000, list, 3, &changes);
    ropey_changes_of_edits(600, list, 3, &changes);
    ropey_changes_new(5000, &changes);
    ropey_changes_of_edits(5000, list, 3, &more);
    ropey_changes_invert(&changes, &rope, &more);
    ropey_changes_of_edits(5000, list, 3, &more);
    ropey_changes_new(5000, &moved);
    ropey_changes_replace(&moved, 1, 2, text, 700);
    ropey_changes_rebase(&changes, &more, ROPEY_AFTER, &moved);
    ropey_changes_compose(&more, &moved, &changes);
    ropey_changes_apply(&more, &rope);
    ropey_apply_edits(&rope, list, 3);
    ropey_apply_edits(&rope, list, 0);
    ropey_changes_free(&more);
}

static void (*const cases[])(void) = {
    frees, makes_over, makes_nothing, reads_over, clones_over, splits_over, appends, edits, builds_over, builds_nothing, changes_over};

/* Runs a case with one allocation refused, frees the handles, and returns whether every block was freed. */
static bool frees_all(void (*run)(void), long at) {
    long before = blocks;
    refused = false;
    refuse_at = at;
    run();
    refuse_at = -1;
    ropey_free(&rope);
    ropey_free(&other);
    ropey_builder_free(&builder);
    ropey_changes_free(&changes);
    ropey_changes_free(&more);
    ropey_changes_free(&moved);
    return blocks == before;
}

int main(int argc, char **argv) {
    long runs = 0;
    if (argc > 1 && strcmp(argv[1], "--calls") == 0) {
        for (size_t k = 0; k < sizeof calls / sizeof *calls; k++) {
            puts(calls[k]);
        }
        return 0;
    }
    forgetful = argc > 1 ? argv[1] : "";
    for (size_t i = 0; i < sizeof text; i++) {
        text[i] = i % 40 == 39 ? '\n' : (uint8_t)('a' + i % 23);
    }
    for (size_t k = 0; k < sizeof cases / sizeof *cases; k++) {
        long at = -1;
        do {
            if (!frees_all(cases[k], at)) {
                fprintf(stderr, "leaks: case %zu, allocation %ld refused: %ld blocks are not freed\n", k, at, blocks);
                return 1;
            }
            at++;
            runs++;
        } while (at == 0 || refused);
    }
    printf("C: every block is freed, in %ld runs with one allocation refused in each\n", runs);
    return 0;
}
