/* Random changes, compared with their edits of a plain text (model.h).
 *
 *     changes [ROUNDS [SEED]]
 *
 * Each round makes changes, some of them from wrong edits, and applies, inverts, composes, rebases and lists them. Some
 * allocations fail: the program is linked with --wrap=malloc and --wrap=realloc. A call that fails must leave its handles
 * unchanged. */
#include "random.h"

enum { EDITS = 8 };

/* Edits of a text of `len` characters, with their characters, and the expected status of changes made of them. */
typedef struct {
    ropey_edit edits[EDITS];
    model texts[EDITS];
    uint8_t *bytes[EDITS];
    size_t count;
    size_t len;
    ropey_status wanted;
} list;

static list drawn_list(size_t len, bool may_be_wrong) {
    list drawn = {.count = below(EDITS + 1), .len = len, .wanted = ROPEY_OK};
    size_t at = 0;
    for (size_t i = 0; i < drawn.count; i++) {
        size_t bytes = 0, start = at + below((len - at) / 3 + 1), rest = len - start;
        size_t end = start + below((rest < 6 ? rest : 6) + 1);
        drawn.texts[i] = drawn_text(below(3) == 0 ? 0 : below(16) == 0 ? 1500 : 5);
        drawn.bytes[i] = bytes_of(&drawn.texts[i], &bytes);
        bool broken = false;
        if (may_be_wrong && below(8) == 0) {
            broken = bytes > 0 && below(2);
            start = below(len + 3);
            end = below(len + 3);
        }
        if (broken) {
            drawn.bytes[i][below(bytes)] = 0xFF;
        }
        if (drawn.wanted == ROPEY_OK) {
            drawn.wanted = broken ? ROPEY_INVALID_UTF8 : end < start ? ROPEY_CHAR_RANGE_INVALID
                : end > len ? ROPEY_CHAR_RANGE_OUT_OF_BOUNDS : start < at ? ROPEY_CHAR_RANGE_OUT_OF_ORDER : ROPEY_OK;
        }
        drawn.edits[i] = (ropey_edit){start, end, bytes == 0 && below(2) ? NULL : drawn.bytes[i], bytes};
        at = drawn.wanted == ROPEY_OK && (bytes > 0 || start < end) ? end : at;
    }
    return drawn;
}

static void forget(list *drawn) {
    for (size_t i = 0; i < drawn->count; i++) {
        free(drawn->texts[i].chars);
        free(drawn->bytes[i]);
    }
}

/* Returns the text after the edits. An edit that changes nothing may be out of order. */
static model edited(const list *drawn, const model *text) {
    model after = part_of(text, 0, text->len);
    for (size_t i = drawn->count; i-- > 0;) {
        const model *new = &drawn->texts[i];
        if (drawn->edits[i].start < drawn->edits[i].end || new->len > 0) {
            model_replace(&after, drawn->edits[i].start, drawn->edits[i].end, new->chars, new->len);
        }
    }
    return after;
}

/* Runs a call, and again if it was out of memory, which must leave the handle unchanged. */
#define TRY(status, handle, call)               \
    do {                                        \
        void *old_ = (handle)->ptr;             \
        status = CALL(call);                    \
        if (status == ROPEY_OUT_OF_MEMORY) {    \
            CHECK((handle)->ptr == old_);       \
            status = (call);                    \
        }                                       \
    } while (0)

/* Makes changes of the edits, at once or one by one. */
static ropey_status made_of(const list *drawn, ropey_changes *changes) {
    ropey_status status;
    if (below(2)) {
        void *old = changes->ptr;
        TRY(status, changes, ropey_changes_of_edits(drawn->len, drawn->edits, drawn->count, changes));
        CHECK(status == ROPEY_OK || changes->ptr == old);
        return status;
    }
    TRY(status, changes, ropey_changes_new(drawn->len, changes));
    CHECK(status == ROPEY_OK && ropey_changes_len_before(changes) == drawn->len && ropey_changes_len_after(changes) == drawn->len);
    for (size_t i = 0; i < drawn->count && status == ROPEY_OK; i++) {
        const ropey_edit *e = &drawn->edits[i];
        status = CALL(ropey_changes_replace(changes, e->start, e->end, e->text, e->len));
        if (status == ROPEY_OUT_OF_MEMORY) {
            CHECK(e->len > 0 || e->start < e->end);
            status = ropey_changes_replace(changes, e->start, e->end, e->text, e->len);
        }
    }
    return status;
}

static void check_text(const ropey_rope *rope, const model *text) {
    size_t len = 0;
    uint8_t *bytes = bytes_of(text, &len);
    bool equal = false;
    CHECK(ropey_equals_text(rope, bytes, len, &equal) == ROPEY_OK && equal && ropey_len_chars(rope) == text->len);
    free(bytes);
}

static void make_rope(const model *text, ropey_rope *rope) {
    size_t len = 0;
    uint8_t *bytes = bytes_of(text, &len);
    CHECK(ropey_from_text(bytes, len, text->break_set, rope) == ROPEY_OK);
    free(bytes);
}

/* Applies changes to a rope of the text before them, and compares it with the text after them. */
static void check_applied(const ropey_changes *changes, const model *before, const model *after) {
    ropey_rope rope = ROPEY_NO_ROPE;
    ropey_status status;
    make_rope(before, &rope);
    CHECK(ropey_changes_len_before(changes) == before->len && ropey_changes_len_after(changes) == after->len);
    status = CALL(ropey_changes_apply(changes, &rope));
    if (status == ROPEY_OUT_OF_MEMORY) {
        check_text(&rope, before);
        status = ropey_changes_apply(changes, &rope);
    }
    CHECK(status == ROPEY_OK);
    check_text(&rope, after);
    ropey_free(&rope);
}

/* Checks that the replacements are ordered and disjoint, that each changes something, and that its text is in the text after. */
static void check_listed(const ropey_changes *changes, const model *before, const model *after) {
    ropey_replacement few[2] = {{77, 0, 0, 0, NULL, 0}, {77, 0, 0, 0, NULL, 0}};
    ropey_replacement all[2 * EDITS + 2];
    size_t count = 77, again = 77, end = 0, new_end = 0, len = 0;
    memset(all, 0, sizeof all);
    CHECK(ropey_changes_edits(changes, few, below(2), &count) == ROPEY_OK && count <= 2 * EDITS + 2 && few[1].start == 77);
    CHECK(ropey_changes_edits(changes, all, 2 * EDITS + 2, &again) == ROPEY_OK && again == count);
    uint8_t *bytes = bytes_of(after, &len);
    for (size_t i = 0; i < count; i++) {
        const ropey_replacement *r = &all[i];
        size_t from = counts_before(after, r->new_start).bytes;
        CHECK(r->start <= r->end && r->end <= before->len && end + (i > 0) <= r->start && r->new_start == new_end + (r->start - end));
        CHECK(r->new_start <= r->new_end && r->new_end <= after->len && r->end - r->start + r->len > 0);
        CHECK(counts_before(after, r->new_end).bytes == from + r->len && memcmp(r->text, bytes + from, r->len) == 0);
        CHECK(memcmp(before->chars + end, after->chars + new_end, (r->start - end) * sizeof *before->chars) == 0);
        end = r->end;
        new_end = r->new_end;
    }
    CHECK(before->len - end == after->len - new_end);
    free(bytes);
}

/* Returns an index of the text before, mapped to the text after the edits. Adjacent edits count as one. */
static size_t moved(const list *drawn, size_t i, bool after) {
    size_t starts[EDITS], ends[EDITS], lens[EDITS], count = 0, end = 0, new_end = 0;
    for (size_t k = 0; k < drawn->count; k++) {
        size_t start = drawn->edits[k].start, stop = drawn->edits[k].end, len = drawn->texts[k].len;
        if (start == stop && len == 0) {
            continue;
        }
        bool touches = count > 0 && ends[count - 1] == start;
        count += !touches;
        starts[count - 1] = touches ? starts[count - 1] : start;
        lens[count - 1] = touches ? lens[count - 1] + len : len;
        ends[count - 1] = stop;
    }
    for (size_t k = 0; k < count && starts[k] <= i; k++) {
        size_t new_start = new_end + (starts[k] - end);
        if (i <= ends[k]) {
            return i == starts[k] && !after ? new_start : new_start + lens[k];
        }
        new_end = new_start + lens[k];
        end = ends[k];
    }
    return new_end + (i - end);
}

static void check_moved(const ropey_changes *changes, const list *drawn) {
    size_t i = below(drawn->len + 2), found = 77;
    uint32_t side = (uint32_t)below(3);
    ropey_status status = ropey_changes_map(changes, i, side, &found);
    ropey_status wanted = side > ROPEY_AFTER ? ROPEY_UNKNOWN_SIDE : i > drawn->len ? ROPEY_CHAR_INDEX_OUT_OF_BOUNDS : ROPEY_OK;
    CHECK(status == wanted);
    CHECK(found == (wanted == ROPEY_OK ? moved(drawn, i, side == ROPEY_AFTER) : 77));

    size_t indices[5], old[5], largest = 0, count = below(6);
    for (size_t k = 0; k < count; k++) {
        indices[k] = old[k] = below(drawn->len + (below(8) == 0 ? 2 : 1));
        largest = old[k] > largest ? old[k] : largest;
    }
    wanted = side > ROPEY_AFTER ? ROPEY_UNKNOWN_SIDE : largest > drawn->len ? ROPEY_CHAR_INDEX_OUT_OF_BOUNDS : ROPEY_OK;
    CHECK(ropey_changes_map_sorted(changes, count == 0 ? NULL : indices, count, side) == wanted);
    for (size_t k = 0; k < count; k++) {
        CHECK(indices[k] == (wanted == ROPEY_OK ? moved(drawn, old[k], side == ROPEY_AFTER) : old[k]));
    }
}

/* Checks that the inverse undoes the changes, and that ropey_apply_edits does what the changes do. */
static void check_inverse(const ropey_changes *changes, const list *drawn, const model *before, const model *after) {
    ropey_changes inverse = ROPEY_NO_CHANGES;
    ropey_rope rope = ROPEY_NO_ROPE;
    ropey_status status;
    make_rope(before, &rope);
    TRY(status, &inverse, ropey_changes_invert(changes, &rope, &inverse));
    CHECK(status == ROPEY_OK);
    check_applied(&inverse, after, before);
    status = CALL(ropey_apply_edits(&rope, drawn->count == 0 && below(2) ? NULL : drawn->edits, drawn->count));
    CHECK(drawn->count > 0 || status == ROPEY_OK);
    if (status == ROPEY_OUT_OF_MEMORY) {
        check_text(&rope, before);
        status = ropey_apply_edits(&rope, drawn->edits, drawn->count);
    }
    CHECK(status == ROPEY_OK);
    check_text(&rope, after);
    if (before->len != after->len) {
        void *old = inverse.ptr;
        CHECK(ropey_changes_invert(changes, &rope, &inverse) == ROPEY_LENGTHS_DIFFER && inverse.ptr == old);
        CHECK(ropey_changes_apply(changes, &rope) == ROPEY_LENGTHS_DIFFER);
    }
    ropey_free(&rope);
    ropey_changes_free(&inverse);
}

/* Compares changes composed with later ones with both of them. */
static void check_composed(const ropey_changes *changes, const model *before, const model *after) {
    list drawn = drawn_list(below(8) == 0 ? below(40) : after->len, false);
    ropey_changes later = ROPEY_NO_CHANGES, both = ROPEY_NO_CHANGES;
    ropey_status status;
    CHECK(made_of(&drawn, &later) == ROPEY_OK);
    TRY(status, &both, ropey_changes_compose(changes, &later, &both));
    CHECK(status == (drawn.len == after->len ? ROPEY_OK : ROPEY_LENGTHS_DIFFER));
    if (status == ROPEY_OK) {
        model last = edited(&drawn, after);
        check_applied(&both, before, &last);
        check_listed(&both, before, &last);
        free(last.chars);
    }
    ropey_changes_free(&later);
    ropey_changes_free(&both);
    forget(&drawn);
}

/* Checks that two changes of one text, each rebased over the other, lead to the same text in both orders. */
static void check_rebased(const ropey_changes *changes, const model *before, const model *after) {
    list drawn = drawn_list(below(8) == 0 ? below(40) : before->len, false);
    ropey_changes other = ROPEY_NO_CHANGES, second = ROPEY_NO_CHANGES, first = ROPEY_NO_CHANGES;
    ropey_rope rope = ROPEY_NO_ROPE, other_rope = ROPEY_NO_ROPE;
    uint32_t side = (uint32_t)below(3);
    ropey_status status, wanted = side > ROPEY_AFTER ? ROPEY_UNKNOWN_SIDE : drawn.len != before->len ? ROPEY_LENGTHS_DIFFER : ROPEY_OK;
    CHECK(made_of(&drawn, &other) == ROPEY_OK);
    TRY(status, &second, ropey_changes_rebase(&other, changes, side, &second));
    CHECK(status == wanted);
    if (status == ROPEY_OK) {
        model moved_text = edited(&drawn, before);
        int32_t order = 7;
        TRY(status, &first, ropey_changes_rebase(changes, &other, ROPEY_AFTER - side, &first));
        CHECK(status == ROPEY_OK);
        make_rope(after, &rope);
        make_rope(&moved_text, &other_rope);
        CHECK(ropey_changes_apply(&second, &rope) == ROPEY_OK && ropey_changes_apply(&first, &other_rope) == ROPEY_OK);
        CHECK(ropey_compare(&rope, &other_rope, &order) == ROPEY_OK && order == 0);
        free(moved_text.chars);
    }
    ropey_free(&rope);
    ropey_free(&other_rope);
    ropey_changes_free(&other);
    ropey_changes_free(&first);
    ropey_changes_free(&second);
    forget(&drawn);
}

/* Checks calls on empty handles. */
static void check_empty(void) {
    ropey_changes none = ROPEY_NO_CHANGES, other = ROPEY_NO_CHANGES, made = ROPEY_NO_CHANGES;
    ropey_rope rope = ROPEY_NO_ROPE;
    size_t found = 77;
    ropey_edit edit = {0, 0, NULL, 0};
    CHECK(ropey_changes_new(SIZE_MAX, &made) == ROPEY_TOO_LONG && made.ptr == NULL);
    CHECK(ropey_changes_of_edits(SIZE_MAX, &edit, 1, &made) == ROPEY_TOO_LONG && made.ptr == NULL);
    CHECK(ropey_changes_len_before(&none) == 0 && ropey_changes_len_after(&none) == 0);
    CHECK(ropey_changes_replace(&none, 0, 0, NULL, 0) == ROPEY_NO_CHANGES_HELD);
    CHECK(ropey_changes_apply(&none, &rope) == ROPEY_NO_CHANGES_HELD);
    CHECK(ropey_changes_map(&none, 0, 0, &found) == ROPEY_NO_CHANGES_HELD && found == 77);
    CHECK(ropey_changes_map_sorted(&none, &found, 1, 0) == ROPEY_NO_CHANGES_HELD && found == 77);
    CHECK(ropey_changes_edits(&none, NULL, 0, &found) == ROPEY_NO_CHANGES_HELD && found == 77);
    CHECK(ropey_changes_new(PTRDIFF_MAX, &made) == ROPEY_OK && ropey_changes_len_after(&made) == PTRDIFF_MAX);
    CHECK(ropey_changes_replace(&made, 0, 0, (const uint8_t *)"x", 1) == ROPEY_TOO_LONG);
    CHECK(ropey_changes_apply(&made, &rope) == ROPEY_NO_ROPE_HELD && ropey_apply_edits(&rope, &edit, 1) == ROPEY_NO_ROPE_HELD);
    CHECK(ropey_changes_invert(&none, &rope, &other) == ROPEY_NO_CHANGES_HELD);
    CHECK(ropey_changes_invert(&made, &rope, &other) == ROPEY_NO_ROPE_HELD);
    CHECK(ropey_changes_compose(&made, &none, &other) == ROPEY_NO_CHANGES_HELD);
    CHECK(ropey_changes_rebase(&none, &made, ROPEY_AFTER, &other) == ROPEY_NO_CHANGES_HELD && other.ptr == NULL);
    ropey_changes_free(&made);
    ropey_changes_free(&made);
    CHECK(made.ptr == NULL);
}

static void run_round(void) {
    model text = drawn_text(below(16) == 0 ? 3000 : 30);
    list drawn = drawn_list(text.len, below(4) == 0);
    ropey_changes changes = ROPEY_NO_CHANGES;
    text.break_set = (uint32_t)below(3);
    CHECK(made_of(&drawn, &changes) == drawn.wanted);
    if (drawn.wanted != ROPEY_OK) {
        ropey_rope rope = ROPEY_NO_ROPE;
        make_rope(&text, &rope);
        CHECK(ropey_apply_edits(&rope, drawn.edits, drawn.count) == drawn.wanted);
        check_text(&rope, &text);
        ropey_free(&rope);
    }
    if (drawn.wanted == ROPEY_OK) {
        model after = edited(&drawn, &text);
        check_applied(&changes, &text, &after);
        check_listed(&changes, &text, &after);
        check_moved(&changes, &drawn);
        check_inverse(&changes, &drawn, &text, &after);
        check_composed(&changes, &text, &after);
        check_rebased(&changes, &text, &after);
        free(after.chars);
    }
    ropey_changes_free(&changes);
    forget(&drawn);
    free(text.chars);
}

int main(int argc, char **argv) {
    long rounds = rounds_of(argc, argv, 2000);
    now = "empty handles";
    check_empty();
    for (long n = 0; n < rounds; n++) {
        now = "changes";
        run_round();
    }
    printf("C: %ld random changes agree with a plain text\n", rounds);
    return 0;
}
