/* Files in encodings, compared with the definitions of the encodings.
 *
 *     files [ROUNDS [SEED]]
 *
 * Each round writes a random text in each encoding and reads it again, and reads random bytes. Some allocations fail: the program
 * is linked with --wrap=malloc and --wrap=realloc. A call that fails must leave its handle and its outputs unchanged. */
#include "random.h"

enum { ENCODINGS = ROPEY_FILE_LATIN1 + 1, LONGEST = 4000, UNTOUCHED = 77 };

/* The marks of the encodings, and their lengths. */
static const uint8_t marks[ENCODINGS][3] = {{0}, {0xEF, 0xBB, 0xBF}, {0}, {0xFF, 0xFE}, {0}, {0xFE, 0xFF}, {0}};
static const size_t mark_lens[ENCODINGS] = {0, 3, 0, 2, 0, 2, 0};

static bool is_utf8(uint32_t encoding) { return encoding <= ROPEY_FILE_UTF8_BOM; }
static bool is_big(uint32_t encoding) { return encoding == ROPEY_FILE_UTF16_BE || encoding == ROPEY_FILE_UTF16_BE_BOM; }

static size_t put_unit(uint32_t unit, uint32_t encoding, uint8_t *out) {
    out[is_big(encoding)] = (uint8_t)(unit % 256);
    out[!is_big(encoding)] = (uint8_t)(unit / 256);
    return 2;
}

static size_t put_char(uint32_t c, uint32_t encoding, uint8_t *out) {
    if (is_utf8(encoding)) {
        return encode(c, out);
    }
    if (encoding == ROPEY_FILE_LATIN1) {
        out[0] = (uint8_t)c;
        return 1;
    }
    if (c < 0x10000) {
        return put_unit(c, encoding, out);
    }
    put_unit(0xD800 + (c - 0x10000) / 0x400, encoding, out);
    return 2 + put_unit(0xDC00 + (c - 0x10000) % 0x400, encoding, out + 2);
}

/* Writes the file of a text, and returns its length. If Latin-1 lacks a character, only the length is right. */
static size_t file_of(const model *text, uint32_t encoding, uint8_t *out) {
    size_t len = mark_lens[encoding];
    memcpy(out, marks[encoding], len);
    for (size_t i = 0; i < text->len; i++) {
        len += put_char(text->chars[i], encoding, out + len);
    }
    return len;
}

/* Returns the index of the first character above U+00FF, or the number of characters. */
static size_t first_wide(const model *text) {
    size_t i = 0;
    while (i < text->len && text->chars[i] <= 0xFF) {
        i++;
    }
    return i;
}

/* Returns the length of the UTF-8 character at the front, or 0 if there is none. */
static size_t first_char(const uint8_t *bytes, size_t len) {
    uint8_t again[4];
    size_t width = len == 0 ? 0 : bytes[0] < 0x80 ? 1 : bytes[0] < 0xE0 ? 2 : bytes[0] < 0xF0 ? 3 : 4;
    uint32_t c = width == 0 ? 0 : width == 1 ? bytes[0] : bytes[0] & (0x7Fu >> width);
    if (width == 0 || width > len) {
        return 0;
    }
    for (size_t i = 1; i < width; i++) {
        c = c << 6 | (bytes[i] & 0x3F);
    }
    bool is_scalar = c < 0x110000 && (c < 0xD800 || c >= 0xE000);
    return is_scalar && encode(c, again) == width && memcmp(again, bytes, width) == 0 ? width : 0;
}

/* Returns the expected status of reading bytes in an encoding, and writes the offset of an error. */
static ropey_status status_of(const uint8_t *bytes, size_t len, uint32_t encoding, size_t *offset) {
    size_t at = mark_lens[encoding];
    if (len < at || memcmp(bytes, marks[encoding], at) != 0) {
        return ROPEY_NO_MARK;
    }
    while (at < len) {
        size_t width = 1;
        if (is_utf8(encoding)) {
            width = first_char(bytes + at, len - at);
        } else if (encoding != ROPEY_FILE_LATIN1) {
            uint8_t high = len - at < 2 ? 0 : bytes[at + !is_big(encoding)], next = len - at < 4 ? 0 : bytes[at + 2 + !is_big(encoding)];
            bool is_first = high >= 0xD8 && high < 0xDC, is_second = high >= 0xDC && high < 0xE0;
            width = is_first ? 4 : 2;
            if (len - at < 2 || is_second || (is_first && (next < 0xDC || next >= 0xE0))) {
                *offset = at;
                return len - at < 2 ? ROPEY_HALF_CODE_UNIT : ROPEY_UNPAIRED_SURROGATE;
            }
        }
        if (width == 0) {
            *offset = at;
            return ROPEY_INVALID_UTF8;
        }
        at += width;
    }
    return ROPEY_OK;
}

/* Returns the encoding that ropey_from_bytes_as uses for bytes and a given number. */
static uint32_t encoding_of(uint32_t given, const uint8_t *bytes, size_t len) {
    for (uint32_t encoding = 0; given == ROPEY_FILE_BY_MARK && encoding < ENCODINGS; encoding++) {
        size_t mark = mark_lens[encoding];
        if (mark > 0 && len >= mark && memcmp(bytes, marks[encoding], mark) == 0) {
            return encoding;
        }
    }
    return given == ROPEY_FILE_BY_MARK ? ROPEY_FILE_UTF8 : given;
}

/* Reads bytes into a handle with a rope, and checks the status, the outputs and the text. */
static void check_read(const uint8_t *bytes, size_t len, uint32_t given, ropey_rope *rope) {
    uint32_t found = UNTOUCHED, encoding = encoding_of(given, bytes, len);
    size_t offset = UNTOUCHED, wanted_offset = UNTOUCHED, count = 0, index = UNTOUCHED;
    void *old = rope->ptr;
    ropey_status wanted = status_of(bytes, len, encoding, &wanted_offset);
    ropey_status status = CALL(ropey_from_bytes_as(bytes, len, given, (uint32_t)below(3), rope, &found, &offset));
    if (status == ROPEY_OUT_OF_MEMORY) {
        CHECK(rope->ptr == old && found == UNTOUCHED && offset == UNTOUCHED);
        status = ropey_from_bytes_as(bytes, len, given, ROPEY_UNICODE, rope, &found, &offset);
    }
    CHECK(status == wanted && offset == wanted_offset);
    if (wanted != ROPEY_OK) {
        CHECK(rope->ptr == old && found == UNTOUCHED);
        return;
    }
    uint8_t *again = malloc(len + 1);
    CHECK(found == encoding && ropey_write_as(rope, found, again, len, &count, &index) == ROPEY_OK);
    CHECK(count == len && memcmp(again, bytes, len) == 0 && index == UNTOUCHED);
    free(again);
}

static void check_written(const model *text, uint32_t encoding, ropey_rope *rope) {
    uint8_t *wanted = malloc(4 * text->len + 4), *buffer = malloc(4 * text->len + 8);
    size_t wide = encoding == ROPEY_FILE_LATIN1 ? first_wide(text) : text->len, count = 0, index = UNTOUCHED;
    size_t len = file_of(text, encoding, wanted);
    memset(buffer, UNTOUCHED, len + 1);
    if (len > 0) {
        CHECK(ropey_write_as(rope, encoding, buffer, below(len), &count, &index) == ROPEY_BUFFER_TOO_SMALL && count == len);
        CHECK(buffer[0] == UNTOUCHED && index == UNTOUCHED);
    }
    ropey_status status = ropey_write_as(rope, encoding, buffer, len + 1, &count, &index);
    CHECK(count == len && buffer[len] == UNTOUCHED);
    if (wide < text->len) {
        CHECK(status == ROPEY_UNENCODABLE && index == wide && buffer[0] == UNTOUCHED);
    } else {
        CHECK(status == ROPEY_OK && index == UNTOUCHED && memcmp(buffer, wanted, len) == 0);
        check_read(wanted, len, encoding, rope);
        check_read(wanted, len, ROPEY_FILE_BY_MARK, rope);
    }
    free(wanted);
    free(buffer);
}

/* Reads random bytes, many of them with a mark, surrogates and parts of characters. */
static void check_random(ropey_rope *rope) {
    static const uint8_t drawn[] = {0, 0, 'a', 'a', 0xD8, 0xDB, 0xDC, 0xDF, 0xE0, 0xFE, 0xFF, 0xEF, 0xBB, 0xBF, 0x80, 0xC3, 0xF0, 0x9F};
    uint8_t bytes[LONGEST];
    uint32_t encoding = (uint32_t)below(ENCODINGS);
    size_t len = mark_lens[encoding], rest = below(below(16) == 0 ? LONGEST - 3 : 12);
    memcpy(bytes, marks[encoding], len);
    for (size_t i = 0; i < rest; i++) {
        bytes[len++] = rest > 12 && i < rest - 12 ? (uint8_t)('a' * (i % 2)) : drawn[below(sizeof drawn)];
    }
    check_read(bytes, len, below(2) ? encoding : ROPEY_FILE_BY_MARK, rope);
    check_read(bytes, len, (uint32_t)below(ENCODINGS + 1), rope);
}

static void check_refused(void) {
    ropey_rope none = ROPEY_NO_ROPE;
    uint32_t found = UNTOUCHED;
    size_t len = UNTOUCHED, index = UNTOUCHED;
    uint8_t byte = UNTOUCHED;
    CHECK(ropey_from_bytes_as(&byte, 1, ROPEY_FILE_UTF8, 3, &none, &found, &index) == ROPEY_UNKNOWN_BREAK_SET);
    CHECK(ropey_from_bytes_as(&byte, 1, ROPEY_FILE_BY_MARK + 1, 0, &none, &found, &index) == ROPEY_UNKNOWN_ENCODING);
    CHECK(ropey_write_as(&none, ROPEY_FILE_UTF8, &byte, 1, &len, &index) == ROPEY_NO_ROPE_HELD);
    CHECK(ropey_from_bytes_as(NULL, 0, ROPEY_FILE_LATIN1, 0, &none, &found, &index) == ROPEY_OK && found == ROPEY_FILE_LATIN1);
    CHECK(ropey_write_as(&none, ROPEY_FILE_BY_MARK, &byte, 1, &len, &index) == ROPEY_UNKNOWN_ENCODING && len == UNTOUCHED);
    CHECK(ropey_write_as(&none, ROPEY_FILE_UTF8, NULL, 0, &len, &index) == ROPEY_OK && len == 0);
    CHECK(ropey_len_bytes(&none) == 0 && index == UNTOUCHED && byte == UNTOUCHED);
    ropey_free(&none);
}

int main(int argc, char **argv) {
    long rounds = rounds_of(argc, argv, 2000);
    now = "files";
    check_refused();
    for (long n = 0; n < rounds; n++) {
        ropey_rope rope = ROPEY_NO_ROPE;
        model text = drawn_text(below(16) == 0 ? LONGEST : 10);
        size_t narrow = below(2) ? first_wide(&text) : text.len, len = 0;
        text.len = narrow;
        for (uint32_t encoding = 0; encoding < ENCODINGS; encoding++) {
            uint8_t *bytes = bytes_of(&text, &len);
            CHECK(ropey_from_text(bytes, len, ROPEY_LF, &rope) == ROPEY_OK);
            check_written(&text, encoding, &rope);
            free(bytes);
        }
        check_random(&rope);
        ropey_free(&rope);
        free(text.chars);
    }
    printf("C: %ld texts are written in each encoding and read again\n", rounds);
    return 0;
}
