/* Ropey 1.0.0: a text buffer for editors, for programs in C and C++.
 *
 *     ropey_rope rope = ROPEY_NO_ROPE;
 *     ropey_status status = ropey_from_text((const uint8_t *)"hello world", 11, ROPEY_UNICODE, &rope);
 *     if (status == ROPEY_OK) {
 *         status = ropey_insert(&rope, 5, (const uint8_t *)", you", 5);      // "hello, you world"
 *     }
 *     if (status != ROPEY_OK) {
 *         fprintf(stderr, "%s\n", ropey_status_text(status));
 *     }
 *     ropey_free(&rope);
 *
 * System. The library, libropey.a or libropey.so.1, is for Linux on x86-64 with the instructions of x86-64-v2 (SSE 4.2,
 * POPCNT), and on aarch64. Memory comes from the program's malloc, realloc and free.
 *
 * Versions. A program that was built with a version 1.x runs with every later 1.x: functions, numbers and structs, with
 * their fields and sizes, don't change. New ones may be added. The memory that a handle points to may change.
 *
 * Handles. A `ropey_rope` is a handle. It is initialized with ROPEY_NO_ROPE, and only these calls change it. It may be moved
 * (the old one must not be used again), but never copied: `ropey_clone` makes a second rope. Two handles of a call, or a
 * handle and an output of a call, must be different objects, unless both are `const`. A call that makes a rope frees the old
 * rope of the handle. `ropey_free` frees the last one; an empty handle may be freed again. The same rules apply to
 * `ropey_builder` and `ropey_changes`.
 *
 * Arguments. A text is a pointer to UTF-8 and a length in bytes; it has no terminator. A text, a buffer or a list of 0 items
 * may be a null pointer; no other pointer may be null. A call doesn't keep pointers to texts or outputs. An output needs no
 * initial value, except handles. No text or buffer may have more than PTRDIFF_MAX bytes.
 *
 * Indices count from 0, in bytes, characters (Unicode scalar values), UTF-16 code units or lines. A line ends after a line
 * break of the rope's set. A text has one more line than line breaks, and its last line may be empty.
 *
 * Errors. A call returns ROPEY_OK or the first error that applies, in the order of its comment. Any index, text or number is
 * safe to pass, except to the two calls that end in _unchecked. A call that fails leaves every rope unchanged and writes
 * nothing, unless its comment says otherwise. Calls on an empty handle return ROPEY_NO_ROPE_HELD. A call with nothing to
 * change allocates nothing, and never returns ROPEY_OUT_OF_MEMORY: an insert of an empty text, a removal of an empty range, a
 * replacement of an empty range by an empty text, an append of or to an empty rope, a shrink of an empty rope, an append of
 * no bytes to a builder, changes that replace nothing, a list of no edits.
 *
 * Edits are the calls that take a `ropey_rope *` to a rope; lookups are those that take a `const ropey_rope *`. A lookup
 * changes nothing, and may return pointers into the rope's memory. They are valid until the handle is passed to an edit or
 * overwritten, whatever happens to its clones. A failed edit keeps them valid, unless it returned ROPEY_OUT_OF_MEMORY: then
 * the text is unchanged, but may have moved.
 *
 * Costs. d is the depth of the rope's tree: 0 for a single chunk, 4 for 100 MB, never more than 18. No cost grows with the
 * number of clones.
 *
 *     calls                                    time                                     memory
 *     ---------------------------------------  ---------------------------------------  ---------------------------------
 *     len_*, get_break_set, clone              constant                                 none; a clone takes its handle's
 *     conversions, positions, byte, char,      d, and part of one chunk                 none
 *       line*, *_slice, counts_in_*, chunk_at_*
 *     lines_from, lines_before,                d, and then a step a line or a chunk     none
 *       chunks_from_byte, chunks_before_byte
 *     copy_*                                   d, and the text that is copied           none
 *     compare, equals_text                     the text                                 none
 *     insert, insert_char, insert_at_byte      d, and the text above 981 bytes          3 d + 5 nodes, and for the text
 *     remove, remove_bytes                     d                                        17 d + 12 nodes
 *     replace, replace_bytes                   an insert and a removal                  those of both
 *     split_off, append, clone_chars           d                                        12 d + 2; 16 d + 11 nodes
 *     changes_apply, apply_edits               two edits for each replacement           those of the edits
 *     changes_*                                the replacements and their texts         the result's; map: none
 *     from_text, from_bytes_as, builder_*,     the text                                 the text's nodes
 *       shrink_to_fit
 *     write_as                                 the text; constant without room for it   none
 *     free                                     the nodes that no clone shares           none
 *     text_*                                   the text                                 none
 *
 * An edit copies a node on its path if a clone shares it, and else changes it in place.
 *
 * Threads. A rope shares memory with its clones, its split-off tails and the ropes appended to it. The reference counts of
 * that memory aren't atomic. Of the lookups only `ropey_clone` and `ropey_clone_chars` read or write them. So
 *   - lookups of a handle may run concurrently on any threads, as long as no edit of that handle runs;
 *   - edits and these two calls on ropes that share memory must run one at a time. One lock around them is enough; other
 *     lookups don't need it, not even on ropes that share memory with the edited one.
 * Changes share memory with no rope and no other changes: calls that take a `const ropey_changes *` may run concurrently.
 * A handle may be passed to another thread like any object. No call may come from a signal handler, or, if the program has
 * threads, from the child of a fork.
 */
#ifndef ROPEY_H
#define ROPEY_H

#include <stdbool.h>
#include <stddef.h>
#include <stdint.h>

#ifdef __cplusplus
extern "C" {
#endif

#define ROPEY_VERSION "1.0.0"
#define ROPEY_VERSION_MAJOR 1
#define ROPEY_VERSION_MINOR 0
#define ROPEY_VERSION_PATCH 0

/* The library's version: major * 1000000 + minor * 1000 + patch. */
uint32_t ropey_version(void);

#ifdef __cplusplus
#define ROPEY_ENUM(name) enum name : uint32_t
#else
#define ROPEY_ENUM(name) enum name
#endif

/* Warns about an ignored status. A program can define it as nothing. */
#ifndef ROPEY_NODISCARD
#if defined(__cplusplus) ? __cplusplus >= 201703L : defined(__STDC_VERSION__) && __STDC_VERSION__ >= 202311L
#define ROPEY_NODISCARD [[nodiscard]]
#elif defined(__GNUC__)
#define ROPEY_NODISCARD __attribute__((warn_unused_result))
#else
#define ROPEY_NODISCARD
#endif
#endif

/* The result of a call. */
typedef ROPEY_ENUM(ropey_status) {
    ROPEY_OK = 0,
    ROPEY_OUT_OF_MEMORY = 1,
    ROPEY_NO_ROPE_HELD = 2,
    ROPEY_INVALID_UTF8 = 3,
    ROPEY_NOT_A_CHARACTER = 4,
    ROPEY_UNKNOWN_BREAK_SET = 5,
    ROPEY_BYTE_INDEX_OUT_OF_BOUNDS = 6,
    ROPEY_CHAR_INDEX_OUT_OF_BOUNDS = 7,
    ROPEY_LINE_INDEX_OUT_OF_BOUNDS = 8,
    ROPEY_UTF16_INDEX_OUT_OF_BOUNDS = 9,
    ROPEY_CHAR_RANGE_INVALID = 10, /* the range starts past its end */
    ROPEY_CHAR_RANGE_OUT_OF_BOUNDS = 11,
    ROPEY_BYTE_RANGE_INVALID = 12,
    ROPEY_BYTE_RANGE_OUT_OF_BOUNDS = 13,
    ROPEY_BYTE_RANGE_NOT_CHAR_BOUNDARY = 14, /* the range starts or ends inside a character */
    ROPEY_TOO_LONG = 15,                     /* the text would have more than PTRDIFF_MAX bytes */
    ROPEY_BREAK_SETS_DIFFER = 16,
    ROPEY_BUFFER_TOO_SMALL = 17,
    ROPEY_BYTE_INDEX_NOT_CHAR_BOUNDARY = 18,
    ROPEY_NO_BUILDER_HELD = 19,
    ROPEY_NO_CHANGES_HELD = 20,
    ROPEY_CHAR_RANGE_OUT_OF_ORDER = 21, /* the range starts before the end of the last replacement */
    ROPEY_LENGTHS_DIFFER = 22,          /* the text's length isn't the one that the changes are for */
    ROPEY_UNKNOWN_SIDE = 23,
    ROPEY_UNKNOWN_ENCODING = 24,
    ROPEY_NO_MARK = 25,            /* the bytes don't begin with the byte order mark of their encoding */
    ROPEY_UNPAIRED_SURROGATE = 26, /* a UTF-16 code unit is half of a pair without the other half */
    ROPEY_HALF_CODE_UNIT = 27,     /* the bytes end inside a UTF-16 code unit */
    ROPEY_UNENCODABLE = 28         /* the encoding has no bytes for a character of the text */
} ropey_status;

/* Returns a message for a status: a static, null-terminated sentence without a full stop. */
const char *ropey_status_text(uint32_t status);

/* A set of line breaks. */
typedef ROPEY_ENUM(ropey_break_set) {
    ROPEY_LF = 0,      /* LF alone */
    ROPEY_LF_CR = 1,   /* LF, CR, and CR LF as one break */
    ROPEY_UNICODE = 2  /* all of Unicode's line breaks, with CR LF as one break */
} ropey_break_set;

/* The side of inserted text on which an index stays. */
typedef ROPEY_ENUM(ropey_side) {
    ROPEY_BEFORE = 0,
    ROPEY_AFTER = 1
} ropey_side;

/* The unit of columns: a position encoding of the Language Server Protocol. */
typedef ROPEY_ENUM(ropey_encoding) {
    ROPEY_UTF8 = 0,  /* bytes of UTF-8 */
    ROPEY_UTF16 = 1, /* code units of UTF-16, the protocol's default */
    ROPEY_UTF32 = 2  /* characters */
} ropey_encoding;

/* An encoding of files. A mark is a byte order mark at the start of the bytes. It isn't part of the text. */
typedef ROPEY_ENUM(ropey_file_encoding) {
    ROPEY_FILE_UTF8 = 0,
    ROPEY_FILE_UTF8_BOM = 1,     /* the mark EF BB BF, and then UTF-8 */
    ROPEY_FILE_UTF16_LE = 2,     /* UTF-16, the low byte of each code unit first */
    ROPEY_FILE_UTF16_LE_BOM = 3, /* the mark FF FE, and then UTF-16, the low byte of each code unit first */
    ROPEY_FILE_UTF16_BE = 4,     /* UTF-16, the high byte of each code unit first */
    ROPEY_FILE_UTF16_BE_BOM = 5, /* the mark FE FF, and then UTF-16, the high byte of each code unit first */
    ROPEY_FILE_LATIN1 = 6,       /* a byte for each character, from U+0000 to U+00FF (ISO/IEC 8859-1) */
    ROPEY_FILE_BY_MARK = 7       /* for reading: the encoding whose mark the bytes begin with, or UTF-8 without a mark */
} ropey_file_encoding;

/* A rope, or none. The pointer is private to the library. */
typedef struct {
    void *ptr;
} ropey_rope;

/* A builder, or none. */
typedef struct {
    void *ptr;
} ropey_builder;

/* Changes, or none. */
typedef struct {
    void *ptr;
} ropey_changes;

/* Initializers of handles, as in `static ropey_rope rope = ROPEY_NO_ROPE;`. */
#define ROPEY_NO_ROPE {NULL}
#define ROPEY_NO_BUILDER {NULL}
#define ROPEY_NO_CHANGES {NULL}

/* A chunk of a rope, 1 to 984 bytes of whole characters, and the counts of the text before it. The bytes belong to the rope.
 * If the rope is empty, all numbers are 0, and the pointer is not null, but must not be read. */
typedef struct {
    const uint8_t *text;
    size_t len; /* in bytes */
    size_t bytes_before;
    size_t chars_before;
    size_t line_breaks_before;
} ropey_chunk;

/* The chunk of an empty rope, as an initializer. */
#define ROPEY_NO_CHUNK {(const uint8_t *)"", 0, 0, 0, 0}

/* A piece of a rope's text: a chunk, or a part of one. The bytes belong to the rope. */
typedef struct {
    const uint8_t *text;
    size_t len; /* in bytes */
} ropey_piece;

/* An empty piece, as an initializer. */
#define ROPEY_NO_PIECE {(const uint8_t *)"", 0}

/* A range from start up to, but not including, end. */
typedef struct {
    size_t start;
    size_t end;
} ropey_range;

/* A line, and a column from the start of the line, in UTF-16 code units unless an encoding is given. */
typedef struct {
    size_t line;
    size_t column;
} ropey_place;

/* The counts of a text. */
typedef struct {
    size_t bytes;
    size_t chars;
    size_t utf16;
    size_t line_breaks;
} ropey_counts;

/* A part of a rope's text, and its counts. If it lies in one chunk, text points to its bytes, which belong to the rope; else
 * len is less than counts.bytes. */
typedef struct {
    const uint8_t *text;
    size_t len; /* in bytes */
    ropey_counts counts;
} ropey_slice;

/* An empty slice, as an initializer. */
#define ROPEY_NO_SLICE {(const uint8_t *)"", 0, {0, 0, 0, 0}}

/* An edit: replaces the characters from start up to end by len bytes of UTF-8. A text of 0 bytes may be a null pointer. */
typedef struct {
    size_t start;
    size_t end;
    const uint8_t *text;
    size_t len; /* in bytes */
} ropey_edit;

/* A replacement of changes: replaces the characters from start up to end of the text before the changes by text, which is at
 * new_start up to new_end in the text after them. The bytes belong to the changes. */
typedef struct {
    size_t start;
    size_t end;
    size_t new_start;
    size_t new_end;
    const uint8_t *text;
    size_t len; /* in bytes */
} ropey_replacement;

/* Making and freeing. */

/* Makes a rope of a copy of the text, with a set of line breaks.
 * Errors: UNKNOWN_BREAK_SET, INVALID_UTF8, OUT_OF_MEMORY. */
ROPEY_NODISCARD ropey_status ropey_from_text(const uint8_t *text, size_t len, uint32_t break_set, ropey_rope *rope);

/* Frees the rope, if there is one. Afterwards the handle is empty. */
void ropey_free(ropey_rope *rope);

/* Makes a clone, in constant time. The two share memory, and edits of one don't affect the other.
 * Errors: NO_ROPE_HELD, OUT_OF_MEMORY. */
ROPEY_NODISCARD ropey_status ropey_clone(const ropey_rope *rope, ropey_rope *copy);

/* Makes a rope of the characters from start up to end. It shares memory with the first, as a clone does.
 * Errors: NO_ROPE_HELD, CHAR_RANGE_OUT_OF_BOUNDS, CHAR_RANGE_INVALID, OUT_OF_MEMORY. */
ROPEY_NODISCARD ropey_status ropey_clone_chars(const ropey_rope *rope, size_t start, size_t end, ropey_rope *copy);

/* Rebuilds the rope with as few chunks as ropey_from_text. Errors: NO_ROPE_HELD, OUT_OF_MEMORY. */
ROPEY_NODISCARD ropey_status ropey_shrink_to_fit(ropey_rope *rope);

/* Edits by character. */

/* Inserts the text before the character char_idx, or at the end for the number of characters.
 * Errors: NO_ROPE_HELD, INVALID_UTF8, CHAR_INDEX_OUT_OF_BOUNDS, TOO_LONG, OUT_OF_MEMORY. */
ROPEY_NODISCARD ropey_status ropey_insert(ropey_rope *rope, size_t char_idx, const uint8_t *text, size_t len);

/* Inserts a Unicode scalar value before the character char_idx, or at the end for the number of characters.
 * Errors: NO_ROPE_HELD, NOT_A_CHARACTER, CHAR_INDEX_OUT_OF_BOUNDS, TOO_LONG, OUT_OF_MEMORY. */
ROPEY_NODISCARD ropey_status ropey_insert_char(ropey_rope *rope, size_t char_idx, uint32_t c);

/* Removes the characters from start up to end.
 * Errors: NO_ROPE_HELD, CHAR_RANGE_OUT_OF_BOUNDS, CHAR_RANGE_INVALID, OUT_OF_MEMORY. */
ROPEY_NODISCARD ropey_status ropey_remove(ropey_rope *rope, size_t start, size_t end);

/* Replaces the characters from start up to end by the text, atomically.
 * Errors: NO_ROPE_HELD, INVALID_UTF8, CHAR_RANGE_OUT_OF_BOUNDS, CHAR_RANGE_INVALID, TOO_LONG, OUT_OF_MEMORY. */
ROPEY_NODISCARD ropey_status ropey_replace(ropey_rope *rope, size_t start, size_t end, const uint8_t *text, size_t len);

/* Splits the rope: keeps the first char_idx characters, and makes tail a rope of the others.
 * Errors: NO_ROPE_HELD, CHAR_INDEX_OUT_OF_BOUNDS, OUT_OF_MEMORY. */
ROPEY_NODISCARD ropey_status ropey_split_off(ropey_rope *rope, size_t char_idx, ropey_rope *tail);

/* Appends the text of other. Afterwards other is empty, even on OUT_OF_MEMORY; every other error leaves it unchanged.
 * Errors: NO_ROPE_HELD if one of the two is empty, BREAK_SETS_DIFFER, TOO_LONG, OUT_OF_MEMORY. */
ROPEY_NODISCARD ropey_status ropey_append(ropey_rope *rope, ropey_rope *other);

/* Edits by byte. */

/* Inserts the text before the byte byte_idx, or at the end for the number of bytes.
 * Errors: NO_ROPE_HELD, INVALID_UTF8, BYTE_INDEX_OUT_OF_BOUNDS, BYTE_INDEX_NOT_CHAR_BOUNDARY if the index is inside a
 * character, TOO_LONG, OUT_OF_MEMORY. */
ROPEY_NODISCARD ropey_status ropey_insert_at_byte(ropey_rope *rope, size_t byte_idx, const uint8_t *text, size_t len);

/* Removes the bytes from start up to end.
 * Errors: NO_ROPE_HELD, BYTE_RANGE_INVALID, BYTE_RANGE_OUT_OF_BOUNDS, BYTE_RANGE_NOT_CHAR_BOUNDARY, OUT_OF_MEMORY. */
ROPEY_NODISCARD ropey_status ropey_remove_bytes(ropey_rope *rope, size_t start, size_t end);

/* Replaces the bytes from start up to end by the text, atomically.
 * Errors: NO_ROPE_HELD, INVALID_UTF8, BYTE_RANGE_INVALID, BYTE_RANGE_OUT_OF_BOUNDS, BYTE_RANGE_NOT_CHAR_BOUNDARY,
 * TOO_LONG, OUT_OF_MEMORY. */
ROPEY_NODISCARD ropey_status ropey_replace_bytes(ropey_rope *rope, size_t start, size_t end, const uint8_t *text,
    size_t len);

/* Lengths and counts. */

/* Return the length, in constant time: 0 for an empty handle. */
size_t ropey_len_bytes(const ropey_rope *rope);
size_t ropey_len_chars(const ropey_rope *rope);
size_t ropey_len_lines(const ropey_rope *rope);
size_t ropey_len_utf16(const ropey_rope *rope);

/* Gets the rope's set of line breaks, a ropey_break_set. Errors: NO_ROPE_HELD. */
ROPEY_NODISCARD ropey_status ropey_get_break_set(const ropey_rope *rope, uint32_t *break_set);

/* Counts the text from start up to end, as a text of its own: a CR whose LF is outside the range is a line break.
 * Errors: NO_ROPE_HELD, and those of the range (CHAR_RANGE_OUT_OF_BOUNDS, CHAR_RANGE_INVALID; BYTE_RANGE_INVALID,
 * BYTE_RANGE_OUT_OF_BOUNDS, BYTE_RANGE_NOT_CHAR_BOUNDARY). */
ROPEY_NODISCARD ropey_status ropey_counts_in_chars(const ropey_rope *rope, size_t start, size_t end,
    ropey_counts *counts);
ROPEY_NODISCARD ropey_status ropey_counts_in_bytes(const ropey_rope *rope, size_t start, size_t end,
    ropey_counts *counts);

/* Convert an index. It may be the length, for the end of the text. A byte or a code unit inside a character counts as that
 * character.
 * Errors: NO_ROPE_HELD, and the index's OUT_OF_BOUNDS if it is past the length. */
ROPEY_NODISCARD ropey_status ropey_byte_to_char(const ropey_rope *rope, size_t byte_idx, size_t *char_idx);
ROPEY_NODISCARD ropey_status ropey_byte_to_line(const ropey_rope *rope, size_t byte_idx, size_t *line_idx);
ROPEY_NODISCARD ropey_status ropey_char_to_byte(const ropey_rope *rope, size_t char_idx, size_t *byte_idx);
ROPEY_NODISCARD ropey_status ropey_char_to_line(const ropey_rope *rope, size_t char_idx, size_t *line_idx);
ROPEY_NODISCARD ropey_status ropey_char_to_utf16(const ropey_rope *rope, size_t char_idx, size_t *utf16_idx);
ROPEY_NODISCARD ropey_status ropey_utf16_to_char(const ropey_rope *rope, size_t utf16_idx, size_t *char_idx);
ROPEY_NODISCARD ropey_status ropey_line_to_byte(const ropey_rope *rope, size_t line_idx, size_t *byte_idx);
ROPEY_NODISCARD ropey_status ropey_line_to_char(const ropey_rope *rope, size_t line_idx, size_t *char_idx);

/* Gets the position of a character, or of the end of the text. Errors: NO_ROPE_HELD, CHAR_INDEX_OUT_OF_BOUNDS. */
ROPEY_NODISCARD ropey_status ropey_char_to_position(const ropey_rope *rope, size_t char_idx, ropey_place *place);

/* Gets the last character of the line that begins at or before the column.
 * Errors: NO_ROPE_HELD, LINE_INDEX_OUT_OF_BOUNDS, UTF16_INDEX_OUT_OF_BOUNDS if the column is past the line. */
ROPEY_NODISCARD ropey_status ropey_position_to_char(const ropey_rope *rope, size_t line, size_t column,
    size_t *char_idx);

/* Gets the position of a character, or of the end of the text, with its column in an encoding, a ropey_encoding.
 * Errors: NO_ROPE_HELD, UNKNOWN_ENCODING, CHAR_INDEX_OUT_OF_BOUNDS. */
ROPEY_NODISCARD ropey_status ropey_char_to_position_in(const ropey_rope *rope, size_t char_idx, uint32_t encoding,
    ropey_place *place);

/* Gets the character at any position, with the clamping of the Language Server Protocol: a column past the end of its line is
 * the end of the line before its break, and a line past the last one is the end of the text. A column inside a character is
 * that character.
 * Errors: NO_ROPE_HELD, UNKNOWN_ENCODING. */
ROPEY_NODISCARD ropey_status ropey_clamped_position_to_char(const ropey_rope *rope, size_t line, size_t column,
    uint32_t encoding, size_t *char_idx);

/* Bytes, characters and lines. */

/* Get a byte, a character, or the range of characters of a line, including its line break. The index must be below the length.
 * Errors: NO_ROPE_HELD, and the index's OUT_OF_BOUNDS. */
ROPEY_NODISCARD ropey_status ropey_byte(const ropey_rope *rope, size_t byte_idx, uint8_t *byte);
ROPEY_NODISCARD ropey_status ropey_char(const ropey_rope *rope, size_t char_idx, uint32_t *c);
ROPEY_NODISCARD ropey_status ropey_line(const ropey_rope *rope, size_t line_idx, ropey_range *chars);

/* Gets the number of characters of the line break at the end of a line: 2 for CR LF, 1 for another one, 0 if there is none.
 * Errors: NO_ROPE_HELD, LINE_INDEX_OUT_OF_BOUNDS. */
ROPEY_NODISCARD ropey_status ropey_line_break(const ropey_rope *rope, size_t line_idx, size_t *len);

/* Gets the range of bytes of a line, including its line break, and its first pieces, at most room of them; count is their
 * number. If they don't reach the end of the line, ropey_chunks_from_byte gets the rest.
 * Errors: NO_ROPE_HELD, LINE_INDEX_OUT_OF_BOUNDS. */
ROPEY_NODISCARD ropey_status ropey_line_pieces(const ropey_rope *rope, size_t line_idx, ropey_range *bytes,
    ropey_piece *pieces, size_t room, size_t *count);

/* Chunks. */

/* Get the chunk that contains a byte or a character, or the last chunk for the length; or the chunk that contains the line
 * break before a line, the first chunk for the first line, or the last chunk for the number of lines.
 * Errors: NO_ROPE_HELD, and the index's OUT_OF_BOUNDS if it is past the length. */
ROPEY_NODISCARD ropey_status ropey_chunk_at_byte(const ropey_rope *rope, size_t byte_idx, ropey_chunk *chunk);
ROPEY_NODISCARD ropey_status ropey_chunk_at_char(const ropey_rope *rope, size_t char_idx, ropey_chunk *chunk);
ROPEY_NODISCARD ropey_status ropey_chunk_at_line_break(const ropey_rope *rope, size_t line_idx, ropey_chunk *chunk);

/* Gets the chunks from the one that contains a byte on, at most room of them; count is their number, and bytes_before the
 * number of bytes before the first of them. At the end of the text there are none. The next chunks start at the byte after
 * the last piece. Costs one lookup and a step for each chunk. Errors: NO_ROPE_HELD, BYTE_INDEX_OUT_OF_BOUNDS. */
ROPEY_NODISCARD ropey_status ropey_chunks_from_byte(const ropey_rope *rope, size_t byte_idx, ropey_piece *pieces,
    size_t room, size_t *count, size_t *bytes_before);

/* Gets the chunks before the one that contains a byte, the nearest first, at most room of them; count is their number, and
 * bytes_before the number of bytes before the chunk that contains the byte. At the end of the text the last chunk comes
 * first. The next chunks are those before the first byte of the last piece. Errors: NO_ROPE_HELD, BYTE_INDEX_OUT_OF_BOUNDS. */
ROPEY_NODISCARD ropey_status ropey_chunks_before_byte(const ropey_rope *rope, size_t byte_idx, ropey_piece *pieces,
    size_t room, size_t *count, size_t *bytes_before);

/* Slices. */

/* Gets a line, including its line break. Errors: NO_ROPE_HELD, LINE_INDEX_OUT_OF_BOUNDS, also for the number of lines. */
ROPEY_NODISCARD ropey_status ropey_line_slice(const ropey_rope *rope, size_t line_idx, ropey_slice *slice);

/* Gets the characters from start up to end. A CR whose LF is outside the range is a line break.
 * Errors: NO_ROPE_HELD, CHAR_RANGE_OUT_OF_BOUNDS, CHAR_RANGE_INVALID. */
ROPEY_NODISCARD ropey_status ropey_char_slice(const ropey_rope *rope, size_t start, size_t end, ropey_slice *slice);

/* Get the lines from line_idx on, or those before it, the nearest first, each with its line break, at most room of them; count
 * is their number. Costs one lookup and a step for each line. Errors: NO_ROPE_HELD, LINE_INDEX_OUT_OF_BOUNDS. */
ROPEY_NODISCARD ropey_status ropey_lines_from(const ropey_rope *rope, size_t line_idx, ropey_slice *lines, size_t room,
    size_t *count);
ROPEY_NODISCARD ropey_status ropey_lines_before(const ropey_rope *rope, size_t line_idx, ropey_slice *lines,
    size_t room, size_t *count);

/* Copies and comparisons. */

/* Copy the text from start up to end to the start of the buffer; len is its number of bytes.
 * Errors: NO_ROPE_HELD, those of the range (CHAR_RANGE_OUT_OF_BOUNDS, CHAR_RANGE_INVALID; BYTE_RANGE_INVALID,
 * BYTE_RANGE_OUT_OF_BOUNDS, BYTE_RANGE_NOT_CHAR_BOUNDARY), BUFFER_TOO_SMALL, which writes the required size to len. */
ROPEY_NODISCARD ropey_status ropey_copy_chars(const ropey_rope *rope, size_t start, size_t end, uint8_t *buffer,
    size_t room, size_t *len);
ROPEY_NODISCARD ropey_status ropey_copy_bytes(const ropey_rope *rope, size_t start, size_t end, uint8_t *buffer,
    size_t room, size_t *len);

/* Compares two texts by their bytes: -1, 0 or 1. Errors: NO_ROPE_HELD if one of the handles is empty. */
ROPEY_NODISCARD ropey_status ropey_compare(const ropey_rope *rope, const ropey_rope *other, int32_t *order);

/* Compares the rope's text with another. Errors: NO_ROPE_HELD, INVALID_UTF8. */
ROPEY_NODISCARD ropey_status ropey_equals_text(const ropey_rope *rope, const uint8_t *text, size_t len, bool *equal);

/* Builders: a rope of bytes that arrive in parts, as from a file. */

/* Makes an empty builder. Errors: UNKNOWN_BREAK_SET, OUT_OF_MEMORY. */
ROPEY_NODISCARD ropey_status ropey_builder_new(uint32_t break_set, ropey_builder *builder);

/* Appends bytes to the text. They may end inside a character, which the next bytes continue.
 * Errors: NO_BUILDER_HELD, the error of an earlier append, which leaves valid unchanged, INVALID_UTF8 once the text is followed
 * by four bytes that aren't UTF-8, which writes to valid the number of bytes of text so far, TOO_LONG, OUT_OF_MEMORY. After an
 * error every later call returns the same error. */
ROPEY_NODISCARD ropey_status ropey_builder_append(ropey_builder *builder, const uint8_t *bytes, size_t len,
    size_t *valid);

/* Makes the rope, with as few chunks as ropey_from_text. Afterwards the builder's handle is empty, even on an error.
 * Errors: NO_BUILDER_HELD, the error of an append, which leaves valid unchanged, INVALID_UTF8 if the last bytes aren't UTF-8,
 * which writes to valid the number of bytes of text, OUT_OF_MEMORY. */
ROPEY_NODISCARD ropey_status ropey_builder_finish(ropey_builder *builder, ropey_rope *rope, size_t *valid);

/* Frees the builder, if there is one. Afterwards the handle is empty. */
void ropey_builder_free(ropey_builder *builder);

/* Files in an encoding. */

/* Makes a rope of all bytes of a file in an encoding, a ropey_file_encoding, with a set of line breaks. Writes the encoding to
 * found: the given one, or for ROPEY_FILE_BY_MARK the one whose mark the bytes begin with. ropey_write_as in that encoding gives
 * the same bytes.
 * Errors: UNKNOWN_BREAK_SET, UNKNOWN_ENCODING, NO_MARK, and then the first error in the bytes: INVALID_UTF8 at the first byte
 * that starts no character, UNPAIRED_SURROGATE at that code unit, HALF_CODE_UNIT at the last byte, which write to offset the
 * number of bytes before it; TOO_LONG and OUT_OF_MEMORY for the text before that, whatever follows. */
ROPEY_NODISCARD ropey_status ropey_from_bytes_as(const uint8_t *bytes, size_t len, uint32_t encoding, uint32_t break_set,
    ropey_rope *rope, uint32_t *found, size_t *offset);

/* Writes the text as a file in an encoding, with the encoding's mark, to the start of the buffer; len is its number of bytes.
 * Errors: NO_ROPE_HELD; UNKNOWN_ENCODING, also for ROPEY_FILE_BY_MARK; BUFFER_TOO_SMALL, which writes the required size to len,
 * at most SIZE_MAX; UNENCODABLE in Latin-1, which also writes len, and to char_idx the first character above U+00FF. */
ROPEY_NODISCARD ropey_status ropey_write_as(const ropey_rope *rope, uint32_t encoding, uint8_t *buffer, size_t room,
    size_t *len, size_t *char_idx);

/* Changes: ordered replacements of disjoint ranges of a text, as a value. They are made for a text of a given length, and applied
 * atomically to any rope of that length. Indices count characters. Adjacent replacements become one. Changes allocate their
 * replacements and the inserted texts. */

/* Makes changes of a text of len characters that replace nothing. Errors: TOO_LONG, OUT_OF_MEMORY. */
ROPEY_NODISCARD ropey_status ropey_changes_new(size_t len, ropey_changes *changes);

/* Makes changes from edits in order: calls ropey_changes_new, and ropey_changes_replace for each edit.
 * Errors: TOO_LONG, the first error of ropey_changes_replace, OUT_OF_MEMORY. */
ROPEY_NODISCARD ropey_status ropey_changes_of_edits(size_t len, const ropey_edit *edits, size_t count,
    ropey_changes *changes);

/* Adds a replacement, after the last one, of the characters from start up to end of the text before the changes.
 * Errors: NO_CHANGES_HELD, INVALID_UTF8, CHAR_RANGE_INVALID, CHAR_RANGE_OUT_OF_BOUNDS, CHAR_RANGE_OUT_OF_ORDER, TOO_LONG,
 * OUT_OF_MEMORY. A call that fails leaves the changes unchanged. */
ROPEY_NODISCARD ropey_status ropey_changes_replace(ropey_changes *changes, size_t start, size_t end,
    const uint8_t *text, size_t len);

/* Frees the changes, if there are any. Afterwards the handle is empty. */
void ropey_changes_free(ropey_changes *changes);

/* Return the length of the text before the changes, and after them: 0 for an empty handle. */
size_t ropey_changes_len_before(const ropey_changes *changes);
size_t ropey_changes_len_after(const ropey_changes *changes);

/* Applies the changes to the text of a rope, atomically. Costs two edits of the rope for each replacement.
 * Errors: NO_CHANGES_HELD, NO_ROPE_HELD, LENGTHS_DIFFER, TOO_LONG, OUT_OF_MEMORY. */
ROPEY_NODISCARD ropey_status ropey_changes_apply(const ropey_changes *changes, ropey_rope *rope);

/* Applies ordered edits of disjoint ranges, atomically. Their indices are in the text before all of them.
 * Errors: NO_ROPE_HELD, the first error of ropey_changes_replace, TOO_LONG, OUT_OF_MEMORY. */
ROPEY_NODISCARD ropey_status ropey_apply_edits(ropey_rope *rope, const ropey_edit *edits, size_t count);

/* Makes the changes that undo these, where before is the text before these.
 * Errors: NO_CHANGES_HELD, NO_ROPE_HELD, LENGTHS_DIFFER, OUT_OF_MEMORY. */
ROPEY_NODISCARD ropey_status ropey_changes_invert(const ropey_changes *changes, const ropey_rope *before,
    ropey_changes *inverse);

/* Makes changes equivalent to changes followed by later.
 * Errors: NO_CHANGES_HELD, LENGTHS_DIFFER, OUT_OF_MEMORY. */
ROPEY_NODISCARD ropey_status ropey_changes_compose(const ropey_changes *changes, const ropey_changes *later,
    ropey_changes *both);

/* Rebases changes over other changes of the same text: makes changes of the text after over. If both insert at one index,
 * ROPEY_BEFORE puts the text of changes first, and ROPEY_AFTER that of over. If each of two changes is rebased over the other,
 * with opposite sides, both orders lead to the same text.
 * Errors: NO_CHANGES_HELD, UNKNOWN_SIDE, LENGTHS_DIFFER, TOO_LONG, OUT_OF_MEMORY. */
ROPEY_NODISCARD ropey_status ropey_changes_rebase(const ropey_changes *changes, const ropey_changes *over,
    uint32_t side, ropey_changes *rebased);

/* Maps a character index of the text before the changes, or its length, to the text after them. If text is inserted at the
 * index, the result is on the given side of that text. An index inside a replaced range, past its start, maps to the end of
 * the new text. Errors: NO_CHANGES_HELD, UNKNOWN_SIDE, CHAR_INDEX_OUT_OF_BOUNDS. */
ROPEY_NODISCARD ropey_status ropey_changes_map(const ropey_changes *changes, size_t char_idx, uint32_t side,
    size_t *moved);

/* Maps indices as ropey_changes_map does, all or none, in one pass if they ascend.
 * Errors: NO_CHANGES_HELD, UNKNOWN_SIDE, CHAR_INDEX_OUT_OF_BOUNDS. */
ROPEY_NODISCARD ropey_status ropey_changes_map_sorted(const ropey_changes *changes, size_t *char_indices, size_t count,
    uint32_t side);

/* Gets the replacements in order, at most room of them; count is the number of all. Their texts are valid until the handle is
 * passed to ropey_changes_replace, overwritten or freed. Errors: NO_CHANGES_HELD. */
ROPEY_NODISCARD ropey_status ropey_changes_edits(const ropey_changes *changes, ropey_replacement *edits, size_t room,
    size_t *count);

/* Plain texts. Each call reads the text. */

/* Returns the length of the longest prefix of the text that is valid UTF-8. */
size_t ropey_text_valid_len(const uint8_t *text, size_t len);

/* Counts a text. Errors: UNKNOWN_BREAK_SET, INVALID_UTF8. */
ROPEY_NODISCARD ropey_status ropey_text_counts(const uint8_t *text, size_t len, uint32_t break_set,
    ropey_counts *counts);

/* Convert an index of a text. An index past the end counts as the end, and a byte or a code unit inside a character as that
 * character. Errors: UNKNOWN_BREAK_SET if a set is given, INVALID_UTF8. */
ROPEY_NODISCARD ropey_status ropey_text_byte_to_char(const uint8_t *text, size_t len, size_t byte_idx,
    size_t *char_idx);
ROPEY_NODISCARD ropey_status ropey_text_byte_to_line(const uint8_t *text, size_t len, uint32_t break_set,
    size_t byte_idx, size_t *line_idx);
ROPEY_NODISCARD ropey_status ropey_text_char_to_byte(const uint8_t *text, size_t len, size_t char_idx,
    size_t *byte_idx);
ROPEY_NODISCARD ropey_status ropey_text_char_to_line(const uint8_t *text, size_t len, uint32_t break_set,
    size_t char_idx, size_t *line_idx);
ROPEY_NODISCARD ropey_status ropey_text_char_to_utf16(const uint8_t *text, size_t len, size_t char_idx,
    size_t *utf16_idx);
ROPEY_NODISCARD ropey_status ropey_text_utf16_to_char(const uint8_t *text, size_t len, size_t utf16_idx,
    size_t *char_idx);
ROPEY_NODISCARD ropey_status ropey_text_line_to_byte(const uint8_t *text, size_t len, uint32_t break_set,
    size_t line_idx, size_t *byte_idx);
ROPEY_NODISCARD ropey_status ropey_text_line_to_char(const uint8_t *text, size_t len, uint32_t break_set,
    size_t line_idx, size_t *char_idx);

/* For bindings: calls for programs with their own counts, such as the Rust crate over this library. Those whose names end in
 * _with_before also write the counts of the text before the first character of their result. A line break that ends after that
 * position isn't counted there. */

/* Like ropey_char_slice and ropey_counts_in_chars. */
ROPEY_NODISCARD ropey_status ropey_char_slice_with_before(const ropey_rope *rope, size_t start, size_t end,
    ropey_slice *slice, ropey_counts *before);
ROPEY_NODISCARD ropey_status ropey_counts_in_chars_with_before(const ropey_rope *rope, size_t start, size_t end,
    ropey_counts *counts, ropey_counts *before);

/* Gets the bytes from start up to end, like ropey_char_slice. Errors: NO_ROPE_HELD, BYTE_RANGE_INVALID,
 * BYTE_RANGE_OUT_OF_BOUNDS, BYTE_RANGE_NOT_CHAR_BOUNDARY. */
ROPEY_NODISCARD ropey_status ropey_byte_slice_with_before(const ropey_rope *rope, size_t start, size_t end,
    ropey_slice *slice, ropey_counts *before);

/* Like ropey_lines_from. */
ROPEY_NODISCARD ropey_status ropey_lines_from_with_before(const ropey_rope *rope, size_t line_idx, ropey_slice *lines,
    size_t room, size_t *count, ropey_counts *before);

/* Gets the lines from a character on: the first of them begins there, even inside a line. The next lines start at the character
 * after the last line. Errors: NO_ROPE_HELD, CHAR_INDEX_OUT_OF_BOUNDS. */
ROPEY_NODISCARD ropey_status ropey_lines_from_char_with_before(const ropey_rope *rope, size_t char_idx,
    ropey_slice *lines, size_t room, size_t *count, ropey_counts *before);

/* Get the chunks from one on, at most room of them; count is their number, and the last three outputs are the counts of the text
 * before the first of them. The first is the chunk that contains a byte, a character, or the line break before a line; for the
 * first line it is the first chunk. For the length, or the number of lines, there are none, and the counts are the text's.
 * Errors: NO_ROPE_HELD, and the index's OUT_OF_BOUNDS if it is past the length. */
ROPEY_NODISCARD ropey_status ropey_chunks_from_byte_with_before(const ropey_rope *rope, size_t byte_idx,
    ropey_piece *pieces, size_t room, size_t *count, size_t *bytes_before, size_t *chars_before,
    size_t *line_breaks_before);
ROPEY_NODISCARD ropey_status ropey_chunks_from_char_with_before(const ropey_rope *rope, size_t char_idx,
    ropey_piece *pieces, size_t room, size_t *count, size_t *bytes_before, size_t *chars_before,
    size_t *line_breaks_before);
ROPEY_NODISCARD ropey_status ropey_chunks_from_line_break_with_before(const ropey_rope *rope, size_t line_idx,
    ropey_piece *pieces, size_t room, size_t *count, size_t *bytes_before, size_t *chars_before,
    size_t *line_breaks_before);

/* Like ropey_from_text and ropey_text_counts, without checking that the text is UTF-8. For other bytes the behaviour of these
 * calls, and of later calls on that rope, is undefined.
 * Errors: UNKNOWN_BREAK_SET; the first also OUT_OF_MEMORY. */
ROPEY_NODISCARD ropey_status ropey_from_text_unchecked(const uint8_t *text, size_t len, uint32_t break_set,
    ropey_rope *rope);
ROPEY_NODISCARD ropey_status ropey_text_counts_unchecked(const uint8_t *text, size_t len, uint32_t break_set,
    ropey_counts *counts);

#ifdef __cplusplus
}
#endif

#endif
