/* The messages of statuses: the only function of the library in C, since a function of the crate can't return a pointer. */
#include "ropey.h"

const char *ropey_status_text(uint32_t status) {
    switch (status) {
    case ROPEY_OK: return "done";
    case ROPEY_OUT_OF_MEMORY: return "out of memory";
    case ROPEY_NO_ROPE_HELD: return "the handle holds no rope";
    case ROPEY_INVALID_UTF8: return "the bytes are not UTF-8";
    case ROPEY_NOT_A_CHARACTER: return "the number is no Unicode scalar value";
    case ROPEY_UNKNOWN_BREAK_SET: return "the number stands for no set of line breaks";
    case ROPEY_BYTE_INDEX_OUT_OF_BOUNDS: return "the byte index is past the end";
    case ROPEY_CHAR_INDEX_OUT_OF_BOUNDS: return "the character index is past the end";
    case ROPEY_LINE_INDEX_OUT_OF_BOUNDS: return "the line index is past the end";
    case ROPEY_UTF16_INDEX_OUT_OF_BOUNDS: return "the UTF-16 index is past the end";
    case ROPEY_CHAR_RANGE_INVALID: return "the range of characters starts past its end";
    case ROPEY_CHAR_RANGE_OUT_OF_BOUNDS: return "the range of characters reaches past the end";
    case ROPEY_BYTE_RANGE_INVALID: return "the range of bytes starts past its end";
    case ROPEY_BYTE_RANGE_OUT_OF_BOUNDS: return "the range of bytes reaches past the end";
    case ROPEY_BYTE_RANGE_NOT_CHAR_BOUNDARY: return "the range of bytes starts or ends inside a character";
    case ROPEY_TOO_LONG: return "the text would be too long";
    case ROPEY_BREAK_SETS_DIFFER: return "the ropes have different sets of line breaks";
    case ROPEY_BUFFER_TOO_SMALL: return "the buffer has no room for the text";
    case ROPEY_BYTE_INDEX_NOT_CHAR_BOUNDARY: return "the byte index is inside a character";
    case ROPEY_NO_BUILDER_HELD: return "the handle holds no builder";
    case ROPEY_NO_CHANGES_HELD: return "the handle holds no changes";
    case ROPEY_CHAR_RANGE_OUT_OF_ORDER: return "the range of characters starts before the end of the last replacement";
    case ROPEY_LENGTHS_DIFFER: return "the text has another length than the changes are for";
    case ROPEY_UNKNOWN_SIDE: return "the number stands for no side of inserted text";
    case ROPEY_UNKNOWN_ENCODING: return "the number stands for no encoding";
    case ROPEY_NO_MARK: return "the bytes do not begin with the byte order mark of their encoding";
    case ROPEY_UNPAIRED_SURROGATE: return "a code unit of UTF-16 is half of a pair and stands alone";
    case ROPEY_HALF_CODE_UNIT: return "the bytes end inside a code unit of UTF-16";
    case ROPEY_UNENCODABLE: return "the encoding has no bytes for a character of the text";
    default: return "no status of this library";
    }
}
