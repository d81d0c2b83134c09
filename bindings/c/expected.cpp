/* Tests the classes of ropey::expected. Compiled without exceptions. */
#include "ropey.hpp"
#include <cstdio>
#include <cstdlib>

#define CHECK(fact) ((fact) ? (void)0 : (std::fprintf(stderr, "expected.cpp, line %d: %s\n", __LINE__, #fact), std::abort()))

int main() {
    using ropey::expected::rope;
    ropey::result<rope> made = rope::from_text("one\ntwo\n");
    CHECK(made && made->len_lines() == 3);
    rope text = *std::move(made);

    const ropey::result<void> done = text.insert(4, "and ");
    CHECK(done.has_value() && done.error() == ROPEY_OK && text == "one\nand two\n");
    CHECK(text.insert(99, "x").error() == ROPEY_CHAR_INDEX_OUT_OF_BOUNDS && text == "one\nand two\n");
    CHECK(*text.char_to_line(5) == 1 && text.char_to_line(99).error() == ROPEY_CHAR_INDEX_OUT_OF_BOUNDS);
    CHECK(rope::from_text("\xFF").error() == ROPEY_INVALID_UTF8);
    CHECK(*text.line(1) == "and two\n" && text.line(7).error() == ROPEY_LINE_INDEX_OUT_OF_BOUNDS);

    const rope nothing;
    CHECK(!nothing.has_rope() && nothing.clone().error() == ROPEY_NO_ROPE_HELD);
    size_t shown = 0;
    CHECK(text.each_chunk(4, [&](std::string_view chunk) { shown += chunk.size(); }) && shown == 8);

    ropey::result<ropey::expected::builder> builder = ropey::expected::builder::start(ROPEY_LF);
    CHECK(builder && builder->append("a\r") && builder->append("b\n"));
    const ropey::result<rope> built = builder->finish();
    CHECK(built && built->len_lines() == 2 && *built->break_set() == ROPEY_LF);

    ropey::result<ropey::expected::changes> changes = ropey::expected::changes::of_edits(12, {{0, 3, "1"}});
    CHECK(changes && changes->replace(4, 7, "or") && changes->replace(4, 7, "or").error() == ROPEY_CHAR_RANGE_OUT_OF_ORDER);
    const ropey::result<ropey::expected::changes> undo = changes->invert(text);
    CHECK(changes->apply(text) && text == "1\nor two\n" && undo->apply(text) && text == "one\nand two\n");
    CHECK(*changes->map(4, ropey::side::before) == 2 && *ropey::expected::texts::byte_to_char("\xC3\xA9x", 2) == 1);

    size_t at = 0;
    const ropey::result<ropey::file<rope>> read = rope::from_bytes_as("\xFE\xFF\0x", ropey::file_encoding::latin1);
    CHECK(read && read->rope == "\xC3\xBE\xC3\xBF" && *read->rope.bytes_as(read->encoding) == "\xFE\xFF");
    CHECK(rope::from_bytes_as("a\xFF", ropey::file_encoding::utf8, ROPEY_LF, &at).error() == ROPEY_INVALID_UTF8 && at == 1);
    std::puts("C++ without exceptions: as it must be");
    return 0;
}
