/* Tests the classes of ropey.hpp. */
#include "ropey.hpp"
#include <cstdio>
#include <cstdlib>
#include <sstream>
#include <unordered_map>
#include <vector>

#define CHECK(fact) ((fact) ? (void)0 : (std::fprintf(stderr, "wrapper.cpp, line %d: %s\n", __LINE__, #fact), std::abort()))

static ropey_rope global = ROPEY_NO_ROPE;

template <typename Call> static ropey_status error_of(Call call) {
    try {
        call();
    } catch (const ropey::refused &refused) {
        return refused.status;
    }
    return ROPEY_OK;
}

/* Reads parts of a text of several chunks. */
static void reads(const ropey::rope &rope, const std::string &all) {
    for (size_t from : {size_t(0), size_t(5), size_t(983), size_t(984), size_t(985), size_t(2500), all.size() - 1, all.size()}) {
        std::string shown;
        rope.each_chunk(from, [&](std::string_view chunk) { shown += chunk; });
        CHECK(shown == all.substr(from));
        std::string ranged;
        for (std::string_view chunk : rope.chunks(from)) {
            ranged += chunk;
        }
        CHECK(ranged == shown);
    }
    size_t count = 0;
    rope.each_chunk(5, [&](std::string_view) { return ++count < 2; });
    CHECK(count == 2);
    CHECK(error_of([&] { rope.each_chunk(all.size() + 1, [](std::string_view) {}); }) == ROPEY_BYTE_INDEX_OUT_OF_BOUNDS);
    CHECK(error_of([&] { (void)rope.chunks(all.size() + 1); }) == ROPEY_BYTE_INDEX_OUT_OF_BOUNDS);

    std::string joined;
    size_t lines = 0, start = 0;
    for (const ropey::slice line : rope.lines()) {
        CHECK(line.start_byte() == start && line.text() == rope.line(lines) && line.len_bytes() == line.text().size());
        CHECK(!line.view() || *line.view() == line.text());
        start += line.len_bytes();
        joined += line.text();
        lines++;
    }
    CHECK(joined == all && lines == rope.len_lines());
    size_t rest = 0;
    for (const ropey::slice line : rope.lines(1)) {
        rest += line.len_lines();
    }
    CHECK(rest >= rope.len_lines() - 1);
    CHECK(rope.lines_before(rope.len_lines(), 2)[1].text() == rope.line(rope.len_lines() - 2));
    CHECK(rope.chunks_before(all.size(), 1)[0] == all.substr(all.size() - rope.chunks_before(all.size(), 1)[0].size()));
    CHECK(rope.slice(900, 2000).text() == rope.text(900, 2000) && rope.line_slice(0).text() == rope.line(0));
    CHECK(rope.chunk_at_char(10).text[10] == all[10] && rope.chunk_at_byte(0).bytes_before == 0);
    CHECK(rope.chunk_at_line_break(0).line_breaks_before == 0 && rope.text_of_bytes(3, 7) == all.substr(3, 4));

    std::ostringstream out;
    out << rope;
    CHECK(out.str() == all && rope == all && all == rope && rope != "other" && rope != "\xFF");
}

/* Makes ropes of streams, builders and texts; positions and counts. */
static void makes() {
    std::string text(5000, 'x');
    text += "\r\n\xC3\xA9\xF0\x9F\x90\x88";
    std::istringstream in(text);
    const ropey::rope rope = ropey::rope::read(in);
    CHECK(rope == text && !in.bad());
    std::istringstream broken("ab\xFF");
    CHECK(error_of([&] { ropey::rope::read(broken); }) == ROPEY_INVALID_UTF8);

    ropey::builder builder;
    for (const char c : text) {
        builder.append(std::string_view(&c, 1));
    }
    const ropey::rope built = builder.finish();
    CHECK(built == rope && std::hash<ropey::rope>()(built) == std::hash<ropey::rope>()(rope));
    CHECK(error_of([&] { builder.append("x"); }) == ROPEY_NO_BUILDER_HELD);
    ropey::builder of_bytes = ropey::builder::start(ROPEY_LF);
    CHECK(error_of([&] { of_bytes.append("ab\xFFxxx"); }) == ROPEY_INVALID_UTF8 && of_bytes.valid_bytes() == 2);
    std::unordered_map<ropey::rope, int> by_text;
    by_text.emplace(rope.clone(), 7);
    CHECK(by_text.at(built) == 7);

    CHECK(rope.break_set() == ROPEY_UNICODE && rope.line_break(0) == 2 && rope.line_range(1).end == rope.len_chars());
    CHECK(rope.char_to_position(5004).line == 1 && rope.char_to_position(5004).column == 3);
    CHECK(rope.char_to_position(5004, ropey::encoding::utf16).column == 3 && rope.char_to_position(5003, ropey::encoding::utf8).column == 2);
    CHECK(rope.position_to_char(1, 1) == 5003 && rope.clamped_position_to_char(0, 9999, ropey::encoding::utf32) == 5000);
    CHECK(rope.counts(5002, 5004).utf16 == 3 && rope.counts_in_bytes(0, 5002).line_breaks == 1);
    CHECK(rope.byte(0) == 'x' && rope.character(5003) == 0x1F408);
    CHECK(ropey::texts::counts(text).chars == rope.len_chars() && ropey::texts::valid_len("a\xFF") == 1);
    CHECK(ropey::texts::line_to_char(text, 1) == 5002 && ropey::texts::char_to_utf16(text, 5004) == 5005);

    ropey::rope edited("one two");
    edited.apply({{0, 3, "1"}, {4, 7, "2"}});
    edited.insert_char(0, U'\u00E9');
    edited.shrink_to_fit();
    CHECK(edited == "\xC3\xA9" "1 2");
    CHECK(error_of([&] { edited.apply({{2, 1, ""}}); }) == ROPEY_CHAR_RANGE_INVALID);
}

/* A moved-from object is empty. */
static void moves() {
    ropey::rope rope("abc");
    rope.append(std::move(rope));
    CHECK(rope == "abcabc");
    ropey::rope &itself = rope;
    rope = std::move(itself);
    CHECK(rope == "abcabc");
    ropey::rope other = std::move(rope);
    CHECK(other == "abcabc" && !rope.has_rope() && rope.len_bytes() == 0 && rope != other && rope != "" && rope.text().empty());
    CHECK(error_of([&] { rope.insert(0, "x"); }) == ROPEY_NO_ROPE_HELD);
    rope = ropey::rope("again");
    other = std::move(rope);
    CHECK(other == "again" && !rope.has_rope());
    rope = std::move(other);
    CHECK(rope == "again");
}

/* Files in encodings, by mark or by declaration. */
static void files() {
    using ropey::file_encoding;
    const std::string little("\xFF\xFE" "a\0\x3D\xD8\x00\xDE", 8);
    const ropey::file<ropey::rope> read = ropey::rope::from_bytes_as(little);
    CHECK(read.encoding == file_encoding::utf16_le_bom && read.rope == "a\xF0\x9F\x98\x80");
    CHECK(read.rope.bytes_as(read.encoding) == little && read.rope.bytes_as(file_encoding::utf16_le) == little.substr(2));
    CHECK(ropey::rope().bytes_as(file_encoding::utf8) == "" && ropey::rope().bytes_as(file_encoding::utf8_bom) == "\xEF\xBB\xBF");
    CHECK(ropey::rope::from_bytes_as("\xE9\r\n", file_encoding::latin1, ROPEY_LF).rope == "\xC3\xA9\r\n");

    size_t at = 99;
    CHECK(error_of([&] { ropey::rope::from_bytes_as(little.substr(0, 6), file_encoding::by_mark, ROPEY_LF, &at); }) == ROPEY_UNPAIRED_SURROGATE && at == 4);
    CHECK(error_of([&] { ropey::rope::from_bytes_as(little.substr(0, 3), file_encoding::by_mark, ROPEY_LF, &at); }) == ROPEY_HALF_CODE_UNIT && at == 2);
    CHECK(error_of([&] { ropey::rope::from_bytes_as("ab\xFF"); }) == ROPEY_INVALID_UTF8);
    CHECK(error_of([&] { ropey::rope::from_bytes_as("ab", file_encoding::utf8_bom); }) == ROPEY_NO_MARK);
    CHECK(error_of([&] { (void)read.rope.bytes_as(file_encoding::latin1, &at); }) == ROPEY_UNENCODABLE && at == 1);
    CHECK(error_of([&] { (void)read.rope.bytes_as(file_encoding::by_mark); }) == ROPEY_UNKNOWN_ENCODING);
}

int main() {
    ropey::rope rope("hello \xF0\x9F\x90\x88\r\nworld\n");
    ropey::rope before = rope.clone();
    CHECK(rope.len_bytes() == 18 && rope.len_chars() == 15 && rope.len_lines() == 3 && rope.len_utf16() == 16);
    rope.insert(5, ", you");
    rope.replace(0, 5, "HELLO");
    CHECK(rope.line(0) == "HELLO, you \xF0\x9F\x90\x88\r\n" && before.text(0, 6) == "hello ");
    CHECK(rope != before && before == before.clone() && before.compare(rope) > 0);
    CHECK(before.clone(6, 12).text() == before.text(6, 12));
    CHECK(error_of([&] { before.clone(5, 4); }) == ROPEY_CHAR_RANGE_INVALID);
    CHECK(rope.byte_to_char(11) == 11 && rope.char_to_utf16(12) == 13 && rope.line_to_char(1) == 14);
    CHECK(error_of([&] { rope.insert(100, "x"); }) == ROPEY_CHAR_INDEX_OUT_OF_BOUNDS);
    CHECK(error_of([&] { rope.remove_bytes(12, 13); }) == ROPEY_BYTE_RANGE_NOT_CHAR_BOUNDARY);
    CHECK(error_of([&] { ropey::rope("\xFF"); }) == ROPEY_INVALID_UTF8);

    ropey::rope tail = rope.split_off(14);
    CHECK(tail.text() == "world\n" && rope.len_chars() == 14);
    rope.append(std::move(tail));
    CHECK(rope.len_chars() == 20);
    rope.insert_at_byte(0, "> ");
    rope.replace_bytes(0, 2, "");
    rope.remove(0, 5);

    std::vector<ropey::rope> ropes;
    for (int i = 0; i < 10; i++) {
        ropes.push_back(rope.clone());
        ropes.back().insert(0, std::string(3000, static_cast<char>('a' + i)));
    }
    std::string all;
    ropes[3].each_chunk(0, [&](std::string_view chunk) {
        all += chunk;
        return true;
    });
    CHECK(all == ropes[3].text() && all.size() == ropes[3].len_bytes());
    reads(ropes[3], all);
    ropes[3] = std::move(ropes[4]);
    CHECK(ropes[3].text(0, 1) == "e" && ropey_len_bytes(&global) == 0 && ropey_version() == 1000000);

    ropey::rope typed("one two");
    ropey::changes edits(7, {{0, 3, "1"}, {4, 4, "and "}});
    const std::vector<ropey::replacement> listed = edits.edits();
    CHECK(listed.size() == 2 && listed[1].start == 4 && listed[1].new_start == 2 && listed[1].text == "and ");
    CHECK(edits.len_before() == 7 && edits.len_after() == 9 && edits.map(4, ropey::side::before) == 2 && edits.map(4, ropey::side::after) == 6);
    std::vector<size_t> carets = {0, 3, 4, 7};
    edits.map_sorted(carets, ropey::side::after);
    CHECK((carets == std::vector<size_t>{1, 1, 6, 9}));
    ropey::changes undo = edits.invert(typed);
    edits.apply(typed);
    CHECK(typed.text() == "1 and two");
    CHECK(error_of([&] { edits.apply(typed); }) == ROPEY_LENGTHS_DIFFER);
    CHECK(error_of([&] { edits.replace(3, 5, "x"); }) == ROPEY_CHAR_RANGE_OUT_OF_ORDER);
    ropey::changes twice = edits.compose(ropey::changes(9, {{9, 9, "!"}}));
    undo.apply(typed);
    twice.apply(typed);
    CHECK(typed.text() == "1 and two!");
    ropey::changes other(7, {{4, 7, "2"}});
    ropey::rope first("one two"), second("one two");
    edits.apply(first);
    other.rebase(edits, ropey::side::after).apply(first);
    other.apply(second);
    edits.rebase(other, ropey::side::before).apply(second);
    CHECK(first == second && first.text() == "1 and 2");
    edits = std::move(undo);
    CHECK(edits.len_before() == 9);
    files();
    makes();
    moves();
    std::puts("C++: as it must be");
    return 0;
}
