/* Ropes, builders and changes for programs in C++17: classes over the calls of ropey.h that own their handles. Texts are
 * UTF-8. ropey.h describes each call, its cost, and the rules for threads.
 *
 * Errors. The classes `ropey::rope`, `ropey::builder` and `ropey::changes` throw ropey::refused, and std::bad_alloc when out
 * of memory. The classes in `ropey::expected` also work without exceptions: a call returns a ropey::result, which has the
 * value or a ropey_status. A call that fails leaves its rope unchanged, unless its comment says otherwise. A std::string or a
 * std::vector that a call returns allocates, and throws, as usual in both.
 *
 * Moves. Objects can be moved; a rope is copied only by clone(). A moved-from object is empty: its lengths are 0, it may be
 * assigned to, moved and destroyed, and any other call fails with ROPEY_NO_ROPE_HELD (ROPEY_NO_BUILDER_HELD,
 * ROPEY_NO_CHANGES_HELD).
 *
 * Views. A std::string_view, a slice or a range of them refers to the rope's memory. It is valid until the rope is edited,
 * assigned to or destroyed, whatever happens to its clones. */
#ifndef ROPEY_HPP
#define ROPEY_HPP

#include "ropey.h"
#include <cstdlib>
#include <functional>
#include <istream>
#include <iterator>
#include <new>
#include <optional>
#include <ostream>
#include <stdexcept>
#include <string>
#include <string_view>
#include <type_traits>
#include <utility>
#include <vector>

namespace ropey {

/* The side of inserted text on which an index stays. */
enum class side : uint32_t { before = ROPEY_BEFORE, after = ROPEY_AFTER };

/* The unit of columns. */
enum class encoding : uint32_t { utf8 = ROPEY_UTF8, utf16 = ROPEY_UTF16, utf32 = ROPEY_UTF32 };

/* An encoding of files. */
enum class file_encoding : uint32_t {
    utf8 = ROPEY_FILE_UTF8,
    utf8_bom = ROPEY_FILE_UTF8_BOM,
    utf16_le = ROPEY_FILE_UTF16_LE,
    utf16_le_bom = ROPEY_FILE_UTF16_LE_BOM,
    utf16_be = ROPEY_FILE_UTF16_BE,
    utf16_be_bom = ROPEY_FILE_UTF16_BE_BOM,
    latin1 = ROPEY_FILE_LATIN1,
    by_mark = ROPEY_FILE_BY_MARK
};

/* The rope of a file, and its encoding. */
template <typename Rope> struct file {
    Rope rope;
    file_encoding encoding;
};

/* A replacement of the characters from start up to end by a text. */
struct edit {
    size_t start;
    size_t end;
    std::string_view text;
};

/* A replacement of changes, with its ranges in the text before and after. The text belongs to the changes. */
struct replacement {
    size_t start;
    size_t end;
    size_t new_start;
    size_t new_end;
    std::string_view text;
};

/* A chunk of a rope, and the counts of the text before it. */
struct chunk {
    std::string_view text;
    size_t bytes_before;
    size_t chars_before;
    size_t line_breaks_before;
};

inline const uint8_t *bytes_of(std::string_view text) { return reinterpret_cast<const uint8_t *>(text.data()); }

inline std::string_view text_of(const uint8_t *text, size_t len) { return {reinterpret_cast<const char *>(text), len}; }

/* A value, or the status of a call that failed. */
template <typename T> class [[nodiscard]] result {
  public:
    result(T value) : held(std::move(value)) {}
    result(ropey_status error) : failed(error) {}

    bool has_value() const { return failed == ROPEY_OK; }
    explicit operator bool() const { return has_value(); }
    ropey_status error() const { return failed; }

    /* Returns the value, or aborts if there is none. */
    T &value() & { return require(), *held; }
    const T &value() const & { return require(), *held; }
    T &&value() && { return require(), std::move(*held); }
    T &operator*() & { return value(); }
    const T &operator*() const & { return value(); }
    T &&operator*() && { return std::move(*this).value(); }
    T *operator->() { return &value(); }
    const T *operator->() const { return &value(); }

  private:
    void require() const {
        if (!has_value()) {
            std::abort();
        }
    }
    ropey_status failed = ROPEY_OK;
    std::optional<T> held;
};

template <> class [[nodiscard]] result<void> {
  public:
    result() = default;
    result(ropey_status error) : failed(error) {}

    bool has_value() const { return failed == ROPEY_OK; }
    explicit operator bool() const { return has_value(); }
    ropey_status error() const { return failed; }

  private:
    ropey_status failed = ROPEY_OK;
};

/* A policy for errors: results. */
struct by_result {
    static constexpr bool throws = false;
    template <typename T> using answer = result<T>;
    static result<void> give(ropey_status status) { return status; }
    template <typename T> static result<T> give(ropey_status status, T &&value) {
        return status == ROPEY_OK ? result<T>(std::forward<T>(value)) : result<T>(status);
    }
};

#if defined(__cpp_exceptions)
class refused : public std::runtime_error {
  public:
    explicit refused(ropey_status why) : std::runtime_error(ropey_status_text(why)), status(why) {}
    const ropey_status status;
};

inline void check(ropey_status status) {
    if (status == ROPEY_OUT_OF_MEMORY) {
        throw std::bad_alloc();
    }
    if (status != ROPEY_OK) {
        throw refused(status);
    }
}

/* A policy for errors: exceptions. */
struct by_exception {
    static constexpr bool throws = true;
    template <typename T> using answer = T;
    static void give(ropey_status status) { check(status); }
    template <typename T> static T give(ropey_status status, T &&value) {
        check(status);
        return std::forward<T>(value);
    }
};
#endif

/* An iterator over a range that fetches its values on demand. The range has current(), step() and is_done(). */
template <typename Range, typename Value> class fetched_iterator {
  public:
    using iterator_category = std::input_iterator_tag;
    using value_type = Value;
    using difference_type = std::ptrdiff_t;
    using pointer = const Value *;
    using reference = Value;

    fetched_iterator() = default;
    explicit fetched_iterator(Range *over) : range(over) {}
    Value operator*() const { return range->current(); }
    fetched_iterator &operator++() {
        range->step();
        return *this;
    }
    void operator++(int) { range->step(); }
    friend bool operator==(const fetched_iterator &a, const fetched_iterator &b) { return a.is_end() == b.is_end(); }
    friend bool operator!=(const fetched_iterator &a, const fetched_iterator &b) { return !(a == b); }

  private:
    bool is_end() const { return range == nullptr || range->is_done(); }
    Range *range = nullptr;
};

/* The chunks of a rope from a byte to another. It can be iterated once, since it fetches the chunks on demand. */
class chunks {
  public:
    chunks(const ropey_rope *of, size_t from, size_t to) : rope(of), at(from), end_at(to) { fetch(); }

    using iterator = fetched_iterator<chunks, std::string_view>;
    iterator begin() { return iterator(this); }
    iterator end() const { return iterator(); }

  private:
    friend iterator;
    static constexpr size_t room = 16;

    std::string_view current() const { return text; }
    bool is_done() const { return text.empty(); }
    void fetch() {
        size_t before = at;
        next = 0;
        if (at >= end_at || ropey_chunks_from_byte(rope, at, pieces, room, &count, &before) != ROPEY_OK) {
            count = 0;
        }
        skipped = at - before;
        show();
    }
    void step() {
        at += text.size();
        if (++next < count || count < room) {
            show();
        } else {
            fetch();
        }
    }
    /* Cuts the chunk to the range. */
    void show() {
        text = std::string_view();
        if (next < count && at < end_at) {
            text = text_of(pieces[next].text, pieces[next].len).substr(skipped).substr(0, end_at - at);
        }
        skipped = 0;
    }

    const ropey_rope *rope;
    size_t at, end_at, next = 0, count = 0, skipped = 0;
    std::string_view text;
    ropey_piece pieces[room];
};

/* Calls a function for each text, until it returns false; one that returns nothing gets all texts. */
template <typename Texts, typename Show> void show_each(Texts &&texts, Show &show) {
    for (std::string_view text : texts) {
        if constexpr (std::is_void_v<std::invoke_result_t<Show &, std::string_view>>) {
            show(text);
        } else if (!show(text)) {
            return;
        }
    }
}

/* A part of a rope's text, and its counts. */
class slice {
  public:
    slice() = default;
    slice(const ropey_rope *of, size_t from, const ropey_slice &found) : rope(of), start(from), part(found) {}

    size_t len_bytes() const { return part.counts.bytes; }
    size_t len_chars() const { return part.counts.chars; }
    size_t len_utf16() const { return part.counts.utf16; }
    size_t len_lines() const { return part.counts.line_breaks + 1; }

    /* Returns the slice's first byte index in the rope. */
    size_t start_byte() const { return start; }

    /* Returns the text if it lies in one chunk. */
    std::optional<std::string_view> view() const {
        return part.len == part.counts.bytes ? std::optional<std::string_view>(text_of(part.text, part.len)) : std::nullopt;
    }
    ropey::chunks chunks() const { return ropey::chunks(rope, start, start + part.counts.bytes); }
    std::string text() const {
        std::string copy;
        copy.reserve(part.counts.bytes);
        for (std::string_view text : chunks()) {
            copy += text;
        }
        return copy;
    }
    friend std::ostream &operator<<(std::ostream &out, const slice &of) {
        for (std::string_view text : of.chunks()) {
            out.write(text.data(), static_cast<std::streamsize>(text.size()));
        }
        return out;
    }

  private:
    const ropey_rope *rope = nullptr;
    size_t start = 0;
    ropey_slice part = ROPEY_NO_SLICE;
};

/* The lines of a rope from one on, each with its line break. It can be iterated once, since it fetches the lines on demand. */
class lines {
  public:
    lines(const ropey_rope *of, size_t from, size_t from_byte) : rope(of), line_idx(from), at(from_byte) { fetch(); }

    using iterator = fetched_iterator<lines, slice>;
    iterator begin() { return iterator(this); }
    iterator end() const { return iterator(); }

  private:
    friend iterator;
    static constexpr size_t room = 16;

    slice current() const { return slice(rope, at, list[next]); }
    bool is_done() const { return next == count; }
    void fetch() {
        next = 0;
        if (ropey_lines_from(rope, line_idx, list, room, &count) != ROPEY_OK) {
            count = 0;
        }
        line_idx += count;
    }
    void step() {
        at += list[next].counts.bytes;
        if (++next == count && count == room) {
            fetch();
        }
    }

    const ropey_rope *rope;
    size_t line_idx, at, next = 0, count = 0;
    ropey_slice list[room];
};

/* The owner of a handle. A moved-from one is empty. */
template <typename Handle, void (*free_handle)(Handle *)> class owner {
  public:
    owner(owner &&other) noexcept : handle(std::exchange(other.handle, none())) {}
    owner &operator=(owner &&other) noexcept {
        if (this != &other) {
            free_handle(&handle);
            handle = std::exchange(other.handle, none());
        }
        return *this;
    }
    owner(const owner &) = delete;
    owner &operator=(const owner &) = delete;
    ~owner() { free_handle(&handle); }

    /* Returns the handle, for calls of ropey.h. */
    const Handle *get() const { return &handle; }
    Handle *get() { return &handle; }

  protected:
    static Handle none() { return Handle{nullptr}; }
    explicit owner(Handle held = none()) : handle(held) {}
    Handle handle;
};

template <typename Policy> class basic_builder;

/* A rope. */
template <typename Policy> class basic_rope : public owner<ropey_rope, ropey_free> {
  public:
    template <typename T> using answer = typename Policy::template answer<T>;

    /* Makes a rope of an empty text; in ropey::expected, an empty handle. */
    basic_rope() {
        if constexpr (Policy::throws) {
            *this = basic_rope(std::string_view());
        }
    }
    template <typename P = Policy, typename = std::enable_if_t<P::throws>>
    explicit basic_rope(std::string_view text, ropey_break_set breaks = ROPEY_UNICODE) : basic_rope(from_text(text, breaks)) {}

    static answer<basic_rope> from_text(std::string_view text, ropey_break_set breaks = ROPEY_UNICODE) {
        return made([&](ropey_rope *made) { return ropey_from_text(bytes_of(text), text.size(), breaks, made); });
    }

    /* Reads a stream to its end, or to the first read that fails: check the stream's state. */
    static answer<basic_rope> read(std::istream &in, ropey_break_set breaks = ROPEY_UNICODE) {
        return made([&](ropey_rope *made) {
            ropey_builder builder = ROPEY_NO_BUILDER;
            size_t valid = 0;
            char bytes[4096];
            ropey_status status = ropey_builder_new(breaks, &builder);
            while (status == ROPEY_OK && in) {
                in.read(bytes, sizeof bytes);
                const size_t count = static_cast<size_t>(in.gcount());
                status = ropey_builder_append(&builder, bytes_of({bytes, count}), count, &valid);
            }
            if (status == ROPEY_OK) {
                status = ropey_builder_finish(&builder, made, &valid);
            }
            ropey_builder_free(&builder);
            return status;
        });
    }

    /* Reads all bytes of a file. If they aren't text, writes the offset of the first such byte to *offset. */
    static answer<file<basic_rope>> from_bytes_as(std::string_view bytes, file_encoding given = file_encoding::by_mark,
                                                  ropey_break_set breaks = ROPEY_UNICODE, size_t *offset = nullptr) {
        file<basic_rope> read = {basic_rope(none()), given};
        uint32_t found = 0;
        size_t at = 0;
        const ropey_status status = ropey_from_bytes_as(bytes_of(bytes), bytes.size(), static_cast<uint32_t>(given), breaks,
                                                        &read.rope.handle, &found, offset == nullptr ? &at : offset);
        read.encoding = static_cast<file_encoding>(found);
        return Policy::give(status, std::move(read));
    }

    /* Returns the text as the bytes of a file. If the encoding has none for a character, writes its index to *char_idx. */
    answer<std::string> bytes_as(file_encoding in, size_t *char_idx = nullptr) const {
        std::string bytes;
        size_t len = 0, index = 0;
        size_t *first = char_idx == nullptr ? &index : char_idx;
        const auto write = [&] {
            return ropey_write_as(&handle, static_cast<uint32_t>(in), reinterpret_cast<uint8_t *>(bytes.data()), bytes.size(),
                                  &len, first);
        };
        ropey_status status = write();
        if (status == ROPEY_BUFFER_TOO_SMALL) {
            bytes.resize(len);
            status = write();
        }
        return Policy::give(status, std::move(bytes));
    }

    answer<basic_rope> clone() const {
        return made([&](ropey_rope *copy) { return ropey_clone(&handle, copy); });
    }

    /* Returns a rope of a range of characters. */
    answer<basic_rope> clone(size_t start, size_t end) const {
        return made([&](ropey_rope *copy) { return ropey_clone_chars(&handle, start, end, copy); });
    }

    /* Returns whether the object has a rope: false after a move from it. */
    bool has_rope() const { return handle.ptr != nullptr; }

    answer<void> insert(size_t char_idx, std::string_view text) {
        return Policy::give(ropey_insert(&handle, char_idx, bytes_of(text), text.size()));
    }
    answer<void> insert_char(size_t char_idx, char32_t c) { return Policy::give(ropey_insert_char(&handle, char_idx, c)); }
    answer<void> insert_at_byte(size_t byte_idx, std::string_view text) {
        return Policy::give(ropey_insert_at_byte(&handle, byte_idx, bytes_of(text), text.size()));
    }
    answer<void> remove(size_t start, size_t end) { return Policy::give(ropey_remove(&handle, start, end)); }
    answer<void> remove_bytes(size_t start, size_t end) { return Policy::give(ropey_remove_bytes(&handle, start, end)); }
    answer<void> replace(size_t start, size_t end, std::string_view text) {
        return Policy::give(ropey_replace(&handle, start, end, bytes_of(text), text.size()));
    }
    answer<void> replace_bytes(size_t start, size_t end, std::string_view text) {
        return Policy::give(ropey_replace_bytes(&handle, start, end, bytes_of(text), text.size()));
    }

    /* Appends the text of other, which is empty afterwards, even when out of memory. A rope appended to itself has its text
     * twice. */
    answer<void> append(basic_rope &&other) {
        if (this != &other) {
            return Policy::give(ropey_append(&handle, &other.handle));
        }
        ropey_rope copy = none();
        const ropey_status status = ropey_clone(&handle, &copy);
        return Policy::give(status == ROPEY_OK ? ropey_append(&handle, &copy) : status);
    }
    answer<basic_rope> split_off(size_t char_idx) {
        return made([&](ropey_rope *tail) { return ropey_split_off(&handle, char_idx, tail); });
    }
    answer<void> shrink_to_fit() { return Policy::give(ropey_shrink_to_fit(&handle)); }

    /* Applies ordered edits of disjoint ranges, atomically. Their indices are in the text before all of them. */
    answer<void> apply(const std::vector<edit> &edits) {
        std::vector<ropey_edit> list;
        list.reserve(edits.size());
        for (const edit &next : edits) {
            list.push_back({next.start, next.end, bytes_of(next.text), next.text.size()});
        }
        return Policy::give(ropey_apply_edits(&handle, list.data(), list.size()));
    }

    size_t len_bytes() const { return ropey_len_bytes(&handle); }
    size_t len_chars() const { return ropey_len_chars(&handle); }
    size_t len_lines() const { return ropey_len_lines(&handle); }
    size_t len_utf16() const { return ropey_len_utf16(&handle); }
    answer<ropey_break_set> break_set() const {
        uint32_t found = 0;
        const ropey_status status = ropey_get_break_set(&handle, &found);
        return Policy::give(status, static_cast<ropey_break_set>(found));
    }
    answer<ropey_counts> counts(size_t start, size_t end) const { return found<ropey_counts>(ropey_counts_in_chars, start, end); }
    answer<ropey_counts> counts_in_bytes(size_t start, size_t end) const {
        return found<ropey_counts>(ropey_counts_in_bytes, start, end);
    }

    answer<size_t> byte_to_char(size_t i) const { return found<size_t>(ropey_byte_to_char, i); }
    answer<size_t> byte_to_line(size_t i) const { return found<size_t>(ropey_byte_to_line, i); }
    answer<size_t> char_to_byte(size_t i) const { return found<size_t>(ropey_char_to_byte, i); }
    answer<size_t> char_to_line(size_t i) const { return found<size_t>(ropey_char_to_line, i); }
    answer<size_t> char_to_utf16(size_t i) const { return found<size_t>(ropey_char_to_utf16, i); }
    answer<size_t> utf16_to_char(size_t i) const { return found<size_t>(ropey_utf16_to_char, i); }
    answer<size_t> line_to_byte(size_t i) const { return found<size_t>(ropey_line_to_byte, i); }
    answer<size_t> line_to_char(size_t i) const { return found<size_t>(ropey_line_to_char, i); }

    /* Columns are in UTF-16 code units unless an encoding is given. */
    answer<ropey_place> char_to_position(size_t char_idx) const { return found<ropey_place>(ropey_char_to_position, char_idx); }
    answer<ropey_place> char_to_position(size_t char_idx, encoding columns) const {
        return found<ropey_place>(ropey_char_to_position_in, char_idx, static_cast<uint32_t>(columns));
    }
    answer<size_t> position_to_char(size_t line, size_t column) const {
        return found<size_t>(ropey_position_to_char, line, column);
    }
    answer<size_t> clamped_position_to_char(size_t line, size_t column, encoding columns) const {
        return found<size_t>(ropey_clamped_position_to_char, line, column, static_cast<uint32_t>(columns));
    }

    answer<uint8_t> byte(size_t byte_idx) const { return found<uint8_t>(ropey_byte, byte_idx); }
    answer<char32_t> character(size_t char_idx) const {
        uint32_t c = 0;
        const ropey_status status = ropey_char(&handle, char_idx, &c);
        return Policy::give(status, static_cast<char32_t>(c));
    }

    /* Return the range of characters of a line, including its line break, and the number of characters of the line break. */
    answer<ropey_range> line_range(size_t line_idx) const { return found<ropey_range>(ropey_line, line_idx); }
    answer<size_t> line_break(size_t line_idx) const { return found<size_t>(ropey_line_break, line_idx); }

    answer<chunk> chunk_at_byte(size_t byte_idx) const { return chunk_at(ropey_chunk_at_byte, byte_idx); }
    answer<chunk> chunk_at_char(size_t char_idx) const { return chunk_at(ropey_chunk_at_char, char_idx); }
    answer<chunk> chunk_at_line_break(size_t line_idx) const { return chunk_at(ropey_chunk_at_line_break, line_idx); }

    /* Return the chunks, or the chunks from a byte on, the first of them cut to start with that byte. */
    ropey::chunks chunks() const { return ropey::chunks(&handle, 0, len_bytes()); }
    answer<ropey::chunks> chunks(size_t byte_idx) const {
        return Policy::give(is_within(byte_idx), ropey::chunks(&handle, byte_idx, len_bytes()));
    }

    /* Calls a function with each chunk from a byte on, a std::string_view. It returns nothing, or whether to continue. */
    template <typename Show> answer<void> each_chunk(size_t byte_idx, Show show) const {
        const ropey_status status = is_within(byte_idx);
        if (status == ROPEY_OK) {
            show_each(ropey::chunks(&handle, byte_idx, len_bytes()), show);
        }
        return Policy::give(status);
    }

    /* Returns the chunks before the one that contains a byte, at most `most` of them, the nearest first. */
    answer<std::vector<std::string_view>> chunks_before(size_t byte_idx, size_t most) const {
        std::vector<ropey_piece> pieces(most);
        std::vector<std::string_view> texts;
        size_t count = 0, before = 0;
        const ropey_status status = ropey_chunks_before_byte(&handle, byte_idx, pieces.data(), most, &count, &before);
        for (size_t i = 0; i < count; i++) {
            texts.push_back(text_of(pieces[i].text, pieces[i].len));
        }
        return Policy::give(status, std::move(texts));
    }

    answer<ropey::slice> line_slice(size_t line_idx) const {
        size_t start = 0;
        ropey_slice part = ROPEY_NO_SLICE;
        ropey_status status = ropey_line_slice(&handle, line_idx, &part);
        if (status == ROPEY_OK) {
            status = ropey_line_to_byte(&handle, line_idx, &start);
        }
        return Policy::give(status, ropey::slice(&handle, start, part));
    }
    answer<ropey::slice> slice(size_t start, size_t end) const {
        size_t byte = 0;
        ropey_slice part = ROPEY_NO_SLICE;
        ropey_status status = ropey_char_slice(&handle, start, end, &part);
        if (status == ROPEY_OK) {
            status = ropey_char_to_byte(&handle, start, &byte);
        }
        return Policy::give(status, ropey::slice(&handle, byte, part));
    }

    /* Return the lines, or the lines from one on. */
    ropey::lines lines() const { return ropey::lines(&handle, 0, 0); }
    answer<ropey::lines> lines(size_t line_idx) const {
        size_t byte = 0;
        const ropey_status status = ropey_line_to_byte(&handle, line_idx, &byte);
        return Policy::give(status, ropey::lines(&handle, status == ROPEY_OK ? line_idx : len_lines(), byte));
    }

    /* Returns the lines before one, at most `most` of them, the nearest first. */
    answer<std::vector<ropey::slice>> lines_before(size_t line_idx, size_t most) const {
        std::vector<ropey_slice> list(most);
        std::vector<ropey::slice> parts;
        size_t count = 0, byte = 0;
        ropey_status status = ropey_lines_before(&handle, line_idx, list.data(), most, &count);
        if (status == ROPEY_OK) {
            status = ropey_line_to_byte(&handle, line_idx, &byte);
        }
        for (size_t i = 0; i < count; i++) {
            byte -= list[i].counts.bytes;
            parts.push_back(ropey::slice(&handle, byte, list[i]));
        }
        return Policy::give(status, std::move(parts));
    }

    /* Return copies of the text. */
    std::string text() const {
        std::string copy;
        copy.reserve(len_bytes());
        for (std::string_view part : chunks()) {
            copy += part;
        }
        return copy;
    }
    answer<std::string> text(size_t start, size_t end) const {
        return copied(ropey_counts_in_chars, ropey_copy_chars, start, end);
    }
    answer<std::string> text_of_bytes(size_t start, size_t end) const {
        return copied(ropey_counts_in_bytes, ropey_copy_bytes, start, end);
    }
    answer<std::string> line(size_t line_idx) const {
        ropey_range bytes = {0, 0};
        size_t count = 0;
        const ropey_status status = ropey_line_pieces(&handle, line_idx, &bytes, nullptr, 0, &count);
        std::string copy;
        for (std::string_view part : ropey::chunks(&handle, bytes.start, bytes.end)) {
            copy += part;
        }
        return Policy::give(status, std::move(copy));
    }

    /* Compares two texts by their bytes: -1, 0 or 1. */
    answer<int> compare(const basic_rope &other) const {
        int32_t order = 0;
        const ropey_status status = ropey_compare(&handle, &other.handle, &order);
        return Policy::give(status, static_cast<int>(order));
    }

    /* Empty handles are equal. A text that isn't UTF-8 equals no rope. */
    friend bool operator==(const basic_rope &a, const basic_rope &b) {
        int32_t order = 0;
        const ropey_status status = ropey_compare(&a.handle, &b.handle, &order);
        return status == ROPEY_OK ? order == 0 : a.has_rope() == b.has_rope();
    }
    friend bool operator!=(const basic_rope &a, const basic_rope &b) { return !(a == b); }
    friend bool operator==(const basic_rope &a, std::string_view b) {
        bool equal = false;
        return ropey_equals_text(&a.handle, bytes_of(b), b.size(), &equal) == ROPEY_OK && equal;
    }
    friend bool operator==(std::string_view a, const basic_rope &b) { return b == a; }
    friend bool operator!=(const basic_rope &a, std::string_view b) { return !(a == b); }
    friend bool operator!=(std::string_view a, const basic_rope &b) { return !(b == a); }

    /* Writes the text, chunk by chunk. */
    friend std::ostream &operator<<(std::ostream &out, const basic_rope &rope) {
        for (std::string_view part : rope.chunks()) {
            out.write(part.data(), static_cast<std::streamsize>(part.size()));
        }
        return out;
    }

  private:
    friend class basic_builder<Policy>;

    explicit basic_rope(ropey_rope held) : owner(held) {}

    template <typename Make> static answer<basic_rope> made(Make make) {
        basic_rope rope{none()};
        const ropey_status status = make(&rope.handle);
        return Policy::give(status, std::move(rope));
    }
    template <typename T, typename Call, typename... Args> answer<T> found(Call call, Args... args) const {
        T value = T();
        const ropey_status status = call(&handle, args..., &value);
        return Policy::give(status, std::move(value));
    }
    template <typename Call> answer<chunk> chunk_at(Call call, size_t index) const {
        ropey_chunk found = ROPEY_NO_CHUNK;
        const ropey_status status = call(&handle, index, &found);
        chunk shown = {text_of(found.text, found.len), found.bytes_before, found.chars_before, found.line_breaks_before};
        return Policy::give(status, std::move(shown));
    }
    template <typename Count, typename Copy> answer<std::string> copied(Count count, Copy copy, size_t start, size_t end) const {
        ropey_counts counts = {0, 0, 0, 0};
        ropey_status status = count(&handle, start, end, &counts);
        std::string text(counts.bytes, '\0');
        size_t len = 0;
        if (status == ROPEY_OK) {
            status = copy(&handle, start, end, reinterpret_cast<uint8_t *>(text.data()), text.size(), &len);
        }
        return Policy::give(status, std::move(text));
    }
    ropey_status is_within(size_t byte_idx) const {
        if (!has_rope()) {
            return ROPEY_NO_ROPE_HELD;
        }
        return byte_idx <= len_bytes() ? ROPEY_OK : ROPEY_BYTE_INDEX_OUT_OF_BOUNDS;
    }
};

/* A builder of a rope from bytes that arrive in parts, cut anywhere. */
template <typename Policy> class basic_builder : public owner<ropey_builder, ropey_builder_free> {
  public:
    template <typename T> using answer = typename Policy::template answer<T>;

    /* Makes a builder of an empty text; in ropey::expected, an empty handle. */
    basic_builder() {
        if constexpr (Policy::throws) {
            *this = start();
        }
    }
    basic_builder(basic_builder &&other) noexcept : owner(std::move(other)), valid(std::exchange(other.valid, 0)) {}
    basic_builder &operator=(basic_builder &&other) noexcept {
        owner::operator=(std::move(other));
        valid = std::exchange(other.valid, 0);
        return *this;
    }

    static answer<basic_builder> start(ropey_break_set breaks = ROPEY_UNICODE) {
        basic_builder made{none()};
        const ropey_status status = ropey_builder_new(breaks, &made.handle);
        return Policy::give(status, std::move(made));
    }

    /* Appends bytes to the text. After an error every later call fails with the same error. */
    answer<void> append(std::string_view bytes) {
        return Policy::give(ropey_builder_append(&handle, bytes_of(bytes), bytes.size(), &valid));
    }

    /* Makes the rope. Afterwards the builder is empty. */
    answer<basic_rope<Policy>> finish() {
        basic_rope<Policy> rope{basic_rope<Policy>::none()};
        const ropey_status status = ropey_builder_finish(&handle, rope.get(), &valid);
        return Policy::give(status, std::move(rope));
    }

    /* After ROPEY_INVALID_UTF8, returns the number of bytes before the first that isn't UTF-8. */
    size_t valid_bytes() const { return valid; }

  private:
    explicit basic_builder(ropey_builder held) : owner(held) {}
    size_t valid = 0;
};

/* Changes of a text of a given length: ordered replacements of disjoint ranges. */
template <typename Policy> class basic_changes : public owner<ropey_changes, ropey_changes_free> {
  public:
    template <typename T> using answer = typename Policy::template answer<T>;
    using rope = basic_rope<Policy>;

    /* Makes changes of a text of len characters that replace nothing. */
    template <typename P = Policy, typename = std::enable_if_t<P::throws>>
    explicit basic_changes(size_t len) : basic_changes(of_edits(len, {})) {}
    /* Makes changes from edits in order. */
    template <typename P = Policy, typename = std::enable_if_t<P::throws>>
    basic_changes(size_t len, const std::vector<edit> &edits) : basic_changes(of_edits(len, edits)) {}

    /* Makes changes of a text of len characters that replace nothing. */
    static answer<basic_changes> keep(size_t len) {
        return made([&](ropey_changes *made) { return ropey_changes_new(len, made); });
    }

    /* Makes changes from edits in order. */
    static answer<basic_changes> of_edits(size_t len, const std::vector<edit> &edits) {
        std::vector<ropey_edit> list;
        list.reserve(edits.size());
        for (const edit &next : edits) {
            list.push_back({next.start, next.end, bytes_of(next.text), next.text.size()});
        }
        return made([&](ropey_changes *made) { return ropey_changes_of_edits(len, list.data(), list.size(), made); });
    }

    /* Adds a replacement. The range is in the text before, and must come after the last one. */
    answer<void> replace(size_t start, size_t end, std::string_view text) {
        return Policy::give(ropey_changes_replace(&handle, start, end, bytes_of(text), text.size()));
    }

    size_t len_before() const { return ropey_changes_len_before(&handle); }
    size_t len_after() const { return ropey_changes_len_after(&handle); }

    /* Applies the changes, atomically. */
    answer<void> apply(rope &text) const { return Policy::give(ropey_changes_apply(&handle, text.get())); }

    /* Returns the changes that undo these, where before is the text before these. */
    answer<basic_changes> invert(const rope &before) const {
        return made([&](ropey_changes *inverse) { return ropey_changes_invert(&handle, before.get(), inverse); });
    }

    /* Returns changes equivalent to these followed by later. */
    answer<basic_changes> compose(const basic_changes &later) const {
        return made([&](ropey_changes *both) { return ropey_changes_compose(&handle, &later.handle, both); });
    }

    /* Returns these changes rebased over others, as changes of the text after over. */
    answer<basic_changes> rebase(const basic_changes &over, side on) const {
        const uint32_t number = static_cast<uint32_t>(on);
        return made([&](ropey_changes *rebased) { return ropey_changes_rebase(&handle, &over.handle, number, rebased); });
    }

    /* Maps an index of the text before to the text after. */
    answer<size_t> map(size_t char_idx, side on) const {
        size_t moved = 0;
        const ropey_status status = ropey_changes_map(&handle, char_idx, static_cast<uint32_t>(on), &moved);
        return Policy::give(status, std::move(moved));
    }

    /* Maps all indices as map does, in one pass if they ascend. */
    answer<void> map_sorted(std::vector<size_t> &char_indices, side on) const {
        const uint32_t number = static_cast<uint32_t>(on);
        return Policy::give(ropey_changes_map_sorted(&handle, char_indices.data(), char_indices.size(), number));
    }

    /* Returns the replacements in order. Their texts are valid until the changes are edited, assigned to or destroyed. */
    answer<std::vector<replacement>> edits() const {
        size_t count = 0;
        std::vector<replacement> shown;
        ropey_status status = ropey_changes_edits(&handle, nullptr, 0, &count);
        std::vector<ropey_replacement> listed(count);
        if (status == ROPEY_OK) {
            status = ropey_changes_edits(&handle, listed.data(), count, &count);
        }
        shown.reserve(count);
        for (const ropey_replacement &r : listed) {
            shown.push_back({r.start, r.end, r.new_start, r.new_end, text_of(r.text, r.len)});
        }
        return Policy::give(status, std::move(shown));
    }

  private:
    explicit basic_changes(ropey_changes held) : owner(held) {}
    template <typename Make> static answer<basic_changes> made(Make make) {
        basic_changes changes{none()};
        const ropey_status status = make(&changes.handle);
        return Policy::give(status, std::move(changes));
    }
};

/* Counts and conversions of plain texts. */
template <typename Policy> struct basic_texts {
    template <typename T> using answer = typename Policy::template answer<T>;
    static size_t valid_len(std::string_view text) { return ropey_text_valid_len(bytes_of(text), text.size()); }
    static answer<ropey_counts> counts(std::string_view text, ropey_break_set breaks = ROPEY_UNICODE) {
        ropey_counts counts = {0, 0, 0, 0};
        const ropey_status status = ropey_text_counts(bytes_of(text), text.size(), breaks, &counts);
        return Policy::give(status, std::move(counts));
    }
    static answer<size_t> byte_to_char(std::string_view text, size_t i) { return found(ropey_text_byte_to_char, text, i); }
    static answer<size_t> char_to_byte(std::string_view text, size_t i) { return found(ropey_text_char_to_byte, text, i); }
    static answer<size_t> char_to_utf16(std::string_view text, size_t i) { return found(ropey_text_char_to_utf16, text, i); }
    static answer<size_t> utf16_to_char(std::string_view text, size_t i) { return found(ropey_text_utf16_to_char, text, i); }
    static answer<size_t> byte_to_line(std::string_view text, size_t i, ropey_break_set breaks = ROPEY_UNICODE) {
        return found(ropey_text_byte_to_line, text, breaks, i);
    }
    static answer<size_t> char_to_line(std::string_view text, size_t i, ropey_break_set breaks = ROPEY_UNICODE) {
        return found(ropey_text_char_to_line, text, breaks, i);
    }
    static answer<size_t> line_to_byte(std::string_view text, size_t i, ropey_break_set breaks = ROPEY_UNICODE) {
        return found(ropey_text_line_to_byte, text, breaks, i);
    }
    static answer<size_t> line_to_char(std::string_view text, size_t i, ropey_break_set breaks = ROPEY_UNICODE) {
        return found(ropey_text_line_to_char, text, breaks, i);
    }

  private:
    template <typename Call, typename... Args> static answer<size_t> found(Call call, std::string_view text, Args... args) {
        size_t value = 0;
        const ropey_status status = call(bytes_of(text), text.size(), args..., &value);
        return Policy::give(status, std::move(value));
    }
};

#if defined(__cpp_exceptions)
using rope = basic_rope<by_exception>;
using builder = basic_builder<by_exception>;
using changes = basic_changes<by_exception>;
using texts = basic_texts<by_exception>;
#endif

namespace expected {
using rope = basic_rope<by_result>;
using builder = basic_builder<by_result>;
using changes = basic_changes<by_result>;
using texts = basic_texts<by_result>;
} // namespace expected

} // namespace ropey

/* Equal texts have equal hashes, whatever their chunks. */
template <typename Policy> struct std::hash<ropey::basic_rope<Policy>> {
    size_t operator()(const ropey::basic_rope<Policy> &rope) const {
        uint64_t sum = 0xcbf29ce484222325;
        for (std::string_view part : rope.chunks()) {
            for (const char c : part) {
                sum = (sum ^ static_cast<unsigned char>(c)) * 0x100000001b3;
            }
        }
        return static_cast<size_t>(sum);
    }
};

#endif
