#!/usr/bin/env python3
"""Writes random commands for the program rope, and the replies that it must give.

    scripts/random_sessions.py SEED SESSIONS FIRST COMMANDS REPLIES

It writes the two files COMMANDS and REPLIES. Each session has 60 commands on ropes of its own; the first rope of the first
session has the number FIRST. crates/rope/stdin and stdout end with 100 sessions, of seed 1, from rope 75 on.

The replies come from a model on Python's strings, written from docs/COMMANDS.md alone. Some ropes, ranges and indices are out
of bounds. Ropes grow long by joins, so that the lines stay short. The model doesn't know the chunks of a long rope: it asks for
chunks only where there is at most one, since two adjacent chunks have at least 492 bytes.
"""
import random
import sys

# The commands of a session, the ropes that it makes at most, and the characters of a rope that is joined no more.
STEPS, ROPES, LONG = 60, 6, 6000
# The longest text or line that is shown.
SHOWN = 60
LETTERS = ["a", "b", "\r", "\n", "\r\n", "\r\n", "é", "こ", "🐸", "\u2028", "\x85", "\x0b"]
BREAKS = {"lf": "\n", "crlf": "\n\r", "unicode": "\n\r\x0b\x0c\x85\u2028\u2029"}
PAST = {
    "Byte": "Byte index out of bounds: byte index {}, Rope/RopeSlice byte length {}",
    "Char": "Char index out of bounds: char index {}, Rope/RopeSlice char length {}",
    "Unit": "Utf16 code-unit index out of bounds: utf16 index {}, Rope/RopeSlice utf16 length {}",
    "Line": "Line index out of bounds: line index {}, Rope/RopeSlice line count {}",
}


class Refused(Exception):
    """A command is refused; the text is the reply."""


def byte_len(text):
    return len(text.encode())


def unit_len(text):
    return len(text.encode("utf-16-le")) // 2


def last_prefix(text, size, most):
    """The most first characters whose size is at most `most`."""
    count, total = 0, 0
    for char in text:
        total += size(char)
        if total > most:
            break
        count += 1
    return count


def line_starts(text, breaks):
    """The index of each line's first character."""
    ends = [
        at + 1
        for at, char in enumerate(text)
        if char in BREAKS[breaks] and not (char == "\r" and text[at + 1 : at + 2] == "\n")
    ]
    return [0, *ends]


def quoted(text):
    """A text in quotes, as a reply has it."""
    marks = {"\n": "\\n", "\r": "\\r", "\\": "\\\\", '"': '\\"'}
    hidden = [*map(chr, range(32)), "\x7f", "\x85", "\u2028", "\u2029"]
    return '"' + "".join(marks.get(c) or (f"\\u{{{ord(c):x}}}" if c in hidden else c) for c in text) + '"'


def written(text):
    """A text as a line has it."""
    marks = {"\n": "\\n", "\r": "\\r", "\\": "\\\\"}
    return "".join(marks.get(c) or (f"\\u{{{ord(c):x}}}" if c in "\x85\u2028\x0b" else c) for c in text)


class Part:
    """A slice of a rope, and its queries."""

    def __init__(self, text, breaks, is_one_chunk):
        self.text, self.breaks, self.is_one_chunk = text, breaks, is_one_chunk
        self.starts = line_starts(text, breaks)
        self.ends = {"Byte": byte_len(text), "Char": len(text), "Unit": unit_len(text), "Line": len(self.starts)}

    def check(self, unit, index):
        if index > self.ends[unit]:
            raise Refused("error: " + PAST[unit].format(index, self.ends[unit]))

    def line_of(self, char):
        return sum(start <= char for start in self.starts) - 1

    def start_of(self, line):
        return self.starts[line] if line < len(self.starts) else len(self.text)

    def line(self, line):
        return self.text[self.start_of(line) : self.start_of(line + 1)]

    def convert(self, word, index):
        source, target = word[0], word[2]
        self.check({"b": "Byte", "c": "Char", "u": "Unit", "l": "Line"}[source], index)
        sizes = {"b": byte_len, "u": unit_len}
        if source == "l":
            char = self.start_of(index)
        else:
            char = index if source == "c" else last_prefix(self.text, sizes[source], index)
        if target == "l":
            return self.line_of(char)
        return char if target == "c" else sizes[target](self.text[:char])

    def position_of(self, char):
        self.check("Char", char)
        line = self.line_of(char)
        return f"{line} {unit_len(self.text[self.starts[line]:char])}"

    def char_at(self, line, column):
        if line >= len(self.starts):
            raise Refused("error: " + PAST["Line"].format(line, len(self.starts)))
        units = unit_len(self.line(line))
        if column > units:
            raise Refused("error: " + PAST["Unit"].format(column, units))
        return self.starts[line] + last_prefix(self.line(line), unit_len, column)

    def items(self, unit):
        """The items of a cursor, as replies have them."""
        if unit == "bytes":
            return [str(byte) for byte in self.text.encode()]
        if unit == "chars":
            return [quoted(char) for char in self.text]
        if unit == "lines":
            return [quoted(self.line(line)) for line in range(len(self.starts))]
        return [quoted(self.text)] if self.text else []

    def walk(self, unit, index, moves):
        items = self.items(unit)
        end = len(items)
        if unit.startswith("chunks"):
            end = self.ends[{"b": "Byte", "c": "Char", "l": "Line"}[unit[-1]]]
        if index > end:
            raise Refused("none")
        at = index if not unit.startswith("chunks") else len(items) if index == end else 0
        shown, step = [], 1
        for move in moves:
            if move == "r":
                step = -step
                continue
            goes_on = (move == "n") == (step == 1)
            if goes_on and at < len(items):
                at += 1
                shown.append(items[at - 1])
            elif not goes_on and at > 0:
                at -= 1
                shown.append(items[at])
            else:
                shown.append("-")
        return " ".join([str(len(shown)), *shown])

    def chunk(self, unit, index):
        if index > self.ends[{"b": "Byte", "c": "Char", "l": "Line"}[unit]]:
            raise Refused("none")
        return f"{quoted(self.text)} 0 0 0"


class Session:
    """The ropes of one session, each a text and a set of line breaks. The first has the number `first`."""

    def __init__(self, draw, first):
        self.draw, self.first, self.ropes = draw, first, []

    def text(self, most):
        return "".join(self.draw.choice(LETTERS) for _ in range(self.draw.randrange(most + 1)))

    def index(self, end):
        """An index up to an end, and sometimes past it."""
        return self.draw.choice([end, end + 1, 2**64 - 1, *[self.draw.randint(0, end) for _ in range(13)]])

    def range(self, end):
        a, b = self.index(end), self.index(end)
        return (a, b) if self.draw.randrange(16) == 0 else (min(a, b), max(a, b))

    def rope(self):
        """The place of a rope, and sometimes of none."""
        count = len(self.ropes)
        return count if self.draw.randrange(32) == 0 else self.draw.randrange(count)

    def len_of(self, rope):
        return len(self.ropes[rope][0]) if rope < len(self.ropes) else 3

    def known(self, *ropes):
        if any(rope >= len(self.ropes) for rope in ropes):
            raise Refused("no rope")

    def add(self, text, breaks):
        self.ropes.append((text, breaks))
        return f"rope {self.first + len(self.ropes) - 1}"

    def part(self, rope, span):
        self.known(rope)
        text, breaks = self.ropes[rope]
        start, end = span or (0, len(text))
        if not start <= end <= len(text):
            raise Refused("no slice")
        return Part(text[start:end], breaks, byte_len(text) < 492)

    def name(self, rope, span):
        return f"{self.first + rope}" + (f":{span[0]}..{span[1]}" if span else "")

    def drawn_part(self):
        rope = self.rope()
        end = self.len_of(rope)
        if self.draw.randrange(3) == 0:
            return rope, None
        if self.draw.randrange(3) or end <= SHOWN:
            return rope, self.range(end)
        start = self.draw.randint(0, end)
        return rope, (start, min(end, start + self.draw.randrange(SHOWN)))

    def make(self):
        text = self.text(self.draw.choice([6, 12, 24]))
        kind = self.draw.randrange(5)
        if kind == 0:
            return "new", lambda: self.add("", "unicode")
        if kind == 1:
            return f"text {written(text)}", lambda: self.add(text, "unicode")
        breaks = self.draw.choice(["lf", "crlf", "unicode"])
        return f"textb {breaks} {written(text)}", lambda: self.add(text, breaks)

    def insert(self, rope, index, text):
        self.known(rope)
        old, breaks = self.ropes[rope]
        if index > len(old):
            raise Refused("error: " + PAST["Char"].format(index, len(old)))
        self.ropes[rope] = (old[:index] + text + old[index:], breaks)
        return "ok"

    def remove(self, rope, start, end):
        self.known(rope)
        old, breaks = self.ropes[rope]
        first = 0 if start is None else start
        last = len(old) if end is None else end
        if max(first, last) > len(old):
            span = f"{'' if start is None else start}..{'' if end is None else end}"
            raise Refused(f"error: Char range out of bounds: char range {span}, Rope/RopeSlice char length {len(old)}")
        if first > last:
            raise Refused(f"error: Invalid char range {first}..{last}: start must be <= end")
        self.ropes[rope] = (old[:first] + old[last:], breaks)
        return "ok"

    def cut(self, rope, index):
        self.known(rope)
        old, breaks = self.ropes[rope]
        if index > len(old):
            raise Refused("error: " + PAST["Char"].format(index, len(old)))
        self.ropes[rope] = (old[:index], breaks)
        return self.add(old[index:], breaks)

    def join(self, rope, other):
        self.known(rope, other)
        if self.ropes[rope][1] != self.ropes[other][1]:
            raise Refused("error: Ropes have different line breaks")
        self.ropes[rope] = (self.ropes[rope][0] + self.ropes[other][0], self.ropes[rope][1])
        return "ok"

    def clone(self, rope):
        self.known(rope)
        return self.add(*self.ropes[rope])

    def copy(self, rope, span):
        part = self.part(rope, span)
        return self.add(part.text, part.breaks)

    def fit(self, rope):
        self.known(rope)
        return "ok"

    def edit(self):
        rope, number = self.rope(), self.draw.randrange(14)
        index = self.index(self.len_of(rope))
        name, text = self.first + rope, self.text(self.draw.choice([3, 8, 20]))
        if number < 3 and len(self.ropes) < ROPES:
            span = self.draw.choice([None, self.range(self.len_of(rope))])
            return [
                (f"clone {name}", lambda: self.clone(rope)),
                (f"copy {self.name(rope, span)}", lambda: self.copy(rope, span)),
                (f"cut {name} {index}", lambda: self.cut(rope, index)),
            ][number]
        if number < 6:
            return f"ins {name} {index} {written(text)}", lambda: self.insert(rope, index, text)
        if number < 8:
            char = self.draw.choice("\r\nx🐸")
            return f"insc {name} {index} {written(char)}", lambda: self.insert(rope, index, char)
        if number < 10:
            start, end = self.range(self.len_of(rope))
            end = self.draw.choice([end, min(end, start + 5), min(end, start + 5)])
            bounds = [None if self.draw.randrange(8) == 0 else bound for bound in (start, end)]
            shown = ["-" if bound is None else bound for bound in bounds]
            return f"del {name} {shown[0]} {shown[1]}", lambda: self.remove(rope, *bounds)
        other = self.draw.choice([rope, self.rope()])
        if number < 13 and self.len_of(rope) + self.len_of(other) < LONG:
            return f"join {name} {self.first + other}", lambda: self.join(rope, other)
        return f"fit {name}", lambda: self.fit(rope)

    def query(self):
        """A query of a part, and the function of the part that gives its reply."""
        rope, span = self.drawn_part()
        size = max(0, span[1] - span[0]) if span else self.len_of(rope)
        size = min(size, self.len_of(rope))
        few, many = self.index(size // 3), self.index(2 * size)
        conversion = self.draw.choice("b2c b2l c2b c2l c2u u2c l2b l2c".split())
        chunk_unit = self.draw.choice("bcl")
        unit = self.draw.choice(["bytes", "chars", "lines", "chunks-b", "chunks-c", "chunks-l"])
        moves = "".join(self.draw.choice("nnpr") for _ in range(self.draw.randint(1, 8)))
        at = self.draw.choice([few, many])
        column = self.draw.randrange(12)
        other, other_span = self.drawn_part()
        asked = self.draw.choice(
            [
                ("len", "", lambda part: "{Byte} {Char} {Line} {Unit}".format(**part.ends)),
                ("show", "", lambda part: quoted(part.text)),
                ("chunks", "", lambda part: f"1 {quoted(part.text)}" if part.text else "0"),
                ("breaks", "", lambda part: part.breaks),
                (conversion, f" {few}", lambda part: part.convert(conversion, few)),
                (conversion, f" {many}", lambda part: part.convert(conversion, many)),
                ("byte", f" {many}", lambda part: (*part.text.encode(), *["none"] * 2)[min(many, part.ends["Byte"])]),
                ("char", f" {few}", lambda part: quoted(part.text[few]) if few < len(part.text) else "none"),
                ("line", f" {few}", lambda part: quoted(part.line(few)) if few < len(part.starts) else "none"),
                ("chunk", f" {chunk_unit} {at}", lambda part: part.chunk(chunk_unit, at)),
                ("walk", f" {unit} {at} {moves}", lambda part: part.walk(unit, at, moves)),
                ("walk", f" {unit} {few} {moves}", lambda part: part.walk(unit, few, moves)),
                ("cmp", f" {self.name(other, other_span)}", lambda part: self.compare(part, other, other_span)),
                ("c2p", f" {few}", lambda part: part.position_of(few)),
                ("p2c", f" {few} {column}", lambda part: part.char_at(few, column)),
            ]
        )
        word, words, reply = asked
        is_open = word.startswith("chunk") or "chunks" in words
        line = f"{word} {self.name(rope, span)}{words}"
        return line, lambda: self.reply(self.part(rope, span), reply, is_open)

    def reply(self, part, reply, is_open):
        if is_open and not part.is_one_chunk:
            return None
        return str(reply(part))

    def compare(self, part, rope, span):
        other = self.part(rope, span).text
        return "less" if part.text < other else "greater" if part.text > other else "equal"

    def step(self):
        """A line, and its reply; `None` if the model leaves it open or it is long."""
        number = self.draw.randrange(16)
        if not self.ropes or (number == 0 and len(self.ropes) < ROPES):
            line, run = self.make()
        else:
            line, run = self.edit() if number < 7 else self.query()
        try:
            reply = run()
        except Refused as refused:
            reply = str(refused)
        if reply is None or len(reply) > 3 * SHOWN:
            return self.step()
        return line, reply


def sessions(seed, count, first):
    """The lines of all sessions, each with its reply."""
    draw = random.Random(seed)
    for _ in range(count):
        session = Session(draw, first)
        for _ in range(STEPS):
            yield session.step()
        first += len(session.ropes)


def main():
    seed, count, first = map(int, sys.argv[1:4])
    rows = list(sessions(seed, count, first))
    for path, at in ((sys.argv[4], 0), (sys.argv[5], 1)):
        with open(path, "w", encoding="utf-8", newline="\n") as file:
            file.writelines(f"{row[at]}\n" for row in rows)


if __name__ == "__main__":
    main()
