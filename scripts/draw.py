#!/usr/bin/env python3
"""Draws docs/speed.svg, docs/growth.svg, docs/scale.svg and docs/tree.svg, and prints tables of docs/figures.tsv.

Every number comes from docs/figures.tsv, the output of benchmarks/turns.py --tsv: a row for each workload. The groups are the
headings of benchmarks/WORKLOADS.md. docs/scale.svg shows the rows of the workloads `scale_`, and is drawn if there are any:

    benchmarks/turns.py OURS THEIRS scale_ --turns 5 --tsv TABLE; tail -n +2 TABLE >> docs/figures.tsv

    scripts/draw.py            # redraws the pictures
    scripts/draw.py --tables   # prints the tables of docs/BENCHMARKS.md
    scripts/draw.py --rows     # prints a row for each workload, and their number
    scripts/draw.py --check    # fails if a picture or a table in docs/ doesn't match the figures
"""
import math
import pathlib
import re
import sys

TOP = pathlib.Path(__file__).resolve().parent.parent
FIGURES = TOP / "docs" / "figures.tsv"
WORKLOADS = TOP / "benchmarks" / "WORKLOADS.md"
BENCHMARKS = TOP / "docs" / "BENCHMARKS.md"
TEXTS = ("P", "M", "C")
LENGTHS = ("1MB", "10MB", "100MB", "1GB")
SCALE = "scale_"
LINES = {"1": "1", "10": "10", "80": "80", "1000": "1k", "10000": "10k", "100000": "100k", "whole": "all"}
PORTIONS = {"1B": "1", "10B": "10", "100B": "100", "1KB": "1k", "10KB": "10k", "1%": "1%", "half": "50%"}

STYLE = """<style>
text { font: 15px system-ui, sans-serif; fill: #24292f }
.small { font-size: 13px }
.title { font-size: 18px; font-weight: 600 }
.inside { font-size: 13px; fill: #ffffff }
text.ours, text.theirs { stroke: none }
.ours { fill: #0969da; stroke: #0969da }
.theirs { fill: #cf222e; stroke: #cf222e }
.line { fill: none; stroke-width: 2.5 }
.axis { stroke: #8c959f; stroke-width: 1 }
.even { stroke: #24292f; stroke-width: 1.5; stroke-dasharray: 5 4 }
.node { fill: #ddf4ff; stroke: #0969da; stroke-width: 1.5 }
.copy { fill: #fff1e5; stroke: #bc4c00; stroke-width: 1.5 }
.leaf { fill: #f6f8fa; stroke: #57606a; stroke-width: 1.5 }
.edge { stroke: #57606a; stroke-width: 1.5 }
.new { stroke: #bc4c00; stroke-width: 2 }
@media (prefers-color-scheme: dark) {
  text { fill: #e6edf3 }
  .inside { fill: #0d1117 }
  .ours { fill: #58a6ff; stroke: #58a6ff }
  .theirs { fill: #ff7b72; stroke: #ff7b72 }
  .axis { stroke: #6e7681 }
  .even { stroke: #e6edf3 }
  .node { fill: #0c2d6b; stroke: #58a6ff }
  .copy { fill: #5a1e02; stroke: #ffa657 }
  .leaf { fill: #161b22; stroke: #8b949e }
  .edge { stroke: #8b949e }
  .new { stroke: #ffa657 }
}
</style>"""


def rows():
    """The figures, without the heading."""
    lines = FIGURES.read_text(encoding="utf-8").splitlines()[1:]
    return [line.split("\t") for line in lines]


def groups():
    """The workloads by the heading above them, in order."""
    found, name = {}, None
    for line in WORKLOADS.read_text(encoding="utf-8").splitlines():
        if line.startswith("### "):
            name = line[4:].lower()
        elif name and line.startswith("| `"):
            found.setdefault(name, []).extend(re.findall(r"`([^`]+)`", line.split("|")[1]))
    return found


def ratios():
    """The least and the median ratio of each workload on each text."""
    known = {}
    for row in rows():
        workload, _, text = row[0].partition("/")
        if text in TEXTS or not text:
            known[workload, text] = float(row[6]), float(row[7])
    return known


def mean(numbers):
    return math.exp(sum(map(math.log, numbers)) / len(numbers))


def group_means(known):
    """The geometric mean of the least ratios of each group on each text."""
    means = []
    for group, names in groups().items():
        of_texts = [[known[name, text][0] for name in names if (name, text) in known] for text in TEXTS]
        if any(of_texts):
            means.append((group, [mean(numbers) if numbers else None for numbers in of_texts]))
    edited = [[least for (name, text), (least, _) in known.items() if name.startswith("edited_") and text == t] for t in TEXTS]
    if any(edited) and "edited ropes" not in dict(means):
        means.append(("edited ropes", [mean(numbers) if numbers else None for numbers in edited]))
    return means


def group_table(known):
    """The mean of each group on each text."""
    lines = ["| group | P | M | C |", "|---|---|---|---|"]
    for group, means in group_means(known):
        lines.append(f"| {group} | " + " | ".join("" if m is None else f"{m:.2f}" for m in means) + " |")
    return lines


def growth_table():
    """Nanoseconds per operation of both, and their ratio, by length."""
    lines = ["| workload | 1 MB | 10 MB | 100 MB | 1 GB |", "|---|---|---|---|---|"]
    for name, of_lengths in growth().items():
        cells = [f"{ours:.0f}, {theirs:.0f}: {ours / theirs:.2f}" for ours, theirs in of_lengths]
        lines.append(f"| `{name}` | " + " | ".join(cells) + " |")
    return lines


def row_table(known):
    """The least and the median ratio of each workload on each text, as a table."""
    lines = ["| workload | P | M | C |", "|---|---|---|---|"]
    for name in dict.fromkeys(name for name, _ in known):
        shown = [known.get((name, text)) for text in TEXTS]
        if (name, "") in known:
            shown[0] = known[name, ""]
        lines.append(f"| `{name}` | " + " | ".join("" if r is None else f"{r[0]:.2f}, {r[1]:.2f}" for r in shown) + " |")
    return lines


def summary(known):
    """The number of rows, the number of those below 0.9 by both figures, and the mean of all."""
    below = sum(max(pair) < 0.9 for pair in known.values())
    return f"{len(known)} rows, {below} below 0.9 by both figures, geometric mean {mean([least for least, _ in known.values()]):.2f}"


def tables():
    """The tables of docs/BENCHMARKS.md."""
    known = ratios()
    return [*group_table(known), "", *growth_table()]


def growth():
    """The nanoseconds of both for each workload on texts of growing length, by length."""
    found = {}
    for row in rows():
        workload, _, length = row[0].partition("/")
        if length in LENGTHS:
            found.setdefault(workload, []).append((float(row[2]), float(row[4])))
    return found


def picture(width, height, parts, title):
    head = (f'<svg xmlns="http://www.w3.org/2000/svg" viewBox="0 0 {width} {height}" width="{width}" '
            f'height="{height}" role="img" aria-label="{title}">')
    return "\n".join([head, f"<title>{title}</title>", STYLE, *parts, "</svg>", ""])


def text(x, y, words, name="", anchor="start"):
    style = f' class="{name}"' if name else ""
    return f'<text x="{x}" y="{y}"{style} text-anchor="{anchor}">{words}</text>'


def line(x1, y1, x2, y2, name):
    return f'<line x1="{x1}" y1="{y1}" x2="{x2}" y2="{y2}" class="{name}"/>'


def speed():
    """A bar for each group: our time over ropey's, averaged over all texts."""
    known = ratios()
    bars = [(group, mean([m for m in means if m is not None])) for group, means in group_means(known)]
    bars.append(("all workloads", mean([least for least, _ in known.values()])))
    left, scale, top = 190, 320, 78
    parts = [text(16, 30, "Time over that of the Rust crate ropey 1.6.1", "title"),
             text(16, 54, "shorter is faster; the dashed line is ropey", "small")]
    for at, (group, ratio) in enumerate(bars):
        y = top + at * 30
        parts.append(text(left - 10, y + 15, group, anchor="end"))
        parts.append(f'<rect x="{left}" y="{y}" width="{ratio * scale:.0f}" height="20" rx="3" class="ours"/>')
        parts.append(text(round(left + ratio * scale) - 8, y + 15, f"{ratio:.2f}", "inside", "end"))
    bottom = top + len(bars) * 30
    parts.append(line(left + scale, top - 8, left + scale, bottom, "even"))
    return picture(left + scale + 70, bottom + 16, parts, "Speed by groups of calls")


def curve(points, name):
    path = " ".join(f"{'L' if k else 'M'}{x:.0f} {y:.0f}" for k, (x, y) in enumerate(points))
    dots = "".join(f'<circle cx="{x:.0f}" cy="{y:.0f}" r="3.5" class="{name}"/>' for x, y in points)
    return f'<path d="{path}" class="line {name}" style="fill:none"/>{dots}'


def growth_picture():
    """Nanoseconds per operation by the text's length: a panel for each workload, both axes logarithmic."""
    panels = [(name, of) for name, of in growth().items() if name != "from_str"]
    most = max(max(pair) for _, of in panels for pair in of)
    low, high = 1, math.ceil(math.log10(most))
    width, tall, top = 580, 150, 70
    parts = [text(16, 30, "Nanoseconds an operation, by the length of the text", "title"),
             text(16, 54, "this library", "small ours"), text(120, 54, "the Rust crate", "small theirs")]
    for at, (name, of_lengths) in enumerate(panels):
        base = top + at * (tall + 60) + tall + 34
        parts.append(text(16, base - tall - 16, name))
        for power in range(low, high + 1):
            y = base - (power - low) * tall / (high - low)
            parts.append(line(70, round(y), width - 20, round(y), "axis"))
            parts.append(text(62, round(y) + 5, f"{10 ** power:,}", "small", "end"))
        xs = [100 + k * 145 for k in range(len(of_lengths))]
        for side, style in ((1, "theirs"), (0, "ours")):
            points = [(x, base - (math.log10(pair[side]) - low) * tall / (high - low))
                      for x, pair in zip(xs, of_lengths)]
            parts.append(curve(points, style))
        for x, length in zip(xs, LENGTHS):
            parts.append(text(x, base + 18, length.replace("MB", " MB").replace("GB", " GB"), "small", "middle"))
    return picture(width, top + len(panels) * (tall + 60) + 20, parts, "Time by the length of the text")


def scaled():
    """The ratios of each workload `scale_`, by the length of lines or of portions."""
    found = {}
    for row in rows():
        workload, _, length = row[0].partition("/")
        if workload.startswith(SCALE) and float(row[4]) > 0:
            found.setdefault(workload.removeprefix(SCALE), {})[length] = float(row[2]) / float(row[4])
    return found


def ratio_panel(left, base, tall, powers, name, of_lengths):
    """The ratios of a workload, with a line for each power of ten, dashed at 1."""
    low, high = powers
    known = LINES if LINES.keys() & of_lengths.keys() else PORTIONS
    height = {length: base - (math.log10(ratio) - low) * tall / (high - low) for length, ratio in of_lengths.items()}
    xs = {length: left + 52 + k * 34 for k, length in enumerate(known)}
    parts = [text(left, base - tall - 14, name)]
    for power in range(low, high + 1):
        y = round(base - (power - low) * tall / (high - low))
        parts.append(line(left + 34, y, left + 274, y, "axis" if power else "even"))
        parts.append(text(left + 28, y + 5, f"{10.0 ** power:g}", "small", "end"))
    parts.append(curve([(xs[length], height[length]) for length in known if length in of_lengths], "ours"))
    for length, shown in known.items():
        parts.append(text(xs[length], base + 18, shown, "small", "middle"))
        if length in of_lengths:
            parts.append(text(xs[length], round(height[length]) - 8, f"{of_lengths[length]:.2g}", "small", "middle"))
    return parts


def scale_picture():
    """The ratio of the times by the length of lines, and by the length of an insert or removal: a panel for each workload."""
    found = scaled()
    logs = [math.log10(ratio) for of_lengths in found.values() for ratio in of_lengths.values()]
    powers = min(math.floor(min(logs)), -1), max(math.ceil(max(logs)), 1)
    tall, top = 110, 80
    parts = [text(16, 30, "Time over that of the Rust crate ropey 1.6.1, on 3 MB", "title"),
             text(16, 54, "by the characters of a line, and for insert and remove by the bytes of a call", "small")]
    for at, (name, of_lengths) in enumerate(found.items()):
        base = top + at // 2 * (tall + 66) + tall + 24
        parts += ratio_panel(16 + at % 2 * 300, base, tall, powers, name, of_lengths)
    return picture(610, top + (len(found) + 1) // 2 * (tall + 66) + 10, parts, "Speed by the length of lines and of edits")


def box(x, y, wide, words, name):
    return (f'<rect x="{x - wide / 2:.0f}" y="{y}" width="{wide}" height="30" rx="5" class="{name}"/>'
            + text(round(x), y + 20, words, "small", "middle"))


def tree():
    """A rope, its clone, and the nodes that an insert into the rope copies."""
    parts = [text(16, 30, "A rope, its clone, and what one insert copies", "title"),
             text(16, 54, "nodes that both share stay as they were", "small")]
    leaves = [(60, "The qu"), (150, "ick br"), (240, "own fo"), (330, "x jump"), (420, "s over")]
    inner = [(105, leaves[:2]), (330, leaves[2:])]
    for x, below in inner:
        parts += [line(215, 130, x, 170, "edge")] + [line(x, 200, leaf, 250, "edge") for leaf, _ in below]
    parts += [line(465, 130, 105, 170, "new"), line(465, 130, 530, 170, "new"), line(530, 200, 240, 250, "new"),
              line(530, 200, 420, 250, "new"), line(530, 200, 540, 250, "new")]
    parts += [text(215, 84, "the clone", anchor="middle"), text(465, 84, "the rope", anchor="middle")]
    parts += [box(215, 100, 90, "root", "node"), box(465, 100, 90, "new root", "copy")]
    parts += [box(x, 170, 90, "node", "node") for x, _ in inner] + [box(530, 170, 90, "new node", "copy")]
    parts += [box(x, 250, 78, words, "leaf") for x, words in leaves] + [box(540, 250, 92, "x! jump", "copy")]
    parts.append(text(16, 312, "Each leaf holds 1 to 984 bytes, each node up to 24 children. The insert of ! copies one", "small"))
    parts.append(text(16, 332, "node a level, and takes memory for those alone; the clone keeps its text.", "small"))
    return picture(600, 350, parts, "What an insert copies")


def drawn():
    pictures = {"speed.svg": speed(), "growth.svg": growth_picture(), "tree.svg": tree()}
    return {**pictures, "scale.svg": scale_picture()} if scaled() else pictures


def main(words):
    if "--tables" in words:
        print("\n".join(tables()))
        return 0
    if "--rows" in words:
        print("\n".join([*row_table(ratios()), summary(ratios())]))
        return 0
    if "--check" in words:
        old = [name for name, svg in drawn().items()
               if not (TOP / "docs" / name).exists() or (TOP / "docs" / name).read_text(encoding="utf-8") != svg]
        lines = set(BENCHMARKS.read_text(encoding="utf-8").splitlines())
        old += [row for row in tables() if row and row not in lines]
        for name in old:
            print(f"doesn't match docs/figures.tsv: {name}")
        return 1 if old else 0
    for name, svg in drawn().items():
        (TOP / "docs" / name).write_text(svg, encoding="utf-8")
    return 0


if __name__ == "__main__":
    sys.exit(main(sys.argv[1:]))
