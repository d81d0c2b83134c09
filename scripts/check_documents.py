#!/usr/bin/env python3
"""Fails if a document uses a name or shows code that isn't in the tree, or is too long, or a line of the sources is too wide.

It reads README.md, CONTRIBUTING.md, CHANGELOG.md, docs/*.md, the README files below bindings and benchmarks, and the heads of
modules (`//!`), and checks that

- each word between backticks occurs in a file of the tree that isn't a document, and each file name there exists,
- each link leads to a file,
- each block of Rust, C or C++ occurs in a file, perhaps with more indentation,
- no sentence mentions a machine, day or tree that is gone,
- no document is longer than its limit below.

No line of a crate's sources, definitions or proofs has more than 100 columns, except those with quoted texts, attributes and imports.
"""
import pathlib
import re
import subprocess
import sys
import textwrap

TOP = pathlib.Path(__file__).resolve().parent.parent
SIZES = {
    "README.md": 8192, "CONTRIBUTING.md": 4000, "CHANGELOG.md": 3000,
    "docs/BENCHMARKS.md": 7168, "docs/C.md": 8192, "docs/CALLING.md": 16384, "docs/COMMANDS.md": 3500, "docs/DECISIONS.md": 12288,
    "docs/DEFINITIONS.md": 6144, "docs/DIFFERENCES.md": 7000, "docs/GATE.md": 4096, "docs/MAP.md": 9216, "docs/PROVED.md": 10000,
    "docs/RUST.md": 8192,
}
WIDTH = 100
UNBROKEN = ("use ", "pub use ", "ghost use", "#!")
GONE = ("machine of four cores,", "the tree before", "fifth machine", "thirteenth machine", "the one before that", "last session")
# Words of the system, of Rust and of the Rust crate that no file of this tree contains.
KNOWN = set("""std rustc usize isize u64 u32 malloc realloc free no_std gcc clang callgrind fnv
    Arc FromIterator RangeBounds is_instance smallvec str_indices cr_lines unicode_lines simd axioms lasting""".split())
# A file's path, or the end of one.
FILE = re.compile(r"(?<![\w*/.])[\w./-]+\.(?:antt|cpp|c|edit|hpp|h|py|rs|rt|sh|svg|toml|tsv|txt)\b")
# How command lines begin.
COMMANDS = ("rt ", "perf ", "cargo ", "git ", "rattle-kit")


def tracked():
    """The files of the repository; outside a clone all files that no build made."""
    listed = subprocess.run(["git", "ls-files"], cwd=TOP, capture_output=True, text=True, check=False)
    if listed.returncode == 0:
        return [TOP / name for name in listed.stdout.splitlines() if (TOP / name).is_file()]
    return [path for path in TOP.rglob("*") if path.is_file() and not {"out", "target", ".git"} & set(path.parts)]


def read(path):
    return path.read_text(encoding="utf-8", errors="replace")


def is_document(path):
    return path.suffix == ".md"


def module_head(path):
    lines = [line.lstrip()[3:] for line in read(path).splitlines() if line.lstrip().startswith("//!")]
    return "\n".join(line for line in lines if not line.startswith("     "))


def blocks(text):
    return re.findall(r"^```(\w*)\n(.*?)^```", text, re.M | re.S)


def names(text):
    """The texts between backticks, outside of blocks."""
    return re.findall(r"`([^`\n]+)`", re.sub(r"^```.*?^```", "", text, flags=re.M | re.S))


def is_known(word, words):
    """Whether a word is one of the tree, a placeholder, or a prefix or suffix of words of the tree."""
    if word in words or word in KNOWN or word.isupper():
        return True
    if word.endswith("_"):
        return any(other.startswith(word) for other in words)
    return word.startswith("_") and any(other.endswith(word) for other in words)


def unknown_names(text, words, paths):
    for name in names(text):
        if name.strip("/") in paths or name.startswith(COMMANDS):
            continue
        for file in FILE.findall(name):
            if not any(path == file or path.endswith(f"/{file}") for path in paths) and "NAME" not in file:
                yield f"no file {file}"
        missing = [word for word in re.findall(r"(?<![\w])[A-Za-z_]\w+", name) if not is_known(word, words)]
        if missing:
            yield f"nothing in the tree is called {' '.join(missing)}: `{name}`"


def broken_links(path, text):
    for link in re.findall(r"\]\(([^)#\s]+)[^)]*\)", text) + re.findall(r'src(?:set)?="([^"]+)"', text):
        if "://" not in link and not (path.parent / link).exists():
            yield f"no file at the link {link}"


def occurs_in(block, source):
    return any(textwrap.indent(block, " " * indent) in source for indent in (0, 4, 8))


def unknown_blocks(text, sources):
    for language, block in blocks(text):
        if language in ("rust", "c", "cpp") and not any(occurs_in(block, source) for source in sources):
            yield f"no file has the block that begins {block.strip().splitlines()[0]}"


def faults(path, words, paths, sources):
    text = read(path)
    yield from unknown_names(text, words, paths)
    yield from broken_links(path, text)
    yield from unknown_blocks(text, sources)
    yield from (f"mentions {gone}" for gone in GONE if gone in text)
    most = SIZES.get(str(path.relative_to(TOP)))
    if most and len(text.encode()) > most:
        yield f"has {len(text.encode())} bytes, more than {most}"


def wide_lines(text):
    for number, line in enumerate(text.splitlines(), 1):
        if len(line) > WIDTH and not line.lstrip().startswith(UNBROKEN) and '"' not in line:
            yield f"line {number} has {len(line)} columns, more than {WIDTH}"


def main():
    files = tracked()
    documents = [path for path in files if is_document(path) and "upstream" not in path.parts]
    others = [path for path in files if not is_document(path) and path.suffix not in (".svg", ".png", ".trace")]
    texts = {path: read(path) for path in others}
    words = {word for text in texts.values() for word in re.findall(r"[A-Za-z_]\w+", text)}
    paths = {str(path.relative_to(TOP)) for path in files}
    paths |= {str(parent) for path in paths for parent in pathlib.PurePosixPath(path).parents}
    words |= {part for path in paths for part in re.findall(r"[A-Za-z_]\w+", path)}
    sources = list(texts.values())
    found = [f"{path.relative_to(TOP)}: {fault}" for path in documents for fault in faults(path, words, paths, sources)]
    for path in others:
        if path.suffix == ".rt" and "/src/" in str(path):
            found += [f"{path.relative_to(TOP)}: {fault}" for fault in unknown_names(module_head(path), words, paths)]
        if path.suffix == ".antt" or path.suffix == ".rt" and "/src/" in str(path):
            found += [f"{path.relative_to(TOP)}: {fault}" for fault in wide_lines(texts[path])]
    print("\n".join(found) if found else f"{len(documents)} documents are in order")
    return 1 if found else 0


if __name__ == "__main__":
    sys.exit(main())
