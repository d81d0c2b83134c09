#!/usr/bin/env python3
"""Counts the mutants in crates/*/must-fail, and lists those that cover a public call.

    scripts/mutants.py            # how many mutants each edit has
    scripts/mutants.py CALL ..    # the mutants that cover these calls, from crates/stands_for.tsv

It fails if an old text does not occur exactly once in its file, or if a public function of the crates below has neither a
mutant nor a row in crates/stands_for.tsv. It also fails if a row names no public function, a name that several types have, or
a mutant that does not exist. The third column of a row has `CRATE/EDIT: FUNCTION`, several of them separated by `; `, or
`none: REASON`.
"""
import sys

sys.dont_write_bytecode = True
from functions import CRATES, function_at, names_at, public_functions  # noqa: E402

# The crates whose public functions users call.
SURFACE = "rope_text rope_slice rope_io ropey rope_position rope_script rope_protocol rope_changes rope_history ropey_c".split()


def changes(edit):
    """The changes of an edit, each a mutant: a file, and its pairs of an old and a new line."""
    found = []
    for line in edit.read_text(encoding="utf-8").splitlines():
        word, _, rest = line.partition(":")
        rest = rest.removeprefix(" ")
        if word == "file":
            found.append((edit.parent.parent / rest.strip(), []))
        elif word == "old":
            old = rest
        elif word == "new":
            found[-1][1].append((old, rest))
    return found


def faults(edit):
    """The changes whose old text doesn't occur exactly once in its file, with the earlier changes applied."""
    texts = {}
    for file, pairs in changes(edit):
        for old, new in pairs:
            text = texts.setdefault(file, file.read_text(encoding="utf-8"))
            if text.count(old) != 1:
                yield f"{edit.name}: {text.count(old)} times in {file.name}: {old}"
            texts[file] = text.replace(old, new, 1)


def rows():
    """The rows of stands_for.tsv: a crate, its calls, and their mutants."""
    lines = (CRATES / "stands_for.tsv").read_text(encoding="utf-8").splitlines()[1:]
    return [line.split("\t") for line in lines]


def lines_of(file):
    return file.read_text(encoding="utf-8").splitlines()


def changed(edit):
    """The functions that an edit changes: the file and the first line of each. Changed comments don't count."""
    for file, pairs in changes(edit):
        lines = lines_of(file)
        code = [(at, line) for at, line in enumerate(lines) if not line.lstrip().startswith("//")]
        yield from ((file, function_at(lines, at)[0]) for old, _ in pairs for at, line in code if old in line)


def named(functions):
    """Functions by name, each with its type."""
    found = {}
    for file, first in functions:
        kind, names = names_at(lines_of(file), first)
        for name in names:
            found.setdefault(name, set()).add((kind, file, first))
    return found


def unclear(name, functions):
    """Why a name does not identify a function, or None if it does."""
    kinds = sorted({kind for kind, _, _ in functions.get(name, ())})
    if not kinds:
        return f"no such function: {name}"
    return f"{name} of {' or '.join(kinds)}" if len(kinds) > 1 else None


def uncovered(edits):
    """The rows that name no public function, and the public functions with neither a mutant nor a row."""
    for crate in SURFACE:
        public = set(public_functions(crate))
        names = named(public)
        own = {function for name, edit in edits.items() if name.startswith(f"{crate}/") for function in changed(edit)}
        calls = [call for of, several, _ in rows() if of == crate for call in several.split()]
        listed = {(file, first) for call in calls for _, file, first in names.get(call, ())}
        yield from (f"stands_for.tsv, {crate}: {fault}" for fault in (unclear(call, names) for call in calls) if fault)
        for file, first in sorted(public - own - listed):
            yield f"no mutant and no row: {crate}/src/{file.name}:{first + 1}: {names_at(lines_of(file), first)[1][0]}"


def unfounded(edits):
    """The rows that name a mutant that does not exist."""
    functions = {name: named(changed(edit)) for name, edit in edits.items()}
    for crate, calls, cover in rows():
        for part in [] if cover.startswith("none: ") else cover.split("; "):
            edit, _, name = part.partition(": ")
            fault = unclear(name, functions[edit]) if edit in functions else f"no such edit: {edit}"
            if fault:
                yield f"stands_for.tsv, {crate}, {calls}: {fault}"


def main(calls):
    if calls:
        for crate, names, cover in rows():
            for call in sorted(set(names.split()) & set(calls)):
                print(f"{crate}: {call}: {cover}")
        return 0
    edits = {f"{edit.parent.parent.name}/{edit.stem}": edit for edit in sorted(CRATES.glob("*/must-fail/*.edit"))}
    for name, edit in edits.items():
        print(f"{len(changes(edit)):4} {name}")
    print(f"{sum(len(changes(edit)) for edit in edits.values()):4} mutants in {len(edits)} edits")
    wrong = [fault for edit in edits.values() for fault in faults(edit)]
    wrong += [*uncovered(edits), *unfounded(edits)]
    print("\n".join(wrong), end="\n" if wrong else "")
    return 1 if wrong else 0


if __name__ == "__main__":
    sys.exit(main(sys.argv[1:]))
