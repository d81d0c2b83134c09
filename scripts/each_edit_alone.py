#!/usr/bin/env python3
"""Tries each mutant alone, and records in docs/refusals.tsv which goal refused it.

    scripts/each_edit_alone.py CRATE[/EDIT]..             # tries the mutants of these crates or edits
    scripts/each_edit_alone.py --changed CRATE[/EDIT]..   # only those that have changed since their row was written
    scripts/each_edit_alone.py --together [--changed] ..  # the mutants of different functions in one check, much sooner
    scripts/each_edit_alone.py --stale                    # proves nothing: lists the rows that are out of date

An edit may have several mutants, and `rt ci` checks only that one of them is refused. This script writes each mutant to an
edit of its own, in a scratch folder whose crates are links to the repository's, and runs `rt must-fail` there once. That tries
RT_JOBS mutants at a time, if the kit can, by default four, over the proofs of `rt check`: run `rt check` in the crates' folders
before. The status is 0 if every mutant is refused.

With --together a check has one mutant of each function. A function is proved against its own contract and those of its callees,
so no other mutant changes its goals. A mutant counts as refused by value if the check names a goal of its own function; the
others are tried in the next check, without those that were refused, and at last alone.

A row of docs/refusals.tsv has the mutant, as the name of its edit and its number there; its crate; its function; the goal that
the prover could not show, as its function and its name; the reason; and a checksum of the mutant and of its function with its
contract, without a trait's clauses and the definitions that a contract cites. The reason is `name` if `rt` reports only names
that a written proof cites and the mutant removed, `limit` if the prover gave no verdict, and `value` otherwise. With --stale
the status is 0 if each mutant has a row with its checksum, each row has a mutant, and each goal belongs to the mutant's
function.
"""
import hashlib
import os
import pathlib
import re
import shutil
import signal
import subprocess
import sys
import tempfile
import time

sys.dont_write_bytecode = True
from functions import CRATES, FUNCTION, function_at, owner_of, path_at  # noqa: E402
from mutants import changes  # noqa: E402

TOP = CRATES.parent
TABLE = TOP / "docs" / "refusals.tsv"
HEADS = ["mutant", "crate", "function", "goal", "refused by", "checksum"]
REFUSED = re.compile(r"rt: must-fail (?P<crate>\w+)/(?P<edit>\S+)\.(?P<number>\d+)\.edit: refused, as it must be"
                     r"(?: \(only (?P<only>because|by)[^)]*\))?(?:: (?P<said>.*))?")
KINDS = {None: "value", "because": "name", "by": "limit"}
# A line of `rt check` that names a goal; and one that only says that a written proof cites a name that the mutant removed.
GOAL = re.compile(r"(note: )?\S+:\d+:\d+:")
NAME_ONLY = re.compile(r"(\./)?proofs/.*(has no field|is not in scope|has no `|was not admitted)")


def contract_at(lines, number):
    """The function around a line with its contract, and with the ghost members that its impl begins with."""
    first, last = function_at(lines, number)
    owner = owner_of(lines, first)
    if owner is None:
        return lines[first : last + 1]
    members = next(at for at in range(owner, len(lines)) if FUNCTION.match(lines[at]))
    ghosts = [line for line in lines[owner:members] if not line.lstrip().startswith(("//", "#["))]
    return ghosts + lines[first : last + 1]


def described(crate, file, pairs):
    """The function that a mutant changes, and the mutant's checksum."""
    lines = file.read_text(encoding="utf-8").splitlines()
    numbers = [next((at for at, line in enumerate(lines) if old in line), 0) for old, _ in pairs]
    texts = [text for pair in pairs for text in pair] + [line for number in numbers for line in contract_at(lines, number)]
    return path_at(crate, file, lines, numbers[0]), hashlib.sha256("\n".join(texts).encode()).hexdigest()[:12]


def edits_of(words):
    """The edits that these names of crates or edits select."""
    found = sorted(CRATES.glob("*/must-fail/*.edit"))
    return [edit for edit in found if crate_of(edit) in words or f"{crate_of(edit)}/{edit.stem}" in words]


def crate_of(edit):
    return edit.parent.parent.name


def mutants_of(edits):
    """The function and the checksum of each mutant, by its edit and number and its crate."""
    every = ((edit, number, change) for edit in edits for number, change in enumerate(changes(edit), 1))
    return {(f"{edit.stem} {number}", crate_of(edit)): described(crate_of(edit), *change) for edit, number, change in every}


def table():
    """The rows of docs/refusals.tsv by mutant and crate."""
    lines = TABLE.read_text(encoding="utf-8").splitlines()[1:] if TABLE.exists() else []
    return {tuple(line.split("\t")[:2]): line.split("\t") for line in lines}


def write(rows):
    order = sorted(rows, key=lambda row: (row[1], row[0].split()[0], int(row[0].split()[1])))
    TABLE.write_text("\n".join("\t".join(row) for row in [HEADS, *order]) + "\n", encoding="utf-8")


def scratch(edits, mutants, tree):
    """Makes a folder in which each of these mutants is an edit of its own, and everything else a link."""
    tree.mkdir()
    for name in ("crates.txt", "HANDLES"):
        (tree / name).symlink_to(TOP / name)
    for part in CRATES.glob("*/*"):
        folder = tree / "crates" / part.parent.name
        folder.mkdir(parents=True, exist_ok=True)
        if part.name != "must-fail":
            (folder / part.name).symlink_to(part)
    for edit in edits:
        crate = CRATES / crate_of(edit)
        alone = tree / edit.parent.relative_to(TOP)
        alone.mkdir(exist_ok=True)
        for number, (file, pairs) in enumerate(changes(edit), 1):
            if (f"{edit.stem} {number}", crate.name) not in mutants:
                continue
            mutant = "".join(f"old: {old}\nnew: {new}\n" for old, new in pairs)
            (alone / f"{edit.stem}.{number}.edit").write_text(f"file: {file.relative_to(crate)}\n{mutant}", encoding="utf-8")


def goal_of(crate, said):
    """The goal that a line of the prover names: its function, by the path of its proof or its source line, and its name."""
    at = re.match(r"(?:note: )?(?:\./)?(src|proofs)/(\S+?):(\d+):\d+: (.*)", said or "")
    if not at:
        return (said or "none told").replace("\t", " ")
    part, file, line, rest = at.groups()
    name = re.search(r"\(`([^`]+)`" if part == "src" else r"`([^`]+)`", rest)
    if part == "proofs":
        path = "::".join(pathlib.Path(file).parts[:-1]) or file
    else:
        source = CRATES / crate / "src" / file
        lines = source.read_text(encoding="utf-8").splitlines()
        path = path_at(crate, source, lines, min(int(line), len(lines)) - 1)
    return f"{path} {name[1] if name else rest}"


def output_of(words, folder, part=""):
    """The output of a command run in a part of the scratch folder. Ending this script ends the command and removes temporary
    files."""
    (folder / "made").mkdir()
    environment = {"RT_JOBS": "4", **os.environ, "TMPDIR": str(folder / "made")}
    with subprocess.Popen(words, cwd=folder / "tree" / part, env=environment, text=True, errors="replace", stdin=subprocess.DEVNULL,
                          stdout=subprocess.PIPE, stderr=subprocess.STDOUT) as command:
        try:
            return command.communicate()[0].splitlines()
        except BaseException:
            command.terminate()
            raise


def tried(edits, mutants):
    """Tries these mutants of these edits. Returns the line of `rt must-fail` for each refused one, and its other lines."""
    with tempfile.TemporaryDirectory(prefix="each-edit-alone-") as name:
        folder = pathlib.Path(name)
        scratch(edits, mutants, folder / "tree")
        lines = output_of(["rt", "must-fail", *sorted({crate_of(edit) for edit in edits})], folder)
    matches = list(map(REFUSED.match, lines))
    found = {(f"{it['edit']} {it['number']}", it["crate"]): it for it in matches if it}
    return found, [line for line, it in zip(lines, matches) if not it]


def rows_of(mutants, found):
    """The rows of the mutants that were refused."""
    for key, (function, checksum) in mutants.items():
        if key in found:
            yield [*key, function, goal_of(key[1], found[key]["said"]), KINDS[found[key]["only"]], checksum]


def try_all(edits, mutants):
    """Tries these mutants of these edits, writes the rows of the refused ones, and returns whether all were refused."""
    begun = time.monotonic()
    print(f"{len(mutants)} mutants of {len(edits)} edits", flush=True)
    found, others = tried(edits, mutants)
    lost = [key for key in mutants if key not in found]
    if lost:
        print("\n".join(others))
    if found:
        existing = mutants_of(CRATES.glob("*/must-fail/*.edit"))
        kept = [row for key, row in table().items() if key in existing and key not in mutants]
        write([*kept, *rows_of(mutants, found)])
    each = (time.monotonic() - begun) / len(mutants)
    print(f"{len(mutants) - len(lost)} were refused, {len(lost)} not; {each:.1f} seconds a mutant")
    return not lost


def one_of_each(mutants):
    """The first mutant of each function."""
    firsts = {function: key for key, (function, _) in reversed(mutants.items())}
    return {key: mutants[key] for key in mutants if firsts[mutants[key][0]] == key}


def link_or_copy(source, target):
    """Makes another name for a file; on another file system, a copy."""
    try:
        os.link(source, target)
    except OSError:
        shutil.copy2(source, target)


def checked_together(crate, texts):
    """The lines of `rt check` for a copy of a crate with these texts in place of its own. It keeps its work in the copy, and uses
    the libraries that were built from the other crates, by links to their files."""
    with tempfile.TemporaryDirectory(prefix="each-edit-together-") as name:
        folder = pathlib.Path(name)
        (folder / "tree").mkdir()
        shutil.copy(TOP / "crates.txt", folder / "tree")
        for each in filter(pathlib.Path.is_dir, CRATES.iterdir()):
            ignored = shutil.ignore_patterns("must-fail", *([] if each.name == crate else ["incremental"]))
            copy = shutil.copy2 if each.name == crate else link_or_copy
            shutil.copytree(each, folder / "tree" / "crates" / each.name, ignore=ignored, copy_function=copy)
        for file, text in texts.items():
            (folder / "tree" / file.relative_to(TOP)).write_text(text, encoding="utf-8")
        return output_of(["rt", "check", "--jobs", "2"], folder, f"crates/{crate}")


def with_mutants(changed):
    """The texts of the files that these changes change, with all of them applied."""
    texts = {}
    for file, pairs in changed:
        for old, new in pairs:
            texts[file] = texts.get(file, file.read_text(encoding="utf-8")).replace(old, new, 1)
    return texts


def refused_together(crate, mutants, lines):
    """The goal and the reason of each mutant of a crate of whose function a check names a goal, and not only a name that a
    written proof cites: another mutant may have removed that."""
    told = [line for line in lines if GOAL.match(line) and (": error" in line or line.startswith("note: "))]
    goals = [goal_of(crate, line) for line in told if not NAME_ONLY.match(line)]
    for key, (function, _) in mutants.items():
        own = [goal for goal in goals if goal.split(" ")[0].split("::")[-2:] == function.split("::")[-2:]]
        if own:
            yield key, (own[0], "value")


def try_together(edits, mutants):
    """Tries these mutants of these edits, those of different functions in one check, and writes the rows of the refused ones.
    Returns the mutants that are to be tried alone."""
    every = {(f"{edit.stem} {number}", crate_of(edit)): change for edit in edits for number, change in enumerate(changes(edit), 1)}
    alone = {}
    for crate in sorted({key[1] for key in mutants}):
        left = {key: mutant for key, mutant in mutants.items() if key[1] == crate}
        while batch := one_of_each(left):
            lines = checked_together(crate, with_mutants([every[key] for key in batch]))
            found = dict(refused_together(crate, batch, lines))
            print(f"{crate}: {len(found)} of {len(batch)} were refused in one check", flush=True)
            existing = mutants_of(CRATES.glob("*/must-fail/*.edit"))
            kept = [row for key, row in table().items() if key in existing and key not in found]
            write([*kept, *([*key, batch[key][0], *found[key], batch[key][1]] for key in found)])
            left = {key: mutant for key, mutant in left.items() if key not in (batch if not found else found)}
            alone |= {key: batch[key] for key in batch if not found}
    return alone


def is_of_another(function, goal):
    """Whether a goal belongs to another function than the one that a mutant changes.

    The goals of a cycle are named by its folder. A constant, a macro or an import has a space in its name, and may be refused in
    any function."""
    path, name = goal.split(" ")[0], function.split("::")[-1]
    return " " not in name and path.split("::")[-1] != name and "+" not in path and not path.endswith(".antt")


def stale():
    """The mutants without a row or with an old checksum, and the rows without a mutant or with another function's goal."""
    rows, mutants = table(), mutants_of(CRATES.glob("*/must-fail/*.edit"))
    for key, (function, checksum) in mutants.items():
        if key not in rows:
            yield f"no row: {key[1]}/{key[0]}, {function}"
        elif rows[key][5] != checksum:
            yield f"changed: {key[1]}/{key[0]}, {function}"
    yield from (f"no mutant: {key[1]}/{key[0]}, {rows[key][2]}" for key in rows if key not in mutants)
    others = [row for row in rows.values() if is_of_another(row[2], row[3])]
    yield from (f"another's goal: {row[1]}/{row[0]}, {row[2]}: {row[3]}" for row in others)


def main(words):
    if words == ["--stale"]:
        found = list(stale())
        print("\n".join(found) if found else f"{len(table())} mutants have the row of their refusal")
        return 1 if found else 0
    names = [word for word in words if word not in ("--changed", "--together")]
    edits = edits_of(names)
    if not edits:
        print("no such edit" if names else __doc__, file=sys.stderr)
        return 2
    mutants = mutants_of(edits)
    if "--changed" in words:
        rows = table()
        mutants = {key: mutant for key, mutant in mutants.items() if key not in rows or rows[key][5] != mutant[1]}
    if not mutants:
        print("none has changed")
        return 0
    if "--together" in words:
        mutants = try_together(edits, mutants)
    return 0 if not mutants or try_all(edits, mutants) else 1


if __name__ == "__main__":
    signal.signal(signal.SIGTERM, lambda number, _: sys.exit(128 + number))
    sys.exit(main(sys.argv[1:]))
