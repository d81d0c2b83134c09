#!/usr/bin/env python3
"""Lists what the prover took longest for, in the last check of a crate.

    scripts/proof_times.py CRATE [COUNT]   # the COUNT functions with the longest proofs, by default 30
    scripts/proof_times.py FOLDER [COUNT]  # the same of a folder that was given to `rattle check --incremental`

`rt check` keeps the modules of a proof in files of crates/CRATE/out/incremental. A check on one processor writes them one by one,
so the seconds between the times of two files are about those of the second module. A line has the seconds of a function, and of
these the seconds of its parts: `Proof` searches for the goals without a written answer, `Answers` checks the written ones, `Lts`
and the others follow borrows and drops, which grow with statements, locals and exits. A check that found older files proves
only what has changed since: remove the folder first to see all. Copies of the folder have to keep the times (`cp -a`).
"""
import collections
import pathlib
import re
import sys

CRATES = pathlib.Path(__file__).resolve().parent.parent / "crates"
# A module of a function; some parts have modules of their own (`Code.Mir`, `Lts-Node-insert`).
PARTS = "Proof|Answers|Invariants|Goals|Lts|Tie|Reads|Kinds|Key|Layout|Code|Met|Named|Given|Statement|Symbol|Carried|TheLink"
NAME = re.compile(rf"Rattle-\w+-(?:proofs|specs\.contracts)\.(?P<function>.+?)\.(?P<part>{PARTS})(?:[-.].*)?\.oantt")


def modules(folder):
    """The names of the files of modules, with the seconds since the file before."""
    files = sorted((path.stat().st_mtime, path.name) for path in folder.rglob("*.oantt") if path.parent.name != "records")
    return [(name, time - before) for (before, _), (time, name) in zip(files, files[1:])]


def functions(folder):
    """The seconds of each function, by part."""
    found = collections.defaultdict(collections.Counter)
    for name, seconds in modules(folder):
        match = NAME.fullmatch(name)
        if match:
            found[match["function"].replace(".", "::")][match["part"]] += seconds
    return found


def main(where, count="30"):
    kept = CRATES / where / "out" / "incremental"
    folder = kept if kept.is_dir() else pathlib.Path(where)
    found = functions(folder)
    if not found:
        sys.exit(f"no modules of a check in {folder}: run `rt check` in the crate's folder")
    for function, parts in sorted(found.items(), key=lambda row: -row[1].total())[: int(count)]:
        longest = ", ".join(f"{part} {seconds:.1f}" for part, seconds in parts.most_common(3))
        print(f"{parts.total():7.1f} s  {function}: {longest}")


if __name__ == "__main__":
    if len(sys.argv) not in (2, 3):
        sys.exit(__doc__)
    main(*sys.argv[1:])
