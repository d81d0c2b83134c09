#!/usr/bin/env python3
"""Times two programs in turns, one workload at a time, and prints ratios.

Each program is some build of `rope_bench`, or `ropey_bench` of the folder `ropey`. In turns both meet
the same load of the machine, on one core; the program that goes first alternates. The table has the
least and the median time of the turns. A ratio below 1 means that the first program is faster.
"""
import argparse
import os
import statistics
import subprocess
import sys

LENGTHS = ("1MB", "10MB", "100MB", "1GB")
OF_LENGTHS = ("from_str", "byte", "char_to_line", "insert_char_random")
# Keeps freed memory in the process. Otherwise the last blocks that a run frees decide whether the C library returns pages, and
# the next run pays for clearing new ones.
MEMORY_IS_KEPT = {"MALLOC_TRIM_THRESHOLD_": str(1 << 34), "MALLOC_MMAP_THRESHOLD_": str(1 << 34), "MALLOC_TOP_PAD_": str(1 << 26)}
COLUMNS = ("workload", "operations", "first least", "first middle", "second least", "second middle",
           "least", "middle", "checksums")


def arguments():
    parser = argparse.ArgumentParser(description=__doc__.splitlines()[0])
    parser.add_argument("first", help="a program")
    parser.add_argument("second", help="the program that it is compared with")
    parser.add_argument("words", nargs="*",
                        help="parts of the names of workloads, or whole names after a =; none: all")
    parser.add_argument("--turns", type=int, default=3)
    parser.add_argument("--mode", choices=("time", "grow"), default="time")
    parser.add_argument("--trace", default=os.devnull, help="a file of a person's edits")
    parser.add_argument("--tsv", help="a file for the same table, separated by tabs")
    return parser.parse_intermixed_args()


def rows(program, trace, *words):
    """The lines of the program's output, each split into words."""
    with open(trace, "rb") as edits:
        done = subprocess.run([program, *words], stdin=edits, capture_output=True, check=True,
                              env={**os.environ, **MEMORY_IS_KEPT})
    return [line.split() for line in done.stdout.decode().splitlines()]


def names(task):
    """The selected workloads, without the texts themselves."""
    if task.mode == "grow":
        known = [f"{name}/{length}" for length in LENGTHS for name in OF_LENGTHS]
    else:
        known = [row[0] for row in rows(task.first, task.trace)]
    return [name for name in known if not name.startswith("text/")
            and (not task.words or any(selects(word, name) for word in task.words))]


def selects(word, name):
    """Whether a word selects a workload: by a part of its name, or after a `=` by the whole name."""
    return name == word[1:] if word.startswith("=") else word in name


def measure(task, name):
    """The times of both programs in nanoseconds per operation, and their operations and checksums."""
    times, done = ([], []), [None, None]
    programs = (task.first, task.second)
    for turn in range(task.turns):
        for side in (0, 1) if turn % 2 == 0 else (1, 0):
            for row in rows(programs[side], task.trace, task.mode, "=" + name):
                times[side].append(float(row[2]))
                done[side] = (row[1], row[3])
    return times, done


def compare(task, name):
    """A row of the table, or None if a program doesn't have the workload."""
    (first, second), done = measure(task, name)
    if None in done:
        return None
    least = min(first), min(second)
    middle = statistics.median(first), statistics.median(second)
    nanos = [f"{time:.3f}" for time in (least[0], middle[0], least[1], middle[1])]
    ratios = [f"{one / two:.2f}" if two else "-" for one, two in (least, middle)]
    return [name, done[0][0], *nanos, *ratios, "same" if done[0] == done[1] else "DIFFER"]


def stay_on_one_core():
    """Keeps both programs on one core, if the system can: the cores of a virtual machine differ in
    speed, depending on its neighbours."""
    if hasattr(os, "sched_setaffinity"):
        os.sched_setaffinity(0, {max(os.sched_getaffinity(0))})


def shown(row):
    return f"{row[0]:34}" + "".join(f"{part:>15}" for part in row[1:])


def main():
    task = arguments()
    stay_on_one_core()
    table = [list(COLUMNS)]
    print(shown(COLUMNS))
    for name in names(task):
        row = compare(task, name)
        if row is None:
            print(f"{name:34} only in one program")
            continue
        table.append(row)
        print(shown(row), flush=True)
    slower = sum("-" in row[6:8] or max(map(float, row[6:8])) >= 1 for row in table[1:])
    differing = sum(row[8] != "same" for row in table[1:])
    print(f"{len(table) - 1} workloads, {slower} not faster by both, {differing} checksums differ")
    if task.tsv:
        with open(task.tsv, "w", encoding="utf-8") as file:
            file.writelines("\t".join(row) + "\n" for row in table)
    return 1 if differing else 0


if __name__ == "__main__":
    sys.exit(main())
