#!/usr/bin/env python3
"""Prints a person's edits of a file from its history in git, for the workload `trace`.

usage: make_trace.py REPOSITORY FILE > EDITS

A line is an edit: the character index, the number of removed characters, and in quotes the inserted
character, if any. The edits are the differences of consecutive versions, from front to back: a
removed text is one edit, an inserted text one edit for each character.
"""
import difflib
import json
import subprocess
import sys

LONG = 4_000_000


def git(repository, *words):
    return subprocess.run(["git", "-C", repository, *words], capture_output=True, check=True).stdout


def versions(repository, path):
    """The file's texts, oldest first."""
    commits = git(repository, "log", "--format=%H", "--reverse", "--first-parent", "--", path)
    for commit in commits.decode().split():
        try:
            yield git(repository, "show", f"{commit}:{path}").decode("utf-8")
        except subprocess.CalledProcessError:
            pass  # The commit removed the file.


def changes(old, new):
    """The ranges in which two lists differ: start and end in each."""
    matcher = difflib.SequenceMatcher(None, old, new, autojunk=False)
    for kind, start, end, from_new, to_new in matcher.get_opcodes():
        if kind != "equal":
            yield start, end, from_new, to_new


def replacements(old, new):
    """The ranges of characters of the old text that differ, and their new texts."""
    old_lines, new_lines = old.splitlines(True), new.splitlines(True)
    starts = [0]
    for line in old_lines:
        starts.append(starts[-1] + len(line))
    for start, end, from_new, to_new in changes(old_lines, new_lines):
        before, after = "".join(old_lines[start:end]), "".join(new_lines[from_new:to_new])
        if len(before) * len(after) > LONG:
            yield starts[start], starts[end], after
            continue
        for first, last, from_after, to_after in changes(before, after):
            yield starts[start] + first, starts[start] + last, after[from_after:to_after]


def edits(old, new):
    shift = 0
    for start, end, text in replacements(old, new):
        if end > start:
            yield start + shift, end - start, ""
        for k, character in enumerate(text):
            yield start + shift + k, 0, character
        shift += len(text) - (end - start)


def main():
    repository, path = sys.argv[1:]
    text = ""
    for version in versions(repository, path):
        for index, removed, typed in edits(text, version):
            print(index, removed, json.dumps(typed, ensure_ascii=False))
        text = version


if __name__ == "__main__":
    main()
