#!/usr/bin/env python3
"""Prints an index of the specs: each definition with its place and the comment in front of it, crate by crate.

    python3 tools/definitions.py > /tmp/definitions.txt    at the repository's top
    python3 tools/definitions.py --check                   prints no index, and only looks for definitions without a comment

A definition with no comment right in front of it is an error: it is named on standard error, and the status is 1.
"""
import itertools
import pathlib
import re
import sys

HEAD = """\
Each definition of the specs: its place, its name, and what the comment in front of it says. The text of a definition
decides what it means, and not this line.

"""
# `abbrev pub NAME :`, `pub record NAME ..`, `NAME :`
DEFINITION = re.compile(r"(?:(?:abbrev|unfoldable|pub|record|data) )*([^\s:()]+)(?= )(?=.*( : | where|=))")
KEYWORDS = ("abbrev ", "unfoldable ", "pub ", "record ", "data ")


def starts_definition(line):
    """The name that a line at the margin defines, if it defines one."""
    if line.startswith(("use ", "pub mod ", "--", " ", "}", "\n")):
        return None
    found = DEFINITION.match(line)
    if not found:
        return None
    signature = re.match(r"[^\s:()]+ : ", line)
    return found[1] if line.startswith(KEYWORDS) or signature else None


def comment_at(lines, first):
    """The lines of a comment from a line on."""
    return [line[2:].strip() for line in itertools.takewhile(lambda line: line.startswith("--"), lines[first:])]


def definitions(path):
    """Each definition of a file: the number of its line, its name, and its comment, which is empty where it has none."""
    comment, found = [], []
    for number, line in enumerate(path.read_text().splitlines(keepends=True), 1):
        if line.startswith("--"):
            comment.append(line[2:].strip())
            continue
        name = starts_definition(line)
        if name:
            found.append((number, name, " ".join(comment)))
        if not line.startswith("infix"):
            comment = []
    return found


def spec_files():
    """The files of specs, the crates in the order of crates.txt."""
    with open("crates.txt") as file:
        crates = [re.split(r"[ :]", line, maxsplit=1)[0] for line in file]
    return [path for crate in crates for path in sorted(pathlib.Path("crates", crate, "specs").rglob("*.antt"))
            if path.name != "Lib.antt"]


def main(check):
    lines, bare = [], []
    for path in spec_files():
        lines.append(f"\n{path}: {' '.join(comment_at(path.read_text().splitlines(), 0))}\n")
        for number, name, comment in definitions(path):
            lines.append(f"{path}:{number}: {name}: {comment}\n")
            if not comment:
                bare.append(f"{path}:{number}: {name} has no comment in front of it")
    for line in bare:
        print(line, file=sys.stderr)
    if not check:
        print(HEAD + "".join(lines), end="")
    return 1 if bare else 0


if __name__ == "__main__":
    if sys.argv[1:] not in ([], ["--check"]):
        sys.exit("usage: definitions.py [--check]")
    sys.exit(main(sys.argv[1:] == ["--check"]))
