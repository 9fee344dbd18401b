#!/usr/bin/env python3
"""Counts the places of docs/DESIGN-PASS.md that a pattern finds, in the code of crates/*/src.

  places.py              of the working tree
  places.py COMMIT       of a commit
  places.py --names ..   with the functions of each count

Points of the page: 1 enums, flags in a struct, numbers for kinds; 3 loops that are no `for`; 5 functions that take the text and the table of relation words, or
the table and how many they are, above and below the loading, and those that take a word as two slices; 6 functions that take bytes and, next to them, a length or
a place; 8 proofs by position. What is a place and what only looks like one is read on the page."""

import argparse
import pathlib
import re
import subprocess
import sys

# crates in which the relation words are laid, checked and listed
BELOW = {"layout", "laying", "reader", "longest", "loose", "products", "cuts", "pieces", "insertion", "listing", "families", "presentation", "joined", "sheet"}

FUNCTION = re.compile(r"\bfn (\w+)(?:<[^>(]*>)?\(([^()]*(?:\([^()]*\)[^()]*)*)\)")
LINES = {
    "1 enums": re.compile(r"^\s*(?:pub )?enum (\w+)", re.M),
    "1 flags in a struct": re.compile(r"^\s+(?:pub )?(\w+): bool,$", re.M),
    "1 numbers for kinds": re.compile(r"const (KIND|ADDITION|WITHDRAWAL|NONE|SAME|DIFFERENT|NEXT): |(row): u8", re.M),
    "3 loops that are no `for`": re.compile(r"^\s*(while|loop)\b", re.M),
}
TEXT, TABLE, NUMBER = re.compile(r"\btext: &(?:mut )?\[u(?:8|16)\]"), re.compile(r"\btable: &(?:mut )?\[u16\]"), re.compile(r"\bn: usize")
TWO_SLICES = re.compile(r"\b(?:a: &\[u16\],\s*b|ua: &\[u16\],\s*ub): &\[u16\]")
WITH_LENGTH = re.compile(r"\b\w+: &(?:mut )?\[u8\],\s*\w+: usize")


def git(*arguments):
    return subprocess.run(["git", *arguments], check=True, capture_output=True, text=True).stdout


def files(commit):
    """The files of crates, by name, with what stands in those of code."""
    if commit is None:
        for path in sorted(pathlib.Path("crates").glob("*/*/**/*")):
            if path.is_file() and "out" not in path.parts:
                yield str(path), path.read_text() if path.suffix == ".rt" else ""
        return
    for name in git("ls-tree", "-r", "--name-only", commit, "crates").splitlines():
        yield name, git("show", f"{commit}:{name}") if name.endswith(".rt") else ""


def of_function(crate, parameters):
    """The counts that a function belongs to."""
    table = TABLE.search(parameters)
    if table and (TEXT.search(parameters) or NUMBER.search(parameters)):
        yield "5 text, table, number, below the loading" if crate in BELOW else "5 text, table, number, above the loading"
    if TWO_SLICES.search(parameters):
        yield "5 a word as two slices"
    if WITH_LENGTH.search(parameters):
        yield "6 bytes and a length or a place"


def places(commit):
    """The names that each count has."""
    found = {}
    for name, text in files(commit):
        crate = name.split("/")[1]
        if name.endswith("/Proof.antt"):
            found.setdefault("8 proofs by position", []).append("/".join(name.split("/")[1:-1]))
        if not (name.endswith(".rt") and name.split("/")[2] == "src"):
            continue
        code = re.sub(r"//.*", "", text)
        for count, pattern in LINES.items():
            found.setdefault(count, []).extend(f"{crate}::{''.join(filter(None, match.groups()))}" for match in pattern.finditer(code))
        for function, parameters in FUNCTION.findall(code):
            for count in of_function(crate, parameters):
                found.setdefault(count, []).append(f"{crate}::{function}")
    return found


def main(arguments):
    parser = argparse.ArgumentParser(description="Counts the places of docs/DESIGN-PASS.md.")
    parser.add_argument("commit", nargs="?")
    parser.add_argument("--names", action="store_true", help="tell the functions, too")
    options = parser.parse_args(arguments)
    for count, names in sorted(places(options.commit).items()):
        print(f"{len(names):4} {count}")
        if options.names:
            print(f"     {' '.join(names)}")
    return 0


if __name__ == "__main__":
    sys.exit(main(sys.argv[1:]))
