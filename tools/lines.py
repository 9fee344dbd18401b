#!/usr/bin/env python3
"""Which lines of the documents are too long: more than WIDTH characters.

A row of a table is aside, and so is a block that shows something as it stands elsewhere, fenced or indented by four: a call and what it prints, code, a quotation; and what a tool
makes, between its two comments. For what is written anew: many pages have longer lines, and the gate runs the tests of this tool alone.

  lines.py            a line for each that is too long; it exits with 1 where there is one
  lines.py PAGE ..    in these pages alone, by their paths from the root
"""

import pathlib
import re
import sys

WIDTH = 120
PAGES = ["README.md", "CHANGELOG.md", "host/README.md", "docs/*.md", "docs/requests/*.md"]

MARKER = re.compile(r" *(?:[-*+]|\d+[.)]) +")


def pages(root):
    """The documents that are held, by their paths from the root."""
    return sorted(str(path.relative_to(root)) for pattern in PAGES for path in root.glob(pattern))


def long_lines(text):
    """The numbers and lengths of the lines that are too long."""
    fenced = shown = made = False
    blank, inside = True, [0]  # the columns of the text of the list items that a line stands in
    for number, line in enumerate(text.splitlines(), 1):
        bare, indent = line.strip(), len(line) - len(line.lstrip())
        if bare.startswith("<!-- "):
            made = bare.startswith("<!-- made by ")
        if bare.startswith("```"):
            fenced, shown = not fenced, False
        elif not fenced and bare:
            while blank and indent < inside[-1]:
                inside.pop()
            shown = indent >= inside[-1] + 4 and (blank or shown)
            marker = MARKER.match(line)
            if marker and not shown:
                inside = [column for column in inside if column <= indent] + [marker.end()]
        if len(line) > WIDTH and not (fenced or shown or made or bare.startswith("|")):
            yield number, len(line)
        blank = not bare


def faults(root, names):
    """(page, line, what is wrong), in order."""
    for page in names:
        for number, length in long_lines((root / page).read_text()):
            yield page, number, f"{length} characters, more than {WIDTH}"


def main(words):
    root = pathlib.Path(__file__).resolve().parent.parent
    strange = [word for word in words if word not in pages(root)]
    if strange:
        sys.exit(f"lines: no page of this tree: {' '.join(strange)}")
    found = list(faults(root, words or pages(root)))
    for page, number, what in found:
        print(f"{page}:{number}: {what}")
    return 1 if found else 0


if __name__ == "__main__":
    sys.exit(main(sys.argv[1:]))
