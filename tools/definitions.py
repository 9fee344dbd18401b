#!/usr/bin/env python3
"""Which definitions the public promises stand on: all that an auditor must read, found by following imports.

It begins at the contracts of the public functions (ENTRIES, and the theorems of THEOREMS) and takes in every file of `specs` that a name in them is imported from, then every file
that such a file imports, to the end. The enums and structs of the code that these files name are told beside them.

  definitions.py            the table that docs/AUDIT.md has under "The definitions to read"
  definitions.py --write    puts it there
  definitions.py --why      the same files, each with the file that first led to it

tools/check_audit.py holds the page to this table and refuses a crate of code among the definitions, whether a file or a type of it is named: one with a function that does something.
A theorem is the contract of a function that does nothing; crates of TYPES have constants, and constructors that check ranges, and nothing else.
"""

import argparse
import collections
import pathlib
import re
import sys

PAGE = "docs/AUDIT.md"
BEGIN, END = "<!-- made by tools/definitions.py -->", "<!-- end of what is made -->"

ENTRIES = ["entries", "removing", "heldbook", "vanecitron"]
THEOREMS = ["theorems", "output", "worked"]
TYPES = {"limits", "refusals", "output"}

IMPORT = re.compile(r"^(?:pub )?(?:ghost )?use Rattle\.(\w+)\.specs\.((?:declared\.)?\w+)((?:\.\w+)*)(?:\.\{([^}]*)\}| as (\w+))?;?$", re.M)
PUBLIC = re.compile(r"^pub (?:extern \"C\" )?fn .*?^\{", re.M | re.S)

# a function whose body, behind its contract, is not empty
DOES = re.compile(r"^\{\n", re.M)

# a file of definitions, or a type of the code that they name
File = collections.namedtuple("File", "crate name kind", defaults=["file"])
Type = collections.namedtuple("Type", "crate name kind", defaults=["type"])


def imports(text, crates):
    """What a file imports from the specs of these crates: the file or the type, with the names that it is known by there."""
    for crate, module, inside, names, alias in IMPORT.findall(text):
        if crate not in crates:
            # of the kit's library
            continue
        known = {part.split(" as ")[-1].strip() for part in names.split(",")} if names else {alias or f"{module}{inside}".split(".")[-1]}
        yield (Type(crate, module.removeprefix("declared.")) if module.startswith("declared.") else File(crate, module)), known


def path_of(root, file):
    return root / "crates" / file.crate / "specs" / f"{file.name}.antt"


def contracts(text):
    return "\n".join(match.group(0) for match in PUBLIC.finditer(text) if "ensures" in match.group(0) or "requires" in match.group(0))


def reached(root, crates):
    """Every file and type that the promises of these crates stand on: what led there first."""
    found, todo, own = {}, [], order(root)
    for crate in crates:
        for path in sorted((root / "crates" / crate / "src").glob("*.rt")):
            text = path.read_text()
            words = set(re.findall(r"[\w']+", contracts(text)))
            todo += [(target, crate) for target, known in imports(text, own) if known & words]
    while todo:
        target, by = todo.pop(0)
        if target in found:
            continue
        found[target] = by
        if isinstance(target, File):
            todo += [(next_, f"{target.crate}/{target.name}") for next_, _ in imports(path_of(root, target).read_text(), own)]
    return found


def order(root):
    """The crates of crates.txt in order."""
    return [line.split(":")[0].split()[0] for line in (root / "crates.txt").read_text().splitlines() if line.strip() and not line.startswith("#")]


def is_code(root, crate):
    """Whether a crate has a function that does something."""
    return crate not in TYPES and any(DOES.search(path.read_text()) for path in (root / "crates" / crate / "src").glob("*.rt"))


def opening(path):
    """The first sentence of the comment that a file opens with."""
    comment = re.match(r"(?:--.*\n)*", path.read_text())[0]
    text = " ".join(line[2:].strip() for line in comment.splitlines())
    return re.split(r"(?<=[^.]\.)\s", text, maxsplit=1)[0].replace("`", "").replace("|", "\\|")


def listed(root, file):
    """A file's place in the order of its crate's Lib.antt."""
    modules = re.findall(r"^pub mod (\w+)", (root / "crates" / file.crate / "specs" / "Lib.antt").read_text(), re.M)
    return modules.index(file.name)


def table(root):
    """The table, and what it sums to: crates, files, lines; and the crates of code in it."""
    crates = order(root)
    entries = reached(root, ENTRIES)
    everything = reached(root, ENTRIES + THEOREMS)
    files = sorted((item for item in everything if isinstance(item, File)), key=lambda file: (crates.index(file.crate), listed(root, file)))
    rows, sums = [], {}
    for part, wanted in (("promises", lambda file: file in entries), ("theorems", lambda file: file not in entries)):
        chosen = [file for file in files if wanted(file)]
        lines = sum(len(path_of(root, file).read_text().splitlines()) for file in chosen)
        sums[part] = (len({file.crate for file in chosen}), len(chosen), lines)
        heading = "what the promises of the entries stand on" if part == "promises" else "what the theorems besides speak of, and the tables worked out by hand"
        rows += ["", f"{heading[0].upper()}{heading[1:]}: {sums[part][1]} files of {lines:,} lines, in {sums[part][0]} folders of `crates`.", "", "| file | what it holds |", "|---|---|"]
        rows += [f"| `crates/{file.crate}/specs/{file.name}.antt` | {opening(path_of(root, file))} |" for file in chosen]
    types = collections.defaultdict(list)
    for item in sorted(everything):
        if isinstance(item, Type):
            types[item.crate].append(item.name)
    rows += ["", "The enums and structs that they speak of stand in the code:", ""]
    rows += [f"- {', '.join(f'`{name}`' for name in types[crate])} (`crates/{crate}/src/lib.rt`)" for crate in crates if crate in types]
    return "\n".join(rows).strip("\n"), sums, sorted(crate for crate in {item.crate for item in everything} if is_code(root, crate))


def part_of(page):
    """Where the made part of the page begins and ends."""
    begin, end = page.index(BEGIN) + len(BEGIN), page.index(END)
    return begin, end


def main(argv=None):
    parser = argparse.ArgumentParser(description=__doc__.splitlines()[0])
    parser.add_argument("--write", action="store_true", help="put the table into the page")
    parser.add_argument("--why", action="store_true", help="tell what led to each file")
    options = parser.parse_args(argv)
    root = pathlib.Path(__file__).resolve().parent.parent
    if options.why:
        for item, by in sorted(reached(root, ENTRIES + THEOREMS).items()):
            print(f"{item.crate}/{item.name} <- {by}")
        return 0
    made, sums, code = table(root)
    if options.write:
        page = root / PAGE
        text = page.read_text()
        begin, end = part_of(text)
        page.write_text(f"{text[:begin]}\n{made}\n\n{text[end:]}")
    else:
        print(made)
    print(sums, file=sys.stderr)
    if code:
        print(f"crates of code among the definitions: {', '.join(code)}", file=sys.stderr)
    return 1 if code else 0


if __name__ == "__main__":
    sys.exit(main())
