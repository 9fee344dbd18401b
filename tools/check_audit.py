#!/usr/bin/env python3
"""Holds docs/AUDIT.md to the tree that it speaks of. Run by .ci/run behind `rt ci`, whose log it reads; it exits with 1 and a line for each fault.

Names. A name stands in back quotes, and the place in brackets behind it, or behind the last of several, says where it is declared:
  `name` (crate/File)      crates/crate/specs/File.antt; also a field of a record there
  `name` (crate/src)       the code of the crate: a type, a constant or a function
  `fn` (crate)             the same; `Type::fn` is a function of `impl Type` or of `impl Trait for Type`
  `name` (`crates/..`)     the file itself, also one of proofs
  edit: `label` (crate)    crates/crate/must-fail/label.edit; "edit:" holds up to the next semicolon
  vectors: `r1`            host/vectors/program/r1-*.in
  difftest: `name`         a test of host/difftest/tests, or a file there
Two crates, "(overlap and pieces)", both have it. In the tables under "From the specification to the tree" every name has a place; in the running text one may stand without where
another sentence gives it a place, or a block quotes it. In a row that begins with files of definitions, the names behind them are declared in one of these files. A file that the
second column of a table places a definition in is listed under "The definitions to read".

Besides: `a/b` is a path, from the root or from crates/. *text* is a group of crates/cases/stdin. The lines of an indented block behind a line that ends in "`a/b`:" stand in that file
letter for letter, up to their common indentation; blank lines part what need not be together. The tables under "What is counted" and "What is assumed" are counted anew, and so are
numbers that README.md and docs/DECISIONS.md state of the same things; DECISIONS lists the crates of crates.txt in that order. The headings under "From the specification to the tree"
are headings of docs/SPECIFICATION.md. The version is that of `rt version`. No entry has a `requires`, and no file names an axiom.
"""

import argparse
import collections
import io
import pathlib
import re
import subprocess
import sys
import tarfile
import tempfile

sys.path.insert(0, str(pathlib.Path(__file__).resolve().parent))
import definitions  # noqa: E402

PAGE = "docs/AUDIT.md"
TABLES = "From the specification to the tree"
LIST = "The definitions to read"

# what the page calls by name and the tree does not declare: commands and words of the language
WORDS = {"rt", "requires", "ensures", "main", "memcpy", "memset", "vectors", "worked", "edit", "difftest", "touched"}

NAME = r"(?:[A-Z]\w*::)?[A-Za-z][\w']*"
PATH = r"\.?[\w*.-]+(?:/[\w*.-]+)+/?"
PLACE = r"[a-z]\w*(?:/\w+)?"
PLACES = re.compile(rf"{PLACE}(?: and {PLACE})*")
QUOTED = re.compile(r"`([^`\n]+)`")
TOKEN = re.compile(r"`(?P<quoted>[^`\n]+)`|(?P<bracket>\([^()]*\))|(?P<label>edit|vectors|difftest|worked):|(?P<end>[;|])")
LISTED = re.compile(rf"`{NAME}`(?:(?:,| and|, and) `{NAME}`)* \(`(crates/[^`]+)`\)")

# a definition, a record, its fields; or a constructor of a data
DECLARED_ANTT = re.compile(r"^\s*(?:(?:abbrev |unfoldable )?pub (?!mod |use )(?:record |data )?(?=[A-Za-z])|(?=[A-Za-z][\w']* : ))([\w']+)", re.M)
DECLARED_RT = re.compile(r"\b(?:fn|struct|enum|const|type) (\w+)")


class Group(collections.namedtuple("Group", "kind column names places span")):
    """Names with the place behind them: what kind of name (edit or none), the column of the table (0: running text), the names with their spans in the page, the places as they
    are written (None: none is given), and the span of what stands inside the bracket."""


# --- what the tree has ---


class Tree:
    """Where names are declared. Places are written as the page writes them."""

    def __init__(self, root, before=None):
        self.root = root
        self.before = before  # the tree of an earlier commit, or None
        self.files = {}  # crate/File or crate/src to names
        self.sources = {}  # the file of a name of crate/src
        for path in sorted(root.glob("crates/*/specs/*.antt")):
            self.files[f"{path.parts[-3]}/{path.stem}"] = set(DECLARED_ANTT.findall(path.read_text()))
        for path in sorted(root.glob("crates/*/src/**/*.rt")):
            place = f"{path.relative_to(root).parts[1]}/src"
            for name in names_of_code(path.read_text()):
                self.files.setdefault(place, set()).add(name)
                self.sources[place, name] = str(path.relative_to(root))
        self.proofs = {str(path.relative_to(root)): set(DECLARED_ANTT.findall(path.read_text())) for path in root.glob("crates/*/proofs/*.antt")}
        self.edits = collections.defaultdict(set)
        for path in root.glob("crates/*/must-fail/*.edit"):
            self.edits[path.parts[-3]].add(path.stem)
        heads = [line.split(":")[0].split() for line in self.read("crates.txt").splitlines() if line.strip() and not line.startswith("#")]
        self.crates = [head[0] for head in heads]
        # the programs, and the libraries for other languages: what they rest on is listed
        self.linked = [head[0] for head in heads if "staticlib" in head or (root / "crates" / head[0] / "src/main.rt").is_file()]
        self.groups = re.findall(r"^# (.*)$", self.read("crates/cases/stdin"), re.M)
        self.inputs = {path.stem.split("-")[0] for path in root.glob("host/vectors/program/*.in")}
        tests = list(root.glob("host/difftest/tests/*.rs"))
        self.tests = {path.stem for path in tests} | {name for path in tests for name in re.findall(r"#\[test\]\nfn (\w+)", path.read_text())}

    def read(self, path):
        file = self.root / path
        return file.read_text() if file.is_file() else ""

    def path(self, kind, place):
        """The file or folder that a place stands for."""
        if place.startswith("crates/"):
            return place
        crate, _, file = place.partition("/")
        if kind == "edit":
            return f"crates/{crate}/must-fail"
        return f"crates/{crate}/specs/{file}.antt" if file not in ("", "src") else f"crates/{crate}/src"

    def file(self, kind, name, place):
        """The file in which a name was found at a place."""
        if kind == "edit":
            return f"crates/{place}/must-fail/{name}.edit"
        return self.sources.get((place, name)) or self.path(kind, place)

    def has(self, kind, name, place):
        if kind == "edit":
            return name in self.edits[place]
        if place in self.proofs:
            return name in self.proofs[place]
        if place.startswith("crates/"):
            place = re.sub(r"^crates/(\w+)/(?:specs/(\w+)\.antt|src/.*)$", lambda m: f"{m[1]}/{m[2] or 'src'}", place)
        return name in self.files.get(place if "/" in place else f"{place}/src", ())

    def found(self, kind, name):
        """All places of a name."""
        if kind == "edit":
            return sorted(crate for crate in self.edits if name in self.edits[crate])
        return sorted(place for place, names in self.files.items() if name in names)

    def came(self, kind, name):
        """The places of a name that it did not have before."""
        return [place for place in self.found(kind, name) if not self.before or not self.before.has(kind, name, place)]

    def calls(self):
        return [line.split()[0] for line in self.read("crates/cases/stdin").splitlines() if line and not line.startswith("#")]


def names_of_code(text):
    """The names that code declares; a function of an impl also as Type::fn."""
    names, owner = set(), None
    for line in text.splitlines():
        line = line.split("//")[0]
        begins = re.match(r"impl(?:<[^>]*>)? (?:.* for )?(\w+)", line)
        owner = begins[1] if begins else None if line.startswith("}") else owner
        for name in DECLARED_RT.findall(line):
            names.update([name, f"{owner}::{name}"] if owner else [name])
    return names


# --- what the page says ---


class Page:
    def __init__(self, text):
        self.text = text
        self.prose = re.sub(r"^    .*$", lambda m: " " * len(m[0]), text, flags=re.M)  # quoted blocks blanked, places kept
        self.blocks = [m for m in re.finditer(r"`([\w./-]+)`:\n\n((?:    .*\n|\n)+)", text)]

    def line(self, at):
        return self.text.count("\n", 0, at) + 1

    def section(self, title):
        """The span of a section, its heading left out."""
        begins = re.search(rf"^## {re.escape(title)}\n", self.text, re.M)
        if not begins:
            return 0, 0
        ends = re.compile(r"^## ", re.M).search(self.text, begins.end())
        return begins.end(), ends.start() if ends else len(self.text)

    def rows(self, title):
        """The rows of the tables of a section, without the two of each head: a list of the cells, each with its start."""
        at, to = self.section(title)
        lines = []
        for m in re.finditer(r".*\n?", self.prose[at:to]):
            if m[0].startswith("|"):
                lines.append((at + m.start(), m[0].rstrip("\n")))
            else:
                yield from map(cells, lines[2:])
                lines = []
        yield from map(cells, lines[2:])


def cells(row):
    at, text = row
    parts, start = [], at + 1
    for part in text[1:].rstrip("|").split("|"):
        parts.append((start, part))
        start += len(part) + 1
    return parts


def groups_in(start, text, column):
    """The groups of names of a cell, and its labelled names without places (vectors and tests)."""
    kind, names, loose = None, [], []

    def finish(places, span):
        nonlocal names
        if names:
            yield Group(kind, column, names, places, span)
        names = []

    for token in TOKEN.finditer(text):
        if token["label"]:
            yield from finish(None, None)
            kind = token["label"] if token["label"] != "worked" else None
        elif token["end"]:
            yield from finish(None, None)
            kind = None
        elif token["bracket"]:
            inner, path = token["bracket"][1:-1], re.fullmatch(r"\(`(crates/[^`]+)`\)", token["bracket"])
            if path:
                yield from finish([path[1]], (start + token.start() + 2, start + token.end() - 2))
            elif PLACES.fullmatch(inner):
                yield from finish(inner.split(" and "), (start + token.start() + 1, start + token.end() - 1))
        elif re.fullmatch(NAME, token["quoted"]):
            span = (start + token.start(), start + token.end())
            if kind in ("vectors", "difftest"):
                yield Group(kind, column, [(token["quoted"], span)], None, None)
            elif not text[: token.start()].endswith("crate ") and token["quoted"] not in WORDS:
                names.append((token["quoted"], span))
    yield from finish(None, None)


def groups_of(page):
    """All names of the page that have a place, or should have one."""
    for row in page.rows(TABLES):
        for column, (start, text) in enumerate(row[1:], 2):
            yield from groups_in(start, text, column)
    at, to = page.section(TABLES)
    for m in LISTED.finditer(page.prose):
        if not at <= m.start() < to:
            names = [(n[1], (m.start() + n.start(), m.start() + n.end())) for n in re.finditer(rf"`({NAME})`", m[0][: m.start(1) - m.start()])]
            yield Group(None, 0, names, [m[1]], m.span(1))


# --- the checks; each yields (place in the page or None, what is wrong, [(from, to, text)] that would mend it) ---


def found_in(tree, kind, name):
    """Where a name is, for a message."""
    files = [tree.file(kind, name, place) for place in tree.found(kind, name)]
    return f"found in {' and in '.join(files)}" if files else "found nowhere"


def names_with_places(tree, page):
    for group in groups_of(page):
        if group.kind in ("vectors", "difftest"):
            name, span = group.names[0]
            if name not in (tree.inputs if group.kind == "vectors" else tree.tests):
                yield span[0], f"`{name}`: not in host/{'vectors/program' if group.kind == 'vectors' else 'difftest/tests'}", []
            continue
        right = [mended(tree, group, name) for name, _ in group.names]
        edits = regrouped(group, [places for places, _ in right])
        for (_, span), (_, fault) in zip(group.names, right):
            if fault:
                yield span[0], fault, edits


def mended(tree, group, name):
    """Where the name is, as the page would write it, and what is wrong with what is written. Places stay as they are where it is not clear what would be right."""
    written = group.places or []
    wrong = [place for place in written if not tree.has(group.kind, name, place)]
    if written and not wrong:
        return written, None
    missed = f"not in {' nor in '.join(tree.path(group.kind, place) for place in wrong)}" if written else "no place beside it"
    fault = f"`{name}`: {missed}, {found_in(tree, group.kind, name)}"
    # code stays code and a definition a definition; a table has definitions in its second column, and first of all code in its third
    code = is_code(wrong[0]) if wrong else group.column != 2
    others = [place for place in tree.came(group.kind, name) if tree.path(group.kind, place) not in [tree.path(group.kind, old) for old in written]]
    own = others if group.kind == "edit" else [place for place in others if is_code(place) == code]
    others = own if written else own or others
    if len(others) != 1 or len(wrong) > 1:
        return written, fault
    new = others[0]
    if written and written[0].startswith("crates/"):
        new = tree.file(None, name, new)
    elif new.endswith("/src") and not any(place.endswith("/src") for place in written):
        new = new[: -len("/src")]
    return [new if place in wrong else place for place in written] or [new], fault


def is_code(place):
    return "/src" in place or "/" not in place


def regrouped(group, places):
    """Edits that put behind each of the group's names its place, one bracket for neighbours that share it."""
    def bracket(these):
        return f"(`{these[0]}`)" if these[0].startswith("crates/") else f"({' and '.join(these)})"

    edits = []
    for i, (_, span) in enumerate(group.names):
        last = i + 1 == len(group.names)
        if last and group.span:
            edits.append((*group.span, bracket(places[i])[1:-1].strip("`")))
        elif places[i] and (last or places[i + 1] != places[i]):
            edits.append((span[1], span[1], " " + bracket(places[i])))
    return edits


def names_without_places(tree, page):
    """Of the running text: known by a place elsewhere on the page, by a quoted block, or a crate's name."""
    placed = {name for group in groups_of(page) for name, _ in group.names}
    spans = {span[0] for group in groups_of(page) for _, span in group.names}
    blocks = "".join(m[2] for m in page.blocks)
    listing = {at for row in page.rows(LIST) for start, text in row for at in range(start, start + len(text))}
    assumed = {at for row in page.rows("What is assumed, and what is outside") for start, text in row for at in range(start, start + len(text))}
    for m in QUOTED.finditer(page.prose):
        name = m[1]
        if not re.fullmatch(NAME, name) or m.start() in spans or m.start() in listing or m.start() in assumed or name in WORDS or name in tree.crates or (tree.root / name).exists():
            continue
        if page.text[: m.start()].endswith("crate "):
            yield m.start(), f"`{name}`: no crate of crates.txt", []
        elif name not in placed and not re.search(rf"\b{re.escape(name)}\b", blocks):
            yield m.start(), f"`{name}`: the page gives no place for it, {found_in(tree, None, name)}", []


def listed_definitions(tree, page):
    """The rows of the list: what is named beside files is declared in one of them; and every file of a table's second column is listed."""
    listed = set()
    for row in page.rows(LIST):
        files = [m[1] for m in QUOTED.finditer(row[0][1])]
        listed.update(files)
        for m in QUOTED.finditer(row[1][1]):
            if re.fullmatch(NAME, m[1]) and not any(tree.has(None, m[1], file) for file in files):
                yield row[1][0] + m.start(), f"`{m[1]}`: not in {' nor in '.join(files)}, {found_in(tree, None, m[1])}", []
    seen = set()
    for group in groups_of(page):
        for place in (group.places or []) if group.kind is None and group.column == 2 else []:
            file = tree.path(None, place)
            if file.endswith(".antt") and file not in listed and file not in seen:
                seen.add(file)
                yield group.names[0][1][0], f"{file} is not listed under \"{LIST}\"", []


def made_definitions(tree, page):
    """The list itself is the one that tools/definitions.py makes, and no crate of code is in it. A tree without that tool has a list of its own."""
    if not (tree.root / "tools/definitions.py").exists():
        return
    if definitions.BEGIN not in page.text:
        yield None, f"no line {definitions.BEGIN}", []
        return
    made, _, code = definitions.table(tree.root)
    begin, end = definitions.part_of(page.text)
    if page.text[begin:end].strip("\n") != made:
        yield begin, "the list of definitions is not the one that tools/definitions.py makes", [(begin, end, f"\n{made}\n\n")]
    for crate in code:
        yield begin, f"crate {crate}, which has code, is among the definitions to read", []


def paths(tree, page):
    for m in QUOTED.finditer(page.prose):
        if re.fullmatch(PATH, m[1]) and not any(list((tree.root / base).glob(m[1].rstrip("/").removeprefix("./"))) for base in ("", "crates") if (tree.root / base).is_dir()):
            yield m.start(), f"`{m[1]}`: no such path", []


def groups_of_cases(tree, page):
    for m in re.finditer(r"(?<!\*)\*([^*\n|]+)\*(?!\*)", page.prose):
        if m[1] not in tree.groups and "`" not in m[1]:
            yield m.start(), f"*{m[1]}*: no such group in crates/cases/stdin", []


def headings(tree, page):
    known = set(re.findall(r"^#+ (.*)$", tree.read("docs/SPECIFICATION.md"), re.M))
    at, to = page.section(TABLES)
    if at == to:
        yield None, f"no section \"{TABLES}\"", []
    for m in re.finditer(r"^### (.*)$", page.text[at:to], re.M):
        if m[1] not in known:
            yield at + m.start(), f"\"{m[1]}\": no heading of docs/SPECIFICATION.md", []


def quotes(tree, page):
    """Each part of a quoted block stands in its file, line by line, up to the indentation of its first line."""
    for block in page.blocks:
        lines = tree.read(block[1]).splitlines()
        for part in re.split(r"\n[ ]*\n", block[2].rstrip("\n")):
            want = part.strip("\n").splitlines()
            if want and not any(indented_alike(want, lines[i : i + len(want)]) for i in range(len(lines) - len(want) + 1)):
                yield block.start(2) + block[2].find(want[0]), f"not in {block[1]}: {want[0].strip()[:90]}", []


def indented_alike(want, have):
    shift = {len(h) - len(h.lstrip()) - (len(w) - len(w.lstrip())) for w, h in zip(want, have) if w.strip()}
    return len(shift) == 1 and all(w.strip() == h.strip() for w, h in zip(want, have))


# --- counts ---


def starred(tree):
    table = re.search(r"^starred =\n((?:    .*\n)+)", tree.read("crates/congruence/specs/Starred.antt"), re.M)
    return len(re.findall(r"^ +(?:∷ )?(?:book|needs|compared) ", table[1], re.M)) if table else 0


def table_of(tree, heading):
    """The rows behind a heading of the specification that begin with a number, but for those "not used"."""
    text = tree.read("docs/SPECIFICATION.md")
    behind = text[text.find(f"\n{heading}\n") + 1 :]
    return len(re.findall(r"^\| \d+ \|(?! not used \|)", re.split(r"\n#+ ", behind)[0], re.M))


# the rows under "What is counted": what stands in the first cell, and how it is counted
COUNTS = {
    "crates, in `crates.txt`": lambda tree: len(tree.crates),
    "public entries: functions of `crates/entries/src/lib.rt` that are `pub` and take arguments": lambda tree: len(entries(tree)),
    "public entries that remove a prefix: the same of `crates/removing/src/lib.rt`": lambda tree: len(entries(tree, "removing")),
    "public entries of held books: the same of `crates/heldbook/src/lib.rt`": lambda tree: len(entries(tree, "heldbook")),
    "C functions of `crates/vanecitron/src/lib.rt`": lambda tree: tree.read("crates/vanecitron/src/lib.rt").count('\npub extern "C" fn '),
    "rows of a round, in the specification": lambda tree: table_of(tree, "### The rows"),
    "refusals that occur: the rows of the specification's table but those that are not used": lambda tree: table_of(tree, "## Refusals by number"),
    "cases of the table `starred`": starred,
    "calls in `crates/cases/stdin`": lambda tree: len(tree.calls()),
    "of them, of the reader and not of an entry": lambda tree: tree.calls().count("read"),
    "of them, recorded from an independent reference (`host/vectors/entries.txt`)": lambda tree: len(tree.read("host/vectors/entries.txt").splitlines()),
    "recorded inputs of the program (`host/vectors/program`)": lambda tree: len(list(tree.root.glob("host/vectors/program/*.in"))),
    "must-fail edits": lambda tree: sum(map(len, tree.edits.values())),
}
BY_CRATE = "of them, by crate"

# the same numbers where running text states them
STATED = [
    (r"(\d[\d,]*) calls of the entries", lambda tree: len(tree.calls()) - tree.calls().count("read")),
    (r"(\d[\d,]*) (?:calls )?of the reader", lambda tree: tree.calls().count("read")),
    (r"(\d[\d,]*) calls in one file", lambda tree: len(tree.calls())),
    (r"(\d[\d,]*) recorded by an independent reference", lambda tree: len(tree.read("host/vectors/entries.txt").splitlines())),
    (r"(\d[\d,]*) recorded inputs", lambda tree: len(list(tree.root.glob("host/vectors/program/*.in")))),
    (r"(\d[\d,]*) must-fail edits", lambda tree: sum(map(len, tree.edits.values()))),
    (r"(\d[\d,]*) crates", lambda tree: len(tree.crates)),
]


def entries(tree, crate="entries"):
    return re.findall(r"^pub fn (\w+)\((?!\))", tree.read(f"crates/{crate}/src/lib.rt"), re.M)


def counts(tree, page):
    seen = set()
    for row in page.rows("What is counted"):
        what, (at, said) = row[0][1].strip(), row[1]
        if what == BY_CRATE:
            is_so = ", ".join(f"`{crate}` {len(tree.edits[crate])}" for crate in tree.crates if tree.edits[crate])
        elif what in COUNTS:
            is_so = f"{COUNTS[what](tree):,}"
        else:
            yield row[0][0], f"nothing counts \"{what}\"", []
            continue
        seen.add(what)
        if said.strip() != is_so:
            yield at, f"{what}: {said.strip()} on the page, {is_so} in the tree", [(at, at + len(said), f" {is_so} ")]
    for what in [*COUNTS, BY_CRATE]:
        if what not in seen:
            yield None, f"\"What is counted\" has no row \"{what}\"", []


def stated(tree, page):
    """Numbers in the running text of a document."""
    for pattern, count in STATED:
        for m in re.finditer(r"\b" + pattern, page.prose):
            if m[1] != f"{count(tree):,}":
                yield m.start(), f"\"{m[0]}\": {count(tree):,} in the tree", [(*m.span(1), f"{count(tree):,}")]


def crates_in_tables(tree, page):
    """The table of crates has them all in the order of crates.txt, and so has the table of times, in any order."""
    for m in re.finditer(r"^\| crate \| (.*) \|\n\|[-|]+\|\n((?:\|.*\n)+)", page.text, re.M):
        listed = re.findall(r"^\| `(\w+)`" if m[1].startswith("holds") else r"\| `(\w+)` \|", m[2], re.M)
        for crate in listed:
            if crate not in tree.crates:
                yield m.start(), f"`{crate}`: no crate of crates.txt", []
        for crate in tree.crates:
            if crate not in listed:
                yield m.start(), f"`{crate}`: missing in this table", []
        if m[1].startswith("holds") and sorted(listed) == sorted(tree.crates) and listed != tree.crates:
            yield m.start(), f"the order of crates.txt is {', '.join(tree.crates)}", []


# --- what the toolchain says ---


def version(tree, page):
    said = subprocess.run(["rt", "version"], capture_output=True, text=True, check=True).stdout.strip()
    m = re.search(r"`rt version` says `([^`]+)`", page.text)
    if not m:
        yield None, f"the version is not stated: `rt version` says `{said}`", []
    elif m[1] != said:
        yield m.start(), f"`rt version` says `{said}`", [(*m.span(1), said)]


def promises(tree, page):
    """No public function of the entries' crates has a `requires`."""
    for crate in ("entries", "removing", "heldbook", "vanecitron"):
        for head in re.findall(r"^pub (?:extern \"C\" )?fn .*?^\{", tree.read(f"crates/{crate}/src/lib.rt"), re.M | re.S):
            if "requires" in head:
                yield None, f"{crate} has an entry with a requires: {head.splitlines()[0]}", []


def axioms(tree, page):
    for path in sorted(path for part in ("specs", "proofs") for path in tree.root.glob(f"crates/*/{part}/**/*.antt")):
        if re.search(r"Prim\.Axiom|^\s*axiom\s", path.read_text(), re.M):
            yield None, f"an axiom is named in {path.relative_to(tree.root)}", []


def assumptions(tree, page):
    """What each crate rests on, beside what the page counts: nothing for a library, and for each program its number and names. The log of `rt ci` has a crate's verdict, or that an
    earlier run proved the same files; what a program and the library for C rest on has a log of its own, in full (tools/over_ci)."""
    counted = {crate: (number, set(QUOTED.findall(names))) for crate, number, names in re.findall(r"^\| `(\w+)` \| (\d+) \| (.*) \|$", page.text, re.M)}
    gate = tree.read("target/log/ci.out")
    for crate in tree.crates:
        log = tree.read(f"target/log/{crate}.out") if crate in tree.linked else "".join(re.findall(rf"^== {crate}\n(?:.*\n)*?rt: {crate} proved$", gate, re.M))
        verdict = re.findall(r"^logic=proved .*$", log, re.M)
        is_kept = re.search(rf"^rt: {crate} is kept: ", gate, re.M)
        if not (is_kept or re.search(rf"^rt: {crate} proved$", gate, re.M)) or not verdict and (crate in tree.linked or not is_kept):
            yield None, f"{crate} is not proved: run rt ci first", []
            continue
        number = re.search(r" axioms=(\d+)", verdict[-1]) if verdict else None
        names = set(re.findall(r"^  (\S+) +reached$", log, re.M))
        names |= {name for some in re.findall(r"^axioms \w+: (.*) \(\d+ of the \d+ declared\)$", log, re.M) for name in some.split(", ")}
        if (number[1] if number else "0", names) != counted.get(crate, ("0", set())) or verdict and " foreign=" in verdict[-1]:
            yield None, f"{crate} rests on {number[1] if number else 0} assumptions: {sorted(names)}", []


# --- the command ---

OF_TREE = {
    PAGE: [names_with_places, names_without_places, made_definitions, listed_definitions, paths, groups_of_cases, headings, quotes, counts, stated, promises, axioms],
    "docs/DECISIONS.md": [crates_in_tables, stated],
    "README.md": [stated],
}
OF_TOOLCHAIN = [version, assumptions]


def faults_of(tree, name, text, checks):
    """The faults in the order of the page, each (line or 0, what is wrong, edits)."""
    page = Page(text)
    faults = [fault for check in checks for fault in check(tree, page)]
    return sorted(((page.line(at) if at is not None else 0, what, edits) for at, what, edits in faults), key=lambda fault: fault[0])


def mend(text, faults):
    for start, end, new in sorted({edit for _, _, edits in faults for edit in edits}, reverse=True):
        text = text[:start] + new + text[end:]
    return text


def main(argv=None):
    parser = argparse.ArgumentParser(description=__doc__, formatter_class=argparse.RawDescriptionHelpFormatter)
    parser.add_argument("--fix", action="store_true", help="rewrite places where a name is found at exactly one other, add missing ones, and correct counts and the version")
    parser.add_argument("--since", metavar="COMMIT", help="with --fix: a place counts only where it did not declare the name at COMMIT, so that a namesake is not taken for it")
    parser.add_argument("--tree", action="store_true", help="only what the tree shows: neither the version nor the logs of the gate")
    parser.add_argument("--root", default=pathlib.Path(__file__).resolve().parent.parent, type=pathlib.Path, help=argparse.SUPPRESS)
    options = parser.parse_args(argv)
    if not options.since:
        return check(Tree(options.root), options)
    with tempfile.TemporaryDirectory() as folder:
        archive = subprocess.run(["git", "-C", str(options.root), "archive", options.since], capture_output=True, check=True).stdout
        with tarfile.open(fileobj=io.BytesIO(archive)) as files:
            files.extractall(folder, filter="data")
        return check(Tree(options.root, Tree(pathlib.Path(folder))), options)


def check(tree, options):
    wrong = 0
    for name, checks in OF_TREE.items():
        checks = checks + (OF_TOOLCHAIN if name == PAGE and not options.tree else [])
        text = tree.read(name)
        faults = faults_of(tree, name, text, checks)
        if options.fix:
            new = mend(text, faults)
            if new != text:
                (options.root / name).write_text(new)
                left = faults_of(tree, name, new, checks)
                for line, what, _ in faults:
                    if what not in [still for _, still, _ in left]:
                        print(f"mended {name}:{line}: {what}")
                faults = left
        for line, what, _ in faults:
            print(f"{name}:{line}: {what}" if line else f"{name}: {what}")
        wrong += len(faults)
    if not wrong:
        print(f"{PAGE}: what it names, quotes and counts is so")
    return 1 if wrong else 0


if __name__ == "__main__":
    sys.exit(main())
