#!/usr/bin/env python3
"""Spells this repository's own definitions, lemmas and ghost names as today's Rattle spells words: snake case, no camel case and no dashes inside a word.

usage: respell.py            at the top of the repository, once, directly after /opt/rattle/port/port.py
       respell.py --table    prints the names that it would turn, old and new, and those that would fall together

What is turned: each name that a file of specs/ or proofs/ declares, wherever it stands in specs/, proofs/, the ghost text of src/ and the must-fail edits. What is not: names of the
library, names that Rattle makes of the code (behind `tie.` and of a step of `c`), functions and types of src/, words in strings. The edits also get the marks of today's clauses.
"""
import glob
import re
import subprocess
import sys

L = r"A-Za-z\u0370-\u03bb\u03bd-\u03ff\u2070-\u209f\u2100-\u214f"
ID = re.compile(rf"[{L}_][{L}0-9_']*(?:-[{L}0-9_'*≤<≡+]+)*")
MODIFIERS = r"(?:pub |unfoldable |abbrev |private |ruleset |record |data |let |\()*"
DECLARED = re.compile(rf"^\s*{MODIFIERS}((?:{ID.pattern}\s+)*{ID.pattern})\s*[:=]")
BOUND = re.compile(rf"(?:λ|let|[({{])\s*((?:{ID.pattern}\s+)*{ID.pattern})\s*[:.=]")
# a lemma that would fall together with the definition that it is about
LEMMAS = """active-other begins-here book-bytes by-judged by-loading by-verdict change-of changed-in common-prefix comparison-line families-of family-at first-active first-other
head_bytes is-other kin-test least-for loaded-least longest-piece mark-drop mark-here marked-by-any met_at placed-at relation-bytes sheet-of side-cell word-at""".split()
OTHERS = {n: n.replace("-", "_") + "_lem" for n in LEMMAS} | {"is-piece-of-occurs": "piece_of_occurs"}
# names that Rattle makes
MADE = re.compile(r"^(invariant|decreases)-(loop|outer)")
USE = re.compile(r"(?m)^\s*(?:pub )?(?:ghost )?use ([^;{]*?)(?:\.\{([^}]*)\})?(?: as \S+?)?;?$")


def is_odd(n):
    return "-" in n or re.match(r"[a-z_][A-Za-z0-9_']*[A-Z]", n) is not None


def snake(n):
    if n in OTHERS:
        return OTHERS[n]
    n = re.sub(r"([a-z0-9])([A-Z]+)", lambda m: m[1] + "_" + m[2].lower(), n)
    return n.replace("-", "_")


def crates():
    with open("crates.txt") as f:
        return [l.split(":")[0].split()[0] for l in f if l.strip() and not l.startswith("#")]


def proof_files():
    return sorted(glob.glob("crates/*/specs/**/*.antt", recursive=True) + glob.glob("crates/*/proofs/**/*.antt", recursive=True))


def foreign(text, own):
    """The names that a file takes from the library."""
    found = set()
    for m in USE.finditer(text):
        if not re.match(r"Rattle\.(%s)\b" % "|".join(own), m[1]):
            found |= {n.strip() for n in (m[2] or "").split(",")}
    return found


def code(text):
    return re.sub(r"--.*", "", text)


def declared(own):
    names, plain = set(), set()
    for path in proof_files():
        with open(path) as f:
            text = f.read()
        kit = foreign(text, own)
        for line in code(text).splitlines():
            for pattern in (DECLARED, BOUND):
                for m in pattern.finditer(line):
                    for n in ID.findall(m[1]):
                        (names if is_odd(n) else plain).add(n)
        # the left side of an equation binds its arguments
        for n in ID.findall(code(re.sub(r"(?m)^use .*$", "", text))):
            if is_odd(n) and n not in kit and not MADE.match(n):
                names.add(n)
            elif not is_odd(n):
                plain.add(n)
    return {n for n in names if not MADE.match(n)}, plain


def members(own):
    """Names that stand only behind a dot: steps of the code that Rattle names, if no file declares them."""
    behind, alone = set(), set()
    for path in proof_files():
        with open(path) as f:
            text = code(f.read())
        for m in ID.finditer(re.sub(r"(?m)^use .*$", "", text)):
            (behind if text and m.start() and re.sub(r"(?m)^use .*$", "", text)[m.start() - 1] == "." else alone).add(m[0])
    return behind - alone


def turn(text, names, kit, from_code=False):
    def one(m):
        n = m[0]
        if n in names and n not in kit:
            if from_code and "-" in n:
                return n
            return snake(n)
        return n

    return ID.sub(one, text)


def marks(text):
    """The marks of today's clauses in the text of an edit."""
    text = text.replace("′", "'").replace("\u00b7", ".")
    text = re.sub(r"(?<![\w'])_([^\w\s'.,;:()]+)_(?![\w'])", r"◌\1◌", text)
    text = re.sub(r"ensures \{ λ (\w+)\. ⌜ (.*?) ⌝ \}", lambda m: "ensures { " + re.sub(rf"\b{m[1]}\b", "result", m[2]) + " }", text)
    text = re.sub(r"requires \{ ⌜ (.*?) ⌝ \}", r"requires { \1 }", text)
    text = re.sub(r"\(([\w']+) \.([a-z]\w*)\)", r"\1.\2", text)
    text = text.replace("(numberAndPlace r .number) (numberAndPlace r .place)", "(numberAndPlace r).number (numberAndPlace r).place")
    text = text.replace("(numberAndPlace r .place) (numberAndPlace r .number)", "(numberAndPlace r).place (numberAndPlace r).number")
    text = re.sub(r"(\w|\)|') \.(?=[a-z0-9])", r"\1.", text)
    text = re.sub(r"\bgetD\b", "get_or", text).replace("the-variants", "TheVariants")
    return text


def main(words):
    own = crates()
    names, plain = declared(own)
    plain |= {m for p in proof_files() for m in ID.findall(code(open(p).read())) if not is_odd(m)}
    names = (names | set(OTHERS)) - members(own)
    table = sorted((n, snake(n)) for n in names)
    if words == ["--table"]:
        new = {}
        for o, n in table:
            new.setdefault(n, []).append(o)
        for o, n in table:
            print(o, n)
        for n, os in sorted(new.items()):
            if len(os) > 1 or n in plain - set(OTHERS):
                print("together:", n, os, "already" if n in plain else "")
        return 0
    for path in proof_files():
        with open(path) as f:
            text = f.read()
        done = turn(text, names, foreign(text, own))
        if done != text:
            with open(path, "w") as f:
                f.write(done)
    camel = {n for n in names if "-" not in n}
    for path in sorted(glob.glob("crates/*/src/**/*.rt", recursive=True)):
        with open(path) as f:
            text = f.read()
        # words in strings stay
        parts = re.split(r'("(?:[^"\\\n]|\\.)*")', text)
        done = "".join(p if i % 2 else turn(p, camel, foreign(text, own)) for i, p in enumerate(parts))
        if done != text:
            with open(path, "w") as f:
                f.write(done)
    for path in sorted(glob.glob("crates/*/must-fail/*.edit")):
        with open(path) as f:
            read = f.read()
        text = marks(read)
        # port.py spelled some names already: those that a library has too
        known = names | {n for n in ID.findall(text) if is_odd(n) and snake(n) in plain}
        done = turn(text, known, set())
        if done != read:
            with open(path, "w") as f:
                f.write(done)
    for crate in own:
        subprocess.run(["rt", "fmt"], cwd=f"crates/{crate}", check=True, stdout=subprocess.DEVNULL)
    return 0


if __name__ == "__main__":
    raise SystemExit(main(sys.argv[1:]))
