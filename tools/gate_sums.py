#!/usr/bin/env python3
"""What the gate's time goes to: what a timed log of `rt ci` tells of it.

    rt ci 2>&1 | tools/gate_sums.py --timed LOG    copies the lines, and writes each to LOG behind the second at which it came
    tools/gate_sums.py LOG            a line for each crate that was proved and has edits, dearest first, then one for all
    tools/gate_sums.py --table LOG    a table by crate, in the log's order

`rt ci` itself tells no times, and nothing of an edit before all are tried. So a proof's seconds are those from the end
of the last proof below it (crates.txt) to its own: the most that it can have taken, beside up to three other checks.
A crate that an earlier run proved takes none. Of edits there are a number by crate and the second by which all were told.
"""
import pathlib
import re
import sys
import time

CRATES = pathlib.Path(__file__).resolve().parent.parent / "crates.txt"

TIMED = re.compile(r" *(\d+) (.*)$")
PROVED = re.compile(r"rt: (\S+) proved$")
KEPT = re.compile(r"rt: (\S+) is kept: ")
REFUSED = re.compile(r"rt: must-fail ([^/\s]+)/\S+: refused, as it must be")
LAST = re.compile(r"\d+ passed, \d+ failed$")


def libraries(text):
    """The crates that crates.txt lists below each crate."""
    lines = [line.partition("#")[0].partition(":") for line in text.splitlines()]
    return {head.split()[0]: below.split() for head, mark, below in lines if mark}


def sums(lines, below):
    """For each crate, in the log's order: the most seconds that its proof took, and how many of its edits were refused. Under no name: the seconds by which all proofs had
    ended, by which all edits were told, and by which the run had ended."""
    crates, ended, told = {}, {}, [0, 0, 0]
    for line in lines:
        if not (timed := TIMED.match(line.rstrip())):
            continue
        second, said = int(timed[1]), timed[2]
        if kept := KEPT.match(said):
            crates.setdefault(kept[1], [0, 0])
        elif proved := PROVED.match(said):
            begun = max((ended.get(library, 0) for library in below.get(proved[1], [])), default=0)
            crates.setdefault(proved[1], [0, 0])[0] = second - begun
            ended[proved[1]] = told[0] = second
        elif refused := REFUSED.match(said):
            crates.setdefault(refused[1], [0, 0])[1] += 1
            told[1] = second
        elif LAST.match(said):
            told[2] = second
    return crates, told


def report(crates, told):
    """Lines for a reader of the log."""
    for name, (proof, edits) in sorted(crates.items(), key=lambda item: -item[1][0]):
        if proof and edits:
            yield f"gate: {name}: proof within {proof} s, {edits} edits"
    proved = sum(proof > 0 for proof, _ in crates.values())
    edits = sum(edits for _, edits in crates.values())
    yield f"gate: {len(crates)} crates, {proved} proved in this run: proofs by {told[0]} s, {edits} edits by {told[1]} s, all by {told[2]} s"


def table(crates, told):
    """The same in Markdown."""
    yield "| crate | proof within, s | edits |"
    yield "|---|---|---|"
    for name, (proof, edits) in crates.items():
        yield f"| `{name}` | {proof} | {edits or ''} |"


def copy(log):
    """Copies standard input, line by line, and times the lines."""
    start = time.monotonic()
    with open(log, "wb") as timed:
        for line in sys.stdin.buffer:
            sys.stdout.buffer.write(line)
            sys.stdout.buffer.flush()
            timed.write(b"%6d " % (time.monotonic() - start) + line)


def main(words):
    shown = table if words[:1] == ["--table"] else report
    files = [word for word in words if word not in ("--table", "--timed")]
    if len(files) != 1:
        sys.exit(__doc__)
    if words[0] == "--timed":
        copy(files[0])
        return
    with open(files[0], encoding="utf-8", errors="replace") as log:
        print("\n".join(shown(*sums(log, libraries(CRATES.read_text())))))


if __name__ == "__main__":
    main(sys.argv[1:])
