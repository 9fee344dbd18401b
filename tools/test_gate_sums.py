#!/usr/bin/env python3
"""Tests of tools/gate_sums.py on a small log."""
import io
import pathlib
import tempfile
import unittest
from unittest import mock

import gate_sums

CRATES = gate_sums.libraries("# all\nwords:\nrows: words\ncases staticlib: rows words\nlines: words # kept\n")

LOG = """\
     0 == words
     0 fn words::larger: proved
     1 rt: words proved
     2 rt: lines is kept: an earlier run on this machine proved the same files over the same libraries
    13 rt: rows proved
    13 rt: rows: its tests are proved
    13 rt: rows: trying its must-fail edits (3)
    53 rt: cases proved
    70 rt: must-fail words/one.edit: refused, as it must be: proofs/Laws.antt:3:4: error
    70 rt: must-fail rows/two.edit: refused, as it must be
    70 rt: must-fail rows/three.edit: refused, as it must be: src/lib.rt:9:1: error
    70 rt: must-fail rows/four.edit: NOT REFUSED: the crate is still proved with this edit (one that means the same as before cannot be refused: remove it)
    70 rt: must-fail rows/five.edit: BAD EDIT: it changes nothing
    71 rt: cases ran, and wrote what its file stdout has
    72 4 passed, 1 failed
""".splitlines(keepends=True)


class GateSums(unittest.TestCase):
    def test_sums(self):
        self.assertEqual(gate_sums.sums(LOG, CRATES), ({"words": [1, 1], "lines": [0, 0], "rows": [12, 2], "cases": [40, 0]}, [53, 70, 72]))

    def test_report_has_the_dearest_first(self):
        self.assertEqual(
            list(gate_sums.report(*gate_sums.sums(LOG, CRATES))),
            ["gate: rows: proof within 12 s, 2 edits", "gate: words: proof within 1 s, 1 edits", "gate: 4 crates, 3 proved in this run: proofs by 53 s, 3 edits by 70 s, all by 72 s"],
        )

    def test_table_keeps_the_order_of_the_log(self):
        self.assertEqual(
            list(gate_sums.table(*gate_sums.sums(LOG, CRATES)))[2:],
            ["| `words` | 1 | 1 |", "| `lines` | 0 |  |", "| `rows` | 12 | 2 |", "| `cases` | 40 |  |"],
        )

    def test_an_empty_log_has_no_sums(self):
        self.assertEqual(list(gate_sums.report(*gate_sums.sums([], CRATES))), ["gate: 0 crates, 0 proved in this run: proofs by 0 s, 0 edits by 0 s, all by 0 s"])

    def test_a_timed_log_has_the_lines_that_were_copied(self):
        given = b"rt: words proved\n1 passed, 0 failed\n"
        out = io.BytesIO()
        with tempfile.TemporaryDirectory() as folder:
            log = pathlib.Path(folder) / "log"
            with mock.patch("sys.stdin", mock.Mock(buffer=io.BytesIO(given))), mock.patch("sys.stdout", mock.Mock(buffer=out)):
                gate_sums.main(["--timed", str(log)])
            lines = log.read_text().splitlines(keepends=True)
        self.assertEqual(out.getvalue(), given)
        self.assertEqual([line[7:] for line in lines], given.decode().splitlines(keepends=True))
        self.assertEqual(gate_sums.sums(lines, CRATES), ({"words": [0, 0]}, [0, 0, 0]))


if __name__ == "__main__":
    unittest.main()
