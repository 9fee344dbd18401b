"""Tests of places.py: what is counted in a small tree, and what is not."""

import os
import pathlib
import sys
import tempfile
import unittest

sys.path.insert(0, str(pathlib.Path(__file__).resolve().parent))
import places  # noqa: E402

CODE = """// enum Not { while
#[derive(Clone, Copy)]
pub enum Seen {
    Here(usize),
}

pub struct Part {
    given: bool,
    from: usize,
}

pub const KIND: usize = 1;

pub fn under_letter(text: &[u16], table: &[u16], n: usize, a: &[u16], b: &[u16], q: usize) -> usize {
    while q < n {
        loop {}
    }
    for x in a {}
}

fn kin(
    table: &[u16],
    n: usize,
) -> usize
{}

fn put(out: &mut [u8], at: usize) {}
"""


class Places(unittest.TestCase):
    def setUp(self):
        folder = tempfile.TemporaryDirectory()
        self.addCleanup(folder.cleanup)
        self.addCleanup(os.chdir, os.getcwd())
        os.chdir(folder.name)

    def write(self, name, text=""):
        path = pathlib.Path("crates") / name
        path.parent.mkdir(parents=True, exist_ok=True)
        path.write_text(text)

    def test_what_is_counted(self):
        self.write("index/src/lib.rt", CODE)
        self.write("index/proofs/seek/Proof.antt")
        self.write("index/proofs/seek/Answers.antt")
        self.write("index/out/lib.rt", CODE)
        self.assertEqual(
            places.places(None),
            {
                "1 enums": ["index::Seen"],
                "1 flags in a struct": ["index::given"],
                "1 numbers for kinds": ["index::KIND"],
                "3 loops that are no `for`": ["index::while", "index::loop"],
                "5 text, table, number, above the loading": ["index::under_letter", "index::kin"],
                "5 a word as two slices": ["index::under_letter"],
                "6 bytes and a length or a place": ["index::put"],
                "8 proofs by position": ["index/proofs/seek"],
            },
        )

    def test_below_the_loading(self):
        self.write("laying/src/lib.rt", "fn lay(text: &mut [u16], table: &mut [u16]) {}\n")
        self.assertEqual(places.places(None)["5 text, table, number, below the loading"], ["laying::lay"])


if __name__ == "__main__":
    unittest.main()
