"""Tests of definitions.py: a small tree in a temporary folder, and what its promises stand on."""

import pathlib
import sys
import tempfile
import unittest

sys.path.insert(0, str(pathlib.Path(__file__).resolve().parent))
import definitions  # noqa: E402

FILES = {
    "crates.txt": "# all\nwords:\nlimits:\narrays: words\nanswers: words limits\nentries staticlib: answers arrays\n",
    "crates/words/src/lib.rt": "// words\n",
    "crates/words/specs/Lib.antt": "pub mod Words\npub mod Unused\n",
    "crates/words/specs/Words.antt": "-- Words. And more of them.\nuse Rattle.std.specs.Prelude.{ℕ}\npub word : A\n",
    "crates/words/specs/Unused.antt": "-- Not named.\n",
    "crates/limits/src/lib.rt": "pub fn make(x: u8) -> u8\n    ensures { A }\n{\n    x\n}\n",
    "crates/limits/specs/Lib.antt": "pub mod Limits\n",
    "crates/limits/specs/Limits.antt": "-- The limits.\n",
    "crates/arrays/src/lib.rt": "pub fn lay(x: u8) -> u8\n    ensures { B }\n{\n    x\n}\n",
    "crates/arrays/specs/Lib.antt": "pub mod Arrays\n",
    "crates/arrays/specs/Arrays.antt": "-- Arrays.\nuse Rattle.words.specs.Words.{word}\n",
    "crates/answers/src/lib.rt": "pub enum Answer {\n    Yes,\n}\n",
    "crates/answers/specs/Lib.antt": "pub mod Answers\n",
    "crates/answers/specs/Answers.antt": "-- What is answered.\nuse Rattle.words.specs.Words.{word}\nuse Rattle.limits.specs.Limits.{most}\nuse Rattle.answers.specs.declared.Answer.{Answer}\n",
    "crates/entries/src/lib.rt": "ghost use Rattle.std.specs.Prelude.{◌≡◌, length};\nghost use Rattle.answers.specs.Answers.{answer_of};\nghost use Rattle.arrays.specs.Arrays.{Laid};\nfn part(x: u8) -> u8\n    requires { Laid x }\n{\n    x\n}\n"
    "\npub fn check(x: u8) -> u8\n    ensures { answer_of x }\n{\n    part(x)\n}\n",
}


class Definitions(unittest.TestCase):
    def setUp(self):
        folder = tempfile.TemporaryDirectory()
        self.addCleanup(folder.cleanup)
        self.root = pathlib.Path(folder.name)
        for path, text in FILES.items():
            self.write(path, text)

    def write(self, path, text):
        (self.root / path).parent.mkdir(parents=True, exist_ok=True)
        (self.root / path).write_text(text)

    def test_imports_are_followed_from_public_contracts(self):
        made, sums, code = definitions.table(self.root)
        self.assertEqual(sums["promises"], (3, 3, 8))
        self.assertEqual(code, [])
        self.assertIn("| `crates/words/specs/Words.antt` | Words. |", made)
        self.assertIn("`Answer` (`crates/answers/src/lib.rt`)", made)
        for absent in ("Unused", "Arrays"):
            self.assertNotIn(absent, made)

    def test_a_crate_of_code_is_told(self):
        self.write("crates/answers/specs/Answers.antt", FILES["crates/answers/specs/Answers.antt"] + "use Rattle.arrays.specs.Arrays.{Laid}\n")
        self.assertEqual(definitions.table(self.root)[2], ["arrays"])

    def test_a_crate_of_code_is_told_of_which_a_type_alone_is_named(self):
        for types in ("Laid.{Laid}", "Laid.TheVariants as Laids"):
            self.write("crates/answers/specs/Answers.antt", FILES["crates/answers/specs/Answers.antt"] + f"use Rattle.arrays.specs.declared.{types}\n")
            made, _, code = definitions.table(self.root)
            self.assertIn("`Laid` (`crates/arrays/src/lib.rt`)", made)
            self.assertEqual(code, ["arrays"])

    def test_theorems_and_types_are_no_code(self):
        self.assertFalse(definitions.is_code(self.root, "limits"))
        self.write("crates/words/src/lib.rt", "pub fn shown()\n    ensures { A }\n{}\n")
        self.assertFalse(definitions.is_code(self.root, "words"))
        self.assertTrue(definitions.is_code(self.root, "arrays"))

    def test_a_type_and_a_file_of_one_name_are_two(self):
        self.write("crates/answers/specs/Lib.antt", "pub mod Answers\npub mod Answer\n")
        self.write("crates/answers/specs/Answer.antt", "-- One answer.\n")
        self.write("crates/answers/specs/Answers.antt", FILES["crates/answers/specs/Answers.antt"] + "use Rattle.answers.specs.Answer.{yes}\n")
        self.assertIn("crates/answers/specs/Answer.antt", definitions.table(self.root)[0])


if __name__ == "__main__":
    unittest.main()
