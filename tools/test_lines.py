"""Tests of lines.py: which lines of a page are too long, and what is aside."""

import pathlib
import sys
import tempfile
import unittest

sys.path.insert(0, str(pathlib.Path(__file__).resolve().parent))
import lines  # noqa: E402

LONG = "x" * 121


class Lines(unittest.TestCase):
    def found(self, *text):
        return [number for number, _ in lines.long_lines("\n".join(text))]

    def test_the_width_itself_is_good(self):
        self.assertEqual(self.found("y" * 120, LONG, "ℕ" * 120), [2])

    def test_tables_and_blocks_are_aside(self):
        self.assertEqual(self.found(f"| {LONG} |", "```", LONG, "```", LONG), [5])
        self.assertEqual(self.found("a", "", "    $ call", f"    {LONG}", "", f"    {LONG}", "", LONG), [8])

    def test_what_goes_on_behind_text_is_no_block(self):
        self.assertEqual(self.found("a", f"    {LONG}"), [2])

    def test_list_items(self):
        self.assertEqual(self.found(f"- {LONG}", f"  {LONG}", "", f"  {LONG}", "", f"      {LONG}"), [1, 2, 4])
        self.assertEqual(self.found("1. a", "   1. b", f"      {LONG}", "", f"    {LONG}"), [3, 5])
        self.assertEqual(self.found("1. a", "", "       code", "", "b", "", f"    {LONG}"), [])

    def test_what_a_tool_makes_is_aside(self):
        self.assertEqual(self.found("<!-- made by a tool -->", LONG, "<!-- end of what is made -->", LONG), [4])

    def test_pages(self):
        with tempfile.TemporaryDirectory() as folder:
            root = pathlib.Path(folder)
            (root / "docs/requests").mkdir(parents=True)
            for page in ("README.md", "docs/A.md", "docs/requests/01.md", "docs/a.txt"):
                (root / page).write_text(LONG + "\n")
            self.assertEqual(lines.pages(root), ["README.md", "docs/A.md", "docs/requests/01.md"])
            self.assertEqual(list(lines.faults(root, ["docs/A.md"])), [("docs/A.md", 1, "121 characters, more than 120")])

    def test_a_page_that_is_not_there(self):
        for page in ("docs/nowhere.md", "crates.txt"):
            with self.assertRaises(SystemExit) as told:
                lines.main(["README.md", page])
            self.assertEqual(told.exception.code, f"lines: no page of this tree: {page}")


if __name__ == "__main__":
    unittest.main()
