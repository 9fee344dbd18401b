"""Tests of check_audit.py: a small tree in a temporary folder whose page is right, and one thing made wrong at a time."""

import contextlib
import importlib.util
import io
import os
import pathlib
import subprocess
import sys
import tempfile
import unittest

TOOL = os.path.join(os.path.dirname(os.path.abspath(__file__)), "check_audit.py")
spec = importlib.util.spec_from_file_location("check_audit", TOOL)
check_audit = importlib.util.module_from_spec(spec)
sys.modules["check_audit"] = check_audit
spec.loader.exec_module(check_audit)

COUNTED = """| crates, in `crates.txt` | 6 |
| public entries: functions of `crates/entries/src/lib.rt` that are `pub` and take arguments | 1 |
| public entries that remove a prefix: the same of `crates/removing/src/lib.rt` | 1 |
| public entries of held books: the same of `crates/heldbook/src/lib.rt` | 2 |
| C functions of `crates/vanecitron/src/lib.rt` | 1 |
| rows of a round, in the specification | 2 |
| refusals that occur: the rows of the specification's table but those that are not used | 1 |
| cases of the table `starred` | 2 |
| calls in `crates/cases/stdin` | 3 |
| of them, of the reader and not of an entry | 2 |
| of them, recorded from an independent reference (`host/vectors/entries.txt`) | 1 |
| recorded inputs of the program (`host/vectors/program`) | 2 |
| must-fail edits | 3 |
| of them, by crate | `format` 2, `entries` 1 |
"""

PAGE = f"""# Page

A refusal is told by `numbered` and `other` (`crates/format/specs/Refusals.antt`). From `crates/entries/src/lib.rt`:

    pub fn check(book: &[u8]) -> u8
        ensures {{ check_of }}

`check` is the entry of crate `entries`; `rt` runs it, and `made_right` (`crates/format/proofs/Laws.antt`) is its lemma. Its demand, from `crates/format/specs/Limits.antt`:

    pub record Accepts (a : B) : Type 0 where

    pub loose : ℕ

## The definitions to read

| file | what it defines |
|---|---|
| `crates/format/specs/Limits.antt`, `crates/format/specs/Refusals.antt` | limits (`most`) |
| `crates/congruence/specs/Starred.antt` | the table |

## What is assumed, and what is outside

`rt version` says `kit 1`.

| program | assumptions | which |
|---|---|---|
| `entries` | 2 | `libc::read`, `libc::write` |

## What is counted

| what | count |
|---|---|
{COUNTED}
## From the specification to the tree

### Book bytes

| specification | definition | promise or theorem | executed case |
|---|---|---|---|
| A | `most` (format/Limits), `numbered`, `other` (format/Refusals) | `check` (entries), `loose` (format/Limits); `Head::make` (format) | *reading a book* (a remark); vectors: `r1`; edit: `low` (format), `late` (format and entries) |
| B | `starred` (congruence/Starred) | constants of `Head` (format/src) | worked: a line of `starred` (congruence/Starred); difftest: `chains`; crate `entries` |
"""

FILES = {
    "crates.txt": "# all\nformat:\ncongruence:\nentries: format\nremoving: entries\nheldbook: entries\nvanecitron staticlib: entries\n",
    "crates/format/specs/Limits.antt": "-- limits\nabbrev pub most : ℕ\nmost = 64\n\npub record Accepts (a : B) : Type 0 where\n  -- why\n  pub loose : ℕ\n",
    "crates/format/specs/Refusals.antt": "unfoldable pub numbered : ℕ → ℕ\nnumbered n = n\n\npub data other : Type 0 where\n  named : ℕ → other\n",
    "crates/format/src/lib.rt": "pub struct Head {\n    x: u8,\n}\n\nimpl Head {\n    pub const MOST: u8 = 1; // fn gone\n    pub fn make(x: u8) -> Head\n    {}\n}\n",
    "crates/format/proofs/Laws.antt": "pub made_right : A\nmade_right = a\n",
    "crates/format/must-fail/low.edit": "",
    "crates/format/must-fail/late.edit": "",
    "crates/congruence/specs/Starred.antt": "abbrev pub starred : List Case\nstarred =\n    -- a\n    book [] []\n    ∷ compared [] []\n    ∷ []\n",
    "crates/entries/src/lib.rt": "// entries\npub fn check(book: &[u8]) -> u8\n    ensures { check_of }\n{\n    0\n}\n\npub fn check_is_right()\n    ensures { x }\n{}\n",
    "crates/entries/must-fail/late.edit": "",
    "crates/removing/src/lib.rt": "// prefixes\nfn part(book: &[u8]) -> u8\n    requires { x }\n{\n    0\n}\n\npub fn remove(book: &[u8]) -> u8\n{\n    0\n}\n",
    "crates/heldbook/src/lib.rt": "// held books\npub fn load(book: &[u8]) -> u8\n{\n    0\n}\n\npub fn add(held: &mut [u8]) -> u8\n{\n    0\n}\n",
    "crates/vanecitron/src/lib.rt": '// C\npub extern "C" fn vanecitron_check(book: &[u8]) -> u8\n{\n    0\n}\n',
    "crates/cases/stdin": "# reading a book\nread 00\nread 01\n# entries\ncheck 00\n",
    "host/vectors/entries.txt": "check 00 => refused 1 0\n",
    "host/vectors/program/r1-1.in": "",
    "host/vectors/program/r1-2.in": "",
    "host/difftest/tests/gate.rs": "fn helper() {}\n#[test]\nfn chains() {}\n",
    "docs/SPECIFICATION.md": "# S\n\n## Book bytes\n\n### The rows\n\n| row | x |\n|---|---|\n| 1 | a |\n| 2 | b |\n| | c |\n\n## Refusals by number\n\n| no. | w |\n|---|---|\n| 1 | s |\n| 2 | not used | |\n",
    "docs/DECISIONS.md": "| crate | holds | kind |\n|---|---|---|\n| `format` | a | b |\n| `congruence` | a | b |\n| `entries` | a | b |\n| `removing` | a | b |\n| `heldbook` | a | b |\n| `vanecitron` | a | b |\n\nOne has 1 calls of the entries and 2 of the reader.\n",
    "README.md": "There are 3 must-fail edits.\n",
    "docs/AUDIT.md": PAGE,
}


class Small(unittest.TestCase):
    def setUp(self):
        folder = tempfile.TemporaryDirectory()
        self.addCleanup(folder.cleanup)
        self.root = pathlib.Path(folder.name)
        for path, text in FILES.items():
            self.write(path, text)

    def write(self, path, text):
        (self.root / path).parent.mkdir(parents=True, exist_ok=True)
        (self.root / path).write_text(text)

    def read(self, path):
        return (self.root / path).read_text()

    def change(self, path, old, new):
        text = self.read(path)
        self.assertEqual(text.count(old), 1, old)
        self.write(path, text.replace(old, new))

    def move(self, old, new):
        self.write(new, self.read(old))
        (self.root / old).unlink()

    def run_tool(self, *arguments):
        out = io.StringIO()
        with contextlib.redirect_stdout(out):
            code = check_audit.main([*arguments, "--tree", "--root", str(self.root)])
        return code, out.getvalue().splitlines()

    def faults(self, *lines):
        """The tool prints these lines, `N` standing for any line number, and fails."""
        code, out = self.run_tool()
        self.assertEqual([check_audit.re.sub(r"^(\S+?):\d+:", r"\1:N:", line) for line in out], list(lines))
        self.assertEqual(code, 1)

    def mends(self, *parts):
        """With --fix the page then holds these parts, and nothing is left."""
        code, out = self.run_tool("--fix")
        for part in parts:
            self.assertIn(part, self.read("docs/AUDIT.md"))
        self.assertTrue(any(line.startswith("mended ") for line in out), out)
        self.assertEqual(code, 0, out)
        self.assertEqual(self.run_tool(), (0, ["docs/AUDIT.md: what it names, quotes and counts is so"]))


class Names(Small):
    def test_a_page_that_is_right(self):
        self.assertEqual(self.run_tool(), (0, ["docs/AUDIT.md: what it names, quotes and counts is so"]))

    def test_the_line_is_told(self):
        self.change("docs/AUDIT.md", "`numbered`, `other` (format/Refusals)", "`numbered`, `nought` (format/Refusals)")
        at = [i for i, line in enumerate(self.read("docs/AUDIT.md").splitlines(), 1) if "`nought`" in line][0]
        self.assertEqual(self.run_tool(), (1, [f"docs/AUDIT.md:{at}: `nought`: not in crates/format/specs/Refusals.antt, found nowhere"]))

    def test_a_definition_at_another_place_of_the_tree(self):
        self.change("docs/AUDIT.md", "`most` (format/Limits), `numbered`, `other` (format/Refusals)", "`numbered`, `most`, `other` (format/Refusals)")
        self.faults("docs/AUDIT.md:N: `most`: not in crates/format/specs/Refusals.antt, found in crates/format/specs/Limits.antt")
        self.mends("| `numbered` (format/Refusals), `most` (format/Limits), `other` (format/Refusals) |")

    def test_a_file_that_moved_to_another_crate(self):
        self.change("crates.txt", "format:\n", "refusals:\nformat:\n")
        self.change("docs/DECISIONS.md", "| `format` | a | b |\n", "| `refusals` | a | b |\n| `format` | a | b |\n")
        self.move("crates/format/specs/Refusals.antt", "crates/refusals/specs/Refusals.antt")
        code, out = self.run_tool()
        self.assertEqual(code, 1)
        for name in ("numbered", "other"):
            found = [line for line in out if line.endswith(f": `{name}`: not in crates/format/specs/Refusals.antt, found in crates/refusals/specs/Refusals.antt")]
            self.assertEqual(len(found), 2, out)
        code, out = self.run_tool("--fix")
        page = self.read("docs/AUDIT.md")
        self.assertIn("`numbered` and `other` (`crates/refusals/specs/Refusals.antt`). From", page)
        self.assertIn("`numbered`, `other` (refusals/Refusals) |", page)
        self.assertIn("| crates, in `crates.txt` | 7 |", page)
        # the list of files is for a person to mend
        self.assertEqual(code, 1)
        self.assertTrue(any(line.endswith("`crates/format/specs/Refusals.antt`: no such path") for line in out), out)
        self.assertTrue(any('crates/refusals/specs/Refusals.antt is not listed under "The definitions to read"' in line for line in out), out)

    def test_a_name_at_two_other_places_is_not_mended(self):
        for crate in ("a", "b"):
            self.write(f"crates/{crate}/specs/X.antt", "abbrev pub gone : ℕ\n")
        self.change("docs/AUDIT.md", "`numbered`, `other` (format/Refusals)", "`numbered`, `gone`, `other` (format/Refusals)")
        self.faults("docs/AUDIT.md:N: `gone`: not in crates/format/specs/Refusals.antt, found in crates/a/specs/X.antt and in crates/b/specs/X.antt")
        before = self.read("docs/AUDIT.md")
        self.run_tool("--fix")
        self.assertEqual(self.read("docs/AUDIT.md"), before)

    def test_code_is_not_taken_for_a_definition(self):
        self.change("docs/AUDIT.md", "constants of `Head` (format/src)", "constants of `Head` (entries/src), `make` (format/Limits)")
        self.faults(
            "docs/AUDIT.md:N: `Head`: not in crates/entries/src, found in crates/format/src/lib.rt",
            "docs/AUDIT.md:N: `make`: not in crates/format/specs/Limits.antt, found in crates/format/src/lib.rt",
        )
        self.assertEqual(self.run_tool("--fix")[0], 1)
        self.assertIn("constants of `Head` (format/src), `make` (format/Limits) |", self.read("docs/AUDIT.md"))

    def test_a_namesake_that_was_there_before(self):
        def git(*arguments):
            subprocess.run(["git", "-C", str(self.root), "-c", "user.name=x", "-c", "user.email=x", *arguments], check=True, capture_output=True)

        self.write("crates/a/specs/X.antt", "abbrev pub starred : ℕ\n")
        git("init", "-q")
        git("add", ".")
        git("commit", "-qm", "x")
        self.change("crates/congruence/specs/Starred.antt", "abbrev pub starred", "abbrev pub marked")
        self.change("crates/format/specs/Refusals.antt", "unfoldable pub numbered : ℕ → ℕ\nnumbered n = n\n\n", "")
        self.write("crates/a/specs/Y.antt", "unfoldable pub numbered : ℕ → ℕ\nnumbered n = n\n")
        code, out = self.run_tool("--fix", "--since", "HEAD")
        self.assertEqual(code, 1)
        self.assertTrue(any(line.endswith("`starred`: not in crates/congruence/specs/Starred.antt, found in crates/a/specs/X.antt") for line in out), out)
        page = self.read("docs/AUDIT.md")
        self.assertIn("| `starred` (congruence/Starred) | constants", page)
        self.assertIn("`numbered` (a/Y), `other` (format/Refusals) |", page)

    def test_a_name_without_a_place(self):
        self.change("docs/AUDIT.md", "| `starred` (congruence/Starred) | constants", "| `starred`, `most` | constants")
        self.faults(
            "docs/AUDIT.md:N: `starred`: no place beside it, found in crates/congruence/specs/Starred.antt",
            "docs/AUDIT.md:N: `most`: no place beside it, found in crates/format/specs/Limits.antt",
        )
        self.mends("| `starred` (congruence/Starred), `most` (format/Limits) | constants")

    def test_a_function_and_a_method(self):
        self.change("docs/AUDIT.md", "`check` (entries), `loose`", "`check` (vanecitron), `loose`")
        self.change("docs/AUDIT.md", "`Head::make` (format)", "`Tail::make` (format)")
        self.faults(
            "docs/AUDIT.md:N: `check`: not in crates/vanecitron/src, found in crates/entries/src/lib.rt",
            "docs/AUDIT.md:N: `Tail::make`: not in crates/format/src, found nowhere",
        )
        self.change("docs/AUDIT.md", "`Tail::make` (format)", "`Head::make` (entries)")
        self.mends("`check` (entries), `loose` (format/Limits)", "`Head::make` (format)")

    def test_a_method_of_a_trait(self):
        with (self.root / "crates/format/src/lib.rt").open("a") as code:
            code.write("\nimpl<T: Copy> From<Tail<T>> for Head {\n    fn from(tail: Tail<T>) -> Head {}\n}\n")
        self.change("docs/AUDIT.md", "`Head::make` (format)", "`Head::make`, `Head::from` (format)")
        self.assertEqual(self.run_tool()[0], 0)

    def test_what_a_comment_says_is_not_declared(self):
        self.change("docs/AUDIT.md", "`Head::make` (format)", "`gone` (format)")
        self.faults("docs/AUDIT.md:N: `gone`: not in crates/format/src, found nowhere")

    def test_edits(self):
        self.change("docs/AUDIT.md", "`low` (format), `late` (format and entries)", "`low` (entries), `late` (format and vanecitron)")
        self.faults(
            "docs/AUDIT.md:N: `low`: not in crates/entries/must-fail, found in crates/format/must-fail/low.edit",
            "docs/AUDIT.md:N: `late`: not in crates/vanecitron/must-fail, found in crates/entries/must-fail/late.edit and in crates/format/must-fail/late.edit",
        )
        self.mends("edit: `low` (format), `late` (format and entries) |")

    def test_a_definition_is_no_edit(self):
        self.change("docs/AUDIT.md", "edit: `low` (format)", "edit: `make` (format)")
        self.faults("docs/AUDIT.md:N: `make`: not in crates/format/must-fail, found nowhere")

    def test_vectors_tests_and_crates(self):
        self.change("docs/AUDIT.md", "vectors: `r1`", "vectors: `r2`")
        self.change("docs/AUDIT.md", "difftest: `chains`; crate `entries`", "difftest: `helper`; crate `unit`")
        self.faults(
            "docs/AUDIT.md:N: `r2`: not in host/vectors/program",
            "docs/AUDIT.md:N: `helper`: not in host/difftest/tests",
            "docs/AUDIT.md:N: `unit`: no crate of crates.txt",
        )

    def test_running_text(self):
        self.change("docs/AUDIT.md", "`check` is the entry of", "`starred`, `most`, `chains_of` and `make` stand in")
        self.faults(
            "docs/AUDIT.md:N: `chains_of`: the page gives no place for it, found nowhere",
            "docs/AUDIT.md:N: `make`: the page gives no place for it, found in crates/format/src/lib.rt",
        )

    def test_a_lemma_of_a_proof_file(self):
        self.change("docs/AUDIT.md", "`made_right` (`crates", "`made_left` (`crates")
        self.faults("docs/AUDIT.md:N: `made_left`: not in crates/format/proofs/Laws.antt, found nowhere")

    def test_the_list_of_definitions(self):
        self.change("docs/AUDIT.md", "limits (`most`)", "limits (`starred`)")
        self.change("docs/AUDIT.md", "| `crates/congruence/specs/Starred.antt` | the table |\n", "")
        self.faults(
            "docs/AUDIT.md:N: `starred`: not in crates/format/specs/Limits.antt nor in crates/format/specs/Refusals.antt, found in crates/congruence/specs/Starred.antt",
            'docs/AUDIT.md:N: crates/congruence/specs/Starred.antt is not listed under "The definitions to read"',
        )

    def test_paths_groups_and_headings(self):
        self.change("docs/AUDIT.md", "*reading a book*", "*reading books*")
        self.change("docs/AUDIT.md", "### Book bytes", "### Books")
        self.change("docs/AUDIT.md", "`rt` runs it", "`host/test` runs it")
        self.faults(
            "docs/AUDIT.md:N: `host/test`: no such path",
            'docs/AUDIT.md:N: "Books": no heading of docs/SPECIFICATION.md',
            "docs/AUDIT.md:N: *reading books*: no such group in crates/cases/stdin",
        )


class Quotes(Small):
    def test_a_letter_that_differs(self):
        self.change("docs/AUDIT.md", "        ensures { check_of }", "        ensures { checkof }")
        self.faults("docs/AUDIT.md:N: not in crates/entries/src/lib.rt: pub fn check(book: &[u8]) -> u8")

    def test_white_space_counts(self):
        self.change("docs/AUDIT.md", "    pub loose : ℕ", "    pub loose  : ℕ")
        self.faults("docs/AUDIT.md:N: not in crates/format/specs/Limits.antt: pub loose  : ℕ")

    def test_lines_that_do_not_follow_each_other(self):
        self.change("docs/AUDIT.md", "Type 0 where\n\n    pub loose", "Type 0 where\n      pub loose")
        self.faults("docs/AUDIT.md:N: not in crates/format/specs/Limits.antt: pub record Accepts (a : B) : Type 0 where")

    def test_part_of_a_line(self):
        self.change("docs/AUDIT.md", "    pub record Accepts (a : B) : Type 0 where\n", "    pub record Accepts (a : B)\n")
        self.faults("docs/AUDIT.md:N: not in crates/format/specs/Limits.antt: pub record Accepts (a : B)")


class Counts(Small):
    def test_each_row_is_counted(self):
        for row in COUNTED.splitlines():
            with self.subTest(row=row):
                what, said = [cell.strip() for cell in row.strip("|").split("|")]
                wrong = said + "9"
                self.write("docs/AUDIT.md", PAGE.replace(row, f"| {what} | {wrong} |"))
                self.faults(f"docs/AUDIT.md:N: {what}: {wrong} on the page, {said} in the tree")
                self.mends(row)

    def test_rows_unknown_and_missing(self):
        self.change("docs/AUDIT.md", "| must-fail edits | 3 |\n", "| wrong edits | 3 |\n")
        self.faults('docs/AUDIT.md: "What is counted" has no row "must-fail edits"', 'docs/AUDIT.md:N: nothing counts "wrong edits"')

    def test_numbers_in_running_text(self):
        self.write("README.md", "There are 2 must-fail edits and 1,002 recorded inputs.\n")
        self.change("docs/DECISIONS.md", "1 calls of the entries and 2 of the reader", "3 calls of the entries and 1 of the reader")
        self.faults(
            'docs/DECISIONS.md:N: "3 calls of the entries": 1 in the tree',
            'docs/DECISIONS.md:N: "1 of the reader": 2 in the tree',
            'README.md:N: "1,002 recorded inputs": 2 in the tree',
            'README.md:N: "2 must-fail edits": 3 in the tree',
        )
        self.mends()
        self.assertEqual(self.read("README.md"), "There are 3 must-fail edits and 2 recorded inputs.\n")

    def test_the_table_of_crates(self):
        self.change("docs/DECISIONS.md", "| `congruence` | a | b |\n| `entries` | a | b |\n", "| `entries` | a | b |\n| `unit` | a | b |\n")
        self.faults("docs/DECISIONS.md:N: `unit`: no crate of crates.txt", "docs/DECISIONS.md:N: `congruence`: missing in this table")
        self.change("docs/DECISIONS.md", "| `entries` | a | b |\n| `unit` | a | b |\n", "| `entries` | a | b |\n| `congruence` | a | b |\n")
        self.faults("docs/DECISIONS.md:N: the order of crates.txt is format, congruence, entries, removing, heldbook, vanecitron")

    def test_the_table_of_times(self):
        table = "| crate | s | | crate | s |\n|---|---|---|---|---|\n| `format` | 1 | | `entries` | 2 |\n| `congruence` | 1 | | {} | 3 |\n| `heldbook` | 1 | | `removing` | 1 |\n"
        text = self.read("docs/DECISIONS.md")
        self.write("docs/DECISIONS.md", text + "\n" + table.format("`vanecitron`"))
        self.assertEqual(self.run_tool()[0], 0)
        self.write("docs/DECISIONS.md", text + "\n" + table.format("`host`"))
        self.faults("docs/DECISIONS.md:N: `host`: no crate of crates.txt", "docs/DECISIONS.md:N: `vanecitron`: missing in this table")


class Promises(Small):
    def test_a_requires_on_an_entry(self):
        self.change("crates/vanecitron/src/lib.rt", "-> u8\n{", "-> u8\n    requires { x }\n{")
        self.faults('docs/AUDIT.md: vanecitron has an entry with a requires: pub extern "C" fn vanecitron_check(book: &[u8]) -> u8')

    def test_an_axiom(self):
        self.write("crates/format/proofs/check/Proof.antt", "use Prim.Axiom\n")
        self.faults("docs/AUDIT.md: an axiom is named in crates/format/proofs/check/Proof.antt")
        self.write("crates/format/proofs/check/Proof.antt", "axiom pub given : A\n")
        self.faults("docs/AUDIT.md: an axiom is named in crates/format/proofs/check/Proof.antt")


GATE = """\
rt: format is kept: an earlier run on this machine proved the same files over the same libraries
== congruence
fn congruence::x: proved
logic=proved functions=3 sum=1
rt: congruence proved
rt: entries is kept: an earlier run on this machine proved the same files over the same libraries
rt: removing is kept: an earlier run on this machine proved the same files over the same libraries
rt: heldbook is kept: an earlier run on this machine proved the same files over the same libraries
== vanecitron
logic=proved functions=3 sum=1
rt: vanecitron proved
6 passed, 0 failed
"""

READS_AND_WRITES = "axioms libc: 2 reached of the 3 declared\n  libc::close\n  libc::read   reached\n  libc::write   reached\nlogic=proved functions=3 axioms=2 sum=1\n"


class Toolchain(Small):
    """The version, by a command `rt` of the test's own, and the logs of the gate; crate `entries` is a program, too."""

    def setUp(self):
        super().setUp()
        self.write("bin/rt", "#!/bin/sh\necho 'kit 1'\n")
        os.chmod(self.root / "bin/rt", 0o755)
        path = os.environ["PATH"]
        os.environ["PATH"] = f"{self.root / 'bin'}:{path}"
        self.addCleanup(os.environ.__setitem__, "PATH", path)
        self.write("crates/entries/src/main.rt", "// the program\n")
        self.write("target/log/ci.out", GATE)
        self.write("target/log/entries.out", READS_AND_WRITES)
        self.write("target/log/vanecitron.out", "axioms libc: none reached of the 3 declared\n  libc::close\n  libc::read\n  libc::write\nlogic=proved functions=3 sum=1\n")

    def run_tool(self, *arguments):
        out = io.StringIO()
        with contextlib.redirect_stdout(out):
            code = check_audit.main([*arguments, "--root", str(self.root)])
        return code, out.getvalue().splitlines()

    def test_right(self):
        self.assertEqual(self.run_tool()[0], 0)

    def test_another_version(self):
        self.write("bin/rt", "#!/bin/sh\necho 'kit 2'\n")
        self.faults("docs/AUDIT.md:N: `rt version` says `kit 2`")
        self.mends("`rt version` says `kit 2`.")

    def test_assumptions(self):
        self.write("target/log/entries.out", "axioms libc: 1 reached of the 3 declared\n  libc::close\n  libc::read   reached\n  libc::write\nlogic=proved functions=3 axioms=1\n")
        self.faults("docs/AUDIT.md: entries rests on 1 assumptions: ['libc::read']")
        self.write("target/log/entries.out", READS_AND_WRITES)
        self.change("target/log/ci.out", "fn congruence::x: proved\nlogic=proved functions=3 sum=1", "axioms congruence: x (1 of the 2 declared)\nlogic=proved functions=3 axioms=1 sum=1")
        self.faults("docs/AUDIT.md: congruence rests on 1 assumptions: ['x']")
        self.write("target/log/ci.out", GATE)
        self.change("target/log/vanecitron.out", "  libc::read\n", "  libc::read   reached\n")
        self.faults("docs/AUDIT.md: vanecitron rests on 0 assumptions: ['libc::read']")

    def test_c_functions_of_its_own(self):
        self.change("target/log/ci.out", "fn congruence::x: proved\nlogic=proved functions=3 sum=1", "logic=proved functions=3 foreign=x(1) sum=1")
        self.faults("docs/AUDIT.md: congruence rests on 0 assumptions: []")

    def test_not_proved(self):
        self.change("target/log/ci.out", "rt: format is kept: an earlier run on this machine proved the same files over the same libraries\n", "== format\nlogic=not-proved\nrt: format NOT PROVED\n")
        self.change("target/log/ci.out", "rt: congruence proved\n", "")
        (self.root / "target/log/vanecitron.out").unlink()
        self.faults(
            "docs/AUDIT.md: format is not proved: run rt ci first",
            "docs/AUDIT.md: congruence is not proved: run rt ci first",
            "docs/AUDIT.md: vanecitron is not proved: run rt ci first",
        )


if __name__ == "__main__":
    unittest.main()
