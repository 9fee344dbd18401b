"""Tests of `moved`: small repositories in a temporary folder, one for each thing that can become of a declaration."""

import os
import subprocess
import sys
import tempfile
import unittest

TOOL = os.path.join(os.path.dirname(os.path.abspath(__file__)), "moved")

WORDS = """-- words
use Rattle.std.specs.Prelude.{ℕ, ◌+◌}

-- a word
abbrev pub Word : Type 0
Word = List ℕ

unfoldable pub front : Word → Word → Bool
front [] v = true
front (x ∷ u) [] = false
front (x ∷ u) (y ∷ v) = eqb x y && front u v

pub data Next : Type 0 where
  end : Bool → Next
  go : Word → Next

pub record Occurs (w : Word) (p : ℕ) : Type 0 where
  pub before : Word
  pub place : length before ≡ p

infixl 2 ◌gives◌
abbrev pub ◌gives◌ : Word → Next → Pair
word gives next = record { word = word; next = next }

module _ (B : List Word) (i : ℕ) where
  -- row 8
  unfoldable pub row8 : Next
  row8 =
      let s = front B i in
      go s

  module _ (j : ℕ) where
    pub row7 : Next
    row7 = row8
"""

CODE = """// the code
use words::Word;

pub struct Head { letters: u8 }

impl Head {
    pub const MOST: usize = 64;

    // makes one { with a brace in the comment
    pub fn make(letters: usize) -> Made
        ensures { result ≡ made_head letters }
    {
        if letters > Self::MOST { return Made::Refused; }
        Made::Fine
    }
}

fn inner(
    text: &[u8],
    n: usize,
) -> bool
    requires { n ≤ length text.now }
    ensures quiet { result ≡ quiet {0} text.now n }
    ensures short { n < 64 }
{
    put(b"}", '{', n)
}

pub extern "C" fn check(book: &[u8]) -> u32
    ensures { result ≡ check_of book.now }
{
    0
}

fn silent() {}
"""

LAWS = """use Rattle.std.specs.Prelude.{length}
pub front_nil : (v : Word) → front [] v ≡ true
unfolding front
front_nil v = refl

pub pick {ℓ} : {A : Type ℓ} (x : A) → A
pick x = go x
  where
    go : A → A
    go y = y

pub ruleset fronts = (front_nil, pick)
"""

PROOF = """use Rattle.code.proofs.inner.Goals as goal
pub returns : goal.returns
returns c = search fronts
"""

BASE = {
    "crates/words/specs/Words.antt": WORDS,
    "crates/words/specs/Lib.antt": "pub mod Words\n",
    "crates/words/proofs/Laws.antt": LAWS,
    "crates/code/src/lib.rt": CODE,
    "crates/code/proofs/inner/Answers.antt": PROOF,
    "crates/code/proofs/Head/make/Proof.antt": PROOF,
}


class Repository(unittest.TestCase):
    def setUp(self):
        folder = tempfile.TemporaryDirectory()
        self.addCleanup(folder.cleanup)
        self.root = folder.name
        self.git("init", "-q")
        self.old = self.commit(BASE)

    def git(self, *arguments):
        command = ["git", "-c", "user.name=t", "-c", "user.email=t@t", "-c", "commit.gpgsign=false", *arguments]
        return subprocess.run(command, cwd=self.root, capture_output=True, check=True).stdout.decode().strip()

    def commit(self, files):
        """The tree is these files and no others."""
        for path in self.git("ls-files").split():
            os.remove(os.path.join(self.root, path))
        for path, text in files.items():
            os.makedirs(os.path.join(self.root, os.path.dirname(path)), exist_ok=True)
            with open(os.path.join(self.root, path), "w", encoding="utf-8") as file:
                file.write(text)
        self.git("add", "-A")
        self.git("commit", "-q", "--allow-empty", "-m", "tree")
        return self.git("rev-parse", "HEAD")

    def moved(self, *arguments, status=0):
        done = subprocess.run([sys.executable, "-B", TOOL, *arguments], cwd=self.root, capture_output=True, check=False)
        self.assertEqual(done.returncode, status, done.stderr.decode())
        return done.stdout.decode() if status == 0 else done.stderr.decode()

    def after(self, *options, **changes):
        """The output for BASE with some files replaced, or removed where the text is None; a path's key has __ for / and _dot_ for the dot."""
        files = dict(BASE)
        for key, text in changes.items():
            path = key.replace("__", "/").replace("_dot_", ".")
            files.pop(path, None)
            if text is not None:
                files[path] = text
        self.commit(files)
        return self.moved(self.old, *options)

    def edited(self, path, old, new, *options):
        """The output for BASE with one text edited, which must stand there once."""
        self.assertEqual(BASE[path].count(old), 1)
        self.commit({**BASE, path: BASE[path].replace(old, new)})
        return self.moved(self.old, *options)

    def total(self, output, kind):
        """The five cells of a kind: changed, came, went, moved, stayed."""
        (line,) = [line for line in output.split("\n") if line.startswith(kind)]
        return [cell.strip() + ")" for cell in line[len(kind) :].strip().split(")")[:-1]]


class Stayed(Repository):
    def test_every_declaration_is_found(self):
        output = self.after()
        self.assertEqual(self.total(output, "definitions")[4], "7 (21)")
        self.assertEqual(self.total(output, "public promises")[4], "2 (4)")
        self.assertEqual(self.total(output, "inner promises")[4], "1 (7)")
        self.assertEqual(self.total(output, "lemmas")[4], "3 (9)")
        self.assertEqual(self.total(output, "function proofs")[4], "2 (4)")
        for kind in ("definitions", "public promises", "inner promises", "lemmas", "function proofs"):
            self.assertEqual(self.total(output, kind)[:4], ["0 (0)"] * 4)
        self.assertIn("crate words: all stayed (7 definitions, 3 lemmas; 30 lines)", output)

    def test_comments_use_lines_and_white_space_do_not_count(self):
        words = WORDS.replace("-- a word\n", "-- another\n-- remark\n").replace("{ℕ, ◌+◌}", "{ℕ}").replace("  -- row 8\n", "")
        words = words.replace("front (x ∷ u) [] = false", "front ( x  ∷ u ) [] =\n    false -- never")
        words = words.replace("record { word = word; next = next }", "record {\n      word = word;\n      next = next;\n    }")
        code = CODE.replace("fn inner(\n    text: &[u8],\n    n: usize,\n)", "fn inner(text: &[u8], n: usize)").replace("use words::Word;\n", "")
        proof = PROOF.replace("use Rattle.code.proofs.inner.Goals as goal", "use Rattle.code.proofs.inner.Goals.{close,\n  open}\n-- remark")
        output = self.after(crates__words__specs__Words_dot_antt=words, crates__code__src__lib_dot_rt=code, crates__code__proofs__inner__Answers_dot_antt=proof)
        for kind in ("definitions", "public promises", "inner promises", "lemmas", "function proofs"):
            self.assertEqual(self.total(output, kind)[:4], ["0 (0)"] * 4, kind)

    def test_a_space_that_parts_words_counts(self):
        output = self.edited("crates/words/specs/Words.antt", "front B i", "front Bi")
        self.assertIn("changed  row8", output)

    def test_hints_do_not_count(self):
        for hint in ("#[inline(never)]", "#[tactic(auto, using(crate::proofs::Laws::front_nil))]"):
            output = self.edited("crates/code/src/lib.rt", "fn inner(", f"{hint}\nfn inner(")
            self.assertEqual(self.total(output, "inner promises")[4], "1 (7)")

    def test_bodies_of_functions_do_not_count(self):
        output = self.edited("crates/code/src/lib.rt", """put(b"}", '{', n)""", "false")
        self.assertEqual(self.total(output, "inner promises")[4], "1 (7)")
        self.assertEqual(self.total(output, "public promises")[4], "2 (4)")


class Changed(Repository):
    def test_a_clause_a_constructor_a_field_and_a_fixity(self):
        for old, new, name in [
            ("[] = false", "[] = true", "front"),
            ("go : Word → Next", "go : Word → Word → Next", "Next"),
            ("pub before : Word\n", "", "Occurs"),
            ("infixl 2", "infixl 3", "◌gives◌"),
            ("word gives next = record { word", "word gives next = record { text", "◌gives◌"),
            ("go s\n", "go B\n", "row8"),
        ]:
            output = self.edited("crates/words/specs/Words.antt", old, new)
            self.assertEqual(self.total(output, "definitions")[0].split()[0], "1", name)
            self.assertIn(f"changed  {name}  (specs/Words.antt, ", output)

    def test_the_parameters_of_the_modules_around_count(self):
        output = self.edited("crates/words/specs/Words.antt", "(j : ℕ)", "{j : ℕ}")
        self.assertIn("changed  row7", output)
        self.assertEqual(self.total(output, "definitions")[0], "1 (2 to 2)")
        output = self.edited("crates/words/specs/Words.antt", "(i : ℕ)", "(i k : ℕ)")
        self.assertEqual(self.total(output, "definitions")[0], "2 (6 to 6)")

    def test_lines_before_and_after(self):
        output = self.edited("crates/words/specs/Words.antt", "front (x ∷ u) [] = false\n", "")
        self.assertIn("changed  front  (specs/Words.antt, 4 to 3 lines)", output)
        self.assertEqual(self.total(output, "definitions")[0], "1 (4 to 3)")

    def test_promises_public_inner_and_of_a_method(self):
        for old, new, name, kind in [
            ("made_head letters", "made_head 1", "Head::make", "public promises"),
            ("make(letters: usize)", "make(letters: u8)", "Head::make", "public promises"),
            ("check_of", "checks_of", "check", "public promises"),
            ("n ≤ length", "n < length", "inner", "inner promises"),
        ]:
            output = self.edited("crates/code/src/lib.rt", old, new)
            self.assertIn(f"changed  {name}  (src/lib.rt, ", output)
            self.assertEqual(self.total(output, kind)[0].split()[0], "1")

    def test_a_function_that_becomes_public_has_changed(self):
        output = self.edited("crates/code/src/lib.rt", "fn inner(", "pub fn inner(")
        self.assertIn("changed  inner  (src/lib.rt, 7 to 7 lines, was an inner promise)", output)

    def test_lemmas_and_function_proofs(self):
        output = self.edited("crates/words/proofs/Laws.antt", "    go y = y", "    go y = go y")
        self.assertIn("changed  pick  (proofs/Laws.antt, 5 to 5 lines)", output)
        output = self.edited("crates/words/proofs/Laws.antt", "unfolding front\n", "")
        self.assertIn("changed  front_nil  (proofs/Laws.antt, 3 to 2 lines)", output)
        output = self.after(crates__code__proofs__Head__make__Proof_dot_antt=PROOF + "-- a remark\nmore = 1\n")
        self.assertIn("changed  Head::make  (proofs/Head/make/Proof.antt, 2 to 3 lines)", output)

    def test_the_files_of_a_function_are_one_proof(self):
        goal = "use Rattle.code.proofs.inner.Goals as goal\n"
        output = self.after(crates__code__proofs__inner__Answers_dot_antt=goal + "pub returns : goal.returns\nreturns c = refl\n", crates__code__proofs__inner__Invariants_dot_antt="pub loop : A\n")
        self.assertIn("changed  inner  (proofs/inner, 2 to 3 lines, from proofs/inner/Answers.antt)", output)
        self.assertEqual(self.total(output, "function proofs"), ["1 (2 to 3)", "0 (0)", "0 (0)", "0 (0)", "1 (2)"])

    def test_a_clause_and_its_name(self):
        for old, new in [("ensures short { n < 64 }", "ensures short { n < 65 }"), ("ensures short {", "ensures brief {")]:
            output = self.edited("crates/code/src/lib.rt", old, new)
            self.assertIn("changed  inner  (src/lib.rt, 7 to 7 lines)", output)


class CameAndWent(Repository):
    def test_a_definition(self):
        output = self.edited("crates/words/specs/Words.antt", "pub data Next ", "pub data Later ")
        self.assertIn("went     Next  (specs/Words.antt, 3 lines)", output)
        self.assertIn("came     Later  (specs/Words.antt, 3 lines)", output)

    def test_a_contract(self):
        output = self.edited("crates/code/src/lib.rt", "fn silent() {}", "fn silent()\n    ensures { True }\n{}")
        self.assertIn("came     silent  (src/lib.rt, 2 lines)", output)
        output = self.edited("crates/code/src/lib.rt", "        ensures { result ≡ made_head letters }\n", "")
        self.assertIn("went     Head::make  (src/lib.rt, 2 lines)", output)

    def test_a_proof(self):
        output = self.after(crates__code__proofs__inner__Answers_dot_antt=None)
        self.assertIn("went     inner  (proofs/inner/Answers.antt, 2 lines)", output)


class Moved(Repository):
    def test_to_another_file(self):
        output = self.after(crates__words__specs__Words_dot_antt=None, crates__words__specs__Basics_dot_antt=WORDS)
        self.assertEqual(self.total(output, "definitions"), ["0 (0)", "0 (0)", "0 (0)", "7 (21)", "0 (0)"])
        self.assertIn("moved    row7  (specs/Basics.antt, 2 lines, from specs/Words.antt)", output)

    def test_from_proofs_to_specs(self):
        law = "pub front_nil : (v : Word) → front [] v ≡ true\nunfolding front\nfront_nil v = refl\n"
        output = self.after(crates__words__proofs__Laws_dot_antt=LAWS.replace(law, ""), crates__words__specs__Nil_dot_antt=law)
        self.assertIn("moved    front_nil  (specs/Nil.antt, 3 lines, from proofs/Laws.antt, was a lemma)", output)

    def test_a_renamed_crate(self):
        self.commit({path.replace("crates/code/", "crates/entries/"): text for path, text in BASE.items()})
        output = self.moved(self.old)
        self.assertEqual(self.total(output, "public promises"), ["0 (0)", "0 (0)", "0 (0)", "2 (4)", "0 (0)"])
        self.assertIn("moved    Head::make  (src/lib.rt, 2 lines, from code/src/lib.rt)", output)
        self.assertEqual(self.moved(self.old, "--public").split("\n")[0], "same     entries::Head::make, from code/src/lib.rt")

    def test_to_another_crate_and_changed(self):
        code = CODE.replace("n ≤ length", "n < length")
        self.commit({**{path.replace("crates/code/", "crates/entries/"): text for path, text in BASE.items()}, "crates/entries/src/lib.rt": code})
        output = self.moved(self.old)
        self.assertIn("changed  inner  (src/lib.rt, 7 to 7 lines, from code/src/lib.rt)", output)

    def test_the_same_name_for_another_thing_elsewhere(self):
        words = WORDS.replace("pub data Next : Type 0 where\n  end : Bool → Next\n  go : Word → Next\n", "")
        other = "pub record Next (a b c : ℕ) : Type 1 where\n  pub x : a ≡ b\n  pub y : b ≡ c\n"
        output = self.after(crates__words__specs__Words_dot_antt=words, crates__other__specs__Next_dot_antt=other)
        self.assertEqual(self.total(output, "definitions"), ["0 (0)", "1 (3)", "1 (3)", "0 (0)", "6 (18)"])

    def test_one_of_two_equal_ones_stays(self):
        output = self.after(crates__other__specs__Words_dot_antt=WORDS)
        self.assertEqual(self.total(output, "definitions"), ["0 (0)", "7 (21)", "0 (0)", "0 (0)", "7 (21)"])


class Options(Repository):
    def test_brief_is_the_totals_alone(self):
        self.assertEqual(len(self.after("--brief").strip().split("\n")), 6)

    def test_crate(self):
        output = self.after("--crate", "words", crates__code__src__lib_dot_rt="")
        self.assertNotIn("crate code", output)
        self.assertEqual(self.total(output, "public promises"), ["0 (0)"] * 5)
        self.assertIn("no crate nothing", self.moved(self.old, "--crate", "nothing", status=2))

    def test_public(self):
        output = self.edited("crates/code/src/lib.rt", "check_of", "checks_of", "--public")
        self.assertEqual(output, "same     code::Head::make\nchanged  code::check\n")
        output = self.edited("crates/code/src/lib.rt", "pub extern \"C\" fn check(", "pub fn check_book(", "--public")
        self.assertEqual(output, "same     code::Head::make\nwent     code::check\ncame     code::check_book\n")

    def test_two_commits_and_neither_is_the_work_tree(self):
        new = self.commit({**BASE, "crates/words/specs/More.antt": "abbrev pub more : ℕ\nmore = 1\n"})
        self.commit(BASE)
        with open(os.path.join(self.root, "crates/words/specs/Words.antt"), "w", encoding="utf-8") as file:
            file.write("")
        self.assertEqual(self.total(self.moved(self.old, new), "definitions")[1], "1 (2)")
        self.assertEqual(self.total(self.moved(self.old), "definitions"), ["0 (0)"] * 4 + ["7 (21)"])
        self.assertEqual(self.git("status", "--short"), "M crates/words/specs/Words.antt")

    def test_from_a_folder_below(self):
        below = os.path.join(self.root, "crates", "words")
        done = subprocess.run([sys.executable, "-B", TOOL, self.old, "--brief"], cwd=below, capture_output=True, check=True)
        self.assertEqual(self.total(done.stdout.decode(), "definitions")[4], "7 (21)")

    def test_a_wrong_commit(self):
        self.assertIn("no such commit", self.moved("nowhere", status=2))


if __name__ == "__main__":
    unittest.main()
