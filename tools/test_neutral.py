#!/usr/bin/env python3
"""Tests of tools/neutral on single lines and small logs; no crate is checked."""
import importlib.machinery
import importlib.util
import pathlib
import unittest

PATH = pathlib.Path(__file__).resolve().parent / "neutral"
LOADER = importlib.machinery.SourceFileLoader("neutral", str(PATH))
neutral = importlib.util.module_from_spec(importlib.util.spec_from_loader("neutral", LOADER))
LOADER.exec_module(neutral)

CODE = """\
fn asked(kind: usize) -> Asked
{
    if kind == 0 {
        return Asked::Addition;
    }
    Asked::Withdrawal(kind)
}
"""
SWAPPED = """\
fn asked(kind: usize) -> Asked
{
    if kind != 0 {
        return Asked::Withdrawal(kind);
    }
    Asked::Addition
}
"""
TABLE = "pub words_hold : WordsHold\nwords_hold = (refl, tt)\n"
LOG = """\
./proofs/Examples.antt:2:15: error: `words_hold`: computed as far as they go, the two types differ
  expected type `1 ≡ 0`, but this has type `1 ≡ 1`
./proofs/Laws.antt:1:1: error: `law`: `rw`: no
./proofs/Laws.antt:9:1: error: 1 declaration that depends on `law`, which was rejected, was not checked: later
./proofs/Laws.antt:12:1: error: 2 declarations that depend on `law`, which was not admitted, were not checked: latest, last (via latest)
logic=not-proved
"""
FUNCTIONS = """\
./proofs/Head/make/Proof.antt:19:11: error: `make_spec`: `search`: no proof of `c.args.x ≡ 1` was found
./proofs/first/Proof.antt:5:5: error: 1 declaration that depends on `close`, which was not admitted, was not checked: first_spec
note: src/lib.rt:33:9: it is not proved that what the function ensures holds when it returns (`returns-then-x-y`)
fn numbers::larger: no proof: expected answers in ./proofs/larger/Answers.antt; `search` did not prove `returns-then-x-y`
fn numbers::Head::make: not proved
fn numbers::first: not proved; it calls `numbers::larger`, which is not proved
fn numbers::second: no proof: it calls `numbers::larger`, which is not proved
fn numbers::third: proved
logic=not-proved
"""


class Neutral(unittest.TestCase):
    def test_pairs(self):
        self.assertEqual(neutral.pairs_of("file: a\nold: x\nnew: y\nold:   z\nnew:\n"), [("a", "x", "y"), ("a", "  z", "")])

    def test_symmetric_functions_are_turned(self):
        self.assertEqual(
            [line for _, line in neutral.in_definition("same a b = eqb (length a) (length b) && is_prefix a b")],
            ["same a b = eqb (length b) (length a) && is_prefix a b", "same a b = is_prefix a b && eqb (length a) (length b)"],
        )

    def test_branches_are_swapped(self):
        self.assertEqual([line for _, line in neutral.in_definition("f x = cond (leb x 1) [] (x ∷ [])")], ["f x = cond (not (leb x 1)) (x ∷ []) []"])

    def test_sums_are_turned_as_a_whole(self):
        self.assertEqual([line for _, line in neutral.in_definition("f r = get_or (2 * r + 1) 0")], ["f r = get_or (1 + 2 * r) 0"])
        self.assertEqual([line for _, line in neutral.in_definition("f r = (length r.items + (g r).start)")], ["f r = ((g r).start + length r.items)"])
        self.assertEqual(list(neutral.in_definition("f r = g (a - r + 1)")), [])

    def test_not_is_brought_in(self):
        text = "use Rattle.std.specs.Prelude.{cond}\nf x = cond (leb x 1) 0 x\n"
        self.assertEqual([new for _, _, new in neutral.rewritings("specs/F.antt", text, "f x = ")], ["use Rattle.std.specs.Prelude.{not, cond}\nf x = cond (not (leb x 1)) x 0\n"])

    def test_tests_and_branches_of_code(self):
        made = [new for _, _, new in neutral.rewritings("src/lib.rt", CODE, "if kind == 0 {")]
        self.assertEqual(made, [CODE.replace("kind == 0", "0 == kind"), SWAPPED])

    def test_a_table_is_told_and_what_follows_from_a_failure_is_not(self):
        came = neutral.came_of(1, LOG, lambda name: TABLE if name == "proofs/Examples.antt" else "law = x\n")
        self.assertEqual(came, neutral.Came("refused", {"words_hold": True, "law": False}))

    def test_a_function_is_told_and_what_calls_it_is_not(self):
        self.assertEqual(neutral.came_of(1, FUNCTIONS, lambda name: ""), neutral.Came("refused", {"Head::make": False, "larger": False}))
        self.assertEqual(neutral.came_of(1, "error[E0425]: no\n", lambda name: "").status, "did not reach the prover")

    def test_verdicts(self):
        edit = neutral.Came("refused", {"table": True, "law": False})
        self.assertEqual(neutral.judge(edit, [neutral.Came("refused", {"law": False})]), ("apart", {"table": True}))
        self.assertEqual(neutral.judge(edit, [neutral.Came("refused", {"law": False, "table": False})])[0], "alike")
        self.assertEqual(neutral.judge(edit, [neutral.Came("proved", {})])[0], "apart")
        self.assertEqual(neutral.judge(edit, [])[0], "unknown")


if __name__ == "__main__":
    unittest.main()
