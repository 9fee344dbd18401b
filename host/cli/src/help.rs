//! The words of the command, with the help of each: how it is called, what it gives, and an example, which a test runs.

use std::ops::RangeInclusive;

use crate::words::{change, check, compare, explain, least, trace, translate, Answered};
use crate::Desk;

/// A word of the command.
pub struct Word {
    pub name: &'static str,
    /// its arguments, as a call has them
    pub form: &'static str,
    pub arguments: RangeInclusive<usize>,
    /// the options that it takes beside --json and --help
    pub options: &'static [&'static str],
    /// what it does, in a few words
    brief: &'static str,
    about: &'static str,
    /// a call and what it prints
    example: &'static str,
    pub answer: fn(&mut Desk) -> Answered,
}

const MANY: usize = usize::MAX;

pub static WORDS: [Word; 10] = [
    Word {
        name: "check",
        form: "BOOK.txt",
        arguments: 1..=1,
        options: &[],
        brief: "whether a book is accepted, the cut of each side, k, and an allowance that suffices",
        about: "Says whether the book is accepted. Of one that is: the cut of each side, drawn into it, and of how
many pieces the side is made; k, the length of the longest Z; and an allowance that no comparison
uses up. Of one that is refused: what is wrong, with line and column, and of a loose side which
pieces it is made of and where else each of them stands. The status is 0 or 2.",
        example: "    $ vanecitron check examples/q.txt
    examples/q.txt: accepted: 1 rule over 4 letters, which meets C(4)

    rule  side   at   cut     pieces  made of
       1  left   3:1  a|bd|c       4  a, b, d, c
       1  right  3:8  c|ad|b       4  c, a, d, b

    A cut is X|Y|Z: X is the longest front that is a piece, Z the longest end that is one. A side of fewer than 4 pieces would be refused.
    k, the length of the longest Z, is 1. An allowance of 2 times the length of the shorter run always suffices, 8,192 for every two runs.
    These are the library's answers; what a side is made of is found by this command.",
        answer: check::check,
    },
    Word {
        name: "sheet",
        form: "BOOK.txt",
        arguments: 1..=1,
        options: &[],
        brief: "the cut sheet alone",
        about: "The table of `check` and nothing else. `none` under pieces says that a side is no product of
pieces, so that it cannot be loose.",
        example: "    $ vanecitron sheet examples/rinse.txt
    rule  side   at   cut    pieces  made of
       1  left   3:1  a|d|a  none    d stands nowhere else
       1  right  3:7  |c|a   none    c stands nowhere else
       2  left   4:1  |c|a   none    c stands nowhere else
       2  right  4:6  |e|    none    e stands nowhere else",
        answer: check::sheet,
    },
    Word {
        name: "compare",
        form: "BOOK.txt [RUN RUN]",
        arguments: 1..=3,
        options: &["allowance", "width"],
        brief: "whether a chain of exchanges joins two runs",
        about: "Compares two runs. Without runs it answers the comparisons in the book's text, a line each, with
their own allowances. The status is 0 where a chain of exchanges joins the runs, 1 where none
does, however long, and 2 where there is no answer: refused, or spent. Of several it is the
highest.",
        example: "    $ vanecitron compare examples/q.txt cadbadb abdabdc
    same: a chain of exchanges joins cadbadb and abdabdc; 3 rounds",
        answer: compare::compare,
    },
    Word {
        name: "trace",
        form: "BOOK.txt RUN RUN",
        arguments: 2..=3,
        options: &["width"],
        brief: "every round of a comparison, a line each",
        about: "Compares two runs round by round, so that it can be followed with a pencil: the row of the
procedure that applies (docs/SPECIFICATION.md, \"The rows\"), u, v and the mark before it, what is
exchanged, what goes and what stays. The status is that of compare.",
        example: "    $ vanecitron trace examples/q.txt abdcad cadbac
    round  row  u       v       mark  what is done
        1    4  abdcad  cadbac  -     in v cadb becomes abdc; abd goes from both; cad and cac stay
             3  cad     cac     -     u has the clean front cad of cadb; v begins with no XY of its family, abd and cad: different

    different: no chain of exchanges, however long, joins abdcad and cadbac; 1 round
    The rounds and the answer are the library's. The row and what is done are found by this command, and lead from each round to the next.",
        answer: trace::trace,
    },
    Word {
        name: "least",
        form: "BOOK.txt [RUN ...]",
        arguments: 1..=MANY,
        options: &[],
        brief: "the least run of each run, for filing",
        about: "The least run of each run, a line each: of all that exchanges make of it the first in dictionary
order, where the codes 32 to 63 come first in rising order and then 0 to 31. Exchanges join two
runs exactly when their least runs are equal. Without runs they are read from standard input, one
a line.",
        example: "    $ vanecitron least examples/q.txt cadb cadbadb
    abdc
    abdabdc",
        answer: least::least,
    },
    Word {
        name: "front",
        form: "BOOK.txt RUN PIECE",
        arguments: 2..=3,
        options: &[],
        brief: "what is left of a run once a front is taken off",
        about: "The run w, the first in the order of least, such that exchanges turn PIECE followed by w into RUN.
PIECE is a piece of the book, or - for the empty run. Where no such w exists, refusal 19 says so.",
        example: "    $ vanecitron front examples/q.txt abdc c
    adb",
        answer: least::front,
    },
    Word {
        name: "change",
        form: "BOOK.txt CHANGE ...",
        arguments: 2..=MANY,
        options: &["output"],
        brief: "changes of a held book, each proposed, shown and posted; and the new book",
        about: "Holds the book and makes each change in turn: 'add RUN = RUN' puts a rule behind the others, 'drop
NUMBER' withdraws the rule of that number, the first being 1; later ones then move down one. Each
is proposed, what it does to the cuts is shown, and it is posted. Then the new book is printed,
with the text's own comments and comparisons. What is shown are comments of it, so that the whole
output is a text again. The first change that is refused ends it: no book is printed, and the
status is 2.",
        example: "    $ vanecitron change examples/rinse.txt 'drop 1' 'add ca = db'
    # change 1, drop 1: posted; the book has 1 rule
    #   rule 1, left side was |c|a, no product of pieces; it is |ca|, no product of pieces
    #   k was 1; it is 0
    # change 2, add ca = db: posted; the book has 2 rules
    #   rule 2, left side is new: |ca|, no product of pieces
    #   rule 2, right side is new: |db|, no product of pieces
    #   no side that was there moved
    #   k is 0, as before
    # Three ways of rinsing that may be exchanged for each other, written as two rules with one of them in both (docs/ROWS.md takes the second comparison round by round).
    letters 5
    ca = e                      # ca stands on two sides; ada, ca and e are a family
    ca = db

    compare e ada 100           # no rule has both; the chain goes over ca
    compare ade ce 100
    compare ad da 100",
        answer: change::change,
    },
    Word {
        name: "encode",
        form: "BOOK.txt",
        arguments: 1..=1,
        options: &["output"],
        brief: "a text as bytes, as the program and the library take them",
        about: "The bytes of the text's book and comparisons, on standard output or in a file.",
        example: "    $ vanecitron encode --json examples/loose.txt
    {\"answer\":\"bytes\",\"length\":39,\"bytes\":\"01000100040a000200040400010302000201031000030064000000040004000001030200020103\"}",
        answer: translate::encode,
    },
    Word {
        name: "decode",
        form: "FILE",
        arguments: 1..=1,
        options: &["output"],
        brief: "bytes as text",
        about: "The text of a book's or an input's bytes, a line for each record. Bytes have no comments.",
        example: "    $ vanecitron decode host/vectors/program/r8-2.in
    letters 3
    c = c
    compare a a 3",
        answer: translate::decode,
    },
    Word {
        name: "explain",
        form: "BOOK.txt [OUTPUT]",
        arguments: 1..=2,
        options: &[],
        brief: "what the lines mean that the program printed",
        about: "What the program printed for this text, in the text's terms. OUTPUT is a file, or one line such as
'refused 8 0'; without it standard input is read. Nothing is asked of the library here.",
        example: "    $ vanecitron explain examples/loose.txt 'refused 8 0'
    refused 8 0: loose: rule 1, left side, abdc, is made of 3 pieces, a|bd|c; C(4) asks that no side be made of fewer than 4 (examples/loose.txt:3:1)",
        answer: explain::explain,
    },
];

const TEXT_FORM: &str = "A text has one item a line; # begins a comment.

    letters 4               # the number of letters (steps), first and once
    abdc = cadb             # a rule: its left side and its right side
    compare abdc cadb 100   # two runs to compare and the allowance of rounds; behind all rules

A run is written with the letters a to z, which are the codes 0 to 25, or as numbers with dots
between them: 0.1.27. The empty run is -. @FILE stands for the runs in a file, one a line, and @-
for those on standard input; - as BOOK.txt is standard input.";

const OPTIONS: [(&str, &str, &str); 3] = [
    ("allowance", "--allowance N", "how many rounds may be taken; without it as many as it takes"),
    ("width", "--width N", "how many steps of a run are shown before its middle is left out; 24 without it"),
    ("output", "-o, --output FILE", "where the result goes; standard output without it"),
];

const STATUS: &str = "The status is 0 same, accepted or done; 1 different; 2 refused or spent, or an error in the call, a
text or a file, which is told in a sentence. Every answer is the proved library's. What is said
beyond it, such as which pieces make a side up, is found by this command and says so.";

/// The help of a word, or of the command.
pub fn text(word: Option<&Word>) -> String {
    match word {
        None => whole(),
        Some(word) => of(word),
    }
}

fn whole() -> String {
    let words: Vec<String> = WORDS.iter().map(|word| format!("    {:<8} {:<19} {}", word.name, word.form, word.brief)).collect();
    let words = words.join("\n");
    let more = "vanecitron WORD --help says more, with an example. --json gives every answer as one object a line\n(docs/COMMAND.md).";
    format!("vanecitron WORD ARGUMENTS: books of exchange rules and runs, as text\n\n{words}\n\n{more}\n\n{TEXT_FORM}\n\n{STATUS}")
}

fn of(word: &Word) -> String {
    let taken = OPTIONS.iter().filter(|(name, _, _)| word.options.contains(name));
    let json = ("json", "--json", "every answer as one object a line (docs/COMMAND.md)");
    let options: Vec<String> = taken.chain([&json]).map(|(_, form, meaning)| format!("    {form:<18} {meaning}")).collect();
    format!("vanecitron {} {}\n\n{}\n\n{}\n\n{}", word.name, word.form, word.about, options.join("\n"), word.example)
}
