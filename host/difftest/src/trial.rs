//! One call of an entry beside the reference, for each entry. A difference ends the trial with the call as it is recorded in vectors/entries.txt.

use std::cmp::Ordering;

use reference::{Accepted, Refusal};
use vectors::hex;

use crate::entries::{Compared, Entries, Fast, Refused, Rounded};
use crate::lent::Lent;
use crate::tally::Tally;

/// The sizes that the single round's buffers need.
pub const NEXT: [usize; 3] = [4_224, 4_224, 64];

/// The bytes of the cut sheet for each side, and those of the sheet of a full book.
pub const SHEET_SIDE: usize = 4;
pub const SHEET: usize = 64 * SHEET_SIDE;

/// The most letters of a least word, and of what a front leaves.
pub const LEAST: usize = 262_144;

/// What the reference says of a book.
pub type Known = Result<Accepted, Refusal>;

/// What is known of a least word, or of what a front leaves: the word itself, or the refusal that comes before room is asked for.
pub type KnownWord = Result<Vec<u8>, Refused>;

pub(crate) fn of_reference(refusal: Refusal) -> Refused {
    (refusal.number, refusal.place)
}

/// What a call writes at the start of a buffer that has room for everything.
fn in_ample_buffer(call: impl FnOnce(&mut [u8]) -> Result<u64, Refused>) -> KnownWord {
    let mut buffer = vec![0; LEAST];
    let length = call(&mut buffer)?;
    buffer.truncate(length as usize);
    Ok(buffer)
}

/// The entries under trial, and what was met so far.
pub struct Trial<'a> {
    pub entries: &'a dyn Entries,
    pub tally: Tally,
}

impl<'a> Trial<'a> {
    pub fn new(entries: &'a dyn Entries) -> Trial<'a> {
        Trial { entries, tally: Tally::default() }
    }

    pub(crate) fn met<T>(&mut self, result: &Result<T, Refused>) {
        self.tally.calls += 1;
        if let Err((number, _)) = result {
            self.tally.refused[*number as usize] += 1;
        }
    }

    /// The check; gives what the reference knows of the book.
    pub fn check(&mut self, book: &[u8]) -> Known {
        let known = reference::accept(book);
        let expected = known.as_ref().map(|accepted| accepted.relations() as u64).map_err(|refusal| of_reference(*refusal));
        assert_eq!(self.entries.check(book), expected, "check {}", hex(book));
        self.met(&expected);
        self.meet_book(book, &known);
        known
    }

    /// Counts what a book is.
    pub fn meet_book(&mut self, book: &[u8], known: &Known) {
        match known {
            Ok(accepted) => {
                self.tally.accepted += 1;
                self.tally.meet_families(accepted);
            }
            Err(Refusal { number: 8, place }) => {
                let read = reference::book::read(book).expect("8 comes behind 1 to 6");
                self.tally.meet_loose(&read.sides, *place as usize);
            }
            Err(_) => {}
        }
    }

    /// The cut sheet in a buffer of this size.
    pub fn cut_sheet(&mut self, book: &[u8], known: &Known, size: usize) {
        let expected = match known {
            Err(refusal) => Err(of_reference(*refusal)),
            Ok(accepted) if size < SHEET_SIDE * accepted.sides.len() => Err((12, 0)),
            Ok(accepted) => Ok(accepted.relations() as u64),
        };
        let mut sheet = Lent::new(size);
        let result = self.entries.cut_sheet(book, sheet.slice());
        assert_eq!(result, expected, "sheet {} {size}", hex(book));
        self.met(&expected);
        let mut written = Vec::new();
        if let (Ok(_), Ok(accepted)) = (&expected, known) {
            written = accepted.sheet();
            self.tally.meet_numbers(&accepted.numbers);
        }
        assert_eq!(sheet.fault(&written), None, "a byte of the sheet: sheet {} {size}", hex(book));
    }

    /// The comparison; gives the answer.
    pub fn compare(&mut self, book: &[u8], known: &Known, u: &[u8], v: &[u8], allowance: u32) -> Result<Compared, Refused> {
        let expected = match known {
            Err(refusal) => Err(of_reference(*refusal)),
            Ok(accepted) => match reference::compare_under(accepted, u, v, allowance) {
                Ok(reference::Comparison::Same(rounds)) => Ok(Compared::Same(rounds)),
                Ok(reference::Comparison::Different(rounds)) => Ok(Compared::Different(rounds)),
                Err(refusal) => Err(of_reference(refusal)),
            },
        };
        let result = self.entries.compare(book, u, v, allowance);
        assert_eq!(result, expected, "compare {} {} {} {allowance}", hex(book), hex(u), hex(v));
        self.met(&expected);
        match expected {
            Ok(Compared::Same(_)) => self.tally.same += 1,
            Ok(Compared::Different(_)) => self.tally.different += 1,
            Err(_) => {}
        }
        expected
    }

    /// The single round with buffers of these sizes; gives the next u, v and p where there are.
    pub fn round(&mut self, book: &[u8], known: &Known, words: [&[u8]; 3], sizes: [usize; 3]) -> Option<[Vec<u8>; 3]> {
        let [u, v, p] = words;
        let mut written = sizes.map(|size| vec![0; size]);
        let expected = match known {
            Err(refusal) => Err(of_reference(*refusal)),
            Ok(accepted) => match reference::round_under(accepted, words, written.each_mut().map(|next| &mut next[..])) {
                Ok(reference::RoundEnd::Same) => Ok(Rounded::Same),
                Ok(reference::RoundEnd::Different) => Ok(Rounded::Different),
                Ok(reference::RoundEnd::Next(lengths)) => Ok(Rounded::Next(lengths)),
                Err(refusal) => Err(of_reference(refusal)),
            },
        };
        let lengths = if let Ok(Rounded::Next(lengths)) = expected { lengths } else { [0; 3] };
        for (next, length) in written.iter_mut().zip(lengths) {
            next.truncate(length as usize);
        }
        let mut lent = sizes.map(Lent::new);
        let result = self.entries.round(book, words, lent.each_mut().map(Lent::slice));
        let call = || format!("round {} {} {} {} {sizes:?}", hex(book), hex(u), hex(v), hex(p));
        assert_eq!(result, expected, "{}", call());
        for i in 0..3 {
            assert_eq!(lent[i].fault(&written[i]), None, "a byte of buffer {i}: {}", call());
        }
        self.met(&expected);
        if let (Ok(accepted), Ok(rounded)) = (known, expected) {
            self.tally.meet_row(accepted, reference::rows::row(&accepted.words, u, v, p).0, words);
            if let Rounded::Next(_) = rounded {
                return Some(written);
            }
        }
        None
    }

    /// What the reference says of a least word; nothing where a chain reaches more than `most` words.
    pub fn search_least(&mut self, known: &Known, word: &[u8], most: usize) -> Option<KnownWord> {
        match known {
            Err(refusal) => Some(Err(of_reference(*refusal))),
            Ok(accepted) => reference::entries::find_least(accepted, word, most).map_err(of_reference).transpose(),
        }
    }

    /// The least word, which is known, at an offset of a buffer of this size.
    pub fn least(&mut self, book: &[u8], known: &KnownWord, word: &[u8], size: usize, offset: usize) {
        let call = || format!("least {} {} {size} {offset}", hex(book), hex(word));
        let expected = self.placed(known, size, offset, |entries, buffer| entries.least(book, word, buffer, offset), call);
        if let Ok(least) = expected {
            let kind = match least.len().cmp(&word.len()) {
                _ if least == word => 0,
                Ordering::Greater => 1,
                Ordering::Less => 2,
                Ordering::Equal => 3,
            };
            self.tally.least[kind] += 1;
        }
    }

    /// A call that writes a word, which is known, at an offset of a buffer of this size; gives what is expected of it.
    fn placed<'w>(
        &mut self,
        known: &'w KnownWord,
        size: usize,
        offset: usize,
        call: impl FnOnce(&dyn Entries, &mut [u8]) -> Result<u64, Refused>,
        told: impl Fn() -> String,
    ) -> Result<&'w [u8], Refused> {
        let fits = |word: &Vec<u8>| offset <= size && word.len() <= size - offset;
        let expected = known.as_ref().map_err(|refused| *refused).and_then(|word| if fits(word) { Ok(&word[..]) } else { Err((14, 0)) });
        let mut lent = Lent::new(size);
        let result = call(self.entries, lent.slice());
        assert_eq!(result, expected.map(|word| word.len() as u64), "{}", told());
        assert_eq!(lent.fault_at(offset, expected.unwrap_or(&[])), None, "a byte of the buffer: {}", told());
        self.met(&expected);
        expected
    }

    /// The least word in a buffer with room for every one, where no search could find it: the fast version is asked beside the one under trial.
    pub fn least_in_ample_buffer(&mut self, book: &[u8], word: &[u8]) -> Vec<u8> {
        let least = in_ample_buffer(|buffer| Fast.least(book, word, buffer, 0));
        self.least(book, &least, word, LEAST, 0);
        least.expect("an accepted book, and a word under it")
    }

    /// What the reference says of what a front leaves; nothing where a chain reaches more than `most` words.
    pub fn search_front(&mut self, known: &Known, word: &[u8], piece: &[u8], most: usize) -> Option<KnownWord> {
        match known {
            Err(refusal) => Some(Err(of_reference(*refusal))),
            Ok(accepted) => reference::entries::find_front(accepted, word, piece, most).map_err(of_reference).transpose(),
        }
    }

    /// What a front leaves of a word, which is known, at an offset of a buffer of this size.
    pub fn front(&mut self, book: &[u8], known: &KnownWord, [word, piece]: [&[u8]; 2], size: usize, offset: usize) {
        let call = || format!("front {} {} {} {size} {offset}", hex(book), hex(word), hex(piece));
        let expected = self.placed(known, size, offset, |entries, buffer| entries.front(book, word, piece, buffer, offset), call);
        self.tally.fronts.meet([word, piece], known, size, offset, expected);
    }

    /// The same in a buffer with room for everything, where no search could find it: the fast version is asked beside the one under trial.
    pub fn front_in_ample_buffer(&mut self, book: &[u8], given: [&[u8]; 2]) -> KnownWord {
        let left = in_ample_buffer(|buffer| Fast.front(book, given[0], given[1], buffer, 0));
        self.front(book, &left, given, LEAST, 0);
        left
    }

    /// The program, with an output buffer of the size it needs and some bytes more; gives its lines.
    pub fn program(&mut self, input: &[u8], more: usize) -> String {
        let expected = reference::program(input);
        let mut output = Lent::new(self.entries.output_size() + more);
        let result = self.entries.program(input, output.slice());
        let told = |length: usize| String::from_utf8_lossy(output.front(length)).into_owned();
        assert_eq!(result, Ok(expected.len()), "program {}: {:?}", hex(input), result.map(told));
        assert_eq!(output.fault(&expected), None, "a byte of the output: program {}: {}", hex(input), told(expected.len()));
        self.tally.calls += 1;
        String::from_utf8(expected).expect("the output is text")
    }

    /// The program with an output buffer that is too small: 12, and nothing is written.
    pub fn program_in_narrow_buffer(&mut self, input: &[u8], size: usize) {
        let mut output = Lent::new(size);
        let result = self.entries.program(input, output.slice());
        assert_eq!(result, Err((12, 0)), "program {} in {size} bytes", hex(input));
        assert_eq!(output.fault(&[]), None, "a byte of the output: program {} in {size} bytes", hex(input));
        self.met(&result);
    }
}
