//! Refusals as an ordinary Rust error (docs/SPECIFICATION.md, "Refusals by number").

use core::fmt;

/// How far apart the places of the given runs lie in refusals 9 and 10.
pub const PLACE_SPACING: u64 = 5_000;
/// The number of a held book's buffer in refusal 12; that of the sheet is 0.
pub const HELD_BUFFER: usize = 1;
/// The number of a ticket's buffer in refusal 12.
pub const TICKET_BUFFER: usize = 2;

/// Why a call was refused.
#[derive(Debug, Clone, Copy, PartialEq, Eq, Hash)]
#[non_exhaustive]
pub enum Reason {
    /// 1: the bytes end inside a record, or there is no book
    Short,
    /// 2: the first record is no head, or a later one is no rule
    Kind,
    /// 3: a record's length does not fit it
    Length,
    /// 4: the number of letters, or of the steps of a side, is outside its range
    Range,
    /// 5: a side has a step that is not below the number of letters
    UnknownStep,
    /// 6: there is a rule too many
    Thick,
    /// 8: C(4) fails, since a side is a product of three or fewer pieces
    Loose,
    /// 9: a given run is over its limit
    Long,
    /// 10: a given run has a step that is not below the number of letters
    Stranger,
    /// 11: another round was due and the allowance was used up
    Spent,
    /// 12: a lent buffer is too small
    Narrow,
    /// 13: the program's input is over its limit
    Heavy,
    /// 14: the offset lies past the buffer's end, or the least run, or the run behind the front, is longer than what follows it
    NoSpace,
    /// 15: the held book has no rule of the index that is to be withdrawn
    NoSuchRule,
    /// 16: the held book's count of changes is not that of the ticket that is posted
    StaleTicket,
    /// 17: the held book has had all the changes that it takes from loading, [`CHANGES_MOST`](crate::CHANGES_MOST)
    BookWorn,
    /// 18: the front that is to be taken off is no piece of the book
    NotPiece,
    /// 19: no run that a chain joins to the given one begins with that front
    NoFront,
    /// a number that this version does not know
    Other(u32),
}

/// Each reason with its number, the specification's word for it and an explanation; the C header has the same. 7 is not used: a side may equal an earlier one.
const KNOWN: [(u32, Reason, &str, &str); 18] = [
    (1, Reason::Short, "short", "the bytes end inside a record, or there is no book"),
    (2, Reason::Kind, "kind", "the first record is no head, or a later one is no rule"),
    (3, Reason::Length, "length", "a record's length does not fit it"),
    (4, Reason::Range, "range", "the number of letters, or of the steps of a side, is outside its range"),
    (5, Reason::UnknownStep, "unknown step", "a side has a step that is not below the number of letters"),
    (6, Reason::Thick, "thick", "there is a rule too many"),
    (8, Reason::Loose, "loose", "C(4) fails, since a side is a product of three or fewer pieces"),
    (9, Reason::Long, "long", "a given run is over its limit"),
    (10, Reason::Stranger, "stranger", "a given run has a step that is not below the number of letters"),
    (11, Reason::Spent, "spent", "another round was due and the allowance was used up"),
    (12, Reason::Narrow, "narrow", "a lent buffer is too small"),
    (13, Reason::Heavy, "heavy", "the program's input is over its limit"),
    (14, Reason::NoSpace, "no space", "the offset lies past the buffer's end, or the least run, or the run behind the front, does not fit there"),
    (15, Reason::NoSuchRule, "no such rule", "the held book has no rule of the index that is to be withdrawn"),
    (16, Reason::StaleTicket, "stale ticket", "the held book's count of changes is not that of the ticket"),
    (17, Reason::BookWorn, "book worn", "the held book has had all the changes that it takes, and must be loaded anew"),
    (18, Reason::NotPiece, "not a piece", "the front that is to be taken off is no piece of the book"),
    (19, Reason::NoFront, "no such front", "no run that a chain joins to the given one begins with that front"),
];

impl Reason {
    /// The reason with this number.
    pub fn from_number(number: u32) -> Reason {
        match KNOWN.iter().find(|known| known.0 == number) {
            Some((_, reason, _, _)) => *reason,
            None => Reason::Other(number),
        }
    }

    /// The specification's number.
    pub fn number(self) -> u32 {
        match self {
            Reason::Other(number) => number,
            known => known.known().expect("every known reason is listed").0,
        }
    }

    /// The specification's word.
    pub fn word(self) -> &'static str {
        self.known().map_or("refused", |(_, _, word, _)| word)
    }

    /// What it means.
    pub fn text(self) -> &'static str {
        self.known().map_or("a refusal that this version does not know", |(_, _, _, text)| text)
    }

    fn known(self) -> Option<&'static (u32, Reason, &'static str, &'static str)> {
        KNOWN.iter().find(|(_, reason, _, _)| *reason == self)
    }
}

/// The runs that a call is given; their numbers in a place are 0, 1 and 2.
#[derive(Debug, Clone, Copy, PartialEq, Eq, Hash)]
pub enum Run {
    U,
    V,
    /// the front mark of a single round, and the front that is to be taken off a run
    P,
}

/// Where a call was refused. What kind of place it is follows from the reason.
#[derive(Debug, Clone, Copy, PartialEq, Eq, Hash)]
#[non_exhaustive]
pub enum Place {
    /// Reasons 1 to 6: the first byte of the record at fault, counted from the start of the book; of a record that is to be added, the number of the held
    /// book's bytes, where it would begin.
    Byte(usize),
    /// Reason 8: the side at fault, of a change in the new book; rule `i`, counted from 0, has the sides `2 * i`, its left one, and `2 * i + 1`.
    Side(usize),
    /// Reason 9: the run that is too long.
    Run(Run),
    /// Reason 10: the first step at fault, by its run and its position there, counted from 0.
    Step { run: Run, position: usize },
    /// Reason 11: the rounds done.
    Rounds(u64),
    /// Reasons 12 and 14: the buffer that is too small, by its number: the sheet 0, a held book [`HELD_BUFFER`], a ticket [`TICKET_BUFFER`]; the next
    /// u, v and p 0, 1 and 2; the program's output 0; that of a least run, or of the run behind a front, 0.
    Buffer(usize),
    /// Reason 13: the most bytes of an input.
    Limit(usize),
    /// Reasons 15 to 19, which have no place; its number is 0.
    Nowhere,
    /// The place of a reason that this version does not know.
    Other(u64),
}

impl Place {
    /// The place of a refusal for this reason, from the specification's number for it.
    pub fn from_number(reason: Reason, place: u64) -> Place {
        let run = match place / PLACE_SPACING {
            0 => Some(Run::U),
            1 => Some(Run::V),
            2 => Some(Run::P),
            _ => None,
        };
        let (number, position) = (place as usize, (place % PLACE_SPACING) as usize);
        match (reason, run) {
            (Reason::Short | Reason::Kind | Reason::Length | Reason::Range | Reason::UnknownStep | Reason::Thick, _) => Place::Byte(number),
            (Reason::Loose, _) => Place::Side(number),
            (Reason::Long, Some(run)) => Place::Run(run),
            (Reason::Stranger, Some(run)) => Place::Step { run, position },
            (Reason::Spent, _) => Place::Rounds(place),
            (Reason::Narrow | Reason::NoSpace, _) => Place::Buffer(number),
            (Reason::Heavy, _) => Place::Limit(number),
            (Reason::NoSuchRule | Reason::StaleTicket | Reason::BookWorn | Reason::NotPiece | Reason::NoFront, _) if place == 0 => Place::Nowhere,
            (Reason::NoSuchRule | Reason::StaleTicket | Reason::BookWorn | Reason::NotPiece | Reason::NoFront, _) => Place::Other(place),
            (Reason::Long | Reason::Stranger | Reason::Other(_), _) => Place::Other(place),
        }
    }

    /// The specification's number.
    pub fn number(self) -> u64 {
        match self {
            Place::Run(run) => PLACE_SPACING * run as u64,
            Place::Step { run, position } => PLACE_SPACING * run as u64 + position as u64,
            Place::Byte(number) | Place::Side(number) | Place::Buffer(number) | Place::Limit(number) => number as u64,
            Place::Rounds(number) | Place::Other(number) => number,
            Place::Nowhere => 0,
        }
    }
}

impl fmt::Display for Run {
    fn fmt(&self, f: &mut fmt::Formatter<'_>) -> fmt::Result {
        f.write_str(match self {
            Run::U => "u",
            Run::V => "v",
            Run::P => "p",
        })
    }
}

impl fmt::Display for Place {
    fn fmt(&self, f: &mut fmt::Formatter<'_>) -> fmt::Result {
        match self {
            Place::Byte(byte) => write!(f, "byte {byte}"),
            Place::Side(side) => write!(f, "side {side}"),
            Place::Run(run) => write!(f, "run {run}"),
            Place::Step { run, position } => write!(f, "run {run}, position {position}"),
            Place::Rounds(rounds) => write!(f, "rounds done: {rounds}"),
            Place::Buffer(buffer) => write!(f, "buffer {buffer}"),
            Place::Limit(bytes) => write!(f, "at most {bytes} bytes"),
            Place::Nowhere => f.write_str("no place"),
            Place::Other(place) => write!(f, "place {place}"),
        }
    }
}

/// A refusal: why, and where.
///
/// ```
/// use vanecitron::{compare, Place, Reason, Run};
///
/// // four letters and no rules; the second run has a step 9
/// let refusal = compare(&[1, 0, 1, 0, 4], &[0, 1], &[0, 1, 9], 100).unwrap_err();
/// assert_eq!(refusal.reason, Reason::Stranger);
/// assert_eq!(refusal.place, Place::Step { run: Run::V, position: 2 });
/// assert_eq!((refusal.reason.number(), refusal.place.number()), (10, 5_002));
/// assert_eq!(refusal.to_string(), "stranger: a given run has a step that is not below the number of letters (run v, position 2)");
/// ```
#[derive(Debug, Clone, Copy, PartialEq, Eq, Hash)]
pub struct Refusal {
    pub reason: Reason,
    pub place: Place,
}

impl fmt::Display for Refusal {
    fn fmt(&self, f: &mut fmt::Formatter<'_>) -> fmt::Result {
        write!(f, "{}: {}", self.reason.word(), self.reason.text())?;
        match self.place {
            Place::Nowhere => Ok(()),
            place => write!(f, " ({place})"),
        }
    }
}

impl core::error::Error for Refusal {}

/// Nothing where the library's number is 0, else the refusal.
pub(crate) fn none(number: u32, place: u64) -> Result<(), Refusal> {
    let reason = match number {
        0 => return Ok(()),
        number => Reason::from_number(number),
    };
    Err(Refusal { reason, place: Place::from_number(reason, place) })
}
