//! What a trial met, so that a trial that tries nothing is seen.

use std::fmt;

use gen::stories::Change;
use reference::book::Accepted;
use reference::families::{distinct, families, number_of};
use reference::held::{changes_of, COUNTED};
use reference::rows::{clean_front, member_in_front, member_of_next_tail};
use reference::tickets::{read_ticket, TICKET};
use reference::Word;

use crate::entries::Refused;

/// How often each number of a refusal was met.
pub type Numbers = [u64; 20];

/// What relations that share a word bring.
#[derive(Debug, Clone, Default)]
pub struct Shared {
    /// accepted books in which a word stands on several sides
    pub books: u64,
    /// accepted books with a family of three members or more
    pub families: u64,
    /// the most members of a family
    pub members: u64,
    /// rounds where u and v begin with two members, and row 4 goes on with the tail of a third
    pub third_tails: u64,
    /// rounds where row 4 goes on with the tail of a member that is not the first other one: the rest of u is active for it, and for none before it
    pub later_tails: u64,
    /// rounds where u and v begin with two members, and the mark, which row 3 lets pass, is a front of the X of a third and of neither of theirs
    pub third_marks: u64,
    /// refusals by 8 at a word that stands on several sides
    pub loose_words: u64,
    /// refusals by 8 behind a side whose word stands before it too
    pub loose_behind: u64,
}

impl Shared {
    fn add(&mut self, other: &Shared) {
        self.books += other.books;
        self.families += other.families;
        self.members = self.members.max(other.members);
        self.third_tails += other.third_tails;
        self.later_tails += other.later_tails;
        self.third_marks += other.third_marks;
        self.loose_words += other.loose_words;
        self.loose_behind += other.loose_behind;
    }
}

impl fmt::Display for Shared {
    fn fmt(&self, f: &mut fmt::Formatter<'_>) -> fmt::Result {
        write!(f, "books that share a word {}, with families of three and more {}, of up to {} members", self.books, self.families, self.members)?;
        write!(f, "; row 4 with a third member's tail {}, with a later one's {}", self.third_tails, self.later_tails)?;
        write!(f, "; a third member's mark {}", self.third_marks)?;
        write!(f, "; refused by 8 at a word on several sides {}, behind a repeated side {}", self.loose_words, self.loose_behind)
    }
}

/// What loadings and changes of held books bring.
#[derive(Debug, Clone, Default)]
pub struct Held {
    /// accepted loadings, additions and withdrawals
    pub loaded: u64,
    pub added: u64,
    pub withdrawn: u64,
    /// refusals of loadings, of what a change finds in the buffer, and of additions and withdrawals where what it finds is a book
    pub refused_loadings: Numbers,
    pub refused_finds: Numbers,
    pub refused_additions: Numbers,
    pub refused_withdrawals: Numbers,
    /// additions refused by 8 at an old side, and at a new one
    pub loose_sides: [u64; 2],
    /// additions that make a 32nd relation
    pub filled: u64,
    /// withdrawals of the first relation of several, of one between, of the last, and of the only one
    pub withdrawn_places: [u64; 4],
    /// withdrawals of the only bridge between two members of a family, both of which stay
    pub bridges: u64,
    /// sheets' buffers: just enough, longer; refused by 12 a byte short, and with no bytes
    pub rooms: [u64; 4],
    /// changes that bring the count to 60,000
    pub worn: u64,
}

impl Held {
    /// Counts a loading.
    pub fn meet_loading(&mut self, result: &Result<u64, Refused>) {
        match result {
            Ok(_) => self.loaded += 1,
            Err((number, _)) => self.refused_loadings[*number as usize] += 1,
        }
    }

    /// Counts a change of what was held before it.
    pub fn meet_change(&mut self, held: &[u8], change: &Change, result: &Result<u64, Refused>) {
        let book = match reference::held::taken_up(held) {
            Ok(book) => book,
            Err(refusal) => return self.refused_finds[refusal.number as usize] += 1,
        };
        let relations = book.sides.len() / 2;
        match (change, result) {
            (Change::Add { .. }, Ok(now)) => {
                self.added += 1;
                self.filled += (*now == 32) as u64;
            }
            (Change::Add { .. }, Err((number, place))) => {
                self.refused_additions[*number as usize] += 1;
                if *number == 8 {
                    self.loose_sides[(*place as usize >= book.sides.len()) as usize] += 1;
                }
            }
            (Change::Withdraw { relation, .. }, Ok(_)) => {
                self.withdrawn += 1;
                self.withdrawn_places[place_of(*relation, relations)] += 1;
                self.bridges += is_bridge(&book.sides, *relation) as u64;
            }
            (Change::Withdraw { .. }, Err((number, _))) => self.refused_withdrawals[*number as usize] += 1,
        }
        let (size, needed) = match change {
            Change::Add { size, .. } => (*size, 8 * (relations + 1)),
            Change::Withdraw { size, .. } => (*size, 8 * relations.saturating_sub(1)),
        };
        match result {
            Ok(_) => {
                self.rooms[(size > needed) as usize] += 1;
                self.worn += (changes_of(held) + 1 == COUNTED) as u64;
            }
            Err((12, 0)) => {
                self.rooms[2] += (size + 1 == needed) as u64;
                self.rooms[3] += (size == 0) as u64;
            }
            Err(_) => {}
        }
    }

    fn add(&mut self, other: &Held) {
        self.loaded += other.loaded;
        self.added += other.added;
        self.withdrawn += other.withdrawn;
        add_all(&mut self.refused_loadings, &other.refused_loadings);
        add_all(&mut self.refused_finds, &other.refused_finds);
        add_all(&mut self.refused_additions, &other.refused_additions);
        add_all(&mut self.refused_withdrawals, &other.refused_withdrawals);
        add_all(&mut self.loose_sides, &other.loose_sides);
        self.filled += other.filled;
        add_all(&mut self.withdrawn_places, &other.withdrawn_places);
        self.bridges += other.bridges;
        add_all(&mut self.rooms, &other.rooms);
        self.worn += other.worn;
    }
}

impl fmt::Display for Held {
    fn fmt(&self, f: &mut fmt::Formatter<'_>) -> fmt::Result {
        write!(f, "held books loaded {}, added to {}, withdrawn from {}", self.loaded, self.added, self.withdrawn)?;
        write!(f, "; refusals by number of loadings {:?}, of what is found {:?}", &self.refused_loadings[1..], &self.refused_finds[1..])?;
        write!(f, ", of additions {:?}, of withdrawals {:?}", &self.refused_additions[1..], &self.refused_withdrawals[1..])?;
        let [old, new] = self.loose_sides;
        write!(f, "; additions refused by 8 at an old side {old}, at a new one {new}, that fill a book {}", self.filled)?;
        let [first, between, last, only] = self.withdrawn_places;
        write!(f, "; withdrawn: the first {first}, between {between}, the last {last}, the only {only}, bridges {}", self.bridges)?;
        let [exact, longer, short, none] = self.rooms;
        write!(f, "; sheets in buffers just enough {exact}, longer {longer}, a byte short {short}, of none {none}; books worn {}", self.worn)
    }
}

/// What proposals and postings bring.
#[derive(Debug, Clone, Default)]
pub struct Tickets {
    /// accepted proposals of additions and of withdrawals
    pub proposed: [u64; 2],
    /// accepted postings of additions and of withdrawals
    pub posted: [u64; 2],
    pub refused_proposals: Numbers,
    pub refused_postings: Numbers,
    /// proposals refused by 12 by the number of the buffer: the sheet, the held book, the ticket
    pub narrow: [u64; 3],
    /// tickets' buffers where nothing else is refused: those of 0, 5, 6, 139, 140 and 141 bytes
    pub rooms: [u64; 6],
    /// accepted postings by what no proposal writes: a kind that is neither 0 nor 1, fewer bytes than the fields have
    pub odd_kinds: u64,
    pub cut_off: u64,
    /// postings refused by 12 for want of a byte of the sheet's buffer
    pub short_sheets: u64,
    /// worn books: accepted proposals, postings refused by 16 and by 17, postings that wear a book
    pub worn: [u64; 4],
}

/// The sizes of tickets' buffers that are counted.
const ROOMS: [usize; 6] = [0, 5, 6, TICKET - 1, TICKET, TICKET + 1];

impl Tickets {
    /// Counts a proposal to what is held, with a ticket's buffer of this size.
    pub fn meet_proposal(&mut self, held: &[u8], change: &Change, room: usize, result: &Result<u64, Refused>) {
        match result {
            Ok(_) => {
                self.proposed[matches!(change, Change::Withdraw { .. }) as usize] += 1;
                self.worn[0] += (changes_of(held) >= COUNTED) as u64;
            }
            Err((number, place)) => {
                self.refused_proposals[*number as usize] += 1;
                if *number == 12 {
                    self.narrow[*place as usize] += 1;
                }
            }
        }
        if matches!(result, Ok(_) | Err((12, 2))) {
            for (met, size) in self.rooms.iter_mut().zip(ROOMS) {
                *met += (room == size) as u64;
            }
        }
    }

    /// Counts a posting to what is held, with a sheet's buffer of this size.
    pub fn meet_posting(&mut self, held: &[u8], ticket: &[u8], size: usize, result: &Result<u64, Refused>) {
        let is_worn = changes_of(held) >= COUNTED;
        match result {
            Ok(_) => {
                let (count, change) = read_ticket(ticket);
                self.posted[matches!(change, reference::held::Change::Withdrawal(_)) as usize] += 1;
                self.odd_kinds += ticket.get(2..4).is_some_and(|kind| kind[0] > 1 || kind[1] > 0) as u64;
                self.cut_off += (ticket.len() < 6) as u64;
                self.worn[3] += (count + 1 == COUNTED) as u64;
            }
            Err((number, place)) => {
                self.refused_postings[*number as usize] += 1;
                self.worn[1] += (is_worn && *number == 16) as u64;
                self.worn[2] += (*number == 17) as u64;
                self.short_sheets += ((*number, *place) == (12, 0) && size % 8 == 7) as u64;
            }
        }
    }

    fn add(&mut self, other: &Tickets) {
        add_all(&mut self.proposed, &other.proposed);
        add_all(&mut self.posted, &other.posted);
        add_all(&mut self.refused_proposals, &other.refused_proposals);
        add_all(&mut self.refused_postings, &other.refused_postings);
        add_all(&mut self.narrow, &other.narrow);
        add_all(&mut self.rooms, &other.rooms);
        self.odd_kinds += other.odd_kinds;
        self.cut_off += other.cut_off;
        self.short_sheets += other.short_sheets;
        add_all(&mut self.worn, &other.worn);
    }
}

impl fmt::Display for Tickets {
    fn fmt(&self, f: &mut fmt::Formatter<'_>) -> fmt::Result {
        let ([add, withdraw], [added, withdrawn]) = (self.proposed, self.posted);
        write!(f, "tickets of additions {add}, of withdrawals {withdraw}, posted {added} and {withdrawn}")?;
        write!(f, ", of an odd kind {}, cut off {}, in short sheets {}", self.odd_kinds, self.cut_off, self.short_sheets)?;
        write!(f, "; refusals by number of proposals {:?}, of postings {:?}", &self.refused_proposals[1..], &self.refused_postings[1..])?;
        write!(f, "; narrow by buffer {:?}; ticket rooms {ROOMS:?} {:?}", self.narrow, self.rooms)?;
        let [proposed, stale, refused, wearing] = self.worn;
        write!(f, "; worn books: proposals {proposed}, stale {stale}, refused {refused}, postings that wear one {wearing}")
    }
}

/// What fronts that are taken off bring.
#[derive(Debug, Clone, Default)]
pub struct Fronts {
    /// something is written: with the empty front, where the word begins with the front, and where only a chain leads to one that does
    pub left: [u64; 3],
    /// with a front that is longer than the word; and nothing is left behind a front that is not empty
    pub longer: u64,
    pub nothing: u64,
    pub refused: Numbers,
    /// refusals by 9 and 10 of the word, and of the front
    pub given: [u64; 2],
    /// refusals by 14 for want of one byte, and by an offset past the end
    pub narrow: [u64; 2],
    /// refusals by 18 of fronts of 64 letters; where the word begins with the front, and where it does not
    pub long: u64,
    pub no_pieces: [u64; 2],
}

impl Fronts {
    /// Counts a front of a word, in a buffer of this size at an offset.
    pub fn meet(&mut self, [word, piece]: [&[u8]; 2], known: &Result<Vec<u8>, Refused>, size: usize, offset: usize, result: Result<&[u8], Refused>) {
        let begins = word.starts_with(piece);
        match result {
            Ok(rest) => {
                self.left[if piece.is_empty() { 0 } else { 2 - begins as usize }] += 1;
                self.longer += (piece.len() > word.len()) as u64;
                self.nothing += (rest.is_empty() && !piece.is_empty()) as u64;
            }
            Err((number, place)) => {
                self.refused[number as usize] += 1;
                self.given[(place >= 10_000) as usize] += matches!(number, 9 | 10) as u64;
                if number == 14 {
                    self.narrow[0] += known.as_ref().is_ok_and(|rest| offset.checked_add(rest.len()) == Some(size + 1)) as u64;
                    self.narrow[1] += (offset > size) as u64;
                }
                if number == 18 {
                    self.long += (piece.len() == 64) as u64;
                    self.no_pieces[1 - begins as usize] += 1;
                }
            }
        }
    }

    fn add(&mut self, other: &Fronts) {
        add_all(&mut self.left, &other.left);
        self.longer += other.longer;
        self.nothing += other.nothing;
        add_all(&mut self.refused, &other.refused);
        add_all(&mut self.given, &other.given);
        add_all(&mut self.narrow, &other.narrow);
        self.long += other.long;
        add_all(&mut self.no_pieces, &other.no_pieces);
    }
}

impl fmt::Display for Fronts {
    fn fmt(&self, f: &mut fmt::Formatter<'_>) -> fmt::Result {
        let [empty, begun, reached] = self.left;
        write!(f, "fronts taken off: empty {empty}, of a word that begins so {begun}, by a chain alone {reached}")?;
        write!(f, ", longer than the word {}, leaving nothing {}", self.longer, self.nothing)?;
        write!(f, "; refusals by number {:?}, of 9 and 10 of word and front {:?}", &self.refused[1..], self.given)?;
        let ([byte, past], [begun, other]) = (self.narrow, self.no_pieces);
        write!(
            f,
            "; no space for want of a byte {byte}, past the end {past}; no piece, of 64 letters {}, in front of the word {begun}, not {other}",
            self.long
        )
    }
}

/// Where a relation stands: the first of several, between others, the last, or the only one.
fn place_of(relation: usize, relations: usize) -> usize {
    match relation {
        _ if relations == 1 => 3,
        0 => 0,
        _ if relation == relations - 1 => 2,
        _ => 1,
    }
}

/// Without this relation its two words still stand on sides, and are of two families.
pub fn is_bridge(sides: &[Word], relation: usize) -> bool {
    let (left, right) = (&sides[2 * relation], &sides[2 * relation + 1]);
    let rest = [&sides[..2 * relation], &sides[2 * relation + 2..]].concat();
    let words = distinct(&rest);
    if left == right || !words.contains(&left) || !words.contains(&right) {
        return false;
    }
    !families(&rest)[number_of(&words, left)].contains(&number_of(&words, right))
}

fn add_all(sums: &mut [u64], more: &[u64]) {
    for (sum, more) in sums.iter_mut().zip(more) {
        *sum += more;
    }
}

/// Counts of what was tried and what came out.
#[derive(Debug, Clone, Default)]
pub struct Tally {
    pub calls: u64,
    pub accepted: u64,
    pub same: u64,
    pub different: u64,
    /// rounds by the row that fitted
    pub rows: [u64; 9],
    /// refusals by number
    pub refused: Numbers,
    /// pairs of words that breadth-first search judged
    pub searched: u64,
    /// sides on sheets by their number of pieces: 4, 5, 6, 7, 8 and more, and none
    pub numbers: [u64; 6],
    /// least words: those that are the given word, that are longer, that are shorter, and others
    pub least: [u64; 4],
    /// what fronts that are taken off bring
    pub fronts: Fronts,
    /// what relations that share a word bring
    pub shared: Shared,
    /// what loadings and changes of held books bring
    pub held: Held,
    /// what proposals and postings bring
    pub tickets: Tickets,
}

impl Tally {
    /// Counts the sides of a sheet by their numbers.
    pub fn meet_numbers(&mut self, numbers: &[u8]) {
        for number in numbers {
            let kind = match number {
                255 => 5,
                8.. => 4,
                4.. => *number as usize - 4,
                _ => panic!("a side of an accepted book has the number {number}"),
            };
            self.numbers[kind] += 1;
        }
    }

    /// Counts an accepted book by its families.
    pub fn meet_families(&mut self, book: &Accepted) {
        let most = book.words.families.iter().map(Vec::len).max().unwrap_or(0) as u64;
        self.shared.books += (book.words.cuts.len() < book.sides.len()) as u64;
        self.shared.families += (most > 2) as u64;
        self.shared.members = self.shared.members.max(most);
    }

    /// Counts a book that is refused by 8 at this side.
    pub fn meet_loose(&mut self, sides: &[Word], place: usize) {
        self.shared.loose_words += (sides.iter().filter(|&side| *side == sides[place]).count() > 1) as u64;
        self.shared.loose_behind += (distinct(&sides[..place]).len() < place) as u64;
    }

    /// Counts a round of this row by what members other than those of u and v have a part in.
    pub fn meet_row(&mut self, book: &Accepted, row: usize, [u, v, p]: [&[u8]; 3]) {
        self.rows[row] += 1;
        if row < 4 {
            return;
        }
        let words = &book.words;
        let i = clean_front(&words.cuts, u).expect("row 4 and those behind it have a clean front");
        let j = member_in_front(words, &words.families[i], v).expect("row 4 and those behind it have a member in front of v");
        self.shared.third_marks += (i != j && [i, j].iter().all(|&member| !words.cuts[member].x().starts_with(p))) as u64;
        if row == 4 {
            let tail = member_of_next_tail(words, i, &u[words.cuts[i].xyz().len()..]);
            self.shared.third_tails += (i != j && tail != i && tail != j) as u64;
            self.shared.later_tails += (tail != i && Some(&tail) != words.others(i).first()) as u64;
        }
    }

    pub fn add(&mut self, other: &Tally) {
        self.fronts.add(&other.fronts);
        self.shared.add(&other.shared);
        self.held.add(&other.held);
        self.tickets.add(&other.tickets);
        self.calls += other.calls;
        self.accepted += other.accepted;
        self.same += other.same;
        self.different += other.different;
        self.searched += other.searched;
        add_all(&mut self.rows, &other.rows);
        add_all(&mut self.refused, &other.refused);
        add_all(&mut self.numbers, &other.numbers);
        add_all(&mut self.least, &other.least);
    }
}

impl fmt::Display for Tally {
    fn fmt(&self, f: &mut fmt::Formatter<'_>) -> fmt::Result {
        write!(f, "{} calls; books accepted {}; same {}, different {}", self.calls, self.accepted, self.same, self.different)?;
        write!(f, "; rounds by row {:?}; refusals by number {:?}; pairs searched {}", &self.rows[1..], &self.refused[1..], self.searched)?;
        let [four, five, six, seven, more, none] = self.numbers;
        write!(f, "; sides on sheets by number: {four} of 4, {five} of 5, {six} of 6, {seven} of 7, {more} of more, {none} of none")?;
        let [kept, longer, shorter, other] = self.least;
        write!(
            f,
            "; least words: {kept} the given one, {longer} longer, {shorter} shorter, {other} others; {}; {}; {}; {}",
            self.fronts, self.shared, self.held, self.tickets
        )
    }
}
