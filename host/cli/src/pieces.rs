//! Pieces of a book and where they stand (docs/SPECIFICATION.md, "Pieces, C(4) and cuts"). Outside the proof: the library says how many pieces make a side up, and this finds which.

use std::collections::HashMap;

/// A place in the sides: the lowest side with its run, and the position there.
#[derive(Debug, Clone, Copy, PartialEq, Eq)]
pub struct Place {
    pub side: usize,
    pub position: usize,
}

/// A piece of a side: where it begins there, its length, and where else it stands.
#[derive(Debug, Clone, PartialEq, Eq)]
pub struct Part {
    pub position: usize,
    pub length: usize,
    pub elsewhere: Vec<Place>,
}

/// All places of every run that stands in the sides, each distinct side counted once.
pub struct Pieces<'a> {
    places: HashMap<&'a [u8], Vec<Place>>,
}

impl<'a> Pieces<'a> {
    pub fn new(sides: &[&'a [u8]]) -> Pieces<'a> {
        let mut places: HashMap<&[u8], Vec<Place>> = HashMap::new();
        for (side, run) in sides.iter().enumerate() {
            if sides[..side].contains(run) {
                continue;
            }
            for from in 0..run.len() {
                for to in from + 1..=run.len() {
                    places.entry(&run[from..to]).or_default().push(Place { side, position: from });
                }
            }
        }
        Pieces { places }
    }

    /// The places of a run that is not empty.
    pub fn places(&self, run: &[u8]) -> &[Place] {
        self.places.get(run).map_or(&[], |places| places)
    }

    /// The fewest pieces whose product a side is: the longest each time, since every part of a piece is a piece. `None` where there are none.
    pub fn fewest(&self, sides: &[&[u8]], side: usize) -> Option<Vec<Part>> {
        let run = sides[side];
        let lowest = sides.iter().position(|other| *other == run)?;
        let mut parts = Vec::new();
        let mut position = 0;
        while position < run.len() {
            let is_piece = |length: &usize| self.places(&run[position..position + length]).len() > 1;
            let length = (1..=run.len() - position).rev().find(is_piece)?;
            let here = Place { side: lowest, position };
            let elsewhere = self.places(&run[position..position + length]).iter().copied().filter(|place| *place != here).collect();
            parts.push(Part { position, length, elsewhere });
            position += length;
        }
        Some(parts)
    }
}

#[cfg(test)]
mod tests {
    use super::*;

    fn made_of(left: &str, right: &str) -> [Option<String>; 2] {
        let sides = [left.as_bytes(), right.as_bytes()];
        let pieces = Pieces::new(&sides);
        let text = |side: usize| {
            let run = [left, right][side];
            pieces
                .fewest(&sides, side)
                .map(|parts| parts.iter().map(|part| &run[part.position..part.position + part.length]).collect::<Vec<_>>().join(" "))
        };
        [text(0), text(1)]
    }

    #[test]
    fn the_fewest_pieces_as_worked_out_by_hand() {
        for (left, right, expected) in [
            ("a", "b", [None, None]),
            ("a", "aa", [Some("a"), Some("a a")]),
            ("aa", "b", [Some("a a"), None]),
            ("aa", "aa", [Some("a a"), Some("a a")]),
            ("ab", "ab", [None, None]),
            ("abdc", "acbd", [Some("a bd c"), Some("a c bd")]),
            ("abdc", "cadb", [Some("a b d c"), Some("c a d b")]),
            ("abcde", "edcba", [Some("a b c d e"), Some("e d c b a")]),
            ("abab", "bac", [Some("ab ab"), None]),
            ("daaa", "dc", [Some("d aa a"), None]),
        ] {
            assert_eq!(made_of(left, right), expected.map(|text| text.map(String::from)), "{left} = {right}");
        }
    }

    #[test]
    fn where_else_a_piece_stands() {
        let sides: [&[u8]; 4] = [b"abdc", b"acbd", b"acbd", b"bdbd"];
        let parts = Pieces::new(&sides).fewest(&sides, 2).unwrap();
        let at = |side, position| Place { side, position };
        // acbd is a, c, bd; as the third side it is the second one again
        assert_eq!(parts[0].elsewhere, [at(0, 0)]);
        assert_eq!(parts[1].elsewhere, [at(0, 3)]);
        assert_eq!(parts[2].elsewhere, [at(0, 1), at(3, 0), at(3, 2)]);
    }
}
