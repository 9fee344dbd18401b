//! What the cut sheet says of a side (docs/SPECIFICATION.md, "Pieces, C(4) and cuts"): its cut, and the number of pieces whose product it is.
//! Plain Rust, outside the proof.

use core::fmt;

use crate::{NO_PRODUCT, SHEET_PIECES, SHEET_SIDE, SHEET_X, SHEET_Y, SHEET_Z};

/// The pieces that C(4) asks of every side.
const FEWEST: u8 = 4;

/// A side on the cut sheet: the lengths of its three parts, which are X, its longest front that is a piece, Z, its longest end that is a piece, and Y, the
/// rest between them; and how many pieces it is the product of.
#[derive(Debug, Clone, Copy, PartialEq, Eq, Hash)]
pub struct Cut {
    pub x: u8,
    pub y: u8,
    pub z: u8,
    pub pieces: PieceCount,
}

/// The smallest number of pieces whose product a side is, which says how far the side is from trouble: a side of three or fewer makes a book loose.
/// Those nearer to trouble come first in the order.
///
/// ```
/// use vanecitron::PieceCount::{self, NoProduct, Pieces};
///
/// assert_eq!(PieceCount::from_number(4), Pieces(4));
/// assert_eq!(Pieces(4).to_string(), "4 pieces, the fewest that are allowed");
/// assert_eq!(Pieces(6).to_string(), "6 pieces, 2 more than the fewest allowed");
/// assert_eq!(PieceCount::from_number(255), NoProduct);
/// assert_eq!(NoProduct.to_string(), "no product of pieces");
/// assert!(Pieces(4) < Pieces(6) && Pieces(6) < NoProduct);
/// ```
#[derive(Debug, Clone, Copy, PartialEq, Eq, PartialOrd, Ord, Hash)]
pub enum PieceCount {
    /// so many pieces and no fewer; on the sheet it is this number, which is from 4 to [`SIDE`](crate::SIDE) in an accepted book
    Pieces(u8),
    /// no product of pieces at all: a step of the side stands nowhere else in the distinct sides; on the sheet it is 255
    NoProduct,
}

impl PieceCount {
    /// The count of this number on the sheet.
    pub fn from_number(number: u8) -> PieceCount {
        match number {
            NO_PRODUCT => PieceCount::NoProduct,
            pieces => PieceCount::Pieces(pieces),
        }
    }

    /// The number on the sheet.
    pub fn number(self) -> u8 {
        match self {
            PieceCount::Pieces(pieces) => pieces,
            PieceCount::NoProduct => NO_PRODUCT,
        }
    }

    /// How many pieces the side has to spare: how many more than the 4 that C(4) asks. `None` of a side that is no product, since pieces cannot run short
    /// there. No accepted book has a number below 4, which would have 0 to spare too.
    ///
    /// ```
    /// use vanecitron::PieceCount;
    ///
    /// assert_eq!(PieceCount::Pieces(4).spare(), Some(0));
    /// assert_eq!(PieceCount::Pieces(6).spare(), Some(2));
    /// assert_eq!(PieceCount::NoProduct.spare(), None);
    /// ```
    pub fn spare(self) -> Option<u8> {
        match self {
            PieceCount::Pieces(pieces) => Some(pieces.saturating_sub(FEWEST)),
            PieceCount::NoProduct => None,
        }
    }
}

impl fmt::Display for PieceCount {
    fn fmt(&self, f: &mut fmt::Formatter<'_>) -> fmt::Result {
        match *self {
            PieceCount::NoProduct => f.write_str("no product of pieces"),
            PieceCount::Pieces(pieces) if pieces < FEWEST => write!(f, "fewer pieces than are allowed: {pieces}"),
            PieceCount::Pieces(FEWEST) => write!(f, "{FEWEST} pieces, the fewest that are allowed"),
            PieceCount::Pieces(pieces) => write!(f, "{pieces} pieces, {} more than the fewest allowed", pieces - FEWEST),
        }
    }
}

/// The cuts on a sheet that is given as its bytes, as [`cut_sheet_into`](crate::cut_sheet_into) writes them.
pub fn cuts(sheet: &[u8]) -> impl Iterator<Item = Cut> + '_ {
    sheet.chunks_exact(SHEET_SIDE).map(|side| Cut {
        x: side[SHEET_X],
        y: side[SHEET_Y],
        z: side[SHEET_Z],
        pieces: PieceCount::from_number(side[SHEET_PIECES]),
    })
}
