//! The alphabet of a key: bits, or the four symbols of GF(4).

use crate::field::Field;

/// From 02 (request 11): "The caller names the alphabet, 2 or 4, beside the degree".
///
/// A symbol is a number below `size`, it takes `bits` bits, and stands for an element of K: the one in its place among
/// the `elements`. With two symbols these are 01's bits.
#[derive(Clone, Copy, Debug, PartialEq, Eq)]
pub struct Alphabet {
    pub size: usize,
    pub bits: usize,
    pub elements: &'static [u8],
}

/// 01's bits, which stand for 0 and 1 of K.
pub const TWO: Alphabet = Alphabet {
    size: 2,
    bits: 1,
    elements: &[0x00, 0x01],
};

/// "A symbol takes two bits, four to a byte, lowest first; 0, 1, 2, 3 stand for 00, 01, BC, BD in GF(256)." (02,
/// request 11)
pub const FOUR: Alphabet = Alphabet {
    size: 4,
    bits: 2,
    elements: &[0x00, 0x01, 0xBC, 0xBD],
};

impl Alphabet {
    /// The alphabet that is named beside the degree of a field; nothing for "an alphabet neither 2 nor 4, or 4 with
    /// degree 4" (02, request 11).
    pub fn beside(field: &Field, alphabet: u32) -> Option<Alphabet> {
        match (field.degree, alphabet) {
            (_, 2) => Some(TWO),
            (8, 4) => Some(FOUR),
            _ => None,
        }
    }

    /// How many symbols a byte holds: eight bits, or "four to a byte".
    pub fn in_a_byte(&self) -> usize {
        8 / self.bits
    }

    /// The element that a symbol stands for.
    pub fn element(&self, symbol: u8) -> u8 {
        self.elements[symbol as usize]
    }

    /// The symbol that stands for an element, which must be one of the alphabet's.
    pub fn symbol(&self, element: u8) -> u8 {
        let place = self.elements.iter().position(|other| *other == element);
        place.expect("an element that a symbol stands for") as u8
    }

    /// The mask coordinates of a repetition: with two symbols "r the degree" (02, request 4), with four "four symbols
    /// for each repetition" (request 11). As in 003, K has size^r elements.
    pub fn mask_symbols(&self, field: &Field) -> usize {
        field.degree / self.bits
    }
}
