//! Edits of what is lent that make it refused 16, 17 or 18 (request 3 of 02) or 24 (request 11), whoever computes the
//! answer: all else being right, the number is the one named.

use crate::{bytes, leaf_bytes, Sizes};

/// What is edited. The place in the proof counts from its first byte.
#[derive(Clone, Copy, Debug, PartialEq, Eq)]
pub enum What {
    Degree(u32),
    Alphabet(u32),
    Delta { at: usize, byte: u8 },
    Chi { at: usize, byte: u8 },
    Proof { at: usize, byte: u8 },
}

/// An edit, and the number with which every call that takes what is edited refuses; the place is 0.
#[derive(Clone, Copy, Debug, PartialEq, Eq)]
pub struct Edit {
    pub what: What,
    pub number: u32,
}

/// Degrees that are neither 8 nor 4: small ones, neighbours, sizes of fields, and numbers that a narrower type would
/// cut to 8 or 4.
pub const OTHER_DEGREES: [u32; 22] = [
    0,
    1,
    2,
    3,
    5,
    6,
    7,
    9,
    10,
    12,
    15,
    16,
    32,
    64,
    255,
    256,
    260,
    264,
    65_540,
    0x8000_0004,
    0x8000_0008,
    u32::MAX,
];

/// Alphabets that are neither 2 nor 4: small ones, neighbours, sizes of fields, degrees, and numbers that a narrower
/// type would cut to 2 or 4.
pub const OTHER_ALPHABETS: [u32; 20] = [
    0,
    1,
    3,
    5,
    6,
    7,
    8,
    9,
    16,
    32,
    255,
    256,
    258,
    260,
    65_538,
    65_540,
    0x8000_0002,
    0x8000_0004,
    u32::MAX - 3,
    u32::MAX,
];

/// Bytes that are no elements at degree 4: each bit past the fourth, the least, the greatest, and with the low bits.
pub const NO_ELEMENTS: [u8; 8] = [0x10, 0x11, 0x1F, 0x20, 0x40, 0x80, 0xF0, 0xFF];

/// Where the sections Ṽ, QS0 and QS1 lie in the proof, and their lengths.
fn element_sections(shape: Sizes) -> [(usize, usize); 3] {
    let (n, _, tau, t, _, alphabet) = shape;
    let (w, d, u_tilde) = (leaf_bytes(shape), bytes(n, alphabet), bytes(t, alphabet));
    let v_tilde = 4 + (tau - 1) * w + 4 + d + 4 + u_tilde + 4;
    let qs0 = v_tilde + tau * t + 4;
    let qs1 = qs0 + tau + 4;
    [(v_tilde, tau * t), (qs0, tau), (qs1, tau)]
}

/// The first, a middle and the last place of so many; none of none.
fn places(length: usize) -> Vec<usize> {
    let mut places = vec![0, length / 2, length.saturating_sub(1)];
    places.dedup();
    places.retain(|place| *place < length);
    places
}

/// The edits refused 16: at both degrees and alphabets.
pub fn of_16() -> Vec<Edit> {
    let edit = |degree: &u32| Edit {
        what: What::Degree(*degree),
        number: 16,
    };
    OTHER_DEGREES.iter().map(edit).collect()
}

/// The edits refused 24: another alphabet; 4 where the degree is 4; and degree 4 where the alphabet is 4.
pub fn of_24(shape: Sizes) -> Vec<Edit> {
    let (_, _, _, _, degree, alphabet) = shape;
    let mut whats: Vec<What> = OTHER_ALPHABETS.into_iter().map(What::Alphabet).collect();
    if degree == 4 {
        whats.push(What::Alphabet(4));
    }
    if alphabet == 4 {
        whats.push(What::Degree(4));
    }
    let edit = |what| Edit { what, number: 24 };
    whats.into_iter().map(edit).collect()
}

/// The edits refused 17: at degree 4 alone.
pub fn of_17(shape: Sizes) -> Vec<Edit> {
    let (_, m, tau, _, degree, _) = shape;
    let mut edits = Vec::new();
    if degree != 4 {
        return edits;
    }
    for byte in NO_ELEMENTS {
        for at in places(tau) {
            edits.push(Edit {
                what: What::Delta { at, byte },
                number: 17,
            });
        }
        for at in places(tau * m) {
            edits.push(Edit {
                what: What::Chi { at, byte },
                number: 17,
            });
        }
    }
    edits
}

/// The edits refused 18: at degree 4 alone.
pub fn of_18(shape: Sizes) -> Vec<Edit> {
    let mut edits = Vec::new();
    if shape.4 != 4 {
        return edits;
    }
    for byte in NO_ELEMENTS {
        for (start, length) in element_sections(shape) {
            for place in places(length) {
                let what = What::Proof {
                    at: start + place,
                    byte,
                };
                edits.push(Edit { what, number: 18 });
            }
        }
    }
    edits
}

/// All edits of a shape.
pub fn edits(shape: Sizes) -> Vec<Edit> {
    [of_16(), of_24(shape), of_17(shape), of_18(shape)].concat()
}

#[cfg(test)]
mod tests {
    use super::*;

    #[test]
    fn at_degree_8_the_degree_and_the_alphabet_alone() {
        for alphabet in [2, 4] {
            let shape = crate::small(8, alphabet);
            assert_eq!(edits(shape), [of_16(), of_24(shape)].concat());
        }
        assert!(!OTHER_DEGREES
            .iter()
            .any(|degree| crate::DEGREES.contains(degree)));
        assert!(!OTHER_ALPHABETS
            .iter()
            .any(|alphabet| crate::ALPHABETS.contains(alphabet)));
    }

    /// Alphabet 4 with degree 4, whichever of them is edited; at degree 8 and alphabet 2 neither is.
    #[test]
    fn four_symbols_with_degree_4() {
        let more = |degree, alphabet| -> Vec<What> {
            let edits = of_24(crate::small(degree, alphabet));
            assert!(edits.iter().all(|edit| edit.number == 24));
            edits[20..].iter().map(|edit| edit.what).collect()
        };
        assert_eq!(more(8, 2), []);
        assert_eq!(more(4, 2), [What::Alphabet(4)]);
        assert_eq!(more(8, 4), [What::Degree(4)]);
    }

    /// The small shape at degree 4 has k = 17, L = 22, w = 3.
    #[test]
    fn where_elements_lie() {
        assert_eq!(
            element_sections(crate::small(4, 2)),
            [(22, 10), (36, 2), (42, 2)]
        );
        let edits = edits(crate::small(4, 2));
        let last = What::Proof { at: 43, byte: 0x10 };
        assert!(edits.contains(&Edit {
            what: last,
            number: 18
        }));
        let number = |number: u32| edits.iter().filter(|edit| edit.number == number).count();
        assert_eq!(
            [number(16), number(17), number(18)],
            [22, 8 * (2 + 3), 8 * (3 + 2 + 2)]
        );
    }

    /// With no equations χ has no byte to edit.
    #[test]
    fn no_equations() {
        let chi = |edit: &Edit| matches!(edit.what, What::Chi { .. });
        let [shape, ..] = crate::no_equations(4, 2);
        assert!(!edits(shape).iter().any(chi));
        assert!(edits(crate::small(4, 2)).iter().any(chi));
        assert_eq!(of_17(shape).len(), 8 * 2);
    }

    #[test]
    fn places_are_within() {
        assert_eq!(places(0), [0usize; 0]);
        assert_eq!(places(1), [0]);
        assert_eq!(places(2), [0, 1]);
        assert_eq!(places(5), [0, 2, 4]);
    }
}
