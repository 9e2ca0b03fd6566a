//! The degree of the field, which stands beside the key in every call.

use crate::refusal::{Reason, Refusal};

/// The degree over GF(2) of the field K, and so the leaves of a tree, of which there are as many as K has elements.
/// A key serves at both; leaves, challenges and proof are those of one.
///
/// ```
/// use solfadrus::{Degree, Reason};
///
/// assert_eq!(Degree::try_from(4), Ok(Degree::Four));
/// assert_eq!(Degree::Four.number(), 4);
/// assert_eq!(Degree::try_from(5).unwrap_err().reason, Reason::DegreeUnserved);
/// ```
#[derive(Clone, Copy, Debug, PartialEq, Eq, Hash)]
pub enum Degree {
    /// GF(256), modulus X^8 + X^4 + X^3 + X + 1: 256 leaves, of which 255 are opened.
    Eight,
    /// GF(16), modulus X^4 + X + 1: 16 leaves, of which 15 are opened. An element is a byte of at most 15.
    Four,
}

impl Degree {
    /// The number of the C interface.
    #[must_use]
    pub fn number(self) -> u32 {
        match self {
            Degree::Eight => 8,
            Degree::Four => 4,
        }
    }
}

impl TryFrom<u32> for Degree {
    type Error = Refusal;

    /// The refusal is 16, as every call of the C interface answers.
    fn try_from(number: u32) -> Result<Degree, Refusal> {
        match number {
            8 => Ok(Degree::Eight),
            4 => Ok(Degree::Four),
            _ => Err(Refusal {
                reason: Reason::DegreeUnserved,
                place: 0,
            }),
        }
    }
}
