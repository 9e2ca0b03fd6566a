//! Refusals: the published numbers as an enum, with their place.

use std::error::Error;
use std::fmt;

/// Why a call refused: the question that got a no. The questions are put in the order of their numbers, but 16 first,
/// 17 after 6 and 18 after 13; to each call those that concern its inputs. The first no is the answer.
#[derive(Clone, Copy, Debug, PartialEq, Eq, Hash)]
#[non_exhaustive]
pub enum Reason {
    /// 1: the key has not the 8 bytes of its header.
    ShortHeader,
    /// 2: n, m, tau or t is out of range.
    SizeOutOfRange,
    /// 3: a count of the key, or its length, is not exact.
    KeyLength,
    /// 4: a spare bit of the key is not 0.
    KeySpareBit,
    /// 5: a challenge that the call uses has not its exact length.
    ChallengeLength,
    /// 6: a spare bit of `hash_matrix` is not 0.
    HashSpareBit,
    /// 7: the leaves have not their exact length.
    LeafLength,
    /// 8: a spare bit of a leaf is not 0.
    LeafSpareBit,
    /// 9: the witness has not its length, or a spare bit of it is not 0.
    WitnessForm,
    /// 10: the output has not exactly the length to be written.
    OutputLength,
    /// 11: the witness does not solve the system. The place is the lowest-numbered equation that
    /// fails, from 0.
    EquationFails,
    /// 12: a count of the proof, or its length, is not exact.
    ProofLength,
    /// 13: a spare bit of C, d or u~ is not 0.
    ProofSpareBit,
    /// 14: consistency does not hold. The place is the first repetition where not.
    Inconsistent,
    /// 15: the product check does not hold. The place is the first repetition where not.
    ProductDiffers,
    /// 16: the degree is neither 8 nor 4. No call of this crate answers it: [`Degree`](crate::Degree) has these two.
    DegreeUnserved,
    /// 17: a byte of `delta` or `batching` is no element, above 15 at degree 4.
    ChallengeElement,
    /// 18: a byte of V~, QS0 or QS1 is no element, above 15 at degree 4.
    ProofElement,
    /// A number that is not published, as it stands. The library is proved to answer none; it would come from an
    /// archive of another version. It counts as a refusal: only the word 0 is an acceptance.
    Unpublished(u16),
}

/// The published reasons, by their numbers from 1.
const PUBLISHED: [Reason; 18] = [
    Reason::ShortHeader,
    Reason::SizeOutOfRange,
    Reason::KeyLength,
    Reason::KeySpareBit,
    Reason::ChallengeLength,
    Reason::HashSpareBit,
    Reason::LeafLength,
    Reason::LeafSpareBit,
    Reason::WitnessForm,
    Reason::OutputLength,
    Reason::EquationFails,
    Reason::ProofLength,
    Reason::ProofSpareBit,
    Reason::Inconsistent,
    Reason::ProductDiffers,
    Reason::DegreeUnserved,
    Reason::ChallengeElement,
    Reason::ProofElement,
];

impl Reason {
    fn from_number(number: u16) -> Reason {
        PUBLISHED
            .into_iter()
            .find(|reason| reason.number() == number)
            .unwrap_or(Reason::Unpublished(number))
    }

    /// The published number.
    #[must_use]
    pub fn number(self) -> u16 {
        match self {
            Reason::ShortHeader => 1,
            Reason::SizeOutOfRange => 2,
            Reason::KeyLength => 3,
            Reason::KeySpareBit => 4,
            Reason::ChallengeLength => 5,
            Reason::HashSpareBit => 6,
            Reason::LeafLength => 7,
            Reason::LeafSpareBit => 8,
            Reason::WitnessForm => 9,
            Reason::OutputLength => 10,
            Reason::EquationFails => 11,
            Reason::ProofLength => 12,
            Reason::ProofSpareBit => 13,
            Reason::Inconsistent => 14,
            Reason::ProductDiffers => 15,
            Reason::DegreeUnserved => 16,
            Reason::ChallengeElement => 17,
            Reason::ProofElement => 18,
            Reason::Unpublished(number) => number,
        }
    }
}

impl fmt::Display for Reason {
    fn fmt(&self, f: &mut fmt::Formatter<'_>) -> fmt::Result {
        f.write_str(match self {
            Reason::ShortHeader => "the key has not the 8 bytes of its header",
            Reason::SizeOutOfRange => "a size of the key is out of range",
            Reason::KeyLength => "a count of the key, or its length, is not exact",
            Reason::KeySpareBit => "a spare bit of the key is not 0",
            Reason::ChallengeLength => "a challenge has not its exact length",
            Reason::HashSpareBit => "a spare bit of the hash matrix is not 0",
            Reason::LeafLength => "the leaves have not their exact length",
            Reason::LeafSpareBit => "a spare bit of a leaf is not 0",
            Reason::WitnessForm => "the witness has not its length, or a spare bit is not 0",
            Reason::OutputLength => "the output has not exactly the length to be written",
            Reason::EquationFails => "the witness does not solve the system",
            Reason::ProofLength => "a count of the proof, or its length, is not exact",
            Reason::ProofSpareBit => "a spare bit of the proof is not 0",
            Reason::Inconsistent => "consistency does not hold",
            Reason::ProductDiffers => "the product check does not hold",
            Reason::DegreeUnserved => "the degree is neither 8 nor 4",
            Reason::ChallengeElement => "a byte of a challenge is no element of the field",
            Reason::ProofElement => "a byte of the proof is no element of the field",
            Reason::Unpublished(_) => "a number that is not published",
        })
    }
}

/// A refused call. It has written nothing: its output is as it was.
///
/// ```
/// use solfadrus::{Degree, Reason, Refusal};
///
/// // x0·x1 + x0 = 1, which x = 0 does not solve.
/// let key = [
///     2, 0, 1, 0, 1, 0, 1, 0, 2, 0, 0, 0, 0x02, 0x00, 1, 0, 0, 0, 0x01, 1, 0, 0, 0, 0x01,
/// ];
/// let refusal = solfadrus::test(&key, Degree::Eight, &[0x00]).unwrap_err();
/// assert_eq!((refusal.reason, refusal.place), (Reason::EquationFails, 0));
/// assert_eq!(refusal.to_string(), "refused 11 place 0: the witness does not solve the system");
///
/// // As the word of the C interface, and back.
/// assert_eq!(refusal.word(), 11 * 65_536);
/// assert_eq!(Refusal::from_word(refusal.word()), Err(refusal));
/// ```
#[derive(Clone, Copy, Debug, PartialEq, Eq, Hash)]
pub struct Refusal {
    /// Why.
    pub reason: Reason,
    /// The equation of [`Reason::EquationFails`], the repetition of [`Reason::Inconsistent`] and
    /// [`Reason::ProductDiffers`]; else 0.
    pub place: u16,
}

impl Refusal {
    /// What a word of the C interface says: 0 is accepted, anything else is refused with number × 65536 + place.
    ///
    /// # Errors
    ///
    /// The refusal, of every word but 0.
    pub fn from_word(word: u32) -> Result<(), Refusal> {
        if word == 0 {
            return Ok(());
        }
        Err(Refusal {
            reason: Reason::from_number((word >> 16) as u16),
            place: (word & 0xFFFF) as u16,
        })
    }

    /// The word of the C interface: number × 65536 + place.
    #[must_use]
    pub fn word(self) -> u32 {
        u32::from(self.reason.number()) << 16 | u32::from(self.place)
    }
}

impl fmt::Display for Refusal {
    fn fmt(&self, f: &mut fmt::Formatter<'_>) -> fmt::Result {
        let Refusal { reason, place } = self;
        write!(f, "refused {} place {place}: {reason}", reason.number())
    }
}

impl Error for Refusal {}

#[cfg(test)]
mod tests {
    use super::*;

    #[test]
    fn numbers_rise_from_1() {
        for (index, reason) in PUBLISHED.into_iter().enumerate() {
            assert_eq!(usize::from(reason.number()), index + 1);
            assert_eq!(Reason::from_number(reason.number()), reason);
        }
    }

    #[test]
    fn words_come_apart_and_together() {
        assert_eq!(Refusal::from_word(0), Ok(()));
        for number in 1..=18 {
            for place in [0, 1, 47, 319, 65_535] {
                let word = number * 65_536 + place;
                let refusal = Refusal::from_word(word).unwrap_err();
                assert!(!matches!(refusal.reason, Reason::Unpublished(_)));
                assert_eq!(u32::from(refusal.place), place);
                assert_eq!(refusal.word(), word);
            }
        }
    }

    #[test]
    fn an_unpublished_word_is_a_refusal() {
        for word in [1, 65_535, 19 * 65_536, 65_535 * 65_536, u32::MAX] {
            let refusal = Refusal::from_word(word).unwrap_err();
            assert_eq!(refusal.reason, Reason::Unpublished((word >> 16) as u16));
            assert_eq!(refusal.word(), word);
        }
    }

    #[test]
    fn shown_with_number_and_place() {
        let refusal = Refusal::from_word(11 * 65_536 + 7).unwrap_err();
        let error: &dyn Error = &refusal;
        assert_eq!(
            error.to_string(),
            "refused 11 place 7: the witness does not solve the system"
        );
    }
}
