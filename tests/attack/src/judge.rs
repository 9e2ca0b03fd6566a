//! What the attack has got out of many proofs, held against guessing. Unlike the attack, the judge knows the witnesses.

use crate::attack::Form;
use crate::case::View;
use crate::format::{bit, sections};

/// How far from half the agreeing bits may be, in standard deviations. A guesser is further once in 1.7 million.
const MOST_OF_BITS: f64 = 5.0;

/// The same for any two bits of the masks. There are many pairs, and a pair that is one bit of a leaf is at the square
/// root of the number of proofs.
const MOST_OF_PAIRS: f64 = 7.0;

#[derive(Default)]
pub struct Tally {
    proofs: usize,
    recovered: usize,
    bits: usize,
    agreeing: usize,
    /// The rτ bits of each proof's masks.
    masks: Vec<Vec<u8>>,
}

impl Tally {
    pub fn add(&mut self, view: &View, forms: &[Form], witness: &[u8], guess: &[u8]) {
        let agreeing = (0..guess.len())
            .filter(|c| guess[*c] == bit(witness, *c))
            .count();
        self.proofs += 1;
        self.recovered += usize::from(agreeing == guess.len());
        self.bits += guess.len();
        self.agreeing += agreeing;
        let [.., qs1] = sections::<6>(view.proof);
        let masks = forms
            .iter()
            .zip(qs1)
            .map(|(form, qs1)| form.mask(*qs1, witness));
        self.masks.push(
            masks
                .flat_map(|mask| (0..view.field.degree()).map(move |s| mask >> s & 1))
                .collect(),
        );
    }

    pub fn all_recovered(&self) -> bool {
        self.recovered == self.proofs
    }

    /// No witness is recovered, the bits agree as those of a guesser do, and no bit of a mask is known or is another's.
    pub fn as_guessing(&self) -> bool {
        self.recovered == 0
            && from_half(self.agreeing, self.bits).abs() <= MOST_OF_BITS
            && self.furthest_pair() <= MOST_OF_PAIRS
    }

    /// How far from half of the proofs any bit of the masks is 1, or any two of them differ.
    fn furthest_pair(&self) -> f64 {
        let count = self.masks.first().map_or(0, Vec::len);
        let mut furthest: f64 = 0.0;
        for first in 0..count {
            // The bit itself, and then with each one after it.
            for second in first..count {
                let differs = |masks: &&Vec<u8>| match first == second {
                    true => masks[first] == 1,
                    false => masks[first] != masks[second],
                };
                let times = self.masks.iter().filter(differs).count();
                furthest = furthest.max(from_half(times, self.proofs).abs());
            }
        }
        furthest
    }
}

impl std::fmt::Display for Tally {
    fn fmt(&self, to: &mut std::fmt::Formatter) -> std::fmt::Result {
        write!(
            to,
            "{} of {} witnesses recovered, {} of {} bits right ({:+.1} standard deviations from half); \
             of all pairs of mask bits the worst at {:.1}",
            self.recovered,
            self.proofs,
            self.agreeing,
            self.bits,
            from_half(self.agreeing, self.bits),
            self.furthest_pair()
        )
    }
}

/// In standard deviations of so many fair coins.
fn from_half(times: usize, of: usize) -> f64 {
    (2.0 * times as f64 - of as f64) / (of as f64).sqrt()
}
