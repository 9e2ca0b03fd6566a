//! The field K and its elements.

use crate::alphabet::Alphabet;

/// "The field's size, modulus and degree belong to the field, not to each caller."
///
/// An element is a byte below `size`. The modulus is written as a number whose bit s is the
/// coefficient of X^s. The equations of the other files take the field as a parameter ("Facts
/// common to fields are shown with the field as a parameter"); the calls take its degree.
#[derive(Clone, Copy, Debug, PartialEq, Eq)]
pub struct Field {
    pub size: usize,
    pub modulus: usize,
    pub degree: usize,
}

/// "K is GF(256) with the modulus X^8+X^4+X^3+X+1 of FIPS 197".
pub const GF256: Field = Field {
    size: 256,
    modulus: 0b1_0001_1011,
    degree: 8,
};

/// From 02 (request 3): "Degree 4 uses GF(16), modulus X^4+X+1".
pub const GF16: Field = Field {
    size: 16,
    modulus: 0b1_0011,
    degree: 4,
};

/// "α is 02."
pub const ALPHA: u8 = 0x02;

/// "a byte is an element, a sum is exclusive or."
pub fn add(a: u8, b: u8) -> u8 {
    a ^ b
}

impl Field {
    /// The field of a degree, "8 or 4" (02, request 3); nothing for any other number.
    pub fn of_degree(degree: u32) -> Option<Field> {
        match degree {
            8 => Some(GF256),
            4 => Some(GF16),
            _ => None,
        }
    }

    /// Whether every byte is an element: at degree 4 none is "above 15" (02, request 3), at degree 8
    /// "a byte is an element".
    pub fn has_all(&self, bytes: &[u8]) -> bool {
        bytes.iter().all(|byte| (*byte as usize) < self.size)
    }

    /// The product in K, "with the modulus X^8+X^4+X^3+X+1 of FIPS 197" when the field is `GF256`,
    /// and X^4+X+1 when it is `GF16`.
    ///
    /// a·b = Σ b[s]·(a·X^s), where a·X^(s+1) is a·X^s doubled and, once the degree is reached,
    /// reduced by the modulus.
    pub fn mul(&self, a: u8, b: u8) -> u8 {
        let mut product: usize = 0;
        let mut shifted: usize = a as usize;
        for s in 0..self.degree {
            if (b >> s) & 1 == 1 {
                product ^= shifted;
            }
            shifted *= 2;
            if shifted >= self.size {
                shifted ^= self.modulus;
            }
        }
        product as u8
    }

    /// A symbol, given as the element that it stands for, times an element of K, as in "j·ℓ(e,j) over K, coordinate by
    /// coordinate". It is the product in K; for 0 and 1, which are all that bits stand for, it is taken at once.
    pub fn symbol_times(&self, symbol: u8, element: u8) -> u8 {
        match symbol {
            0 => 0,
            1 => element,
            _ => self.mul(symbol, element),
        }
    }

    /// α^s: "α is 02."
    pub fn alpha_to(&self, s: usize) -> u8 {
        let mut power = 1;
        for _ in 0..s {
            power = self.mul(power, ALPHA);
        }
        power
    }

    /// The mask element of a vector z from the coordinate `start` on, Σ α^s·z[start+s] with s below
    /// the degree, or below 4 with four symbols: "four symbols for each repetition with α^0 to α^3" (02,
    /// request 11). u, v_e or W_e is put for z, and for `start` what 02 puts in place of 01's n: the
    /// first mask coordinate of the repetition. 003 calls it lift_r.
    pub fn mask(&self, alphabet: &Alphabet, start: usize, z: &[u8]) -> u8 {
        let mut sum = 0;
        for s in 0..alphabet.mask_symbols(self) {
            sum = add(sum, self.mul(self.alpha_to(s), z[start + s]));
        }
        sum
    }
}
