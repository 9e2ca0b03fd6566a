//! K, of degree 8 or 4 over GF(2). A sum is the exclusive or.

#[derive(Clone, Copy, Debug, PartialEq, Eq)]
pub enum Field {
    /// GF(256), with the modulus X^8 + X^4 + X^3 + X + 1.
    Eight,
    /// GF(16), with the modulus X^4 + X + 1.
    Four,
}

impl Field {
    pub fn degree(self) -> usize {
        match self {
            Field::Eight => 8,
            Field::Four => 4,
        }
    }

    /// The elements of K, and the leaves of a tree.
    pub fn size(self) -> usize {
        1 << self.degree()
    }

    pub fn product(self, a: u8, b: u8) -> u8 {
        match self {
            Field::Eight => reduced::<8>(a, b, 0x1B),
            Field::Four => reduced::<4>(a, b, 0x03),
        }
    }

    /// Σ α^s times the coordinate s.
    pub fn mask(self, coordinates: &[u8]) -> u8 {
        (0..self.degree()).fold(0, |sum, s| sum ^ self.product(1 << s, coordinates[s]))
    }
}

/// The product, where X to the degree is `low`.
fn reduced<const DEGREE: usize>(a: u8, b: u8, low: u8) -> u8 {
    let most = 0xFF >> (8 - DEGREE);
    (0..DEGREE).rev().fold(0, |sum: u8, s| {
        let carried = low * (sum >> (DEGREE - 1));
        ((sum << 1) & most) ^ carried ^ (a * (b >> s & 1))
    })
}
