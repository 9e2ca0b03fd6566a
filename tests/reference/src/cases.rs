//! Random cases for tests. Nothing here is in 01 but the layout of what is made.

use crate::alphabet::Alphabet;
use crate::field::Field;
use crate::key::{sections, Key, Shape};
use crate::leaves::open_leaves;
use crate::seeds::{leaves_of_seeds, open_seeds, SALT_LENGTH};
use crate::strings::{bytes_for, pack, unpack, write_section, write_two_bytes};

/// The degrees and alphabets that are taken.
pub const SETTINGS: [(u32, u32); 3] = [(8, 2), (4, 2), (8, 4)];

/// splitmix64, a small generator of deterministic numbers.
#[derive(Clone, Debug)]
pub struct Random {
    state: u64,
}

impl Random {
    pub fn new(seed: u64) -> Random {
        Random { state: seed }
    }

    pub fn number(&mut self) -> u64 {
        self.state = self.state.wrapping_add(0x9E37_79B9_7F4A_7C15);
        let mut z = self.state;
        z = (z ^ (z >> 30)).wrapping_mul(0xBF58_476D_1CE4_E5B9);
        z = (z ^ (z >> 27)).wrapping_mul(0x94D0_49BB_1331_11EB);
        z ^ (z >> 31)
    }

    /// A number below `bound`.
    pub fn below(&mut self, bound: usize) -> usize {
        (self.number() % bound as u64) as usize
    }

    /// A string of so many random symbols, spare bits 0.
    pub fn string(&mut self, alphabet: &Alphabet, entries: usize) -> Vec<u8> {
        let mut vector = Vec::new();
        for _ in 0..entries {
            let symbol = self.number() >> (64 - alphabet.bits);
            vector.push(alphabet.element(symbol as u8));
        }
        pack(alphabet, &vector)
    }

    /// So many strings one after another, each of so many random symbols, spare bits 0.
    pub fn strings(&mut self, alphabet: &Alphabet, how_many: usize, entries: usize) -> Vec<u8> {
        let mut strings = Vec::new();
        for _ in 0..how_many {
            strings.extend_from_slice(&self.string(alphabet, entries));
        }
        strings
    }

    /// So many random bytes.
    pub fn bytes(&mut self, how_many: usize) -> Vec<u8> {
        (0..how_many).map(|_| self.number() as u8).collect()
    }

    /// So many random elements of the field.
    pub fn elements(&mut self, field: &Field, how_many: usize) -> Vec<u8> {
        let mut elements = Vec::new();
        for _ in 0..how_many {
            elements.push(self.below(field.size) as u8);
        }
        elements
    }
}

/// All inputs of an honest proof.
#[derive(Clone, Debug)]
pub struct Case {
    pub shape: Shape,
    pub key: Vec<u8>,
    pub witness: Vec<u8>,
    pub leaves: Vec<u8>,
    pub h: Vec<u8>,
    pub chi: Vec<u8>,
    pub delta: Vec<u8>,
}

impl Case {
    /// The key of this case, read.
    pub fn read_key(&self) -> Key<'_> {
        sections(self.shape, &self.key).unwrap()
    }

    /// The opened leaves at this case's Δ.
    pub fn opened(&self) -> Vec<u8> {
        open_leaves(&self.shape, &self.leaves, &self.delta)
    }

    /// The degree of this case, "passed beside the key" (02, request 3).
    pub fn degree(&self) -> u32 {
        self.shape.degree()
    }

    /// The alphabet of this case, named "beside the degree" (02, request 11).
    pub fn alphabet(&self) -> u32 {
        self.shape.alphabet()
    }

    /// The length of the whole proof: "24 bytes more than these together."
    pub fn proof_length(&self) -> usize {
        self.shape.proof_length()
    }
}

/// The bytes of a key with the given sections.
pub fn key_bytes(shape: &Shape, a: &[u8], b: &[u8], y: &[u8]) -> Vec<u8> {
    let mut key = Vec::new();
    for number in [shape.n, shape.m, shape.tau, shape.t] {
        write_two_bytes(&mut key, number);
    }
    write_section(&mut key, a);
    write_section(&mut key, b);
    write_section(&mut key, y);
    key
}

/// A random case at a degree, 8 or 4, and an alphabet, 2, or 4 at degree 8: A, b and x at random, y so that x solves;
/// leaves, H′, χ, Δ at random, spare bits 0.
pub fn case(
    seed: u64,
    n: usize,
    m: usize,
    tau: usize,
    t: usize,
    degree: u32,
    alphabet: u32,
) -> Case {
    case_of(seed, Shape::new(n, m, tau, t, degree, alphabet))
}

/// The same over a field, with an alphabet.
pub fn case_over(
    field: Field,
    symbols: Alphabet,
    seed: u64,
    n: usize,
    m: usize,
    tau: usize,
    t: usize,
) -> Case {
    let (degree, alphabet) = (field.degree as u32, symbols.size as u32);
    case(seed, n, m, tau, t, degree, alphabet)
}

/// The same of a shape.
pub fn case_of(seed: u64, shape: Shape) -> Case {
    let Shape {
        field,
        symbols,
        n,
        m,
        tau,
        t,
    } = shape;
    let mut random = Random::new(seed);
    let a = random.strings(&symbols, m * n, n);
    let b = random.strings(&symbols, m, n);
    let witness = random.string(&symbols, n);
    let x = unpack(&symbols, &witness, n);
    // With y = 0 an equation's error is its left side, which is then taken for y.
    let zero = vec![0; bytes_for(&symbols, m)];
    let with_zero = Key {
        shape,
        a: &a,
        b: &b,
        y: &zero,
    };
    let mut y = Vec::new();
    for i in 0..m {
        y.push(with_zero.error(i, &x));
    }
    let key = key_bytes(&shape, &a, &b, &pack(&symbols, &y));
    let leaves = random.strings(&symbols, tau * field.size, shape.l());
    let h = random.strings(&symbols, t, shape.k());
    let chi = random.elements(&field, shape.chi_length());
    let delta = random.elements(&field, shape.delta_length());
    Case {
        shape,
        key,
        witness,
        leaves,
        h,
        chi,
        delta,
    }
}

/// A case whose leaves come from seeds (02, request 6).
#[derive(Clone, Debug)]
pub struct Seeded {
    pub case: Case,
    pub salt: Vec<u8>,
    pub seeds: Vec<u8>,
}

impl Seeded {
    /// A case with these for its leaves.
    pub fn new(mut case: Case, salt: Vec<u8>, seeds: Vec<u8>) -> Seeded {
        case.leaves = leaves_of_seeds(&case.shape, &salt, &seeds);
        Seeded { case, salt, seeds }
    }

    /// The opened seeds at this case's Δ.
    pub fn opened_seeds(&self) -> Vec<u8> {
        open_seeds(&self.case.shape, &self.seeds, &self.case.delta)
    }
}

/// A random case with the leaves of a random salt and random seeds, all else as in `case`.
pub fn seeded(
    seed: u64,
    n: usize,
    m: usize,
    tau: usize,
    t: usize,
    degree: u32,
    alphabet: u32,
) -> Seeded {
    let case = case(seed, n, m, tau, t, degree, alphabet);
    let mut random = Random::new(!seed);
    let salt = random.bytes(SALT_LENGTH);
    let seeds = random.bytes(case.shape.seeds_length());
    Seeded::new(case, salt, seeds)
}
