//! Sizes, bit strings, sections and keys, as 01 lays them out.

use crate::field::Field;

#[derive(Clone, Copy, Debug)]
pub struct Sizes {
    pub n: usize,
    pub m: usize,
    pub tau: usize,
    pub t: usize,
    pub field: Field,
}

/// Where the mask coordinates of a repetition stand, r of them, the degree.
#[derive(Clone, Copy, Debug, PartialEq, Eq)]
pub enum Masks {
    /// At n, for every repetition: k = n + r. So it was before request 4.
    Shared,
    /// At n + re for repetition e: k = n + rτ.
    Own,
    /// The same, but that the last repetition has the mask of the one before it.
    LastShared,
}

impl Masks {
    pub fn start(self, sizes: Sizes, e: usize) -> usize {
        match self {
            Masks::Shared => sizes.n,
            Masks::Own => sizes.n + sizes.field.degree() * e,
            Masks::LastShared => sizes.n + sizes.field.degree() * e.min(sizes.tau - 2),
        }
    }

    /// k, where the coordinates of the last repetition's mask end.
    pub fn end(self, sizes: Sizes) -> usize {
        self.start(sizes, sizes.tau - 1) + sizes.field.degree()
    }

    /// L.
    pub fn leaf_bits(self, sizes: Sizes) -> usize {
        self.end(sizes) + sizes.t
    }
}

pub fn bit(string: &[u8], coordinate: usize) -> u8 {
    string[coordinate / 8] >> (coordinate % 8) & 1
}

pub fn pack(bits: &[u8]) -> Vec<u8> {
    let byte = |bits: &[u8]| bits.iter().rev().fold(0, |byte, bit| byte << 1 | bit);
    bits.chunks(8).map(byte).collect()
}

/// The bits of every byte, each in a byte of its own.
const SPREAD: [u64; 256] = {
    let mut spread = [0; 256];
    let mut place = 0;
    while place < 256 * 8 {
        let (byte, s) = (place / 8, place % 8);
        spread[byte] |= ((byte >> s & 1) as u64) << (8 * s);
        place += 1;
    }
    spread
};

/// Adds an element to the sums of those coordinates at which the string has a 1.
pub fn add_at_ones(sums: &mut [u8], string: &[u8], element: u8) {
    let add = |sums: &mut [u8], byte: &u8| {
        let terms = (SPREAD[*byte as usize] * element as u64).to_le_bytes();
        sums.iter_mut()
            .zip(terms)
            .for_each(|(sum, term)| *sum ^= term);
    };
    // By eights, whose loop the compiler then unrolls, and the rest.
    let mut eights = sums.chunks_exact_mut(8);
    let mut bytes = string.iter();
    eights
        .by_ref()
        .zip(bytes.by_ref())
        .for_each(|(sums, byte)| add(sums, byte));
    if let Some(byte) = bytes.next() {
        add(eights.into_remainder(), byte);
    }
}

pub fn section(bytes: &[u8]) -> Vec<u8> {
    [&(bytes.len() as u32).to_le_bytes(), bytes].concat()
}

/// So many sections, which stand one after another.
pub fn sections<const COUNT: usize>(mut bytes: &[u8]) -> [&[u8]; COUNT] {
    std::array::from_fn(|_| {
        let (count, rest) = bytes.split_at(4);
        let (section, rest) = rest.split_at(u32::from_le_bytes(count.try_into().unwrap()) as usize);
        bytes = rest;
        section
    })
}

pub struct Key<'a> {
    pub sizes: Sizes,
    matrices: &'a [u8],
    linear: &'a [u8],
    y: &'a [u8],
}

/// The equations of a key, each times its batching byte, added: Σ χᵢAᵢ by rows, Σ χᵢbᵢ and Σ χᵢyᵢ.
pub struct Batched {
    pub matrix: Vec<Vec<u8>>,
    pub linear: Vec<u8>,
    pub y: u8,
}

impl Key<'_> {
    /// A key, and the field beside it.
    pub fn read(key: &[u8], field: Field) -> Key<'_> {
        let size = |i: usize| u16::from_le_bytes([key[2 * i], key[2 * i + 1]]) as usize;
        let sizes = Sizes {
            n: size(0),
            m: size(1),
            tau: size(2),
            t: size(3),
            field,
        };
        let [matrices, linear, y] = sections(&key[8..]);
        Key {
            sizes,
            matrices,
            linear,
            y,
        }
    }

    /// xᵀA_i·x + b_i·x, for each equation.
    pub fn left_sides(&self, x: &[u8]) -> Vec<u8> {
        let n = self.sizes.n;
        let product = |row: &[u8]| row.iter().zip(x).fold(0, |sum, (row, x)| sum ^ row & x);
        let left_side = |(matrix, linear): (&[u8], &[u8])| {
            let rows = matrix.chunks(x.len()).enumerate();
            let ones = rows.filter(|(r, _)| bit(x, *r) == 1);
            let sum = ones.fold(product(linear), |sum, (_, row)| sum ^ product(row));
            (sum.count_ones() % 2) as u8
        };
        let matrices = self.matrices.chunks(n * x.len());
        matrices
            .zip(self.linear.chunks(x.len()))
            .map(left_side)
            .collect()
    }

    pub fn solved_by(&self, x: &[u8]) -> bool {
        pack(&self.left_sides(x)) == self.y
    }

    pub fn batched(&self, column: &[u8]) -> Batched {
        let n = self.sizes.n;
        let row_length = n.div_ceil(8);
        let mut batched = Batched {
            matrix: vec![vec![0; n]; n],
            linear: vec![0; n],
            y: 0,
        };
        for (i, factor) in column.iter().enumerate() {
            let matrix = self.matrices.chunks(row_length).skip(i * n);
            for (sum, row) in batched.matrix.iter_mut().zip(matrix) {
                add_at_ones(sum, row, *factor);
            }
            add_at_ones(&mut batched.linear, &self.linear[i * row_length..], *factor);
            batched.y ^= factor * bit(self.y, i);
        }
        batched
    }
}
