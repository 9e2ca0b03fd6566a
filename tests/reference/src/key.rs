//! The key, its shape, and its equations at a point.

use crate::alphabet::Alphabet;
use crate::field::{add, Field};
use crate::seeds::SEED_LENGTH;
use crate::strings::{bytes_for, coordinate, exact_sections, spare_bits_are_0, two_bytes};

/// "n variables", "m equations", "τ repetitions", "t hash rows", and the field and alphabet that the degree and
/// alphabet beside the key name. "n, t, k and L count symbols, as do the entries of y" (02, request 11).
#[derive(Clone, Copy, Debug, PartialEq, Eq)]
pub struct Shape {
    pub field: Field,
    pub symbols: Alphabet,
    pub n: usize,
    pub m: usize,
    pub tau: usize,
    pub t: usize,
}

impl Shape {
    /// The shape of these sizes at a degree, which must be 8 or 4, and an alphabet, 2, or 4 at degree 8.
    pub fn new(n: usize, m: usize, tau: usize, t: usize, degree: u32, alphabet: u32) -> Shape {
        let field = Field::of_degree(degree).expect("degree 8 or 4");
        let symbols = Alphabet::beside(&field, alphabet).expect("alphabet 2, or 4 at degree 8");
        Shape {
            field,
            symbols,
            n,
            m,
            tau,
            t,
        }
    }

    /// The degree "passed beside the key in every call that takes one" (02, request 3).
    pub fn degree(&self) -> u32 {
        self.field.degree as u32
    }

    /// The alphabet, "2 or 4", that the caller names "beside the degree" (02, request 11).
    pub fn alphabet(&self) -> u32 {
        self.symbols.size as u32
    }

    /// The bytes of a row of so many entries.
    fn row(&self, entries: usize) -> usize {
        bytes_for(&self.symbols, entries)
    }

    /// From 01: "n variables 1..160, m equations 1..160, τ repetitions 1..48, t hash rows 1..160"; and from 02: "n and
    /// m go to 320 and t to 288" (request 1), "m = 0 is taken" (request 12).
    pub fn in_range(&self) -> bool {
        (1..=320).contains(&self.n)
            && (0..=320).contains(&self.m)
            && (1..=48).contains(&self.tau)
            && (1..=288).contains(&self.t)
    }

    /// r of 02: "r coordinates for each repetition, r the degree" (request 4); with alphabet 4 "four symbols for each
    /// repetition" (request 11).
    pub fn r(&self) -> usize {
        self.symbols.mask_symbols(&self.field)
    }

    /// From 02: "there are now r coordinates for each repetition, ...: k = n+rτ".
    pub fn k(&self) -> usize {
        self.n + self.r() * self.tau
    }

    /// Where the mask coordinates of repetition e start: "repetition e uses n+re up to n+re+r−1" (02).
    pub fn mask_start(&self, e: usize) -> usize {
        self.n + self.r() * e
    }

    /// The mask element of repetition e in a vector z, which is u, v_e or W_e.
    pub fn mask(&self, e: usize, z: &[u8]) -> u8 {
        self.field.mask(&self.symbols, self.mask_start(e), z)
    }

    /// "L = k+t".
    pub fn l(&self) -> usize {
        self.k() + self.t
    }

    /// "w = ⌈L/8⌉", and ⌈L/4⌉ with alphabet 4: "every bit row of c entries becomes a symbol row of ⌈c/4⌉ bytes" (02,
    /// request 11), here and in every length below.
    pub fn w(&self) -> usize {
        self.row(self.l())
    }

    /// "A has m matrices of n rows of ⌈n/8⌉ bytes ...; b has m rows of ⌈n/8⌉ bytes; y has m bits." With
    /// m = 0 "A, b and y are empty" (02, request 12).
    pub fn key_sections(&self) -> [usize; 3] {
        [
            self.m * self.n * self.row(self.n),
            self.m * self.row(self.n),
            self.row(self.m),
        ]
    }

    /// The length of the key: the header of 8 bytes, and the sections A, b, y, "each after its byte
    /// count (four bytes, lowest first)."
    pub fn key_length(&self) -> usize {
        8 + with_counts(&self.key_sections())
    }

    /// "for each repetition e, from 0 rising, 256 strings ℓ(e,j) of w bytes"; "16 leaves" at degree 4
    /// (02, request 3).
    pub fn leaves_length(&self) -> usize {
        self.tau * self.field.size * self.w()
    }

    /// "Opened leaves: 255 for each repetition"; "15 opened" at degree 4 (02, request 3).
    pub fn opened_length(&self) -> usize {
        self.tau * (self.field.size - 1) * self.w()
    }

    /// A full seed list: a seed for each leaf (02, request 6).
    pub fn seeds_length(&self) -> usize {
        self.tau * self.field.size * SEED_LENGTH
    }

    /// An opened seed list: a seed for each opened leaf (02, request 6).
    pub fn opened_seeds_length(&self) -> usize {
        self.tau * (self.field.size - 1) * SEED_LENGTH
    }

    /// "Δ, τ bytes".
    pub fn delta_length(&self) -> usize {
        self.tau
    }

    /// "H′, t rows of k bits (⌈k/8⌉ bytes a row)".
    pub fn h_length(&self) -> usize {
        self.t * self.row(self.k())
    }

    /// "χ, τ columns of m bytes"; with m = 0 "χ has no bytes" (02, request 12).
    pub fn chi_length(&self) -> usize {
        self.tau * self.m
    }

    /// "Has the witness ⌈n/8⌉ bytes".
    pub fn witness_length(&self) -> usize {
        self.row(self.n)
    }

    /// "The proof has the sections C, d, ũ, Ṽ, QS0, QS1, in that order, ...: (τ−1)·w, ⌈n/8⌉,
    /// ⌈t/8⌉, τ·t, τ and τ bytes".
    pub fn proof_sections(&self) -> [usize; 6] {
        [
            (self.tau - 1) * self.w(),
            self.row(self.n),
            self.row(self.t),
            self.tau * self.t,
            self.tau,
            self.tau,
        ]
    }

    /// What the first step writes: C and d.
    pub fn commit_length(&self) -> usize {
        with_counts(&self.proof_sections()[0..2])
    }

    /// What the second step writes: ũ and Ṽ.
    pub fn hash_length(&self) -> usize {
        with_counts(&self.proof_sections()[2..4])
    }

    /// What the third step writes: QS0 and QS1.
    pub fn batch_length(&self) -> usize {
        with_counts(&self.proof_sections()[4..6])
    }

    /// The whole proof: "24 bytes more than these together."
    pub fn proof_length(&self) -> usize {
        with_counts(&self.proof_sections())
    }

    /// The column of χ of repetition e: "τ columns of m bytes, by repetition and in each by
    /// equation, rising."
    pub fn column<'a>(&self, chi: &'a [u8], e: usize) -> &'a [u8] {
        &chi[e * self.m..(e + 1) * self.m]
    }
}

/// The length of sections, "each after its four-byte count".
fn with_counts(lengths: &[usize]) -> usize {
    lengths.iter().map(|length| 4 + length).sum()
}

/// "Has the key at least the 8 bytes of its header?"
pub fn has_header(bytes: &[u8]) -> bool {
    bytes.len() >= 8
}

/// "A key is n, m, τ, t, two bytes each, lowest first".
pub fn header(field: Field, symbols: Alphabet, bytes: &[u8]) -> Shape {
    Shape {
        field,
        symbols,
        n: two_bytes(bytes, 0),
        m: two_bytes(bytes, 2),
        tau: two_bytes(bytes, 4),
        t: two_bytes(bytes, 6),
    }
}

/// A key: its shape and the sections A, b, y.
#[derive(Clone, Copy, Debug)]
pub struct Key<'a> {
    pub shape: Shape,
    pub a: &'a [u8],
    pub b: &'a [u8],
    pub y: &'a [u8],
}

/// "then the sections A, b, y in that order, each after its byte count (four bytes, lowest
/// first)." Nothing unless "all counts and the key's length [are] exact".
pub fn sections<'a>(shape: Shape, bytes: &'a [u8]) -> Option<Key<'a>> {
    let found = exact_sections(bytes, 8, &shape.key_sections())?;
    Some(Key {
        shape,
        a: found[0],
        b: found[1],
        y: found[2],
    })
}

impl Key<'_> {
    /// "Are the key's spare bits 0?" The rows of A and of b have n entries each, y has m.
    pub fn spare_bits_are_0(&self) -> bool {
        let symbols = &self.shape.symbols;
        spare_bits_are_0(symbols, self.a, self.shape.n)
            && spare_bits_are_0(symbols, self.b, self.shape.n)
            && spare_bits_are_0(symbols, self.y, self.shape.m)
    }

    /// Row `row` of A_i, packed: "m matrices of n rows of ⌈n/8⌉ bytes, matrix 0 row 0 first".
    pub fn a_row(&self, i: usize, row: usize) -> &[u8] {
        let length = self.shape.row(self.shape.n);
        let start = (i * self.shape.n + row) * length;
        &self.a[start..start + length]
    }

    /// b_i, packed: "b has m rows of ⌈n/8⌉ bytes".
    pub fn b_row(&self, i: usize) -> &[u8] {
        let length = self.shape.row(self.shape.n);
        &self.b[i * length..(i + 1) * length]
    }

    /// The entry of A_i in the given row and column, as an element of K.
    pub fn a_entry(&self, i: usize, row: usize, column: usize) -> u8 {
        coordinate(&self.shape.symbols, self.a_row(i, row), column)
    }

    /// The entry of b_i in the given column, as an element of K.
    pub fn b_entry(&self, i: usize, column: usize) -> u8 {
        coordinate(&self.shape.symbols, self.b_row(i), column)
    }

    /// y_i as an element of K: "y has m bits", or m symbols.
    pub fn y_entry(&self, i: usize) -> u8 {
        coordinate(&self.shape.symbols, self.y, i)
    }

    /// pᵀA_i·q = Σ over rows r of p[r]·(Σ over columns c of A_i[r][c]·q[c]), over K.
    ///
    /// With p and q both x this is the first part of "xᵀA_i·x + b_i·x = y_i", where "over GF(2) each product of a row
    /// with x is the parity of the ones that row and x share." With alphabet 4 the products are those of GF(4) inside
    /// K. "A_i need not be symmetric", so p and q are not interchangeable.
    pub fn a_form(&self, i: usize, p: &[u8], q: &[u8]) -> u8 {
        let field = &self.shape.field;
        let mut sum = 0;
        for row in 0..self.shape.n {
            let entries = self.a_row(i, row);
            let mut row_sum = 0;
            for column in 0..self.shape.n {
                let entry = coordinate(&self.shape.symbols, entries, column);
                row_sum = add(row_sum, field.symbol_times(entry, q[column]));
            }
            sum = add(sum, field.mul(p[row], row_sum));
        }
        sum
    }

    /// b_i·q = Σ over columns c of b_i[c]·q[c], over K; with x for q the second part of
    /// "xᵀA_i·x + b_i·x = y_i".
    pub fn b_form(&self, i: usize, q: &[u8]) -> u8 {
        let mut sum = 0;
        for column in 0..self.shape.n {
            let term = self
                .shape
                .field
                .symbol_times(self.b_entry(i, column), q[column]);
            sum = add(sum, term);
        }
        sum
    }

    /// "An equation's error at a candidate is its left side plus y_i", the left side being
    /// "xᵀA_i·x + b_i·x". Here x is a vector of n entries of the alphabet, and so the error is one of its elements.
    pub fn error(&self, i: usize, x: &[u8]) -> u8 {
        let left_side = add(self.a_form(i, x, x), self.b_form(i, x));
        add(left_side, self.y_entry(i))
    }

    /// The lowest-numbered equation that fails at x, counted from 0; nothing where x solves all: "A
    /// candidate fails an equation when that equation's error at it is not 0."
    pub fn first_failing(&self, x: &[u8]) -> Option<usize> {
        (0..self.shape.m).find(|i| self.error(*i, x) != 0)
    }
}
