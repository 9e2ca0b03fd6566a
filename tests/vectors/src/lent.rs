//! What is lent to the calls: the byte strings by the header's names, and the output's length.

use reference::cases::{case, key_bytes, Case};
use reference::key::Shape;
use reference::toys::lent_at_degree_4;
use reference::{open_leaves, prove, Answer};

/// The library's one alphabet until it serves request 11.
pub const ALPHABET: u32 = 2;

#[derive(Clone, Debug)]
pub struct Lent {
    pub shape: Shape,
    /// Lent beside the key. The strings were made for that of the shape.
    pub degree: u32,
    pub key: Vec<u8>,
    pub witness: Vec<u8>,
    pub leaves: Vec<u8>,
    pub hash_matrix: Vec<u8>,
    pub batching: Vec<u8>,
    pub delta: Vec<u8>,
    pub opened: Vec<u8>,
    pub proof: Vec<u8>,
    /// How many bytes the output has beyond those to be written.
    pub more_out: isize,
}

/// An honest prover's and verifier's strings, at random: the rendering's own case of this seed, and its proof.
pub fn honest(seed: u64, [n, m, tau, t]: [usize; 4], degree: u32) -> Lent {
    with_proof(case(seed, n, m, tau, t, degree, ALPHABET))
}

/// 01's toy, at Δ = 02.
pub fn toy() -> Lent {
    let shape = Shape::new(2, 1, 1, 1, 8, ALPHABET);
    let mut leaves = vec![0; 512];
    leaves[4..8].copy_from_slice(&[0x05, 0x00, 0x02, 0x04]);
    with_proof(Case {
        shape,
        key: key_bytes(&shape, &[0x02, 0x00], &[0x01], &[0x01]),
        witness: vec![0x01],
        leaves,
        h: vec![0x05, 0x00],
        chi: vec![0x05],
        delta: vec![0x02],
    })
}

/// The toy at degree 4, at Δ = 03.
pub fn toy_at_degree_4() -> Lent {
    with_proof(lent_at_degree_4())
}

/// The rendering's proof added.
pub fn with_proof(case: Case) -> Lent {
    let mut proof = vec![0; case.proof_length()];
    let answer = prove(
        &case.key,
        case.degree(),
        case.alphabet(),
        &case.leaves,
        &case.witness,
        &case.h,
        &case.chi,
        &mut proof,
    );
    assert_eq!(answer, Answer::Accepted);
    Lent {
        shape: case.shape,
        degree: case.degree(),
        opened: case.opened(),
        key: case.key,
        witness: case.witness,
        leaves: case.leaves,
        hash_matrix: case.h,
        batching: case.chi,
        delta: case.delta,
        proof,
        more_out: 0,
    }
}

impl Lent {
    /// The same leaves, opened at another Δ.
    pub fn open_at(&mut self, delta: &[u8]) {
        self.delta = delta.to_vec();
        self.opened = open_leaves(&self.shape, &self.leaves, delta);
    }

    /// Where the count of a section of the key stands: A, b, y are 0, 1, 2.
    pub fn key_section(&self, index: usize) -> usize {
        8 + start(&self.shape.key_sections(), index)
    }

    /// Where the count of a section of the proof stands: C, d, u~, V~, QS0, QS1 are 0 to 5.
    pub fn proof_section(&self, index: usize) -> usize {
        start(&self.shape.proof_sections(), index)
    }
}

/// Where a section's count stands, each section standing after its four-byte count.
fn start(lengths: &[usize], index: usize) -> usize {
    lengths[..index].iter().map(|length| 4 + length).sum()
}
