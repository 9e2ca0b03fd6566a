//! The six calls: what each takes and writes, which numbers it can answer, and the rendering's answer.

use crate::lent::{Lent, ALPHABET};
use reference::{word, Answer};
use std::ops::Range;

#[derive(Clone, Copy, Debug, PartialEq, Eq)]
pub enum Call {
    Test,
    Commit,
    Hash,
    Batch,
    Prove,
    Verify,
}

pub const CALLS: [Call; 6] = [
    Call::Test,
    Call::Commit,
    Call::Hash,
    Call::Batch,
    Call::Prove,
    Call::Verify,
];

impl Call {
    /// The header's name, without `mq_`.
    pub fn name(self) -> &'static str {
        match self {
            Call::Test => "test",
            Call::Commit => "commit",
            Call::Hash => "hash",
            Call::Batch => "batch",
            Call::Prove => "prove",
            Call::Verify => "verify",
        }
    }

    /// The questions that it puts, in order: the columns of docs/REFUSALS.md. At degree 8 every byte is an element, so
    /// that 17 and 18 get no no.
    pub fn questions(self, degree: u32) -> Vec<u32> {
        let all: &[u32] = match self {
            Call::Test => &[16, 1, 2, 3, 4, 9, 11],
            Call::Commit => &[16, 1, 2, 3, 4, 7, 8, 9, 10, 11],
            Call::Hash => &[16, 1, 2, 3, 4, 5, 6, 7, 8, 10],
            Call::Batch => &[16, 1, 2, 3, 4, 5, 17, 7, 8, 9, 10, 11],
            Call::Prove => &[16, 1, 2, 3, 4, 5, 6, 17, 7, 8, 9, 10, 11],
            Call::Verify => &[16, 1, 2, 3, 4, 5, 6, 17, 7, 8, 12, 13, 18, 14, 15],
        };
        let put = |number: &u32| degree == 4 || ![17, 18].contains(number);
        all.iter().copied().filter(put).collect()
    }

    /// Its inputs by the header's names, in the header's order.
    pub fn inputs(self, lent: &Lent) -> Vec<(&'static str, &[u8])> {
        let key = ("key", lent.key.as_slice());
        let witness = ("witness", lent.witness.as_slice());
        let leaves = ("leaves", lent.leaves.as_slice());
        let hash_matrix = ("hash_matrix", lent.hash_matrix.as_slice());
        let batching = ("batching", lent.batching.as_slice());
        let delta = ("delta", lent.delta.as_slice());
        let opened = ("opened", lent.opened.as_slice());
        let proof = ("proof", lent.proof.as_slice());
        match self {
            Call::Test => vec![key, witness],
            Call::Commit => vec![key, leaves, witness],
            Call::Hash => vec![key, leaves, hash_matrix],
            Call::Batch => vec![key, leaves, witness, batching],
            Call::Prove => vec![key, leaves, witness, hash_matrix, batching],
            Call::Verify => vec![key, delta, hash_matrix, batching, opened, proof],
        }
    }

    /// The part of the proof that it writes, counts included.
    pub fn writes(self, lent: &Lent) -> Range<usize> {
        let (from, to) = match self {
            Call::Test | Call::Verify => (0, 0),
            Call::Commit => (0, 2),
            Call::Hash => (2, 4),
            Call::Batch => (4, 6),
            Call::Prove => (0, 6),
        };
        lent.proof_section(from)..lent.proof_section(to)
    }

    /// The length of the output that is lent.
    pub fn out_len(self, lent: &Lent) -> usize {
        self.writes(lent).len().saturating_add_signed(lent.more_out)
    }

    /// The rendering's word, and its output where it accepts.
    pub fn answer(self, lent: &Lent) -> (u32, Option<Vec<u8>>) {
        let Lent {
            key,
            witness,
            leaves,
            hash_matrix,
            batching,
            ..
        } = lent;
        let degree = lent.degree;
        let mut out = vec![0; self.out_len(lent)];
        let answer = match self {
            Call::Test => reference::test(key, degree, ALPHABET, witness),
            Call::Commit => reference::commit(key, degree, ALPHABET, leaves, witness, &mut out),
            Call::Hash => reference::hash(key, degree, ALPHABET, leaves, hash_matrix, &mut out),
            Call::Batch => {
                reference::batch(key, degree, ALPHABET, leaves, witness, batching, &mut out)
            }
            Call::Prove => reference::prove(
                key,
                degree,
                ALPHABET,
                leaves,
                witness,
                hash_matrix,
                batching,
                &mut out,
            ),
            Call::Verify => reference::verify(
                key,
                degree,
                ALPHABET,
                &lent.delta,
                hash_matrix,
                batching,
                &lent.opened,
                &lent.proof,
            ),
        };
        let accepted = answer == Answer::Accepted;
        (word(answer), accepted.then_some(out))
    }
}
