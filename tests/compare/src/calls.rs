//! The calls: what each takes and writes, and how the library and the rendering are asked.
//!
//! A call that is added to the library is added to the table `CALLS`, and is then compared like the others.

use crate::inputs::{section_start, Name};
use reference::key::Shape;
use reference::Answer;

/// The library's one alphabet until it serves request 11.
pub const ALPHABET: u32 = 2;

/// An input as C lends it.
#[derive(Clone, Copy, Debug)]
pub struct Lent {
    pub at: *const u8,
    pub len: usize,
}

/// An output as C lends it.
#[derive(Clone, Copy, Debug)]
pub struct LentOut {
    pub at: *mut u8,
    pub len: usize,
}

extern "C" {
    fn mq_test(
        key: *const u8,
        key_len: usize,
        degree: u32,
        witness: *const u8,
        witness_len: usize,
    ) -> u32;

    fn mq_commit(
        key: *const u8,
        key_len: usize,
        degree: u32,
        leaves: *const u8,
        leaves_len: usize,
        witness: *const u8,
        witness_len: usize,
        out: *mut u8,
        out_len: usize,
    ) -> u32;

    fn mq_hash(
        key: *const u8,
        key_len: usize,
        degree: u32,
        leaves: *const u8,
        leaves_len: usize,
        hash_matrix: *const u8,
        hash_matrix_len: usize,
        out: *mut u8,
        out_len: usize,
    ) -> u32;

    fn mq_batch(
        key: *const u8,
        key_len: usize,
        degree: u32,
        leaves: *const u8,
        leaves_len: usize,
        witness: *const u8,
        witness_len: usize,
        batching: *const u8,
        batching_len: usize,
        out: *mut u8,
        out_len: usize,
    ) -> u32;

    fn mq_prove(
        key: *const u8,
        key_len: usize,
        degree: u32,
        leaves: *const u8,
        leaves_len: usize,
        witness: *const u8,
        witness_len: usize,
        hash_matrix: *const u8,
        hash_matrix_len: usize,
        batching: *const u8,
        batching_len: usize,
        out: *mut u8,
        out_len: usize,
    ) -> u32;

    fn mq_verify(
        key: *const u8,
        key_len: usize,
        degree: u32,
        delta: *const u8,
        delta_len: usize,
        hash_matrix: *const u8,
        hash_matrix_len: usize,
        batching: *const u8,
        batching_len: usize,
        opened: *const u8,
        opened_len: usize,
        proof: *const u8,
        proof_len: usize,
    ) -> u32;
}

/// What a call writes: the proof's sections from one to another, or nothing.
#[derive(Clone, Copy, Debug, PartialEq, Eq)]
pub enum Writes {
    Nothing,
    Sections(usize, usize),
}

impl Writes {
    /// Where these bytes stand in a whole proof.
    pub fn part(self, shape: &Shape) -> std::ops::Range<usize> {
        let start = |section| section_start(Name::Proof, shape, section);
        match self {
            Writes::Nothing => 0..0,
            Writes::Sections(from, to) => start(from)..start(to),
        }
    }

    /// The length to be written.
    pub fn length(self, shape: &Shape) -> usize {
        self.part(shape).len()
    }
}

pub struct Call {
    pub name: &'static str,
    /// The inputs, in the order of the call's parameters.
    pub takes: &'static [Name],
    pub writes: Writes,
    /// The numbers that it can answer, 0 for accepted.
    pub answers: &'static [usize],
    /// The library, lent the inputs in that order, and the degree. Safe where each is valid for its length.
    pub library: unsafe fn(&[Lent], u32, LentOut) -> u32,
    /// The rendering, on the same inputs.
    pub rendering: fn(&[&[u8]], u32, &mut [u8]) -> Answer,
}

pub const TEST: Call = Call {
    name: "mq_test",
    takes: &[Name::Key, Name::Witness],
    writes: Writes::Nothing,
    answers: &[0, 1, 2, 3, 4, 9, 11, 16],
    library: |i, d, _| unsafe { mq_test(i[0].at, i[0].len, d, i[1].at, i[1].len) },
    rendering: |i, d, _| reference::test(i[0], d, ALPHABET, i[1]),
};

pub const COMMIT: Call = Call {
    name: "mq_commit",
    takes: &[Name::Key, Name::Leaves, Name::Witness],
    writes: Writes::Sections(0, 2),
    answers: &[0, 1, 2, 3, 4, 7, 8, 9, 10, 11, 16],
    library: |i, d, o| unsafe {
        mq_commit(
            i[0].at, i[0].len, d, i[1].at, i[1].len, i[2].at, i[2].len, o.at, o.len,
        )
    },
    rendering: |i, d, out| reference::commit(i[0], d, ALPHABET, i[1], i[2], out),
};

pub const HASH: Call = Call {
    name: "mq_hash",
    takes: &[Name::Key, Name::Leaves, Name::HashMatrix],
    writes: Writes::Sections(2, 4),
    answers: &[0, 1, 2, 3, 4, 5, 6, 7, 8, 10, 16],
    library: |i, d, o| unsafe {
        mq_hash(
            i[0].at, i[0].len, d, i[1].at, i[1].len, i[2].at, i[2].len, o.at, o.len,
        )
    },
    rendering: |i, d, out| reference::hash(i[0], d, ALPHABET, i[1], i[2], out),
};

pub const BATCH: Call = Call {
    name: "mq_batch",
    takes: &[Name::Key, Name::Leaves, Name::Witness, Name::Batching],
    writes: Writes::Sections(4, 6),
    answers: &[0, 1, 2, 3, 4, 5, 7, 8, 9, 10, 11, 16, 17],
    library: |i, d, o| unsafe {
        mq_batch(
            i[0].at, i[0].len, d, i[1].at, i[1].len, i[2].at, i[2].len, i[3].at, i[3].len, o.at,
            o.len,
        )
    },
    rendering: |i, d, out| reference::batch(i[0], d, ALPHABET, i[1], i[2], i[3], out),
};

pub const PROVE: Call = Call {
    name: "mq_prove",
    takes: &[
        Name::Key,
        Name::Leaves,
        Name::Witness,
        Name::HashMatrix,
        Name::Batching,
    ],
    writes: Writes::Sections(0, 6),
    answers: &[0, 1, 2, 3, 4, 5, 6, 7, 8, 9, 10, 11, 16, 17],
    library: |i, d, o| unsafe {
        mq_prove(
            i[0].at, i[0].len, d, i[1].at, i[1].len, i[2].at, i[2].len, i[3].at, i[3].len, i[4].at,
            i[4].len, o.at, o.len,
        )
    },
    rendering: |i, d, out| reference::prove(i[0], d, ALPHABET, i[1], i[2], i[3], i[4], out),
};

pub const VERIFY: Call = Call {
    name: "mq_verify",
    takes: &[
        Name::Key,
        Name::Delta,
        Name::HashMatrix,
        Name::Batching,
        Name::Opened,
        Name::Proof,
    ],
    writes: Writes::Nothing,
    answers: &[0, 1, 2, 3, 4, 5, 6, 7, 8, 12, 13, 14, 15, 16, 17, 18],
    library: |i, d, _| unsafe {
        mq_verify(
            i[0].at, i[0].len, d, i[1].at, i[1].len, i[2].at, i[2].len, i[3].at, i[3].len, i[4].at,
            i[4].len, i[5].at, i[5].len,
        )
    },
    rendering: |i, d, _| reference::verify(i[0], d, ALPHABET, i[1], i[2], i[3], i[4], i[5]),
};

impl Call {
    /// The numbers that it can answer to what was made for a degree. At degree 8 every byte is an element.
    pub fn answers_at(&self, degree: u32) -> impl Iterator<Item = usize> {
        let answers = self.answers.iter().copied();
        answers.filter(move |number| degree != 8 || ![17, 18].contains(number))
    }
}

/// Every call that is compared.
pub const CALLS: &[Call] = &[TEST, COMMIT, HASH, BATCH, PROVE, VERIFY];

/// The steps whose bytes, one after the other, are those of `PROVE`.
pub const STEPS: &[Call] = &[COMMIT, HASH, BATCH];
