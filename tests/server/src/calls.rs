//! The six calls: what each takes and writes, which numbers it can answer, and how the rendering is asked.

use reference::cases::{case, Random};
use reference::key::Shape;
use reference::{batch, commit, hash, prove, test, verify, word, Answer};

/// The library's one alphabet until it serves request 11.
const ALPHABET: u32 = 2;

/// What the calls take, by name.
pub const KEY: usize = 0;
pub const LEAVES: usize = 1;
pub const WITNESS: usize = 2;
pub const H: usize = 3;
pub const CHI: usize = 4;
pub const DELTA: usize = 5;
pub const OPENED: usize = 6;
pub const PROOF: usize = 7;

/// All inputs of all calls, the degree, and the length of the output.
#[derive(Clone, Default)]
pub struct Inputs {
    pub strings: [Vec<u8>; 8],
    pub degree: u32,
    pub output: usize,
}

pub struct Call {
    pub name: &'static str,
    /// In the order of its parameters.
    pub takes: &'static [usize],
    /// The sections of the proof that it writes: from one to another.
    pub writes: (usize, usize),
    /// The numbers that it can answer, 0 for accepted.
    pub answers: &'static [u32],
    pub rendering: fn(&[Vec<u8>; 8], u32, &mut [u8]) -> Answer,
}

/// The server knows them by their place here.
pub const CALLS: [Call; 6] = [
    Call {
        name: "test",
        takes: &[KEY, WITNESS],
        writes: (0, 0),
        answers: &[0, 1, 2, 3, 4, 9, 11, 16],
        rendering: |s, d, _| test(&s[KEY], d, ALPHABET, &s[WITNESS]),
    },
    Call {
        name: "commit",
        takes: &[KEY, LEAVES, WITNESS],
        writes: (0, 2),
        answers: &[0, 1, 2, 3, 4, 7, 8, 9, 10, 11, 16],
        rendering: |s, d, out| commit(&s[KEY], d, ALPHABET, &s[LEAVES], &s[WITNESS], out),
    },
    Call {
        name: "hash",
        takes: &[KEY, LEAVES, H],
        writes: (2, 4),
        answers: &[0, 1, 2, 3, 4, 5, 6, 7, 8, 10, 16],
        rendering: |s, d, out| hash(&s[KEY], d, ALPHABET, &s[LEAVES], &s[H], out),
    },
    Call {
        name: "batch",
        takes: &[KEY, LEAVES, WITNESS, CHI],
        writes: (4, 6),
        answers: &[0, 1, 2, 3, 4, 5, 7, 8, 9, 10, 11, 16, 17],
        rendering: |s, d, out| batch(&s[KEY], d, ALPHABET, &s[LEAVES], &s[WITNESS], &s[CHI], out),
    },
    Call {
        name: "prove",
        takes: &[KEY, LEAVES, WITNESS, H, CHI],
        writes: (0, 6),
        answers: &[0, 1, 2, 3, 4, 5, 6, 7, 8, 9, 10, 11, 16, 17],
        rendering: |s, d, out| {
            prove(
                &s[KEY],
                d,
                ALPHABET,
                &s[LEAVES],
                &s[WITNESS],
                &s[H],
                &s[CHI],
                out,
            )
        },
    },
    Call {
        name: "verify",
        takes: &[KEY, DELTA, H, CHI, OPENED, PROOF],
        writes: (0, 0),
        answers: &[0, 1, 2, 3, 4, 5, 6, 7, 8, 12, 13, 14, 15, 16, 17, 18],
        rendering: |s, d, _| {
            verify(
                &s[KEY], d, ALPHABET, &s[DELTA], &s[H], &s[CHI], &s[OPENED], &s[PROOF],
            )
        },
    },
];

impl Call {
    pub fn has_output(&self) -> bool {
        self.writes.0 < self.writes.1
    }

    /// The length to be written.
    pub fn length(&self, (n, m, tau, t, degree): Sizes) -> usize {
        let shape = Shape::new(n, m, tau, t, degree, ALPHABET);
        let sections = &shape.proof_sections()[self.writes.0..self.writes.1];
        sections.iter().map(|section| 4 + section).sum()
    }
}

/// n, m, τ, t, and the degree.
pub type Sizes = (usize, usize, usize, usize, u32);

/// Honest inputs: the rendering's proof, the leaves opened at a random Δ, and the output that this call writes.
pub fn honest(random: &mut Random, sizes: Sizes, call: &Call) -> Inputs {
    let (n, m, tau, t, degree) = sizes;
    let made = case(random.number(), n, m, tau, t, degree, ALPHABET);
    let mut inputs = Inputs {
        degree,
        output: call.length(sizes),
        ..Inputs::default()
    };
    let opened = made.opened();
    let mut proof = vec![0; made.proof_length()];
    inputs.strings = [
        made.key,
        made.leaves,
        made.witness,
        made.h,
        made.chi,
        made.delta,
        opened,
        Vec::new(),
    ];
    if call.takes.contains(&PROOF) {
        let s = &inputs.strings;
        let answer = prove(
            &s[KEY],
            degree,
            ALPHABET,
            &s[LEAVES],
            &s[WITNESS],
            &s[H],
            &s[CHI],
            &mut proof,
        );
        assert_eq!(word(answer), 0, "the rendering proves");
        inputs.strings[PROOF] = proof;
    }
    inputs
}
