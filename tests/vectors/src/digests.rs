//! digests.rsp: honest cases that would be too long for a file. Inputs are expanded from a seed, as README.md says, and
//! the file has the SHA-256 of each string.

use crate::calls::Call;
use crate::lent::{with_proof, Lent, ALPHABET};
use crate::rsp::File;
use crate::sha256::sha256;
use reference::alphabet::TWO;
use reference::cases::{key_bytes, Case};
use reference::key::{Key, Shape};
use reference::strings::{bytes_for, unpack};

/// The sizes in use, and the largest, at each degree: n, m, tau, t. The seed is the case's number.
const SHAPES: [([usize; 4], u32); 4] = [
    ([150, 150, 19, 144], 8),
    ([320, 320, 48, 288], 8),
    ([150, 150, 43, 144], 4),
    ([320, 320, 48, 288], 4),
];

pub fn file() -> String {
    let mut file = File::new(&[
        "Solfadrus: honest proofs of the sizes in use and of the largest. Every string is given by its SHA-256; the inputs",
        "are expanded from the seed. Form and expansion are those of README.md.",
        "Written by tests/vectors; what is hashed was computed by the Rust rendering, tests/reference.",
    ]);
    for (seed, ([n, m, tau, t], degree)) in SHAPES.into_iter().enumerate() {
        let shape = Shape::new(n, m, tau, t, degree, ALPHABET);
        add(
            &mut file,
            seed as u64,
            &with_proof(expanded(seed as u64, shape)),
        );
    }
    file.text()
}

/// splitmix64.
struct Expander(u64);

impl Expander {
    fn number(&mut self) -> u64 {
        self.0 = self.0.wrapping_add(0x9E37_79B9_7F4A_7C15);
        let mut z = self.0;
        z = (z ^ (z >> 30)).wrapping_mul(0xBF58_476D_1CE4_E5B9);
        z = (z ^ (z >> 27)).wrapping_mul(0x94D0_49BB_1331_11EB);
        z ^ (z >> 31)
    }

    /// So many strings of so many bits, each begun with a number of its own.
    fn strings(&mut self, count: usize, bits: usize) -> Vec<u8> {
        let mut strings = Vec::new();
        for _ in 0..count {
            let mut string = Vec::new();
            while string.len() < bytes_for(&TWO, bits) {
                string.extend(self.number().to_le_bytes());
            }
            string.truncate(bytes_for(&TWO, bits));
            if bits % 8 > 0 {
                *string.last_mut().unwrap() &= (1 << (bits % 8)) - 1;
            }
            strings.extend(string);
        }
        strings
    }
}

/// The case of a seed.
fn expanded(seed: u64, shape: Shape) -> Case {
    let (n, m, tau) = (shape.n, shape.m, shape.tau);
    let mut from = Expander(seed);
    let witness = from.strings(1, n);
    let a = from.strings(m * n, n);
    let b = from.strings(m, n);
    // With y = 0 an equation's error is its left side.
    let zero = vec![0; bytes_for(&TWO, m)];
    let key = Key {
        shape,
        a: &a,
        b: &b,
        y: &zero,
    };
    let x = unpack(&TWO, &witness, n);
    let mut y = zero.clone();
    for i in 0..m {
        y[i / 8] |= key.error(i, &x) << (i % 8);
    }
    Case {
        shape,
        key: key_bytes(&shape, &a, &b, &y),
        witness,
        leaves: from.strings(shape.field.size * tau, shape.l()),
        h: from.strings(shape.t, shape.k()),
        chi: from.strings(tau * m, shape.field.degree),
        delta: from.strings(tau, shape.field.degree),
    }
}

fn add(file: &mut File, seed: u64, lent: &Lent) {
    assert_eq!(Call::Test.answer(lent).0, 0, "test of an honest case");
    assert_eq!(Call::Verify.answer(lent).0, 0, "verify of an honest case");
    file.sizes(&lent.shape);
    file.case();
    file.line("seed", &seed.to_string());
    for (name, bytes) in [
        ("key", &lent.key),
        ("witness", &lent.witness),
        ("leaves", &lent.leaves),
        ("hash_matrix", &lent.hash_matrix),
        ("batching", &lent.batching),
        ("delta", &lent.delta),
        ("opened", &lent.opened),
    ] {
        file.bytes(name, &sha256(bytes));
    }
    // The steps' bytes are the parts of the proof: the rendering is slow, and is asked once.
    for call in [Call::Commit, Call::Hash, Call::Batch] {
        file.bytes(call.name(), &sha256(&lent.proof[call.writes(lent)]));
    }
    file.bytes("proof", &sha256(&lent.proof));
    file.end_case();
}
