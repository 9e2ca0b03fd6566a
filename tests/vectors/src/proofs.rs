//! proofs.rsp: honest cases, with the bytes that each step and the whole prover write.

use crate::calls::{Call, CALLS};
use crate::lent::{honest, toy, toy_at_degree_4, Lent};
use crate::rsp::File;

/// Sizes of n, m and t: the edges of a byte.
const EDGES: [usize; 4] = [1, 7, 8, 9];

/// Sizes of tau: at degree 8 its coordinates fill whole bytes, at degree 4 half ones too.
const REPETITIONS: [usize; 4] = [1, 2, 3, 9];

/// Sizes of every case at a degree: n, m, tau, t.
fn shapes(degree: u32) -> Vec<[usize; 4]> {
    let mut shapes = Vec::new();
    // Over the field of four elements (sums are exclusive ors) the columns a, b, a+b, a+2b: in any two of them, each
    // pair of values comes once.
    for a in 0..4 {
        for (b, double) in [(0, 0), (1, 2), (2, 3), (3, 1)] {
            shapes.push([EDGES[a], EDGES[b], REPETITIONS[a ^ b], EDGES[a ^ double]]);
        }
    }
    // The limits of n, m and t, the other sizes small; of tau at degree 8 only five, since at its limit the leaves
    // would have more than half a megabyte. And one with several words to each string.
    let tau = if degree == 8 { 5 } else { 48 };
    shapes.extend([
        [320, 2, 1, 3],
        [2, 320, 1, 3],
        [3, 2, tau, 4],
        [3, 2, 1, 288],
    ]);
    shapes.push([70, 17, 3, 65]);
    // No equations.
    shapes.extend([[1, 0, 1, 1], [9, 0, 2, 5], [320, 0, 1, 3]]);
    shapes
}

pub fn file() -> String {
    let mut file = File::new(&[
        "Solfadrus: honest proofs. The form is that of README.md.",
        "Written by tests/vectors; every byte below was computed by the Rust rendering, tests/reference.",
        "At each degree the first case is a toy, at 8 that of the scope paper; the others are random, from a fixed seed.",
    ]);
    for (toy, degree) in [(toy(), 8), (toy_at_degree_4(), 4)] {
        add(&mut file, &toy);
        for (seed, sizes) in shapes(degree).into_iter().enumerate() {
            add(&mut file, &honest(seed as u64, sizes, degree));
        }
    }
    file.text()
}

fn add(file: &mut File, lent: &Lent) {
    file.sizes(&lent.shape);
    file.case();
    file.bytes("key", &lent.key);
    file.bytes("witness", &lent.witness);
    file.bytes("leaves", &lent.leaves);
    file.bytes("hash_matrix", &lent.hash_matrix);
    file.bytes("batching", &lent.batching);
    file.bytes("delta", &lent.delta);
    file.bytes("opened", &lent.opened);
    for call in CALLS {
        let (word, out) = call.answer(lent);
        assert_eq!(word, 0, "{} of an honest case", call.name());
        let name = match call {
            Call::Test | Call::Verify => continue,
            Call::Prove => "proof",
            step => step.name(),
        };
        file.bytes(name, &out.unwrap());
    }
    file.end_case();
}
