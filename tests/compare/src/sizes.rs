//! The size functions, held against the lengths that the rendering uses.

use crate::calls::{ALPHABET, BATCH, COMMIT, HASH, PROVE};
use crate::inputs::{length, Name};
use reference::cases::Random;
use reference::field::Field;
use reference::key::Shape;

type SizeFunction = unsafe extern "C" fn(usize, usize, usize, usize, u32) -> usize;
type Length = fn(&Shape) -> usize;

extern "C" {
    fn mq_key_size(n: usize, m: usize, tau: usize, t: usize, degree: u32) -> usize;
    fn mq_witness_size(n: usize, m: usize, tau: usize, t: usize, degree: u32) -> usize;
    fn mq_leaves_size(n: usize, m: usize, tau: usize, t: usize, degree: u32) -> usize;
    fn mq_opened_size(n: usize, m: usize, tau: usize, t: usize, degree: u32) -> usize;
    fn mq_hash_matrix_size(n: usize, m: usize, tau: usize, t: usize, degree: u32) -> usize;
    fn mq_batching_size(n: usize, m: usize, tau: usize, t: usize, degree: u32) -> usize;
    fn mq_delta_size(n: usize, m: usize, tau: usize, t: usize, degree: u32) -> usize;
    fn mq_proof_size(n: usize, m: usize, tau: usize, t: usize, degree: u32) -> usize;
    fn mq_commit_size(n: usize, m: usize, tau: usize, t: usize, degree: u32) -> usize;
    fn mq_hash_size(n: usize, m: usize, tau: usize, t: usize, degree: u32) -> usize;
    fn mq_batch_size(n: usize, m: usize, tau: usize, t: usize, degree: u32) -> usize;
}

/// Each function, with the length that the rendering uses.
const FUNCTIONS: [(&str, SizeFunction, Length); 11] = [
    ("mq_key_size", mq_key_size, |s| {
        20 + s.key_sections().iter().sum::<usize>()
    }),
    ("mq_witness_size", mq_witness_size, Shape::witness_length),
    ("mq_leaves_size", mq_leaves_size, Shape::leaves_length),
    ("mq_opened_size", mq_opened_size, Shape::opened_length),
    ("mq_hash_matrix_size", mq_hash_matrix_size, Shape::h_length),
    ("mq_batching_size", mq_batching_size, Shape::chi_length),
    ("mq_delta_size", mq_delta_size, Shape::delta_length),
    ("mq_proof_size", mq_proof_size, |s| sections(s, 0..6)),
    ("mq_commit_size", mq_commit_size, |s| sections(s, 0..2)),
    ("mq_hash_size", mq_hash_size, |s| sections(s, 2..4)),
    ("mq_batch_size", mq_batch_size, |s| sections(s, 4..6)),
];

/// Sections of the proof, "each after its four-byte count".
fn sections(shape: &Shape, which: std::ops::Range<usize>) -> usize {
    shape.proof_sections()[which]
        .iter()
        .map(|length| 4 + length)
        .sum()
}

/// Compares at every shape with one or two sizes free, and at random ones; gives how many were compared.
/// `off` is added to what the library answers: the self-test puts 1.
pub fn compare(random: &mut Random, off: usize) -> Result<u64, String> {
    let mut compared = 0;
    let limits = shapes::LIMITS;
    for which in 0..4 {
        for other in 0..4 {
            for size in 0..=limits[which] + 1 {
                for rest in [0, 1, 8, limits[other], limits[other] + 1] {
                    let mut sizes = limits.map(|limit| 1 + random.below(limit));
                    sizes[other] = rest;
                    sizes[which] = size;
                    for degree in shapes::DEGREES {
                        compared += at(sizes, degree, off)?;
                    }
                }
            }
        }
    }
    for _ in 0..20_000 {
        let mut sizes = [0; 4];
        for (which, size) in sizes.iter_mut().enumerate() {
            let least = shapes::LEAST[which];
            *size = least + random.below(limits[which] + 1 - least);
        }
        // Sometimes one size out of range, also such that its low bits would do.
        if random.below(4) == 0 {
            sizes[random.below(4)] += 1 << (8 * random.below(8));
        }
        if random.below(16) == 0 {
            sizes[random.below(4)] = random.number() as usize;
        }
        let others = shapes::edits::OTHER_DEGREES;
        let degree = match random.below(4) {
            0 => others[random.below(others.len())],
            1 => random.number() as u32,
            2 => 8,
            _ => 4,
        };
        compared += at(sizes, degree, off)?;
    }
    Ok(compared)
}

fn at(sizes: [usize; 4], degree: u32, off: usize) -> Result<u64, String> {
    let [n, m, tau, t] = sizes;
    let shape = Field::of_degree(degree).map(|_| Shape::new(n, m, tau, t, degree, ALPHABET));
    let shape = shape.filter(Shape::in_range);
    for (name, function, rendering) in FUNCTIONS {
        let answered = unsafe { function(n, m, tau, t, degree) } + off;
        let expected = shape.as_ref().map_or(0, rendering);
        if answered != expected {
            return Err(format!(
                "{name}({n}, {m}, {tau}, {t}, {degree}) is {answered}, the rendering uses {expected}\n"
            ));
        }
    }
    Ok(FUNCTIONS.len() as u64)
}

/// That the lengths which this program goes by are the rendering's too.
pub fn own_lengths_agree(shape: &Shape) -> bool {
    PROVE.writes.length(shape) == sections(shape, 0..6)
        && COMMIT.writes.length(shape) == sections(shape, 0..2)
        && HASH.writes.length(shape) == sections(shape, 2..4)
        && BATCH.writes.length(shape) == sections(shape, 4..6)
        && length(Name::Proof, shape) == sections(shape, 0..6)
}
