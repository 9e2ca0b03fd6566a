//! A small prover, from the rules of 01, with one mask or with one for each repetition.

use crate::case::Case;
use crate::format::{add_at_ones, bit, pack, section, Key, Sizes};

/// The proof's bytes.
pub fn prove(case: &Case) -> Vec<u8> {
    let Sizes {
        n, m, tau, field, ..
    } = case.sizes;
    let product = |a, b| field.product(a, b);
    let length = case.masks.leaf_bits(case.sizes);
    let trees: Vec<(Vec<u8>, Vec<u8>)> = case
        .leaves
        .chunks(case.leaves.len() / tau)
        .map(|tree| sums(tree, field.size(), length))
        .collect();
    let u = &trees[0].0;
    let x: Vec<u8> = (0..n).map(|c| bit(&case.witness, c)).collect();

    let corrections: Vec<u8> = trees[1..]
        .iter()
        .flat_map(|(own, _)| pack(&added(own, u)))
        .collect();
    let hashes: Vec<u8> = trees.iter().flat_map(|(_, v)| hashed(case, v)).collect();
    let key = Key::read(&case.key, field);
    let (mut qs0, mut qs1) = (Vec::new(), Vec::new());
    for (e, (_, v)) in trees.iter().enumerate() {
        let batched = key.batched(&case.batching[m * e..][..m]);
        let (mut a0, mut a1) = (0, 0);
        for (r, row) in batched.matrix.iter().enumerate() {
            for (c, entry) in row.iter().enumerate() {
                a0 ^= product(*entry, product(v[r], v[c]));
                a1 ^= product(*entry, (v[r] * x[c]) ^ (x[r] * v[c]));
            }
            a1 ^= product(batched.linear[r], v[r]);
        }
        let start = case.masks.start(case.sizes, e);
        qs0.push(a0 ^ field.mask(&v[start..]));
        qs1.push(a1 ^ field.mask(&u[start..]));
    }
    [
        corrections,
        pack(&added(&x, &u[..n])),
        pack(&hashed(case, u)),
        hashes,
        qs0,
        qs1,
    ]
    .iter()
    .flat_map(|bytes| section(bytes))
    .collect()
}

/// u and v of a tree: the sum of its leaves, and that of each leaf times its number.
fn sums(tree: &[u8], leaves: usize, length: usize) -> (Vec<u8>, Vec<u8>) {
    let (mut u, mut v) = (vec![0; length], vec![0; length]);
    for (j, leaf) in tree.chunks(tree.len() / leaves).enumerate() {
        add_at_ones(&mut u, leaf, 1);
        add_at_ones(&mut v, leaf, j as u8);
    }
    (u, v)
}

fn added(a: &[u8], b: &[u8]) -> Vec<u8> {
    a.iter().zip(b).map(|(a, b)| a ^ b).collect()
}

/// [H′ | identity] times a vector.
fn hashed(case: &Case, vector: &[u8]) -> Vec<u8> {
    crate::verifier::hashed(&case.hash_matrix, case.sizes.t, vector)
}
