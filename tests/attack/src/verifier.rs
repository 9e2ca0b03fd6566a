//! What a verifier computes from the opened leaves, and a small verifier from the rules of 01: no proof is attacked
//! that is not one.

use crate::case::View;
use crate::format::{add_at_ones, bit, sections, Key, Masks, Sizes};

/// The first coordinates of W_e, so many.
pub fn opened_sums(view: &View, e: usize, length: usize) -> Vec<u8> {
    let [corrections, ..] = sections::<6>(view.proof);
    let tree = view.opened.len() / view.delta.len();
    let last = view.field.size() - 1;
    let leaf_length = tree / last;
    let delta = view.delta[e];
    let mut w = vec![0; length];
    let numbers = (0..=last as u8).filter(|j| *j != delta);
    for (j, leaf) in numbers.zip(view.opened[tree * e..].chunks(leaf_length)) {
        add_at_ones(&mut w, leaf, j ^ delta);
    }
    // C_0 is zero and is not sent.
    if e > 0 {
        add_at_ones(&mut w, &corrections[leaf_length * (e - 1)..], delta);
    }
    w
}

/// K_e = v_e + Δ_e·x, on the first n coordinates.
pub fn evaluations(view: &View, n: usize, e: usize) -> Vec<u8> {
    let [_, d, ..] = sections::<6>(view.proof);
    let mut k = opened_sums(view, e, n);
    add_at_ones(&mut k, d, view.delta[e]);
    k
}

/// [H′ | identity of size t] times a vector.
pub fn hashed(hash_matrix: &[u8], t: usize, vector: &[u8]) -> Vec<u8> {
    let (hashed, added) = vector.split_at(vector.len() - t);
    let rows = hash_matrix.chunks(hash_matrix.len() / t);
    rows.zip(added)
        .map(|(row, added)| {
            let entries = hashed.iter().enumerate();
            entries.fold(*added, |sum, (c, value)| sum ^ (value * bit(row, c)))
        })
        .collect()
}

/// Whether both checks hold in every repetition.
pub fn accepts(view: &View, masks: Masks) -> bool {
    let key = Key::read(view.key, view.field);
    let sizes = key.sizes;
    (0..sizes.tau).all(|e| consistent(view, masks, sizes, e) && product_holds(view, masks, &key, e))
}

fn consistent(view: &View, masks: Masks, sizes: Sizes, e: usize) -> bool {
    let [_, _, u, v, ..] = sections::<6>(view.proof);
    let w = opened_sums(view, e, masks.leaf_bits(sizes));
    let hashes = hashed(view.hash_matrix, sizes.t, &w);
    let expected = |row: usize| v[sizes.t * e + row] ^ (view.delta[e] * bit(u, row));
    (0..sizes.t).all(|row| hashes[row] == expected(row))
}

fn product_holds(view: &View, masks: Masks, key: &Key, e: usize) -> bool {
    let Sizes { n, m, field, .. } = key.sizes;
    let product = |a, b| field.product(a, b);
    let [_, _, _, _, qs0, qs1] = sections(view.proof);
    let delta = view.delta[e];
    let batched = key.batched(&view.batching[m * e..][..m]);
    let k = evaluations(view, n, e);
    let mut sum = product(batched.y, product(delta, delta));
    for (r, row) in batched.matrix.iter().enumerate() {
        let of_row = row
            .iter()
            .zip(&k)
            .fold(0, |sum, (a, k)| sum ^ product(*a, *k));
        sum ^= product(k[r], of_row ^ product(delta, batched.linear[r]));
    }
    let start = masks.start(key.sizes, e);
    sum ^= field.mask(&opened_sums(view, e, start + field.degree())[start..]);
    sum == qs0[e] ^ product(qs1[e], delta)
}
