//! Leaves from seeds (02, request 6).

use crate::key::Shape;
use crate::lists::{in_full, in_opened, open, opened_of};
use crate::shake::shake256;
use crate::strings::{cleared, write_two_bytes};

/// "a 32-byte salt".
pub const SALT_LENGTH: usize = 32;

/// "Schools ship 16-byte seeds".
pub const SEED_LENGTH: usize = 16;

/// The seed of e and j in a full seed list.
pub fn seed<'a>(shape: &Shape, seeds: &'a [u8], e: usize, j: usize) -> &'a [u8] {
    in_full(shape, SEED_LENGTH, seeds, e, j)
}

/// The opened seed list of a full one: "A seed list, full or opened, has its seeds in the order of the leaves."
pub fn open_seeds(shape: &Shape, seeds: &[u8], delta: &[u8]) -> Vec<u8> {
    open(shape, SEED_LENGTH, seeds, delta)
}

/// What is hashed for a leaf: "the byte 01, a 32-byte salt, the seed, e and j (two bytes each, lowest first)".
pub fn hashed_for_a_leaf(salt: &[u8], seed: &[u8], e: usize, j: usize) -> Vec<u8> {
    let mut bytes = vec![0x01];
    bytes.extend_from_slice(salt);
    bytes.extend_from_slice(seed);
    write_two_bytes(&mut bytes, e);
    write_two_bytes(&mut bytes, j);
    bytes
}

/// ℓ(e,j) from its seed: "A leaf is the first w bytes of the output ..., spare bits then cleared."
pub fn leaf_of_seed(shape: &Shape, salt: &[u8], seed: &[u8], e: usize, j: usize) -> Vec<u8> {
    let output = shake256(&hashed_for_a_leaf(salt, seed, e, j), shape.w());
    cleared(&shape.symbols, &output, shape.l())
}

/// The full leaves from a full seed list.
pub fn leaves_of_seeds(shape: &Shape, salt: &[u8], seeds: &[u8]) -> Vec<u8> {
    let mut leaves = Vec::new();
    for e in 0..shape.tau {
        for j in 0..shape.field.size {
            let seed = seed(shape, seeds, e, j);
            leaves.extend_from_slice(&leaf_of_seed(shape, salt, seed, e, j));
        }
    }
    leaves
}

/// The opened leaves from an opened seed list. Each is hashed with its own j, not with its place in the list.
pub fn opened_leaves_of_seeds(
    shape: &Shape,
    salt: &[u8],
    opened_seeds: &[u8],
    delta: &[u8],
) -> Vec<u8> {
    let mut opened = Vec::new();
    for e in 0..shape.tau {
        let opened_e = opened_of(shape, SEED_LENGTH, opened_seeds, e);
        for j in 0..shape.field.size {
            if j != delta[e] as usize {
                let seed = in_opened(SEED_LENGTH, opened_e, delta[e], j);
                opened.extend_from_slice(&leaf_of_seed(shape, salt, seed, e, j));
            }
        }
    }
    opened
}
