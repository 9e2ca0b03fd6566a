//! The calls of the Rust rendering, with the parameters of the library's.
//!
//! Safety, for all: each pointer is valid for the length after it.

use reference::word;
use std::slice::{from_raw_parts, from_raw_parts_mut};

/// The library's one alphabet until it serves request 11.
const ALPHABET: u32 = 2;

/// # Safety
/// See above.
#[no_mangle]
pub unsafe extern "C" fn rendering_test(
    key: *const u8,
    key_len: usize,
    degree: u32,
    witness: *const u8,
    witness_len: usize,
) -> u32 {
    word(reference::test(
        from_raw_parts(key, key_len),
        degree,
        ALPHABET,
        from_raw_parts(witness, witness_len),
    ))
}

/// # Safety
/// See above.
#[no_mangle]
pub unsafe extern "C" fn rendering_commit(
    key: *const u8,
    key_len: usize,
    degree: u32,
    leaves: *const u8,
    leaves_len: usize,
    witness: *const u8,
    witness_len: usize,
    out: *mut u8,
    out_len: usize,
) -> u32 {
    word(reference::commit(
        from_raw_parts(key, key_len),
        degree,
        ALPHABET,
        from_raw_parts(leaves, leaves_len),
        from_raw_parts(witness, witness_len),
        from_raw_parts_mut(out, out_len),
    ))
}

/// # Safety
/// See above.
#[no_mangle]
pub unsafe extern "C" fn rendering_hash(
    key: *const u8,
    key_len: usize,
    degree: u32,
    leaves: *const u8,
    leaves_len: usize,
    hash_matrix: *const u8,
    hash_matrix_len: usize,
    out: *mut u8,
    out_len: usize,
) -> u32 {
    word(reference::hash(
        from_raw_parts(key, key_len),
        degree,
        ALPHABET,
        from_raw_parts(leaves, leaves_len),
        from_raw_parts(hash_matrix, hash_matrix_len),
        from_raw_parts_mut(out, out_len),
    ))
}

/// # Safety
/// See above.
#[no_mangle]
pub unsafe extern "C" fn rendering_batch(
    key: *const u8,
    key_len: usize,
    degree: u32,
    leaves: *const u8,
    leaves_len: usize,
    witness: *const u8,
    witness_len: usize,
    batching: *const u8,
    batching_len: usize,
    out: *mut u8,
    out_len: usize,
) -> u32 {
    word(reference::batch(
        from_raw_parts(key, key_len),
        degree,
        ALPHABET,
        from_raw_parts(leaves, leaves_len),
        from_raw_parts(witness, witness_len),
        from_raw_parts(batching, batching_len),
        from_raw_parts_mut(out, out_len),
    ))
}

/// # Safety
/// See above.
#[no_mangle]
pub unsafe extern "C" fn rendering_prove(
    key: *const u8,
    key_len: usize,
    degree: u32,
    leaves: *const u8,
    leaves_len: usize,
    witness: *const u8,
    witness_len: usize,
    hash_matrix: *const u8,
    hash_matrix_len: usize,
    batching: *const u8,
    batching_len: usize,
    out: *mut u8,
    out_len: usize,
) -> u32 {
    word(reference::prove(
        from_raw_parts(key, key_len),
        degree,
        ALPHABET,
        from_raw_parts(leaves, leaves_len),
        from_raw_parts(witness, witness_len),
        from_raw_parts(hash_matrix, hash_matrix_len),
        from_raw_parts(batching, batching_len),
        from_raw_parts_mut(out, out_len),
    ))
}

/// # Safety
/// See above.
#[no_mangle]
pub unsafe extern "C" fn rendering_verify(
    key: *const u8,
    key_len: usize,
    degree: u32,
    delta: *const u8,
    delta_len: usize,
    hash_matrix: *const u8,
    hash_matrix_len: usize,
    batching: *const u8,
    batching_len: usize,
    opened: *const u8,
    opened_len: usize,
    proof: *const u8,
    proof_len: usize,
) -> u32 {
    word(reference::verify(
        from_raw_parts(key, key_len),
        degree,
        ALPHABET,
        from_raw_parts(delta, delta_len),
        from_raw_parts(hash_matrix, hash_matrix_len),
        from_raw_parts(batching, batching_len),
        from_raw_parts(opened, opened_len),
        from_raw_parts(proof, proof_len),
    ))
}
