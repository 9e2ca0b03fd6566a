//! The six calls on slices, and the version. 16, which is asked of the degree first of all, no call here answers: a
//! [`Degree`] is 8 or 4.
//!
//! SAFETY, of each call below: every pointer comes from a slice, and is valid for its length, an input for reading and
//! `out` for writing; `out` is borrowed alone, so it overlaps no input, and nobody else touches any of them until the
//! call returns. An empty slice, as `batching` is with no equations, is lent with a pointer that points nowhere, which
//! length 0 allows.

use crate::degree::Degree;
use crate::ffi;
use crate::refusal::Refusal;

/// The answer of a call, and why it refused.
type Answer = Result<(), Refusal>;

/// Tests a key and a witness: is the key of the right form, and does the witness solve it?
///
/// # Errors
///
/// Refusals 1 to 4, 9, 11.
pub fn test(key: &[u8], degree: Degree, witness: &[u8]) -> Answer {
    // SAFETY: see the head of this file.
    Refusal::from_word(unsafe {
        ffi::mq_test(
            key.as_ptr(),
            key.len(),
            degree.number(),
            witness.as_ptr(),
            witness.len(),
        )
    })
}

/// The prover's first step: writes the corrections, the sections C and d, to `out`, which has
/// [`size::commit`](crate::size::commit) bytes.
///
/// # Errors
///
/// Refusals 1 to 4, 7 to 11. `out` is then as it was.
pub fn commit(key: &[u8], degree: Degree, leaves: &[u8], witness: &[u8], out: &mut [u8]) -> Answer {
    // SAFETY: see the head of this file.
    Refusal::from_word(unsafe {
        ffi::mq_commit(
            key.as_ptr(),
            key.len(),
            degree.number(),
            leaves.as_ptr(),
            leaves.len(),
            witness.as_ptr(),
            witness.len(),
            out.as_mut_ptr(),
            out.len(),
        )
    })
}

/// The second step, under the challenge `hash_matrix`: writes the hashes, the sections u~ and V~, to `out`, which has
/// [`size::hash`](crate::size::hash) bytes. It takes no witness.
///
/// # Errors
///
/// Refusals 1 to 4, 5 (`hash_matrix`), 6 to 8, 10. `out` is then as it was.
pub fn hash(
    key: &[u8],
    degree: Degree,
    leaves: &[u8],
    hash_matrix: &[u8],
    out: &mut [u8],
) -> Answer {
    // SAFETY: see the head of this file.
    Refusal::from_word(unsafe {
        ffi::mq_hash(
            key.as_ptr(),
            key.len(),
            degree.number(),
            leaves.as_ptr(),
            leaves.len(),
            hash_matrix.as_ptr(),
            hash_matrix.len(),
            out.as_mut_ptr(),
            out.len(),
        )
    })
}

/// The third step, under the challenge `batching`: writes the batched equations, the sections QS0 and QS1, to `out`,
/// which has [`size::batch`](crate::size::batch) bytes.
///
/// # Errors
///
/// Refusals 1 to 4, 5 (`batching`), 17 (`batching`), 7 to 11. `out` is then as it was.
pub fn batch(
    key: &[u8],
    degree: Degree,
    leaves: &[u8],
    witness: &[u8],
    batching: &[u8],
    out: &mut [u8],
) -> Answer {
    // SAFETY: see the head of this file.
    Refusal::from_word(unsafe {
        ffi::mq_batch(
            key.as_ptr(),
            key.len(),
            degree.number(),
            leaves.as_ptr(),
            leaves.len(),
            witness.as_ptr(),
            witness.len(),
            batching.as_ptr(),
            batching.len(),
            out.as_mut_ptr(),
            out.len(),
        )
    })
}

/// The whole prover: writes the bytes of the three steps, one after the other, to `out`, which has
/// [`size::proof`](crate::size::proof) bytes. It is for callers who hold both challenges already.
///
/// # Errors
///
/// Refusals 1 to 4, 5 (`hash_matrix` and `batching`), 6, 17 (`batching`), 7 to 11. `out` is then as it was.
pub fn prove(
    key: &[u8],
    degree: Degree,
    leaves: &[u8],
    witness: &[u8],
    hash_matrix: &[u8],
    batching: &[u8],
    out: &mut [u8],
) -> Answer {
    // SAFETY: see the head of this file.
    Refusal::from_word(unsafe {
        ffi::mq_prove(
            key.as_ptr(),
            key.len(),
            degree.number(),
            leaves.as_ptr(),
            leaves.len(),
            witness.as_ptr(),
            witness.len(),
            hash_matrix.as_ptr(),
            hash_matrix.len(),
            batching.as_ptr(),
            batching.len(),
            out.as_mut_ptr(),
            out.len(),
        )
    })
}

/// The verifier: does the proof hold for this key, under these challenges, with these leaves opened?
///
/// # Errors
///
/// Refusals 1 to 4, 5 (`delta`, `hash_matrix` and `batching`), 6, 17 (`delta`, `batching`), 7, 8, 12, 13, 18, 14, 15.
pub fn verify(
    key: &[u8],
    degree: Degree,
    delta: &[u8],
    hash_matrix: &[u8],
    batching: &[u8],
    opened: &[u8],
    proof: &[u8],
) -> Answer {
    // SAFETY: see the head of this file.
    Refusal::from_word(unsafe {
        ffi::mq_verify(
            key.as_ptr(),
            key.len(),
            degree.number(),
            delta.as_ptr(),
            delta.len(),
            hash_matrix.as_ptr(),
            hash_matrix.len(),
            batching.as_ptr(),
            batching.len(),
            opened.as_ptr(),
            opened.len(),
            proof.as_ptr(),
            proof.len(),
        )
    })
}

/// The version of the library: major × 65536 + minor × 256 + patch.
#[must_use]
pub fn version() -> u32 {
    // SAFETY: takes nothing.
    unsafe { ffi::mq_version() }
}

#[cfg(test)]
mod tests;
