//! The lengths in bytes of what is lent and written, as functions of the four sizes, in the key's order, and of the
//! degree.
//!
//! Each takes n variables, m equations, tau repetitions, t hash rows and the degree, whether or not the length depends
//! on each, and answers 0 where a size is out of range (n: 1 to 320; m: 0 to 320; tau: 1 to 48; t: 1 to 288). In range
//! no length is 0, but that of [`batching`] with no equations, m = 0: whether sizes are in range is told by [`key`].

use crate::degree::Degree;
use crate::ffi;

macro_rules! lengths {
    ($($(#[doc = $doc:literal])+ $name:ident = $function:ident;)+) => {$(
        $(#[doc = $doc])+
        #[must_use]
        pub fn $name(n: usize, m: usize, tau: usize, t: usize, degree: Degree) -> usize {
            // SAFETY: takes numbers alone, and answers for all of them.
            unsafe { ffi::$function(n, m, tau, t, degree.number()) }
        }
    )+};
}

lengths! {
    /// A key.
    key = mq_key_size;
    /// A witness.
    witness = mq_witness_size;
    /// Full leaves, which the prover takes.
    leaves = mq_leaves_size;
    /// Opened leaves, which the verifier takes.
    opened = mq_opened_size;
    /// The challenge `hash_matrix`.
    hash_matrix = mq_hash_matrix_size;
    /// The challenge `batching`: none with no equations, where an empty slice is lent.
    batching = mq_batching_size;
    /// The challenge `delta`.
    delta = mq_delta_size;
    /// What [`commit`](crate::commit) writes, counts included.
    commit = mq_commit_size;
    /// What [`hash`](crate::hash) writes, counts included.
    hash = mq_hash_size;
    /// What [`batch`](crate::batch) writes, counts included.
    batch = mq_batch_size;
    /// What [`prove`](crate::prove) writes, counts included: a proof.
    proof = mq_proof_size;
}
