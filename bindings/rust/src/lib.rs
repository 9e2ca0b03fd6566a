//! Safe calls of Solfadrus: a prover and a verifier for knowledge of a solution of a quadratic system over GF(2).
//!
//! The library is written in Rattle, and every function of it is proved to meet its contract. This crate lends it
//! slices, and makes its answers a [`Result`]. Formats, and the duties on which a proof's worth rests (who draws leaves
//! and challenges, and when; what is secret; what is wiped), are those of the C header, `solfadrus.h`. The duties on
//! pointers are kept by this crate: a slice is valid for its length, `&mut` overlaps nothing and is written by nobody
//! else, and an empty slice is taken with any pointer.
//!
//! Beside the key every call takes the [`Degree`] of the field: 256 leaves to a tree, or 16.
//!
//! One duty on memory is the caller's: the calling thread must have 256 KiB of stack left, whatever the key's sizes.
//! With less, a call can end the process. (That a call takes less is measured, not proved. Rust's own threads begin
//! with more.) A call allocates nothing and never panics.
//!
//! The calls do not wipe that stack. After one that took leaves it holds u, and u and the section d of the proof give
//! the witness: call [`burn_stack`] after each call that took leaves or a witness.
//!
//! A proof and its opened leaves favour no solution of the system: for each, exactly one choice of the hidden leaves
//! gives them. That is proved, of leaves that are uniform and secret (`SECURITY.md`).
//!
//! # Example
//!
//! The prover makes its proof in three steps, and meets a challenge between two of them; here all is fixed. The key
//! says x0·x1 + x0 = 1.
//!
//! ```
//! use solfadrus::{size, Degree};
//!
//! # fn main() -> Result<(), solfadrus::Refusal> {
//! let (n, m, tau, t, degree) = (2, 1, 1, 1, Degree::Eight);
//! let key = [
//!     2, 0, 1, 0, 1, 0, 1, 0, // n, m, tau, t
//!     2, 0, 0, 0, 0x02, 0x00, // A
//!     1, 0, 0, 0, 0x01, // b
//!     1, 0, 0, 0, 0x01, // y
//! ];
//! let witness = [0x01];
//! solfadrus::test(&key, degree, &witness)?;
//!
//! // A prover draws all leaves at random, anew for each proof.
//! let mut leaves = vec![0; size::leaves(n, m, tau, t, degree)];
//! leaves[4..8].copy_from_slice(&[0x05, 0x00, 0x02, 0x04]);
//!
//! let mut commit = vec![0; size::commit(n, m, tau, t, degree)];
//! solfadrus::commit(&key, degree, &leaves, &witness, &mut commit)?;
//!
//! let hash_matrix = [0x05, 0x00]; // the verifier's, once it has `commit`
//! let mut hash = vec![0; size::hash(n, m, tau, t, degree)];
//! solfadrus::hash(&key, degree, &leaves, &hash_matrix, &mut hash)?;
//!
//! let batching = [0x05]; // the verifier's, once it has `hash`
//! let mut batch = vec![0; size::batch(n, m, tau, t, degree)];
//! solfadrus::batch(&key, degree, &leaves, &witness, &batching, &mut batch)?;
//!
//! let proof = [commit, hash, batch].concat();
//! let mut whole = vec![0; size::proof(n, m, tau, t, degree)];
//! solfadrus::prove(&key, degree, &leaves, &witness, &hash_matrix, &batching, &mut whole)?;
//! assert_eq!(proof, whole);
//! solfadrus::burn_stack(); // the calls have left u there, which with d gives the witness
//!
//! let delta = [0x02]; // the verifier's, once it has the whole proof
//! let mut opened = leaves.clone();
//! opened.drain(2 * 2..2 * 3); // the prover opens all leaves but the one at delta
//! solfadrus::verify(&key, degree, &delta, &hash_matrix, &batching, &opened, &proof)?;
//!
//! let mut forged = proof;
//! *forged.last_mut().unwrap() ^= 1;
//! let refusal =
//!     solfadrus::verify(&key, degree, &delta, &hash_matrix, &batching, &opened, &forged)
//!         .unwrap_err();
//! assert_eq!(refusal.reason, solfadrus::Reason::ProductDiffers);
//! assert_eq!(refusal.place, 0);
//! # Ok(())
//! # }
//! ```

#![deny(missing_docs)]

mod calls;
mod degree;
mod ffi;
mod refusal;
pub mod size;
mod stack;

pub use calls::{batch, commit, hash, prove, test, verify, version};
pub use degree::Degree;
pub use refusal::{Reason, Refusal};
pub use stack::{burn_stack, STACK_BYTES};
