//! Reference rendering of the MQ proof core.
//!
//! Written from `01-scope.md` (called 01 below) and, where a request has landed, from
//! `02-change-requests.md` (called 02), with the paper 003 where these leave a doubt.
//! It is meant to be read next to 01, not to be fast: field products by shift and add, sums
//! coordinate by coordinate. Text between quotation marks in the comments is 01's own, or 02's
//! where that is named.
//!
//! A *string* is packed bytes as 01 lays them out; a *vector* here is a `Vec<u8>` holding one
//! element of K for each coordinate. A bit is the element 0 or 1 of K; a symbol of alphabet 4 is one of the
//! elements 00, 01, BC, BD (02, request 11).

// Coordinates are counted as in 01, by number, so that each line can be held against its equation.
#![allow(clippy::needless_range_loop)]
// A call takes what INTERFACE.md lists, one by one.
#![allow(clippy::too_many_arguments)]

pub mod alphabet;
pub mod calls;
pub mod cases;
pub mod check;
pub mod factors;
pub mod field;
pub mod key;
pub mod leaves;
pub mod lists;
pub mod prover;
pub mod seeds;
pub mod shake;
pub mod sittings;
pub mod strings;
pub mod toy44;
pub mod toy_seeds;
pub mod toys;
pub mod verifier;

pub use calls::{batch, commit, hash, prove, test, verify, word, Answer};
pub use calls::{batch_seeds, commit_seeds, hash_seeds, prove_seeds, verify_seeds};
pub use leaves::open_leaves;
pub use seeds::open_seeds;
