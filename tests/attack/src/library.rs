//! The prover that is attacked: the library's.

// The bare calls have the names of the others: one archive has the one or the other.
#![allow(clashing_extern_declarations)]

use crate::case::{Case, View};
use crate::format::Sizes;

type SizeFunction = unsafe extern "C" fn(usize, usize, usize, usize, u32) -> usize;

extern "C" {
    fn mq_leaves_size(n: usize, m: usize, tau: usize, t: usize, degree: u32) -> usize;
    fn mq_opened_size(n: usize, m: usize, tau: usize, t: usize, degree: u32) -> usize;
    fn mq_hash_matrix_size(n: usize, m: usize, tau: usize, t: usize, degree: u32) -> usize;
    fn mq_proof_size(n: usize, m: usize, tau: usize, t: usize, degree: u32) -> usize;

    fn mq_prove(
        key: *const u8,
        key_len: usize,
        degree: u32,
        leaves: *const u8,
        leaves_len: usize,
        witness: *const u8,
        witness_len: usize,
        hash_matrix: *const u8,
        hash_matrix_len: usize,
        batching: *const u8,
        batching_len: usize,
        out: *mut u8,
        out_len: usize,
    ) -> u32;

    fn mq_verify(
        key: *const u8,
        key_len: usize,
        degree: u32,
        delta: *const u8,
        delta_len: usize,
        hash_matrix: *const u8,
        hash_matrix_len: usize,
        batching: *const u8,
        batching_len: usize,
        opened: *const u8,
        opened_len: usize,
        proof: *const u8,
        proof_len: usize,
    ) -> u32;

    // The same of an archive from before request 3, which is at degree 8.
    #[link_name = "mq_prove"]
    fn bare_prove(
        key: *const u8,
        key_len: usize,
        leaves: *const u8,
        leaves_len: usize,
        witness: *const u8,
        witness_len: usize,
        hash_matrix: *const u8,
        hash_matrix_len: usize,
        batching: *const u8,
        batching_len: usize,
        out: *mut u8,
        out_len: usize,
    ) -> u32;

    #[link_name = "mq_verify"]
    fn bare_verify(
        key: *const u8,
        key_len: usize,
        delta: *const u8,
        delta_len: usize,
        hash_matrix: *const u8,
        hash_matrix_len: usize,
        batching: *const u8,
        batching_len: usize,
        opened: *const u8,
        opened_len: usize,
        proof: *const u8,
        proof_len: usize,
    ) -> u32;
}

/// Whether the library's calls take the degree after the key, as they do since request 3.
#[derive(Clone, Copy, PartialEq, Eq)]
pub enum Calls {
    WithDegree,
    Bare,
}

/// The library's proof. The lengths that its header gives must be those of the masks that the case is made for.
pub fn prove(case: &Case, calls: Calls) -> Result<Vec<u8>, String> {
    let Sizes {
        n,
        m,
        tau,
        t,
        field,
    } = case.sizes;
    let degree = field.degree() as u32;
    // Safe: these take numbers, and one too many is not looked at.
    let size = |function: SizeFunction| unsafe { function(n, m, tau, t, degree) };
    let lengths = [
        (size(mq_leaves_size), case.leaves.len()),
        (size(mq_opened_size), case.opened.len()),
        (size(mq_hash_matrix_size), case.hash_matrix.len()),
    ];
    if let Some((library, own)) = lengths.iter().find(|(library, own)| library != own) {
        return Err(format!(
            "an input of the library has {library} bytes, and with masks {:?} it has {own}",
            case.masks
        ));
    }
    let mut proof = vec![0; size(mq_proof_size)];
    let out_len = proof.len();
    macro_rules! called {
        ($call:ident $(, $degree:expr)?) => {
            $call(
                case.key.as_ptr(),
                case.key.len(),
                $($degree,)?
                case.leaves.as_ptr(),
                case.leaves.len(),
                case.witness.as_ptr(),
                case.witness.len(),
                case.hash_matrix.as_ptr(),
                case.hash_matrix.len(),
                case.batching.as_ptr(),
                case.batching.len(),
                proof.as_mut_ptr(),
                out_len,
            )
        };
    }
    // Safe: each pointer is valid for the length beside it, and the output overlaps no input.
    let word = match calls {
        Calls::WithDegree => unsafe { called!(mq_prove, degree) },
        Calls::Bare => unsafe { called!(bare_prove) },
    };
    accepted("mq_prove", word).map(|()| proof)
}

pub fn verify(view: &View, calls: Calls) -> Result<(), String> {
    let degree = view.field.degree() as u32;
    macro_rules! called {
        ($call:ident $(, $degree:expr)?) => {
            $call(
                view.key.as_ptr(),
                view.key.len(),
                $($degree,)?
                view.delta.as_ptr(),
                view.delta.len(),
                view.hash_matrix.as_ptr(),
                view.hash_matrix.len(),
                view.batching.as_ptr(),
                view.batching.len(),
                view.opened.as_ptr(),
                view.opened.len(),
                view.proof.as_ptr(),
                view.proof.len(),
            )
        };
    }
    // Safe: each pointer is valid for the length beside it.
    let word = match calls {
        Calls::WithDegree => unsafe { called!(mq_verify, degree) },
        Calls::Bare => unsafe { called!(bare_verify) },
    };
    accepted("mq_verify", word)
}

fn accepted(call: &str, word: u32) -> Result<(), String> {
    match word {
        0 => Ok(()),
        word => Err(format!("{call} refuses: {} {}", word >> 16, word & 0xFFFF)),
    }
}
