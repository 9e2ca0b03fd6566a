//! "The proof keeps the witness" (02, request 8), by trying all: with what a verifier sees held fixed, "For each
//! witness that solves the system, exactly one choice of hidden leaves with spare bits 0 yields that same view."
//!
//! One repetition at each setting, at several Δ, 0 among them; and two where that is cheap.

use reference::cases::{case, Case, SETTINGS};
use reference::*;

/// All strings of so many entries, spare bits 0.
fn strings(case: &Case, entries: usize) -> Vec<Vec<u8>> {
    let bits = if case.alphabet() == 4 { 2 } else { 1 };
    let length = (bits * entries).div_ceil(8);
    (0..1u64 << (bits * entries))
        .map(|number| number.to_le_bytes()[..length].to_vec())
        .collect()
}

/// The leaves with one put in the place of ℓ(e,j).
fn put(case: &mut Case, e: usize, j: u8, leaf: &[u8]) {
    let w = case.shape.w();
    let start = (e * case.shape.field.size + j as usize) * w;
    case.leaves[start..start + w].copy_from_slice(leaf);
}

/// The proof, step by step, until a step writes other bytes than are seen; the leaves that are opened are the same.
fn yields(case: &Case, witness: &[u8], seen: &[u8]) -> bool {
    let (key, degree, alphabet, leaves) = (&case.key, case.degree(), case.alphabet(), &case.leaves);
    let shape = &case.shape;
    let (first, rest) = seen.split_at(shape.commit_length());
    let (second, third) = rest.split_at(shape.hash_length());
    let mut out = vec![0; first.len()];
    let answer = commit(key, degree, alphabet, leaves, witness, &mut out);
    assert_eq!(answer, Answer::Accepted);
    if out != first {
        return false;
    }
    let mut out = vec![0; second.len()];
    let answer = hash(key, degree, alphabet, leaves, &case.h, &mut out);
    assert_eq!(answer, Answer::Accepted);
    if out != second {
        return false;
    }
    let mut out = vec![0; third.len()];
    let answer = batch(key, degree, alphabet, leaves, witness, &case.chi, &mut out);
    assert_eq!(answer, Answer::Accepted);
    out == third
}

fn proof_of(case: &Case) -> Vec<u8> {
    let mut proof = vec![0; case.proof_length()];
    let answer = prove(
        &case.key,
        case.degree(),
        case.alphabet(),
        &case.leaves,
        &case.witness,
        &case.h,
        &case.chi,
        &mut proof,
    );
    assert_eq!(answer, Answer::Accepted);
    proof
}

/// The witnesses that solve the system.
fn solutions(case: &Case) -> Vec<Vec<u8>> {
    let mut all = strings(case, case.shape.n);
    all.retain(|x| test(&case.key, case.degree(), case.alphabet(), x) == Answer::Accepted);
    all
}

/// How many choices of the one hidden leaf yield the view, for each witness that solves.
fn choices(case: &Case) -> Vec<usize> {
    let seen = proof_of(case);
    let leaves = strings(case, case.shape.l());
    let mut found = Vec::new();
    for witness in solutions(case) {
        let mut other = case.clone();
        let mut count = 0;
        for leaf in &leaves {
            put(&mut other, 0, case.delta[0], leaf);
            count += yields(&other, &witness, &seen) as usize;
        }
        found.push(count);
    }
    found
}

/// One repetition, n and t = 1: L is 10 bits at degree 8, 6 at degree 4, 6 symbols at alphabet 4. m = 1 and m = 0.
#[test]
fn one_repetition() {
    for (degree, alphabet) in SETTINGS {
        let mut several = 0;
        for (seed, m) in [(1, 1), (2, 1), (3, 1), (4, 0)] {
            let mut case = case(seed, 1, m, 1, 1, degree, alphabet);
            for delta in [0x00, 0x01, 0x0B] {
                case.delta = vec![delta];
                let found = choices(&case);
                assert!(found.iter().all(|count| *count == 1), "{found:?}");
                several += (found.len() > 1) as usize;
                if m == 0 {
                    assert_eq!(found.len(), alphabet as usize);
                }
            }
        }
        assert!(several > 0);
    }
}

/// Two variables at alphabet 4, so that the equation has products of two: 7 symbols.
#[test]
fn two_variables_of_four_symbols() {
    let mut case = case(5, 2, 1, 1, 1, 8, 4);
    case.delta = vec![0xBC];
    let found = choices(&case);
    assert!(found.len() > 1);
    assert!(found.iter().all(|count| *count == 1), "{found:?}");
}

/// Two repetitions at degree 4: both hidden leaves of 10 bits.
#[test]
fn two_repetitions_at_degree_4() {
    let mut case = case(6, 1, 0, 2, 1, 4, 2);
    case.delta = vec![0x00, 0x0D];
    let seen = proof_of(&case);
    let leaves = strings(&case, 10);
    for witness in solutions(&case) {
        let mut other = case.clone();
        let mut count = 0;
        for first in &leaves {
            put(&mut other, 0, case.delta[0], first);
            for second in &leaves {
                put(&mut other, 1, case.delta[1], second);
                count += yields(&other, &witness, &seen) as usize;
            }
        }
        assert_eq!(count, 1);
    }
}
