//! "Words of the forgery count": factors, candidates and batched errors.

use crate::field::add;
use crate::key::{Key, Shape};
use crate::leaves::{open_repetition, u};
use crate::strings::coordinate;
use crate::verifier::{consistency, product_check, Proof};

/// The elements of K "that, put for Δ_e, make both consistency and the product check hold in e,
/// W_e being computed from the leaves so opened", rising.
pub fn passing(key: &Key, e: usize, h: &[u8], chi: &[u8], leaves: &[u8], proof: &Proof) -> Vec<u8> {
    let shape = &key.shape;
    let mut passing = Vec::new();
    for element in 0..shape.field.size {
        let delta_e = element as u8;
        let opened_e = open_repetition(shape, leaves, e, delta_e);
        if consistency(shape, e, delta_e, h, &opened_e, proof)
            && product_check(key, e, delta_e, chi, &opened_e, proof)
        {
            passing.push(delta_e);
        }
    }
    passing
}

/// "The factor of repetition e is the number of elements of K that, put for Δ_e, make both
/// consistency and the product check hold in e".
pub fn factor(key: &Key, e: usize, h: &[u8], chi: &[u8], leaves: &[u8], proof: &Proof) -> usize {
    passing(key, e, h, chi, leaves, proof).len()
}

/// "The factor of repetition e is the number of elements of K that, put for Δ_e, make both
/// consistency and the product check hold in e": for all repetitions, rising.
pub fn factors(key: &Key, h: &[u8], chi: &[u8], leaves: &[u8], proof: &Proof) -> Vec<usize> {
    let mut factors = Vec::new();
    for e in 0..key.shape.tau {
        factors.push(factor(key, e, h, chi, leaves, proof));
    }
    factors
}

/// "The candidate witness of repetition e is the first n of u_e+C_e, plus d." A vector of n entries of
/// the alphabet, as elements of K.
pub fn candidate(shape: &Shape, e: usize, leaves: &[u8], proof: &Proof) -> Vec<u8> {
    let u_e = u(shape, leaves, e);
    let c_e = proof.correction(shape, e);
    let mut x = Vec::new();
    for c in 0..shape.n {
        x.push(add(
            add(u_e[c], c_e[c]),
            coordinate(&shape.symbols, proof.d, c),
        ));
    }
    x
}

/// "An equation's error at a candidate is its left side plus y_i; the batched sum takes each error
/// times χ(e,i)."
///
/// The column is "any m elements of K, one for each equation, rising."
pub fn batched_error(key: &Key, x: &[u8], column: &[u8]) -> u8 {
    let mut sum = 0;
    for i in 0..key.shape.m {
        sum = add(sum, key.shape.field.mul(column[i], key.error(i, x)));
    }
    sum
}
