//! "Verifier's rules": the two checks of one repetition.
//!
//! Every function takes what the questions of `calls` have found well-formed.

use crate::field::add;
use crate::key::{Key, Shape};
use crate::leaves::{hash_of, opened_leaf};
use crate::strings::{coordinate, exact_sections, spare_bits_are_0, unpack};

/// "The proof has the sections C, d, ũ, Ṽ, QS0, QS1, in that order".
#[derive(Clone, Copy, Debug)]
pub struct Proof<'a> {
    pub c: &'a [u8],
    pub d: &'a [u8],
    pub u_tilde: &'a [u8],
    pub v_tilde: &'a [u8],
    pub qs0: &'a [u8],
    pub qs1: &'a [u8],
}

/// The sections of a proof, each "as part of the lent proof". Nothing unless "the proof's counts
/// and length [are] exact".
pub fn sections<'a>(shape: &Shape, bytes: &'a [u8]) -> Option<Proof<'a>> {
    let found = exact_sections(bytes, 0, &shape.proof_sections())?;
    Some(Proof {
        c: found[0],
        d: found[1],
        u_tilde: found[2],
        v_tilde: found[3],
        qs0: found[4],
        qs1: found[5],
    })
}

impl Proof<'_> {
    /// "Are the spare bits of C, d, ũ 0?" Each C_e has L entries, d has n, ũ has t.
    pub fn spare_bits_are_0(&self, shape: &Shape) -> bool {
        let symbols = &shape.symbols;
        spare_bits_are_0(symbols, self.c, shape.l())
            && spare_bits_are_0(symbols, self.d, shape.n)
            && spare_bits_are_0(symbols, self.u_tilde, shape.t)
    }

    /// C_e as a vector of L entries: "C_0 is all zero and not sent"; the first correction sent "is
    /// C_1."
    pub fn correction(&self, shape: &Shape, e: usize) -> Vec<u8> {
        if e == 0 {
            return vec![0; shape.l()];
        }
        let string = &self.c[(e - 1) * shape.w()..e * shape.w()];
        unpack(&shape.symbols, string, shape.l())
    }
}

/// "W_e = Σ over j≠Δ_e of (j+Δ_e)·ℓ(e,j), plus Δ_e·C_e."
pub fn w(shape: &Shape, delta_e: u8, opened_e: &[u8], c_e: &[u8]) -> Vec<u8> {
    let mut w_e = vec![0; shape.l()];
    for j in 0..shape.field.size {
        if j != delta_e as usize {
            let string = opened_leaf(shape, opened_e, delta_e, j);
            let factor = add(j as u8, delta_e);
            for c in 0..shape.l() {
                let symbol = coordinate(&shape.symbols, string, c);
                w_e[c] = add(w_e[c], shape.field.symbol_times(symbol, factor));
            }
        }
    }
    for c in 0..shape.l() {
        w_e[c] = add(w_e[c], shape.field.symbol_times(c_e[c], delta_e));
    }
    w_e
}

/// "K_e is the first n of W_e plus Δ_e·d."
pub fn k(shape: &Shape, delta_e: u8, w_e: &[u8], d: &[u8]) -> Vec<u8> {
    let mut k_e = Vec::new();
    for c in 0..shape.n {
        let symbol = coordinate(&shape.symbols, d, c);
        k_e.push(add(w_e[c], shape.field.symbol_times(symbol, delta_e)));
    }
    k_e
}

/// "Consistency: H·W_e = Ṽ_e+Δ_e·ũ."
pub fn consistency(
    shape: &Shape,
    e: usize,
    delta_e: u8,
    h: &[u8],
    opened_e: &[u8],
    proof: &Proof,
) -> bool {
    let w_e = w(shape, delta_e, opened_e, &proof.correction(shape, e));
    let left = hash_of(shape, h, &w_e);
    for r in 0..shape.t {
        let v_tilde = proof.v_tilde[e * shape.t + r];
        let u_tilde = coordinate(&shape.symbols, proof.u_tilde, r);
        let right = add(v_tilde, shape.field.symbol_times(u_tilde, delta_e));
        if left[r] != right {
            return false;
        }
    }
    true
}

/// "Product check: Σ χ(e,i)·(K_eᵀA_i·K_e + Δ_e·(b_i·K_e) + y_i·Δ_e²) + Σ α^s·W_e[n+s] ... equals
/// QS0_e + QS1_e·Δ_e", but that the mask takes W_e at the mask coordinates of e (02).
pub fn product_check(
    key: &Key,
    e: usize,
    delta_e: u8,
    chi: &[u8],
    opened_e: &[u8],
    proof: &Proof,
) -> bool {
    let shape = &key.shape;
    let field = &shape.field;
    let w_e = w(shape, delta_e, opened_e, &proof.correction(shape, e));
    let k_e = k(shape, delta_e, &w_e, proof.d);
    let delta_squared = field.mul(delta_e, delta_e);

    let mut left = 0;
    for i in 0..shape.m {
        let quadratic = key.a_form(i, &k_e, &k_e);
        let linear = field.mul(delta_e, key.b_form(i, &k_e));
        let constant = field.symbol_times(key.y_entry(i), delta_squared);
        let bracket = add(add(quadratic, linear), constant);
        left = add(left, field.mul(shape.column(chi, e)[i], bracket));
    }
    left = add(left, shape.mask(e, &w_e));

    let right = add(proof.qs0[e], field.mul(proof.qs1[e], delta_e));
    left == right
}
