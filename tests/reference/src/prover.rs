//! "Prover's rules": the six sections of the proof.
//!
//! Every function takes what the questions of `calls` have found well-formed.

use crate::field::add;
use crate::key::{Key, Shape};
use crate::leaves::{hash_of, u, v};
use crate::strings::{pack, unpack, write_section};

/// "C_e = u_e+u for e = 1..τ−1; C_0 is all zero and not sent."; "u is u_0." Goes "by repetition,
/// rising".
pub fn section_c(shape: &Shape, leaves: &[u8]) -> Vec<u8> {
    let u_0 = u(shape, leaves, 0);
    let mut section = Vec::new();
    for e in 1..shape.tau {
        let u_e = u(shape, leaves, e);
        let mut c_e = Vec::new();
        for c in 0..shape.l() {
            c_e.push(add(u_e[c], u_0[c]));
        }
        section.extend_from_slice(&pack(&shape.symbols, &c_e));
    }
    section
}

/// "d = x + the first n bits of u."
pub fn section_d(shape: &Shape, leaves: &[u8], x: &[u8]) -> Vec<u8> {
    let u_0 = u(shape, leaves, 0);
    let mut d = Vec::new();
    for c in 0..shape.n {
        d.push(add(x[c], u_0[c]));
    }
    pack(&shape.symbols, &d)
}

/// "ũ = H·u".
pub fn section_u_tilde(shape: &Shape, leaves: &[u8], h: &[u8]) -> Vec<u8> {
    let u_0 = u(shape, leaves, 0);
    pack(&shape.symbols, &hash_of(shape, h, &u_0))
}

/// "Ṽ_e = H·v_e", "by repetition, rising, and Ṽ in each repetition by hash row."
pub fn section_v_tilde(shape: &Shape, leaves: &[u8], h: &[u8]) -> Vec<u8> {
    let mut section = Vec::new();
    for e in 0..shape.tau {
        let v_e = v(shape, leaves, e);
        section.extend_from_slice(&hash_of(shape, h, &v_e));
    }
    section
}

/// "Expand xᵀA_i·x at v_e+Xx, plus X times b_i·(v_e+Xx), plus y_i·X²."
///
/// The coefficients of 1, X and X²:
/// a₀ = vᵀA_i·v; a₁ = vᵀA_i·x + xᵀA_i·v + b_i·v; a₂ = xᵀA_i·x + b_i·x + y_i.
/// Only the first n coordinates of v_e enter.
pub fn coefficients(key: &Key, i: usize, v_e: &[u8], x: &[u8]) -> [u8; 3] {
    let a_2 = add(add(key.a_form(i, x, x), key.b_form(i, x)), key.y_entry(i));
    [a_0(key, i, v_e), a_1(key, i, v_e, x), a_2]
}

/// a₀ = vᵀA_i·v.
fn a_0(key: &Key, i: usize, v_e: &[u8]) -> u8 {
    key.a_form(i, v_e, v_e)
}

/// a₁ = vᵀA_i·x + xᵀA_i·v + b_i·v.
fn a_1(key: &Key, i: usize, v_e: &[u8], x: &[u8]) -> u8 {
    let mixed = add(key.a_form(i, v_e, x), key.a_form(i, x, v_e));
    add(mixed, key.b_form(i, v_e))
}

/// "QS0_e = Σ χ(e,i)·a₀ + A*₀,e", where A*₀,e takes v_e at the mask coordinates of e (02). "by
/// repetition, rising".
pub fn section_qs0(key: &Key, leaves: &[u8], chi: &[u8]) -> Vec<u8> {
    let shape = &key.shape;
    let field = &shape.field;
    let mut section = Vec::new();
    for e in 0..shape.tau {
        let v_e = v(shape, leaves, e);
        let mut sum = 0;
        for i in 0..shape.m {
            sum = add(sum, field.mul(shape.column(chi, e)[i], a_0(key, i, &v_e)));
        }
        let mask_0 = shape.mask(e, &v_e);
        section.push(add(sum, mask_0));
    }
    section
}

/// "QS1_e = Σ χ(e,i)·a₁ + A*₁", but that A*₁ is now one of e: it takes u, which is u_0, at the mask
/// coordinates of e (02). "by repetition, rising".
pub fn section_qs1(key: &Key, leaves: &[u8], x: &[u8], chi: &[u8]) -> Vec<u8> {
    let shape = &key.shape;
    let field = &shape.field;
    let u_0 = u(shape, leaves, 0);
    let mut section = Vec::new();
    for e in 0..shape.tau {
        let v_e = v(shape, leaves, e);
        let mut sum = 0;
        for i in 0..shape.m {
            sum = add(
                sum,
                field.mul(shape.column(chi, e)[i], a_1(key, i, &v_e, x)),
            );
        }
        let mask_1 = shape.mask(e, &u_0);
        section.push(add(sum, mask_1));
    }
    section
}

/// "Three step calls write the first two, the middle two and the last two sections." The first:
/// it takes "the key and full leaves; the first also the witness".
pub fn first_step(key: &Key, leaves: &[u8], witness: &[u8]) -> Vec<u8> {
    let x = unpack(&key.shape.symbols, witness, key.shape.n);
    let mut out = Vec::new();
    write_section(&mut out, &section_c(&key.shape, leaves));
    write_section(&mut out, &section_d(&key.shape, leaves, &x));
    out
}

/// The second step: "the second H′".
pub fn second_step(key: &Key, leaves: &[u8], h: &[u8]) -> Vec<u8> {
    let mut out = Vec::new();
    write_section(&mut out, &section_u_tilde(&key.shape, leaves, h));
    write_section(&mut out, &section_v_tilde(&key.shape, leaves, h));
    out
}

/// The third step: "the third the witness and χ."
pub fn third_step(key: &Key, leaves: &[u8], witness: &[u8], chi: &[u8]) -> Vec<u8> {
    let x = unpack(&key.shape.symbols, witness, key.shape.n);
    let mut out = Vec::new();
    write_section(&mut out, &section_qs0(key, leaves, chi));
    write_section(&mut out, &section_qs1(key, leaves, &x, chi));
    out
}

/// "A whole call takes all of these and writes all six, the same bytes."
pub fn whole(key: &Key, leaves: &[u8], witness: &[u8], h: &[u8], chi: &[u8]) -> Vec<u8> {
    let mut out = Vec::new();
    out.extend_from_slice(&first_step(key, leaves, witness));
    out.extend_from_slice(&second_step(key, leaves, h));
    out.extend_from_slice(&third_step(key, leaves, witness, chi));
    out
}
