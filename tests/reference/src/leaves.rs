//! Full leaves, opened leaves and the sums over them.

use crate::field::add;
use crate::key::Shape;
use crate::lists;
use crate::strings::coordinate;

/// ℓ(e,j) among full leaves: "for each repetition e, from 0 rising, 256 strings ℓ(e,j) of w bytes,
/// j rising."; "16 leaves" at degree 4 (02, request 3).
pub fn leaf<'a>(shape: &Shape, leaves: &'a [u8], e: usize, j: usize) -> &'a [u8] {
    lists::in_full(shape, shape.w(), leaves, e, j)
}

/// The opened leaves of repetition e: "255 for each repetition"; "15 opened" at degree 4 (02, request 3).
pub fn opened_of<'a>(shape: &Shape, opened: &'a [u8], e: usize) -> &'a [u8] {
    lists::opened_of(shape, shape.w(), opened, e)
}

/// ℓ(e,j) among the opened leaves of repetition e, for j ≠ Δ_e.
pub fn opened_leaf<'a>(shape: &Shape, opened_e: &'a [u8], delta_e: u8, j: usize) -> &'a [u8] {
    lists::in_opened(shape.w(), opened_e, delta_e, j)
}

/// The opened leaves of repetition e, got from full leaves "by leaving out j = Δ_e".
pub fn open_repetition(shape: &Shape, leaves: &[u8], e: usize, delta_e: u8) -> Vec<u8> {
    lists::open_repetition(shape, shape.w(), leaves, e, delta_e)
}

/// "the opened leaves got from those full leaves by leaving out j = Δ_e in each repetition."
pub fn open_leaves(shape: &Shape, leaves: &[u8], delta: &[u8]) -> Vec<u8> {
    lists::open(shape, shape.w(), leaves, delta)
}

/// "u_e = Σ ℓ(e,j) over GF(2)", coordinate by coordinate; over GF(4) with alphabet 4 (02, request 11). Elements of K
/// that the alphabet's symbols stand for.
pub fn u(shape: &Shape, leaves: &[u8], e: usize) -> Vec<u8> {
    let mut u_e = vec![0; shape.l()];
    for j in 0..shape.field.size {
        let string = leaf(shape, leaves, e, j);
        for c in 0..shape.l() {
            u_e[c] = add(u_e[c], coordinate(&shape.symbols, string, c));
        }
    }
    u_e
}

/// "v_e = Σ j·ℓ(e,j) over K, coordinate by coordinate."
pub fn v(shape: &Shape, leaves: &[u8], e: usize) -> Vec<u8> {
    let mut v_e = vec![0; shape.l()];
    for j in 0..shape.field.size {
        let string = leaf(shape, leaves, e, j);
        for c in 0..shape.l() {
            let symbol = coordinate(&shape.symbols, string, c);
            v_e[c] = add(v_e[c], shape.field.symbol_times(symbol, j as u8));
        }
    }
    v_e
}

/// H·z, with u, v_e or W_e put for z: "H = [H′ | identity of size t]. ũ = H·u; Ṽ_e = H·v_e." Coordinate
/// r is Σ H′[r][c]·z[c] over c below k, plus z[k+r].
pub fn hash_of(shape: &Shape, h: &[u8], z: &[u8]) -> Vec<u8> {
    let row_length = shape.h_length() / shape.t;
    let mut product = Vec::new();
    for r in 0..shape.t {
        let row = &h[r * row_length..(r + 1) * row_length];
        let mut sum = 0;
        for c in 0..shape.k() {
            let entry = coordinate(&shape.symbols, row, c);
            sum = add(sum, shape.field.symbol_times(entry, z[c]));
        }
        product.push(add(sum, z[shape.k() + r]));
    }
    product
}
