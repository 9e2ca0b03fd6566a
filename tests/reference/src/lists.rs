//! Lists with a string of one length for each repetition and each j, full or opened. The leaves are such a list, w
//! bytes for each; and "A seed list, full or opened, has its seeds in the order of the leaves." (02, request 6)

use crate::key::Shape;

/// The string of e and j in a full list: "for each repetition e, from 0 rising, 256 strings ..., j rising."; 16 at
/// degree 4 (02, request 3).
pub fn in_full<'a>(shape: &Shape, length: usize, full: &'a [u8], e: usize, j: usize) -> &'a [u8] {
    let start = (e * shape.field.size + j) * length;
    &full[start..start + length]
}

/// The strings of repetition e in an opened list: "255 for each repetition"; "15 opened" at degree 4 (02, request 3).
pub fn opened_of<'a>(shape: &Shape, length: usize, opened: &'a [u8], e: usize) -> &'a [u8] {
    let of_one = (shape.field.size - 1) * length;
    &opened[e * of_one..(e + 1) * of_one]
}

/// The string of j among the opened ones of a repetition, for j ≠ Δ_e: "j rising, j = Δ_e left out"; "above it the
/// place is j−1."
pub fn in_opened(length: usize, opened_e: &[u8], delta_e: u8, j: usize) -> &[u8] {
    let place = if j < delta_e as usize { j } else { j - 1 };
    &opened_e[place * length..(place + 1) * length]
}

/// The opened strings of repetition e, got from a full list "by leaving out j = Δ_e".
pub fn open_repetition(
    shape: &Shape,
    length: usize,
    full: &[u8],
    e: usize,
    delta_e: u8,
) -> Vec<u8> {
    let mut opened_e = Vec::new();
    for j in 0..shape.field.size {
        if j != delta_e as usize {
            opened_e.extend_from_slice(in_full(shape, length, full, e, j));
        }
    }
    opened_e
}

/// The opened list, got from a full one "by leaving out j = Δ_e in each repetition."
pub fn open(shape: &Shape, length: usize, full: &[u8], delta: &[u8]) -> Vec<u8> {
    let mut opened = Vec::new();
    for e in 0..shape.tau {
        opened.extend_from_slice(&open_repetition(shape, length, full, e, delta[e]));
    }
    opened
}
