//! Damages: for each question, ways to make its answer no. They are made for an honest case whose strings all have
//! spare bits, with two repetitions, both at a Δ that is not 0.

use crate::lent::Lent;

/// One way to get a no.
pub struct Damage {
    /// The question.
    pub number: u32,
    /// The place of the refusal.
    pub place: u32,
    /// The input that it concerns, by the header's name: it is for the calls that take this one. `out` for the
    /// output's length.
    pub input: &'static str,
    pub what: &'static str,
    pub make: fn(&mut Lent),
}

const fn damage(
    number: u32,
    input: &'static str,
    what: &'static str,
    make: fn(&mut Lent),
) -> Damage {
    placed(number, 0, input, what, make)
}

const fn placed(
    number: u32,
    place: u32,
    input: &'static str,
    what: &'static str,
    make: fn(&mut Lent),
) -> Damage {
    Damage {
        number,
        place,
        input,
        what,
        make,
    }
}

pub fn set_size(lent: &mut Lent, which: usize, size: u16) {
    lent.key[2 * which..2 * which + 2].copy_from_slice(&size.to_le_bytes());
}

/// Adds to the count that stands there, modulo 2^32.
fn add_to_count(bytes: &mut [u8], at: usize, more: u32) {
    let count = u32::from_le_bytes(bytes[at..at + 4].try_into().unwrap());
    bytes[at..at + 4].copy_from_slice(&count.wrapping_add(more).to_le_bytes());
}

fn largest_count(bytes: &mut [u8], at: usize) {
    bytes[at..at + 4].fill(0xFF);
}

pub fn add_to_key_count(lent: &mut Lent, section: usize, more: u32) {
    let at = lent.key_section(section);
    add_to_count(&mut lent.key, at, more);
}

fn add_to_proof_count(lent: &mut Lent, section: usize, more: u32) {
    let at = lent.proof_section(section);
    add_to_count(&mut lent.proof, at, more);
}

/// Sets the highest bit of the last byte of a section of the key: a spare bit.
fn spare_in_key(lent: &mut Lent, section: usize) {
    let end = lent.key_section(section + 1);
    lent.key[end - 1] |= 0x80;
}

fn spare_in_proof(lent: &mut Lent, section: usize) {
    let end = lent.proof_section(section + 1);
    lent.proof[end - 1] |= 0x80;
}

/// Changes the lowest bit of a byte of a section of the proof.
pub fn change_proof(lent: &mut Lent, section: usize, byte: usize) {
    let at = lent.proof_section(section) + 4 + byte;
    lent.proof[at] ^= 1;
}

/// Changes y of one equation, so that it fails.
pub fn change_y(lent: &mut Lent, equation: usize) {
    let at = lent.key_section(2) + 4;
    lent.key[at + equation / 8] ^= 1 << (equation % 8);
}

/// Changes y of each of these equations.
pub fn change_all_y(lent: &mut Lent, equations: &[usize]) {
    for equation in equations {
        change_y(lent, *equation);
    }
}

/// The last byte of the first string of so many bits, highest bit set: a spare bit.
fn spare_in_first(strings: &mut [u8], bits: usize) {
    strings[bits.div_ceil(8) - 1] |= 0x80;
}

pub fn spare_in_last(strings: &mut [u8]) {
    *strings.last_mut().unwrap() |= 0x80;
}

/// A byte that is no element at degree 4, in a section of the proof.
fn no_element_in_proof(lent: &mut Lent, section: usize, byte: usize, bits: u8) {
    let at = lent.proof_section(section) + 4 + byte;
    lent.proof[at] |= bits;
}

/// All damages, by the order of the questions. The first of a number is the one that is joined to others.
#[rustfmt::skip]
pub const DAMAGES: &[Damage] = &[
    damage(16, "key", "the degree is 5", |l| l.degree = 5),
    damage(16, "key", "the degree is 0", |l| l.degree = 0),
    damage(16, "key", "the degree is 1", |l| l.degree = 1),
    damage(16, "key", "the degree is 12", |l| l.degree = 12),
    damage(16, "key", "the degree is 260, whose low byte is 4", |l| l.degree = 260),
    damage(16, "key", "the degree is 264, whose low byte is 8", |l| l.degree = 264),
    damage(16, "key", "the degree is FFFFFFFF", |l| l.degree = u32::MAX),
    damage(16, "key", "the degree is 0, and the key is empty", |l| { l.degree = 0; l.key.clear() }),

    damage(1, "key", "the key has 7 bytes", |l| l.key.truncate(7)),
    damage(1, "key", "the key is empty", |l| l.key.clear()),

    damage(2, "key", "n is 0", |l| set_size(l, 0, 0)),
    damage(2, "key", "n is 321", |l| set_size(l, 0, 321)),
    damage(2, "key", "m is 321", |l| set_size(l, 1, 321)),
    damage(2, "key", "tau is 0", |l| set_size(l, 2, 0)),
    damage(2, "key", "tau is 49", |l| set_size(l, 2, 49)),
    damage(2, "key", "t is 0", |l| set_size(l, 3, 0)),
    damage(2, "key", "t is 289", |l| set_size(l, 3, 289)),
    damage(2, "key", "n and m are 0", |l| { set_size(l, 0, 0); set_size(l, 1, 0) }),
    damage(2, "key", "n is 515, whose low byte is in range", |l| set_size(l, 0, 515)),
    damage(2, "key", "n is 321 and the key has 8 bytes", |l| { set_size(l, 0, 321); l.key.truncate(8) }),

    damage(3, "key", "the key has one byte more", |l| l.key.push(0)),
    damage(3, "key", "the key has one byte less", |l| { l.key.pop(); }),
    damage(3, "key", "n is 320 and the key has 8 bytes", |l| { set_size(l, 0, 320); l.key.truncate(8) }),
    damage(3, "key", "m is 320 and the key has 8 bytes", |l| { set_size(l, 1, 320); l.key.truncate(8) }),
    damage(3, "key", "m is 0 and the key has 8 bytes", |l| { set_size(l, 1, 0); l.key.truncate(8) }),
    damage(3, "key", "t is 288 and the key has 8 bytes", |l| { set_size(l, 3, 288); l.key.truncate(8) }),
    damage(3, "key", "the count of A is one more", |l| add_to_key_count(l, 0, 1)),
    damage(3, "key", "the count of A is FFFFFFFF", |l| { let at = l.key_section(0); largest_count(&mut l.key, at) }),
    damage(3, "key", "the count of b is one less", |l| add_to_key_count(l, 1, u32::MAX)),
    damage(3, "key", "the count of y is one more", |l| add_to_key_count(l, 2, 1)),
    damage(3, "key", "n is 9, and the sections are those of n = 3", |l| set_size(l, 0, 9)),
    damage(3, "key", "m is 0, and the sections are those of m = 3", |l| set_size(l, 1, 0)),

    damage(4, "key", "a spare bit in the last row of A", |l| spare_in_key(l, 0)),
    damage(4, "key", "a spare bit in the first row of A", |l| { let at = l.key_section(0) + 4; l.key[at] |= 0x80 }),
    damage(4, "key", "a spare bit in the last row of b", |l| spare_in_key(l, 1)),
    damage(4, "key", "a spare bit in y", |l| spare_in_key(l, 2)),

    damage(5, "hash_matrix", "hash_matrix has one byte less", |l| { l.hash_matrix.pop(); }),
    damage(5, "hash_matrix", "hash_matrix has one byte more", |l| l.hash_matrix.push(0)),
    damage(5, "batching", "batching has one byte less", |l| { l.batching.pop(); }),
    damage(5, "batching", "batching has one byte more", |l| l.batching.push(0)),
    damage(5, "delta", "delta has one byte less", |l| { l.delta.pop(); }),
    damage(5, "delta", "delta has one byte more", |l| l.delta.push(0)),

    damage(6, "hash_matrix", "a spare bit in the first row of hash_matrix", |l| { let k = l.shape.k(); spare_in_first(&mut l.hash_matrix, k) }),
    damage(6, "hash_matrix", "a spare bit in the last row of hash_matrix", |l| spare_in_last(&mut l.hash_matrix)),

    damage(17, "batching", "the first byte of batching is 10 or more", |l| l.batching[0] |= 0x10),
    damage(17, "batching", "the last byte of batching is 80 or more", |l| *l.batching.last_mut().unwrap() |= 0x80),
    damage(17, "delta", "the first byte of delta is 10 or more", |l| l.delta[0] |= 0x10),
    damage(17, "delta", "the last byte of delta is 80 or more", |l| *l.delta.last_mut().unwrap() |= 0x80),

    damage(7, "leaves", "the leaves have one byte less", |l| { l.leaves.pop(); }),
    damage(7, "leaves", "the leaves have one byte more", |l| l.leaves.push(0)),
    damage(7, "leaves", "opened leaves are lent", |l| l.leaves = l.opened.clone()),
    damage(7, "opened", "the opened leaves have one byte less", |l| { l.opened.pop(); }),
    damage(7, "opened", "the opened leaves have one byte more", |l| l.opened.push(0)),
    damage(7, "opened", "full leaves are lent", |l| l.opened = l.leaves.clone()),

    damage(8, "leaves", "a spare bit in the first leaf", |l| { let bits = l.shape.l(); spare_in_first(&mut l.leaves, bits) }),
    damage(8, "leaves", "a spare bit in the last leaf", |l| spare_in_last(&mut l.leaves)),
    damage(8, "opened", "a spare bit in the first opened leaf", |l| { let bits = l.shape.l(); spare_in_first(&mut l.opened, bits) }),
    damage(8, "opened", "a spare bit in the last opened leaf", |l| spare_in_last(&mut l.opened)),

    damage(9, "witness", "a spare bit in the witness", |l| spare_in_last(&mut l.witness)),
    damage(9, "witness", "the witness is empty", |l| l.witness.clear()),
    damage(9, "witness", "the witness has one byte more", |l| l.witness.push(0)),

    damage(10, "out", "the output has one byte less", |l| l.more_out = -1),
    damage(10, "out", "the output has one byte more", |l| l.more_out = 1),
    damage(10, "out", "the output is empty", |l| l.more_out = isize::MIN),

    placed(11, 0, "witness", "equation 0 fails", |l| change_y(l, 0)),
    placed(11, 1, "witness", "equation 1 fails", |l| change_y(l, 1)),
    placed(11, 2, "witness", "equation 2 fails", |l| change_y(l, 2)),
    placed(11, 0, "witness", "equations 0 and 2 fail", |l| change_all_y(l, &[0, 2])),
    placed(11, 1, "witness", "equations 1 and 2 fail", |l| change_all_y(l, &[1, 2])),
    placed(11, 0, "witness", "all equations fail", |l| change_all_y(l, &[0, 1, 2])),

    damage(12, "proof", "the proof has one byte less", |l| { l.proof.pop(); }),
    damage(12, "proof", "the proof has one byte more", |l| l.proof.push(0)),
    damage(12, "proof", "the proof is empty", |l| l.proof.clear()),
    damage(12, "proof", "the proof ends within the first count", |l| l.proof.truncate(3)),
    damage(12, "proof", "the count of C is one less", |l| add_to_proof_count(l, 0, u32::MAX)),
    damage(12, "proof", "the count of d is one more", |l| add_to_proof_count(l, 1, 1)),
    damage(12, "proof", "the count of u~ is FFFFFFFF", |l| { let at = l.proof_section(2); largest_count(&mut l.proof, at) }),
    damage(12, "proof", "the count of V~ is one more", |l| add_to_proof_count(l, 3, 1)),
    damage(12, "proof", "the count of QS0 is one less", |l| add_to_proof_count(l, 4, u32::MAX)),
    damage(12, "proof", "the count of QS1 is one more", |l| add_to_proof_count(l, 5, 1)),

    damage(13, "proof", "a spare bit in C", |l| spare_in_proof(l, 0)),
    damage(13, "proof", "a spare bit in d", |l| spare_in_proof(l, 1)),
    damage(13, "proof", "a spare bit in u~", |l| spare_in_proof(l, 2)),

    damage(18, "proof", "the first byte of V~ is 10 or more", |l| no_element_in_proof(l, 3, 0, 0x10)),
    damage(18, "proof", "the last byte of V~ is 80 or more", |l| { let last = l.shape.tau * l.shape.t - 1; no_element_in_proof(l, 3, last, 0x80) }),
    damage(18, "proof", "the first byte of QS0 is 10 or more", |l| no_element_in_proof(l, 4, 0, 0x10)),
    damage(18, "proof", "the last byte of QS0 is F0 or more", |l| no_element_in_proof(l, 4, 1, 0xF0)),
    damage(18, "proof", "the first byte of QS1 is 10 or more", |l| no_element_in_proof(l, 5, 0, 0x10)),
    damage(18, "proof", "the last byte of QS1 is 20 or more", |l| no_element_in_proof(l, 5, 1, 0x20)),

    placed(14, 1, "proof", "the first byte of V~ of repetition 1 is changed", |l| { let t = l.shape.t; change_proof(l, 3, t) }),
    placed(14, 0, "proof", "the first byte of V~ of repetition 0 is changed", |l| change_proof(l, 3, 0)),
    placed(14, 0, "proof", "the first bit of u~ is changed", |l| change_proof(l, 2, 0)),

    placed(15, 0, "proof", "QS0 of repetition 0 is changed", |l| change_proof(l, 4, 0)),
    placed(15, 1, "proof", "QS0 of repetition 1 is changed", |l| change_proof(l, 4, 1)),
    placed(15, 0, "proof", "QS1 of repetition 0 is changed", |l| change_proof(l, 5, 0)),
    placed(15, 1, "proof", "QS1 of repetition 1 is changed", |l| change_proof(l, 5, 1)),
];
