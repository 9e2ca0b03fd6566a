//! A toy on seeds (02, request 6): one table, always the same lines. Nothing here is in 01 or 02 but the rules; what is
//! lent was chosen by the rendering. It is 01's key and witness, but with two repetitions and at degree 4, so that
//! there are 32 seeds. No section of the proof is 0, nor a mask, nor a leaf that is left out.

use crate::calls::{
    batch_seeds, commit_seeds, hash_seeds, prove, prove_seeds, verify, verify_seeds, Answer,
};
use crate::cases::{key_bytes, Case, Seeded};
use crate::factors::factors;
use crate::key::Shape;
use crate::leaves::{leaf, opened_of, u, v};
use crate::prover::{first_step, second_step, third_step, whole};
use crate::seeds::{hashed_for_a_leaf, leaf_of_seed, open_seeds, seed, SEED_LENGTH};
use crate::shake::shake256;
use crate::strings::pack;
use crate::toy44::{name_of, with};
use crate::toys::{by_sections, hex, numbers, row, said};
use crate::verifier::{k, sections, w};

/// 80 to 9F.
pub fn salt() -> Vec<u8> {
    (0x80..0xA0).collect()
}

/// The sixteen bytes from 10·j on, rising for e = 0 and falling for e = 1.
pub fn seed_of(e: usize, j: usize) -> Vec<u8> {
    let mut bytes: Vec<u8> = (0..16).map(|b| (16 * j + b) as u8).collect();
    if e == 1 {
        bytes.reverse();
    }
    bytes
}

/// What is lent.
pub fn lent() -> Seeded {
    let shape = Shape::new(2, 1, 2, 1, 4, 2);
    let mut seeds = Vec::new();
    for e in 0..2 {
        for j in 0..16 {
            seeds.extend_from_slice(&seed_of(e, j));
        }
    }
    let case = Case {
        shape,
        key: key_bytes(&shape, &[0x02, 0x00], &[0x01], &[0x01]),
        witness: vec![0x01],
        leaves: Vec::new(),
        h: vec![0x6D, 0x02],
        chi: vec![0x05, 0x0B],
        delta: vec![0x03, 0x0C],
    };
    Seeded::new(case, salt(), seeds)
}

/// The honest proof.
pub fn proof_of(toy: &Seeded) -> Vec<u8> {
    let case = &toy.case;
    let key = case.read_key();
    whole(&key, &case.leaves, &case.witness, &case.h, &case.chi)
}

/// The table.
pub fn table() -> String {
    let toy = lent();
    let proof = proof_of(&toy);
    let mut text =
        "# The toy on seeds. Bytes and elements are in hexadecimal, all else in decimal; e and j of a leaf are decimal too.\n"
            .to_string();
    text += &hashes();
    text += &what_is_lent(&toy);
    text += &expanded(&toy);
    text += &computed(&toy, &proof);
    text += &verified(&toy, &proof);
    text += &changed(&toy, &proof);
    text += &refused_7(&toy, &proof);
    text += &around_7(&toy, &proof);
    text += &other_leaves();
    text
}

/// SHAKE256 of no byte and of 01.
fn hashes() -> String {
    let mut text = row("SHAKE256 of no byte, first 32", hex(&shake256(&[], 32)));
    text += &row("SHAKE256 of 01, first 32", hex(&shake256(&[0x01], 32)));
    text
}

fn what_is_lent(toy: &Seeded) -> String {
    let case = &toy.case;
    let shape = &case.shape;
    let mut text = numbers(&[
        ("n", shape.n),
        ("m", shape.m),
        ("τ", shape.tau),
        ("t", shape.t),
        ("degree", shape.field.degree),
        ("alphabet", shape.symbols.size),
        ("k", shape.k()),
        ("L", shape.l()),
        ("w", shape.w()),
        ("seeds' length", shape.seeds_length()),
        ("opened seeds' length", shape.opened_seeds_length()),
        ("leaves' length", shape.leaves_length()),
        ("opened leaves' length", shape.opened_length()),
    ]);
    for (name, bytes) in [
        ("key", &case.key),
        ("witness x", &case.witness),
        ("H′", &case.h),
        ("χ", &case.chi),
        ("Δ", &case.delta),
        ("salt", &toy.salt),
        ("seeds, e and then j rising", &toy.seeds),
    ] {
        text += &row(name, hex(bytes));
    }
    text
}

/// Each seed, what is hashed, the first w bytes of the output, and the leaf.
fn expanded(toy: &Seeded) -> String {
    let shape = &toy.case.shape;
    let mut text = String::new();
    for e in 0..shape.tau {
        for j in 0..shape.field.size {
            let seed = seed(shape, &toy.seeds, e, j);
            let hashed = hashed_for_a_leaf(&toy.salt, seed, e, j);
            text += &row(&format!("seed ({e},{j})"), hex(seed));
            text += &row(&format!("hashed for ℓ({e},{j})"), hex(&hashed));
            let name = format!("first w bytes for ℓ({e},{j})");
            text += &row(&name, hex(&shake256(&hashed, shape.w())));
            let leaf = leaf(shape, &toy.case.leaves, e, j);
            text += &row(&format!("leaf ℓ({e},{j})"), hex(leaf));
        }
    }
    text + &row("leaves, e and then j rising", hex(&toy.case.leaves))
}

/// The sums of the leaves, the masks, the proof by sections, and what the steps write.
fn computed(toy: &Seeded, proof: &[u8]) -> String {
    let case = &toy.case;
    let shape = &case.shape;
    let mut text = String::new();
    let u_0 = u(shape, &case.leaves, 0);
    for e in 0..shape.tau {
        let (u_e, v_e) = (u(shape, &case.leaves, e), v(shape, &case.leaves, e));
        text += &row(&format!("u_{e}"), hex(&pack(&shape.symbols, &u_e)));
        let name = format!("v_{e}, an element for each coordinate");
        text += &row(&name, hex(&v_e));
        text += &row(&format!("mask A*₁,{e} of u"), hex(&[shape.mask(e, &u_0)]));
        let name = format!("mask A*₀,{e} of v_{e}");
        text += &row(&name, hex(&[shape.mask(e, &v_e)]));
    }
    text += &by_sections(shape, proof);
    let (key, leaves, witness) = (&case.read_key(), &case.leaves, &case.witness);
    text += &row("commit writes", hex(&first_step(key, leaves, witness)));
    text += &row("hash writes", hex(&second_step(key, leaves, &case.h)));
    let third = third_step(key, leaves, witness, &case.chi);
    text + &row("batch writes", hex(&third))
}

/// The verifier's answer to all that is lent, its seeds opened at its Δ.
pub fn reply(toy: &Seeded, proof: &[u8]) -> Answer {
    reply_to(toy, &toy.salt, &toy.opened_seeds(), proof)
}

/// The same with another salt or opened list.
fn reply_to(toy: &Seeded, salt: &[u8], opened_seeds: &[u8], proof: &[u8]) -> Answer {
    let case = &toy.case;
    verify_seeds(
        &case.key,
        4,
        2,
        &case.delta,
        &case.h,
        &case.chi,
        salt,
        opened_seeds,
        proof,
    )
}

/// The same at another Δ.
pub fn reply_at(toy: &Seeded, delta: &[u8], proof: &[u8]) -> Answer {
    let mut toy = toy.clone();
    toy.case.delta = delta.to_vec();
    reply(&toy, proof)
}

fn verified(toy: &Seeded, proof: &[u8]) -> String {
    let case = &toy.case;
    let shape = &case.shape;
    let opened = case.opened();
    let mut text = row("opened seeds at Δ", hex(&toy.opened_seeds()));
    text += &row("leaves of these", hex(&opened));
    let read = sections(shape, proof).unwrap();
    for e in 0..shape.tau {
        let (delta_e, opened_e) = (case.delta[e], opened_of(shape, &opened, e));
        let w_e = w(shape, delta_e, opened_e, &read.correction(shape, e));
        let k_e = k(shape, delta_e, &w_e, read.d);
        text += &row(&format!("W_{e} at Δ"), hex(&w_e));
        text += &row(&format!("K_{e} at Δ"), hex(&k_e));
    }
    for delta in [[0x03, 0x0C], [0x00, 0x00], [0x0F, 0x0F], [0x00, 0x0F]] {
        text += &row(
            &format!("opened seeds at Δ = {}", hex(&delta)),
            hex(&open_seeds(shape, &toy.seeds, &delta)),
        );
        let name = format!("reply at Δ = {}", hex(&delta));
        text += &row(&name, said(reply_at(toy, &delta, proof)));
    }
    let answer = verify(
        &case.key,
        4,
        2,
        &case.delta,
        &case.h,
        &case.chi,
        &opened,
        proof,
    );
    text + &row("reply to the opened leaves themselves", said(answer))
}

/// Bytes of the proof, each with what is added to it by exclusive or.
pub const CHANGES: [&[(usize, u8)]; 8] = [
    // C, coordinates 0 and 10; a spare bit of it.
    &[(4, 0x01)],
    &[(5, 0x04)],
    &[(5, 0x08)],
    // d, ũ, Ṽ_1, QS0_1, QS1_0.
    &[(10, 0x01)],
    &[(15, 0x01)],
    &[(21, 0x02)],
    &[(27, 0x08)],
    &[(32, 0x01)],
];

/// Doctored proofs, and another salt or other seeds of the right lengths: replies at Δ.
fn changed(toy: &Seeded, proof: &[u8]) -> String {
    let case = &toy.case;
    let mut text = String::new();
    for changes in CHANGES {
        let name = format!("proof, {}", name_of(changes));
        let other = with(proof, changes);
        let read = sections(&case.shape, &other).unwrap();
        let of_leaves = factors(&case.read_key(), &case.h, &case.chi, &case.leaves, &read);
        let mut value = said(reply(toy, &other));
        if read.spare_bits_are_0(&case.shape) {
            value += &format!(", factors {} {}", of_leaves[0], of_leaves[1]);
        }
        text += &row(&name, value);
    }
    let opened = toy.opened_seeds();
    for (name, salt, opened) in [
        (
            "salt, byte 31 xor 80",
            with(&toy.salt, &[(31, 0x80)]),
            opened.clone(),
        ),
        (
            "opened seeds, byte 0 xor 01",
            toy.salt.clone(),
            with(&opened, &[(0, 0x01)]),
        ),
        (
            "opened seeds, (0,4) and (0,5) exchanged",
            toy.salt.clone(),
            with_exchanged(&opened, 3, 4),
        ),
        (
            "opened seeds, last byte xor 01",
            toy.salt.clone(),
            with(&opened, &[(479, 0x01)]),
        ),
    ] {
        text += &row(name, said(reply_to(toy, &salt, &opened, proof)));
    }
    let wrong = open_seeds(&case.shape, &toy.seeds, &[0x03, 0x0B]);
    let answer = reply_to(toy, &toy.salt, &wrong, proof);
    text + &row("opened seeds of Δ = 03 0B", said(answer))
}

/// A list with two of its seeds exchanged.
pub fn with_exchanged(list: &[u8], one: usize, other: usize) -> Vec<u8> {
    let mut exchanged = list.to_vec();
    for b in 0..SEED_LENGTH {
        exchanged.swap(SEED_LENGTH * one + b, SEED_LENGTH * other + b);
    }
    exchanged
}

/// The answers of all five calls, with another salt or other lists; the output has its right length.
pub fn answers(
    toy: &Seeded,
    salt: &[u8],
    seeds: &[u8],
    opened: &[u8],
    proof: &[u8],
) -> [Answer; 5] {
    let case = &toy.case;
    let (key, x, h, chi, shape) = (&case.key, &case.witness, &case.h, &case.chi, &case.shape);
    let mut first = vec![0; shape.commit_length()];
    let mut second = vec![0; shape.hash_length()];
    let mut third = vec![0; shape.batch_length()];
    let mut whole = vec![0; shape.proof_length()];
    [
        commit_seeds(key, 4, 2, salt, seeds, x, &mut first),
        hash_seeds(key, 4, 2, salt, seeds, h, &mut second),
        batch_seeds(key, 4, 2, salt, seeds, x, chi, &mut third),
        prove_seeds(key, 4, 2, salt, seeds, x, h, chi, &mut whole),
        reply_to(toy, salt, opened, proof),
    ]
}

/// "commit: accepted 0 0; hash: ..."
fn all_said(answers: [Answer; 5]) -> String {
    let names = ["commit", "hash", "batch", "prove", "verify"];
    let words: Vec<String> = names
        .iter()
        .zip(answers)
        .map(|(name, answer)| format!("{name}: {}", said(answer)))
        .collect();
    words.join("; ")
}

/// "A salt or seed list of wrong length is refused 7."
fn refused_7(toy: &Seeded, proof: &[u8]) -> String {
    let (salt, seeds, opened) = (&toy.salt[..], &toy.seeds[..], &toy.opened_seeds()[..]);
    let resized = |bytes: &[u8], length: usize| {
        let mut bytes = bytes.to_vec();
        bytes.resize(length, 0);
        bytes
    };
    let mut text = row(
        "all as lent",
        all_said(answers(toy, salt, seeds, opened, proof)),
    );
    for length in [0, 31, 33, 48] {
        let salt = resized(salt, length);
        let value = all_said(answers(toy, &salt, seeds, opened, proof));
        text += &row(&format!("salt of {length} bytes"), value);
    }
    for (name, more) in [
        ("lists a byte shorter", -1),
        ("lists a byte longer", 1),
        ("lists a seed shorter", -16),
        ("lists a seed longer", 16),
    ] {
        let other = |list: &[u8]| resized(list, list.len().checked_add_signed(more).unwrap());
        let value = all_said(answers(toy, salt, &other(seeds), &other(opened), proof));
        text += &row(name, value);
    }
    let value = all_said(answers(toy, salt, opened, seeds, proof));
    text += &row("full and opened list exchanged", value);
    let case = &toy.case;
    let value = all_said(answers(toy, salt, &case.leaves, &case.opened(), proof));
    text += &row("leaves lent for seeds", value);
    let mut out = vec![0; proof.len()];
    let (x, h, chi) = (&case.witness, &case.h, &case.chi);
    let answer = prove(&case.key, 4, 2, seeds, x, h, chi, &mut out);
    text + &row("seeds lent to prove as leaves", said(answer))
}

/// The order of the questions around 7: in each a salt of 31 bytes, and one more no.
fn around_7(toy: &Seeded, proof: &[u8]) -> String {
    let salt = &toy.salt[..31];
    let (seeds, opened) = (&toy.seeds, &toy.opened_seeds());
    let mut text = String::new();
    for (name, spoil) in [
        (
            "key of 7 bytes",
            (|case| case.key.truncate(7)) as fn(&mut Case),
        ),
        ("n = 0", |case| case.key[0] = 0),
        ("a count of the key", |case| case.key[8] ^= 1),
        ("a spare bit of b", |case| case.key[18] |= 0x04),
        ("H′, χ and Δ a byte longer", |case| {
            case.h.push(0);
            case.chi.push(0);
            case.delta.push(0);
        }),
        ("a spare bit of H′", |case| case.h[1] |= 0x04),
        ("χ_0 = 10", |case| case.chi[0] = 0x10),
        ("witness 03, which fails", |case| case.witness[0] = 0x03),
        ("witness 05, a spare bit", |case| case.witness[0] = 0x05),
    ] {
        let mut other = toy.clone();
        spoil(&mut other.case);
        let value = all_said(answers(&other, salt, seeds, opened, proof));
        text += &row(&format!("salt of 31 bytes, {name}"), value);
        let value = all_said(answers(&other, &toy.salt, seeds, opened, proof));
        text += &row(&format!("right salt, {name}"), value);
    }
    let cut = &proof[..proof.len() - 1];
    for (name, salt) in [("salt of 31 bytes", salt), ("right salt", &toy.salt)] {
        let answer = reply_to(toy, salt, opened, cut);
        text += &row(&format!("{name}, proof cut by a byte"), said(answer));
        let answer = reply_to(toy, salt, opened, &with(proof, &[(5, 0x08)]));
        text += &row(&format!("{name}, a spare bit of C"), said(answer));
    }
    text
}

/// Leaves of larger shapes in each setting, of the toy's salt and its seed (1,3): degree, alphabet, n, m, τ, t, and e
/// and j. At 8 and 2 the longest leaf has 124 bytes, at 4 and 2 100; at 8 and 4 it has 200, more than a block of 136.
pub const OTHERS: [([usize; 6], usize, usize); 9] = [
    ([8, 2, 2, 1, 1, 1], 0, 0),
    ([8, 2, 160, 160, 16, 144], 15, 255),
    ([8, 2, 320, 1, 48, 287], 47, 253),
    ([4, 2, 150, 150, 43, 144], 42, 15),
    ([4, 2, 320, 1, 48, 288], 47, 0),
    ([8, 4, 88, 88, 17, 72], 16, 128),
    ([8, 4, 64, 1, 48, 288], 1, 2),
    ([8, 4, 65, 1, 48, 288], 2, 1),
    ([8, 4, 319, 1, 48, 288], 47, 254),
];

/// The shape, and the leaf, of one of these.
pub fn other_leaf(numbers: [usize; 6], e: usize, j: usize) -> (Shape, Vec<u8>) {
    let [degree, alphabet, n, m, tau, t] = numbers;
    let shape = Shape::new(n, m, tau, t, degree as u32, alphabet as u32);
    let leaf = leaf_of_seed(&shape, &salt(), &seed_of(1, 3), e, j);
    (shape, leaf)
}

fn other_leaves() -> String {
    let mut text = String::new();
    for (numbers, e, j) in OTHERS {
        let (shape, leaf) = other_leaf(numbers, e, j);
        let [degree, alphabet, n, m, tau, t] = numbers;
        let name =
            format!("degree {degree}, alphabet {alphabet}, n, m, τ, t = {n}, {m}, {tau}, {t}");
        let sizes = format!("L = {}, w = {}", shape.l(), shape.w());
        text += &row(&name, sizes);
        let name = format!("its leaf ℓ({e},{j}) of the seed (1,3) above");
        text += &row(&name, hex(&leaf));
    }
    text
}
