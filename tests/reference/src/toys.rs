//! A toy at degree 4 in the spirit of 01's "Toy sitting": one table, always the same lines. Nothing here is in 01 or 02
//! but the rules; what is lent was chosen by the rendering so that no sum of the leaves, no mask and no section is 0,
//! the leaf that is left out is not 0, and the products go past the modulus.

use crate::calls::{test, verify, Answer};
use crate::cases::{key_bytes, Case};
use crate::factors::{factors, passing};
use crate::key::Shape;
use crate::leaves::{open_leaves, u, v};
use crate::prover::whole;
use crate::strings::pack;
use crate::verifier::sections;

/// What is lent: 01's key (x0·x1 + x0 = 1) and witness, 16 leaves of one byte, H′, χ and a Δ.
pub fn lent_at_degree_4() -> Case {
    let shape = Shape::new(2, 1, 1, 1, 4, 2);
    let mut leaves = vec![0; shape.leaves_length()];
    leaves[0x03] = 0x25;
    leaves[0x09] = 0x4A;
    Case {
        shape,
        key: key_bytes(&shape, &[0x02, 0x00], &[0x01], &[0x01]),
        witness: vec![0x01],
        leaves,
        h: vec![0x2D],
        chi: vec![0x05],
        delta: vec![0x03],
    }
}

/// The table.
pub fn degree_4() -> String {
    let toy = lent_at_degree_4();
    let proof = proof_of(&toy);
    let mut text =
        "# The toy at degree 4. Bytes are in hexadecimal, all else in decimal.\n".to_string();
    text += &products(&toy);
    text += &lent(&toy);
    text += &computed(&toy, &proof);
    text += &verified(&toy, &proof);
    text += &changed_bytes(&toy, &proof);
    text += &doctored(&toy, &proof);
    text += &no_elements(&toy, &proof);
    text
}

fn proof_of(toy: &Case) -> Vec<u8> {
    let key = toy.read_key();
    whole(&key, &toy.leaves, &toy.witness, &toy.h, &toy.chi)
}

/// "02 09" and so on.
pub fn hex(bytes: &[u8]) -> String {
    let words: Vec<String> = bytes.iter().map(|byte| format!("{byte:02X}")).collect();
    match words.is_empty() {
        true => "none".to_string(),
        false => words.join(" "),
    }
}

pub fn row(name: &str, value: String) -> String {
    // By characters, which the format's width counts too.
    format!("{name:<44} {value}\n")
}

/// A row for each number.
pub fn numbers(named: &[(&str, usize)]) -> String {
    let rows = named
        .iter()
        .map(|(name, number)| row(name, number.to_string()));
    rows.collect()
}

fn products(toy: &Case) -> String {
    let mut text = String::new();
    for (a, b) in [(0x02, 0x09), (0x08, 0x08), (0x03, 0x09), (0x05, 0x0B)] {
        let product = toy.shape.field.mul(a, b);
        text += &row(&format!("{a:02X}·{b:02X}"), hex(&[product]));
    }
    text
}

fn lent(toy: &Case) -> String {
    let shape = &toy.shape;
    let mut text = numbers(&[
        ("n", shape.n),
        ("m", shape.m),
        ("τ", shape.tau),
        ("t", shape.t),
        ("degree", shape.field.degree),
        ("k", shape.k()),
        ("L", shape.l()),
        ("w", shape.w()),
    ]);
    for (name, bytes) in [
        ("key", &toy.key),
        ("witness x", &toy.witness),
        ("leaves, j rising", &toy.leaves),
        ("H′", &toy.h),
        ("χ", &toy.chi),
    ] {
        text += &row(name, hex(bytes));
    }
    text
}

/// The sums of the leaves, the masks, and the proof by sections.
fn computed(toy: &Case, proof: &[u8]) -> String {
    let shape = &toy.shape;
    let (u_0, v_0) = (u(shape, &toy.leaves, 0), v(shape, &toy.leaves, 0));
    let mut text = row("u", hex(&pack(&shape.symbols, &u_0)));
    text += &row("v, an element for each coordinate", hex(&v_0));
    let mask = |z: &[u8]| hex(&[shape.mask(0, z)]);
    text += &row("mask A*₁, of u", mask(&u_0));
    text += &row("mask A*₀, of v", mask(&v_0));
    text + &by_sections(shape, proof)
}

/// The proof by sections, and whole.
pub fn by_sections(shape: &Shape, proof: &[u8]) -> String {
    let read = sections(shape, proof).unwrap();
    let mut text = String::new();
    for (name, section) in [
        ("C", read.c),
        ("d", read.d),
        ("ũ", read.u_tilde),
        ("Ṽ", read.v_tilde),
        ("QS0", read.qs0),
        ("QS1", read.qs1),
    ] {
        text += &row(name, hex(section));
    }
    text += &row("proof", hex(proof));
    text + &row("proof's length", proof.len().to_string())
}

pub fn said(answer: Answer) -> String {
    match answer {
        Answer::Accepted => "accepted 0 0".to_string(),
        Answer::Refused { number, place } => format!("refused {number} {place}"),
    }
}

/// The verifier's answer at a Δ, its leaves opened at it.
fn at(toy: &Case, delta_0: u8, proof: &[u8]) -> Answer {
    let delta = [delta_0];
    let opened = open_leaves(&toy.shape, &toy.leaves, &delta);
    verify(
        &toy.key,
        toy.degree(),
        toy.alphabet(),
        &delta,
        &toy.h,
        &toy.chi,
        &opened,
        proof,
    )
}

fn verified(toy: &Case, proof: &[u8]) -> String {
    let mut text = row(
        "test of key and witness",
        said(test(&toy.key, toy.degree(), toy.alphabet(), &toy.witness)),
    );
    text += &row("Δ", hex(&toy.delta));
    text += &row("opened leaves at this Δ", hex(&toy.opened()));
    text += &row("reply at this Δ", said(at(toy, toy.delta[0], proof)));
    for delta in 0..16 {
        text += &row(
            &format!("reply at Δ = {delta:02X}"),
            said(at(toy, delta, proof)),
        );
    }
    text
}

/// The sections of the toy's proof that hold bytes, by name, with the place of the byte in the proof.
const PLACES: [(&str, usize); 5] = [("d", 8), ("ũ", 13), ("Ṽ", 18), ("QS0", 23), ("QS1", 28)];

fn with_byte(proof: &[u8], place: usize, byte: u8) -> Vec<u8> {
    let mut changed = proof.to_vec();
    changed[place] = byte;
    changed
}

/// Each section's byte changed by 01: the reply at the toy's Δ, all Δ that are accepted, and their number.
fn changed_bytes(toy: &Case, proof: &[u8]) -> String {
    let mut text = String::new();
    for (name, place) in PLACES {
        let byte = proof[place] ^ 0x01;
        let changed = with_byte(proof, place, byte);
        let name = format!("{name} (byte {place}) changed to {byte:02X}");
        let answer = at(toy, toy.delta[0], &changed);
        text += &row(
            &name,
            format!("{}; {}", said(answer), accepted(toy, &changed)),
        );
    }
    text
}

/// The Δ that are accepted, and the factor.
fn accepted(toy: &Case, proof: &[u8]) -> String {
    let key = toy.read_key();
    let read = sections(&toy.shape, proof).unwrap();
    let passing = passing(&key, 0, &toy.h, &toy.chi, &toy.leaves, &read);
    let factors = factors(&key, &toy.h, &toy.chi, &toy.leaves, &read);
    format!("accepted at Δ = {}, factor {}", hex(&passing), factors[0])
}

/// As in 01's toy: the key with y = 0, honest bytes for y = 1, QS1 changed.
fn doctored(toy: &Case, proof: &[u8]) -> String {
    let mut doctored = toy.clone();
    *doctored.key.last_mut().unwrap() = 0x00;
    let answer = test(&doctored.key, toy.degree(), toy.alphabet(), &toy.witness);
    let mut text = row("key with y = 00, test of the witness", said(answer));
    for change in [0x01, 0x02] {
        let byte = proof[28] ^ change;
        let changed = with_byte(proof, 28, byte);
        let name = format!("key with y = 00, QS1 changed to {byte:02X}");
        text += &row(&name, accepted(&doctored, &changed));
    }
    text
}

/// Refusals 16, 17 and 18.
fn no_elements(toy: &Case, proof: &[u8]) -> String {
    let opened = toy.opened();
    let (key, h) = (&toy.key, &toy.h);
    let put =
        |degree, delta, chi| said(verify(key, degree, 2, &[delta], h, &[chi], &opened, proof));
    let (delta, chi) = (toy.delta[0], toy.chi[0]);
    let mut text = row(
        "degree 5, test of key and witness",
        said(test(key, 5, 2, &toy.witness)),
    );
    text += &row("degree 5, verifier", put(5, delta, chi));
    text += &row("χ changed to 10", put(4, delta, 0x10));
    text += &row("Δ changed to 10", put(4, 0x10, chi));
    for (name, place) in &PLACES[2..] {
        let changed = with_byte(proof, *place, 0x10);
        let name = format!("{name} (byte {place}) changed to 10");
        text += &row(&name, said(at(toy, delta, &changed)));
    }
    text
}
