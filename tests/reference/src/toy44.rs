//! A toy over four symbols (02, request 11): one table, always the same lines. Nothing here is in 01 or 02 but the
//! rules; what is lent was chosen by the rendering. n = 5 leaves spare symbols in every row; 2 and 3 stand in A, b,
//! x, y, H′ and the leaves; neither A_0 nor A_1 is symmetric; Δ hides a leaf that is not 0 in both repetitions, and
//! one lies above it.

use crate::alphabet::FOUR;
use crate::calls::{test, verify, Answer};
use crate::cases::{key_bytes, Case};
use crate::factors::{candidate, factors, passing};
use crate::field::GF256;
use crate::key::Shape;
use crate::leaves::{open_leaves, opened_of, u, v};
use crate::prover::{first_step, second_step, third_step, whole};
use crate::strings::{pack, symbol, unpack};
use crate::toys::{hex, numbers, row, said};
use crate::verifier::{k, sections, w};

/// A_0, then A_1, by rows, as symbols.
pub const A: [[[u8; 5]; 5]; 2] = [
    [
        [0, 2, 0, 0, 1],
        [3, 0, 0, 0, 0],
        [0, 0, 1, 0, 2],
        [0, 3, 0, 2, 0],
        [0, 0, 0, 1, 3],
    ],
    [
        [1, 0, 3, 0, 0],
        [0, 2, 0, 0, 0],
        [2, 0, 0, 1, 0],
        [0, 0, 0, 3, 2],
        [3, 1, 0, 0, 0],
    ],
];

/// b_0 and b_1.
pub const B: [[u8; 5]; 2] = [[3, 0, 2, 0, 1], [0, 2, 0, 3, 2]];

/// y_0 and y_1.
pub const Y: [u8; 2] = [3, 2];

/// The witness.
pub const X: [u8; 5] = [2, 3, 2, 0, 1];

/// The leaves that are not 0: e, j and the bytes.
pub const LEAVES: [(usize, usize, [u8; 4]); 6] = [
    (0, 0x02, [0x1B, 0xE4, 0x93, 0x2D]),
    (0, 0x57, [0x6C, 0x39, 0xD2, 0x1E]),
    (0, 0xBC, [0xC6, 0x72, 0x4B, 0x36]),
    (1, 0x01, [0xB1, 0x4E, 0x27, 0x39]),
    (1, 0x83, [0x9C, 0xD8, 0x63, 0x12]),
    (1, 0xFE, [0x27, 0xB1, 0x8D, 0x3C]),
];

/// Symbols, lowest first, four to a byte.
fn packed(symbols: &[u8]) -> Vec<u8> {
    let elements: Vec<u8> = symbols.iter().map(|s| FOUR.element(*s)).collect();
    pack(&FOUR, &elements)
}

/// What is lent.
pub fn lent() -> Case {
    let shape = Shape::new(5, 2, 2, 2, 8, 4);
    let a: Vec<u8> = A.iter().flatten().flat_map(|row| packed(row)).collect();
    let b: Vec<u8> = B.iter().flat_map(|row| packed(row)).collect();
    let mut leaves = vec![0; shape.leaves_length()];
    for (e, j, bytes) in LEAVES {
        let start = (e * 256 + j) * 4;
        leaves[start..start + 4].copy_from_slice(&bytes);
    }
    Case {
        shape,
        key: key_bytes(&shape, &a, &b, &packed(&Y)),
        witness: packed(&X),
        leaves,
        h: vec![0xE4, 0x1B, 0x6C, 0x02, 0x39, 0x6C, 0xB1, 0x03],
        chi: vec![0x57, 0x83, 0x05, 0xBC],
        delta: vec![0x57, 0x83],
    }
}

/// The honest proof.
pub fn proof_of(toy: &Case) -> Vec<u8> {
    let key = toy.read_key();
    whole(&key, &toy.leaves, &toy.witness, &toy.h, &toy.chi)
}

/// The table.
pub fn table() -> String {
    let toy = lent();
    let proof = proof_of(&toy);
    let mut text = "# The toy over four symbols. Bytes and elements are in hexadecimal, all else in decimal. Symbols stand \
                    in brackets, first to last.\n"
        .to_string();
    text += &products();
    text += &sizes(&toy);
    text += &what_is_lent(&toy);
    text += &sums(&toy);
    text += &by_sections(&toy, &proof);
    text += &verified(&toy, &proof);
    text += &changed(&toy, &proof);
    text += &wrong_witnesses(&toy);
    text += &refused_24(&toy, &proof);
    text += &counted(&toy, &proof);
    text
}

/// "[2 3 2 0 1]": the first so many symbols of a string.
fn symbols(string: &[u8], entries: usize) -> String {
    let words: Vec<String> = (0..entries)
        .map(|c| symbol(&FOUR, string, c).to_string())
        .collect();
    format!("[{}]", words.join(" "))
}

/// The bytes, and the symbols in them.
fn both(string: &[u8], entries: usize) -> String {
    format!("{} {}", hex(string), symbols(string, entries))
}

/// The sixteen products of symbols, sums that are not plain, and the powers of α.
fn products() -> String {
    let mut text = String::new();
    for a in 0..4 {
        for b in 0..4 {
            let (x, y) = (FOUR.element(a), FOUR.element(b));
            let product = GF256.mul(x, y);
            let value = format!("{} [{}]", hex(&[product]), FOUR.symbol(product));
            text += &row(&format!("[{a}]·[{b}] = {x:02X}·{y:02X}"), value);
        }
    }
    text += &row("BC + BD", hex(&[0xBC ^ 0xBD]));
    let powers: Vec<u8> = (0..4).map(|s| GF256.alpha_to(s)).collect();
    text + &row("α^0 to α^3", hex(&powers))
}

fn sizes(toy: &Case) -> String {
    let shape = &toy.shape;
    numbers(&[
        ("n", shape.n),
        ("m", shape.m),
        ("τ", shape.tau),
        ("t", shape.t),
        ("degree", shape.field.degree),
        ("alphabet", shape.symbols.size),
        ("mask symbols of a repetition", shape.r()),
        ("k", shape.k()),
        ("L", shape.l()),
        ("w", shape.w()),
        ("bytes of a row of A and of b", shape.witness_length()),
        ("bytes of a row of H′", shape.h_length() / shape.t),
        ("key's length", shape.key_length()),
        ("leaves' length", shape.leaves_length()),
        ("opened leaves' length", shape.opened_length()),
    ])
}

fn what_is_lent(toy: &Case) -> String {
    let key = toy.read_key();
    let shape = &toy.shape;
    let mut text = row("key", hex(&toy.key));
    for i in 0..shape.m {
        for r in 0..shape.n {
            let name = format!("A_{i}, row {r}");
            text += &row(&name, both(key.a_row(i, r), shape.n));
        }
    }
    for i in 0..shape.m {
        text += &row(&format!("b_{i}"), both(key.b_row(i), shape.n));
    }
    text += &row("y", both(key.y, shape.m));
    let y: Vec<u8> = (0..shape.m).map(|i| key.y_entry(i)).collect();
    text += &row("y_0 and y_1 as elements", hex(&y));
    text += &row("witness x", both(&toy.witness, shape.n));
    for (e, j, bytes) in LEAVES {
        text += &row(&format!("leaf ℓ({e},{j:02X})"), both(&bytes, shape.l()));
    }
    text += &row("leaves, e and then j rising", hex(&toy.leaves));
    text += &row("H′", hex(&toy.h));
    for (r, bytes) in toy.h.chunks(4).enumerate() {
        text += &row(&format!("H′, row {r}"), both(bytes, shape.k()));
    }
    text += &row("χ", hex(&toy.chi));
    text + &row("Δ", hex(&toy.delta))
}

/// u_e, v_e and the masks.
fn sums(toy: &Case) -> String {
    let shape = &toy.shape;
    let mut text = String::new();
    for e in 0..shape.tau {
        let u_e = pack(&FOUR, &u(shape, &toy.leaves, e));
        text += &row(&format!("u_{e}"), both(&u_e, shape.l()));
    }
    for e in 0..shape.tau {
        let name = format!("v_{e}, an element for each coordinate");
        text += &row(&name, hex(&v(shape, &toy.leaves, e)));
    }
    let u_0 = u(shape, &toy.leaves, 0);
    for e in 0..shape.tau {
        let v_e = v(shape, &toy.leaves, e);
        text += &row(&format!("mask A*₁,{e} of u"), hex(&[shape.mask(e, &u_0)]));
        text += &row(
            &format!("mask A*₀,{e} of v_{e}"),
            hex(&[shape.mask(e, &v_e)]),
        );
    }
    text
}

/// The proof by sections, whole, and by steps.
fn by_sections(toy: &Case, proof: &[u8]) -> String {
    let shape = &toy.shape;
    let read = sections(shape, proof).unwrap();
    let mut text = row("C, which is C_1", both(read.c, shape.l()));
    text += &row("d", both(read.d, shape.n));
    text += &row("ũ", both(read.u_tilde, shape.t));
    text += &row("Ṽ", hex(read.v_tilde));
    text += &row("QS0", hex(read.qs0));
    text += &row("QS1", hex(read.qs1));
    text += &row("proof", hex(proof));
    text += &row("proof's length", proof.len().to_string());
    let (key, leaves, witness) = (&toy.read_key(), &toy.leaves, &toy.witness);
    text += &row("commit writes", hex(&first_step(key, leaves, witness)));
    text += &row("hash writes", hex(&second_step(key, leaves, &toy.h)));
    text + &row(
        "batch writes",
        hex(&third_step(key, leaves, witness, &toy.chi)),
    )
}

/// The verifier's answer at a Δ, its leaves opened at it.
pub fn at(toy: &Case, delta: &[u8], proof: &[u8]) -> Answer {
    let opened = open_leaves(&toy.shape, &toy.leaves, delta);
    verify(&toy.key, 8, 4, delta, &toy.h, &toy.chi, &opened, proof)
}

fn verified(toy: &Case, proof: &[u8]) -> String {
    let shape = &toy.shape;
    let answer = test(&toy.key, 8, 4, &toy.witness);
    let mut text = row("test of key and witness", said(answer));
    let opened = toy.opened();
    text += &row("opened leaves at Δ", hex(&opened));
    let read = sections(shape, proof).unwrap();
    for e in 0..shape.tau {
        let (delta_e, opened_e) = (toy.delta[e], opened_of(shape, &opened, e));
        let w_e = w(shape, delta_e, opened_e, &read.correction(shape, e));
        let k_e = k(shape, delta_e, &w_e, read.d);
        text += &row(&format!("W_{e} at Δ"), hex(&w_e));
        text += &row(&format!("K_{e} at Δ"), hex(&k_e));
    }
    for delta in [
        toy.delta[..].try_into().unwrap(),
        [0, 0],
        [0xBC, 0x01],
        [0xFF, 0xFE],
    ] {
        let name = format!("reply at Δ = {}", hex(&delta));
        text += &row(&name, said(at(toy, &delta, proof)));
    }
    text
}

/// Bytes of the proof, each with what is added to it by exclusive or: in d, C and ũ a change of symbols, or of spare
/// bits.
pub const CHANGES: [&[(usize, u8)]; 17] = [
    // C, symbols 0 and 8.
    &[(4, 0x02)],
    &[(6, 0x03)],
    // d, symbols 0 and 4.
    &[(12, 0x01)],
    &[(12, 0x02)],
    &[(12, 0x03)],
    &[(13, 0x02)],
    // ũ, symbols 0 and 1.
    &[(18, 0x02)],
    &[(18, 0x0C)],
    // Ṽ_0 and Ṽ_1.
    &[(23, 0x01)],
    &[(26, 0xBC)],
    // QS0_1 and QS1_0.
    &[(32, 0xBC)],
    &[(37, 0x01)],
    // QS0_0 and Ṽ_1: consistency in every repetition comes first.
    &[(31, 0x01), (25, 0x80)],
    // Spare bits of C, d and ũ.
    &[(7, 0x40)],
    &[(7, 0x80)],
    &[(13, 0x04)],
    &[(18, 0x10)],
];

/// A proof with some bytes changed.
pub fn with(proof: &[u8], changes: &[(usize, u8)]) -> Vec<u8> {
    let mut changed = proof.to_vec();
    for (at, xor) in changes {
        changed[*at] ^= xor;
    }
    changed
}

/// The bytes that are changed, and by what.
pub fn name_of(changes: &[(usize, u8)]) -> String {
    let words: Vec<String> = changes
        .iter()
        .map(|(at, xor)| format!("byte {at} xor {xor:02X}"))
        .collect();
    words.join(", ")
}

/// Doctored proofs: the reply at Δ.
fn changed(toy: &Case, proof: &[u8]) -> String {
    let mut text = String::new();
    let mut reply = |name: &str, proof: &[u8]| {
        let answer = at(toy, &toy.delta, proof);
        text += &row(&format!("proof, {name}"), said(answer));
    };
    for changes in CHANGES {
        reply(&name_of(changes), &with(proof, changes));
    }
    reply("its last byte cut", &proof[..proof.len() - 1]);
    reply("a byte 00 more", &[proof, &[0]].concat());
    reply("byte 0 xor 01 (a count)", &with(proof, &[(0, 0x01)]));
    text
}

/// Witnesses that fail: both equations, 1 alone, 0 alone, both, and x with 2 and 3 exchanged.
pub const WRONG: [[u8; 5]; 5] = [
    [0, 0, 0, 0, 0],
    [2, 3, 2, 2, 1],
    [2, 3, 2, 0, 3],
    [2, 3, 3, 0, 1],
    [3, 2, 3, 0, 1],
];

fn wrong_witnesses(toy: &Case) -> String {
    let mut text = String::new();
    let key = toy.read_key();
    for x in WRONG {
        let witness = packed(&x);
        let elements = unpack(&FOUR, &witness, 5);
        let errors: Vec<u8> = (0..2).map(|i| key.error(i, &elements)).collect();
        let answer = said(test(&toy.key, 8, 4, &witness));
        let value = format!("{answer}, errors {}", hex(&errors));
        text += &row(&format!("witness {}", both(&witness, 5)), value);
    }
    for witness in [&[0xEE, 0x05][..], &[0x2E], &[0x2E, 0x01, 0x00]] {
        let answer = said(test(&toy.key, 8, 4, witness));
        text += &row(&format!("witness {}", hex(witness)), answer);
    }
    text
}

/// "24, an alphabet neither 2 nor 4, or 4 with degree 4, after 16", and before 1.
fn refused_24(toy: &Case, proof: &[u8]) -> String {
    let opened = toy.opened();
    let mut text = String::new();
    for (degree, alphabet) in [
        (8, 3),
        (8, 260),
        (4, 3),
        (4, 4),
        (5, 3),
        (5, 4),
        (8, 2),
        (4, 2),
    ] {
        let answers = [
            test(&toy.key, degree, alphabet, &toy.witness),
            verify(
                &toy.key, degree, alphabet, &toy.delta, &toy.h, &toy.chi, &opened, proof,
            ),
            test(&[], degree, alphabet, &toy.witness),
        ];
        let name = format!("degree {degree}, alphabet {alphabet}");
        let [tested, verified, no_key] = answers.map(said);
        let value = format!("test: {tested}; verify: {verified}; test of an empty key: {no_key}");
        text += &row(&name, value);
    }
    text
}

/// Factors, the elements that pass, and candidates: of the honest proof, of changed ones, and where y is changed.
fn counted(toy: &Case, proof: &[u8]) -> String {
    let mut text = count(toy, "honest proof", proof);
    for changes in [
        CHANGES[0],
        CHANGES[1],
        CHANGES[3],
        CHANGES[5],
        CHANGES[7],
        CHANGES[11],
    ] {
        text += &count(toy, &name_of(changes), &with(proof, changes));
    }
    let doctored = doctored();
    text += &row("key with y changed", hex(&doctored.key));
    let read = doctored.read_key();
    text += &row("its y", both(read.y, 2));
    let answer = test(&doctored.key, 8, 4, &toy.witness);
    text += &row("its test of the witness", said(answer));
    text += &count(&doctored, "its honest bytes", proof);
    text += &row("its proof forged", name_of(&FORGED));
    let forged = with(proof, &FORGED);
    text += &count(&doctored, "forged", &forged);
    for delta in [[0x57, 0x83], [0x00, 0x00], [0x33, 0x01], [0x33, 0x83]] {
        let answer = at(&doctored, &delta, &forged);
        text += &row(&format!("forged, at Δ = {}", hex(&delta)), said(answer));
    }
    text
}

/// What is added to QS1 where y is changed. The errors batched are 83·BC and BC·BC = BD; so besides 0 there pass
/// 01/(83·BC) and BD/BD = 01.
pub const FORGED: [(usize, u8); 2] = [(37, 0x01), (38, 0xBD)];

/// The toy with 0 for y_1: the witness fails equation 1 there, its error is BC.
pub fn doctored() -> Case {
    let mut doctored = lent();
    *doctored.key.last_mut().unwrap() = packed(&[3, 0])[0];
    doctored
}

fn count(toy: &Case, name: &str, proof: &[u8]) -> String {
    let key = toy.read_key();
    let read = sections(&toy.shape, proof).unwrap();
    let numbers: Vec<String> = factors(&key, &toy.h, &toy.chi, &toy.leaves, &read)
        .iter()
        .map(usize::to_string)
        .collect();
    let mut text = row(&format!("{name}: factors"), numbers.join(" "));
    for e in 0..toy.shape.tau {
        let passing = passing(&key, e, &toy.h, &toy.chi, &toy.leaves, &read);
        let value = match passing.len() {
            256 => "all".to_string(),
            _ => hex(&passing),
        };
        text += &row(&format!("{name}: Δ_{e} that pass"), value);
        let x = pack(&FOUR, &candidate(&toy.shape, e, &toy.leaves, &read));
        text += &row(&format!("{name}: candidate {e}"), both(&x, 5));
    }
    text
}
