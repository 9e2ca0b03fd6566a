//! The toy at degree 4, every entry, worked out by hand.
//!
//! v is 3, 9, 3, 9, 0, 3, 9. A has the one bit x0·x1, so a₀ = 3·9 = 9 + 2·9 = 9 + 1 = 8 and a₁ = v1 + v0 = 9 + 3 = A.
//! A*₀ = 3 + 2·9 + 8·3 = 3 + 1 + B = 9 and A*₁ = 1 + 2 + 8 = B. With χ = 5: QS0 = 5·8 + 9 = E + 9 = 7 and
//! QS1 = 5·A + B = 4 + B = F.

use reference::alphabet::TWO;
use reference::factors::{batched_error, candidate, passing};
use reference::field::GF16;
use reference::leaves::{u, v};
use reference::strings::pack;
use reference::toys::{degree_4, lent_at_degree_4};
use reference::verifier::sections;
use reference::*;

fn key(y: u8) -> Vec<u8> {
    vec![
        0x02, 0x00, 0x01, 0x00, 0x01, 0x00, 0x01, 0x00, // n, m, τ, t
        0x02, 0x00, 0x00, 0x00, 0x02, 0x00, // A
        0x01, 0x00, 0x00, 0x00, 0x01, // b
        0x01, 0x00, 0x00, 0x00, y, // y
    ]
}

const X: [u8; 1] = [0x01];
const H: [u8; 1] = [0x2D];
const CHI: [u8; 1] = [0x05];
const LEAVES: [u8; 16] = [0, 0, 0, 0x25, 0, 0, 0, 0, 0, 0x4A, 0, 0, 0, 0, 0, 0];

fn proof(d: u8, u_tilde: u8, v_tilde: u8, qs0: u8, qs1: u8) -> Vec<u8> {
    vec![
        0, 0, 0, 0, // C
        1, 0, 0, 0, d, // d
        1, 0, 0, 0, u_tilde, // ũ
        1, 0, 0, 0, v_tilde, // Ṽ
        1, 0, 0, 0, qs0, // QS0
        1, 0, 0, 0, qs1, // QS1
    ]
}

fn honest() -> Vec<u8> {
    proof(0x02, 0x01, 0x03, 0x07, 0x0F)
}

fn refused(number: u32, place: u32) -> Answer {
    Answer::Refused { number, place }
}

/// The leaves without the one of Δ.
fn opened(delta: u8) -> Vec<u8> {
    let mut opened = LEAVES.to_vec();
    opened.remove(delta as usize);
    opened
}

fn verify_at(key: &[u8], delta: u8, proof: &[u8]) -> Answer {
    verify(key, 4, 2, &[delta], &H, &CHI, &opened(delta), proof)
}

/// The Δ at which the verifier's call accepts.
fn accepted(key: &[u8], proof: &[u8]) -> Vec<u8> {
    (0..16)
        .filter(|delta| verify_at(key, *delta, proof) == Answer::Accepted)
        .collect()
}

#[test]
fn what_is_lent() {
    let toy = lent_at_degree_4();
    assert_eq!(toy.key, key(1));
    assert_eq!(toy.leaves, LEAVES);
    assert_eq!([toy.witness, toy.h, toy.chi], [X, H, CHI]);
    assert_eq!([toy.shape.k(), toy.shape.l(), toy.shape.w()], [6, 7, 1]);
}

#[test]
fn products() {
    assert_eq!(GF16.mul(0x02, 0x09), 0x01);
    assert_eq!(GF16.mul(0x08, 0x08), 0x0C);
    assert_eq!(GF16.mul(0x03, 0x09), 0x08);
    assert_eq!(GF16.mul(0x05, 0x0B), 0x01);
}

#[test]
fn sums_of_leaves_and_masks() {
    let shape = lent_at_degree_4().shape;
    let (u_0, v_0) = (u(&shape, &LEAVES, 0), v(&shape, &LEAVES, 0));
    assert_eq!(pack(&TWO, &u_0), [0x6F]);
    assert_eq!(v_0, [0x03, 0x09, 0x03, 0x09, 0x00, 0x03, 0x09]);
    assert_eq!(GF16.mask(&TWO, 2, &u_0), 0x0B);
    assert_eq!(GF16.mask(&TWO, 2, &v_0), 0x09);
}

#[test]
fn the_proof() {
    let mut out = vec![0xEE; 29];
    assert_eq!(test(&key(1), 4, 2, &X), Answer::Accepted);
    let answer = prove(&key(1), 4, 2, &LEAVES, &X, &H, &CHI, &mut out);
    assert_eq!(answer, Answer::Accepted);
    assert_eq!(out, honest());
}

#[test]
fn the_verifier() {
    let all: Vec<u8> = (0..16).collect();
    assert_eq!(accepted(&key(1), &honest()), all);
    for (changed, answer, passing) in [
        (
            proof(0x03, 0x01, 0x03, 0x07, 0x0F),
            refused(15, 0),
            &[0x00, 0x09][..],
        ),
        (proof(0x02, 0x00, 0x03, 0x07, 0x0F), refused(14, 0), &[0x00]),
        (proof(0x02, 0x01, 0x02, 0x07, 0x0F), refused(14, 0), &[]),
        (proof(0x02, 0x01, 0x03, 0x06, 0x0F), refused(15, 0), &[]),
        (proof(0x02, 0x01, 0x03, 0x07, 0x0E), refused(15, 0), &[0x00]),
    ] {
        assert_eq!(verify_at(&key(1), 0x03, &changed), answer);
        assert_eq!(accepted(&key(1), &changed), passing);
    }
}

/// The key with y = 0, QS1 changed by f: 5·Δ² + f·Δ = 0, so Δ is 0 or f·B.
#[test]
fn doctored() {
    assert_eq!(test(&key(0), 4, 2, &X), refused(11, 0));
    let shape = lent_at_degree_4().shape;
    let bytes = key(0);
    let read_key = reference::key::sections(shape, &bytes).unwrap();
    for (qs1, other) in [(0x0E, 0x0B), (0x0D, 0x05)] {
        let forged = proof(0x02, 0x01, 0x03, 0x07, qs1);
        assert_eq!(accepted(&bytes, &forged), [0x00, other]);
        for delta in (1..16).filter(|delta| *delta != other) {
            assert_eq!(verify_at(&bytes, delta, &forged), refused(15, 0));
        }
        let read = sections(&shape, &forged).unwrap();
        let passing = passing(&read_key, 0, &H, &CHI, &LEAVES, &read);
        assert_eq!(passing, [0x00, other]);
        let x = candidate(&shape, 0, &LEAVES, &read);
        assert_eq!(batched_error(&read_key, &x, &CHI), 0x05);
    }
}

#[test]
fn no_degree_and_no_elements() {
    let put = |degree, delta, chi, proof: &[u8]| {
        verify(&key(1), degree, 2, &[delta], &H, &[chi], &opened(3), proof)
    };
    let proof_with = |v_tilde, qs0, qs1| proof(0x02, 0x01, v_tilde, qs0, qs1);
    assert_eq!(put(4, 0x03, 0x05, &honest()), Answer::Accepted);
    assert_eq!(put(5, 0x03, 0x05, &honest()), refused(16, 0));
    assert_eq!(test(&key(1), 5, 2, &X), refused(16, 0));
    assert_eq!(put(4, 0x03, 0x10, &honest()), refused(17, 0));
    assert_eq!(put(4, 0x10, 0x05, &honest()), refused(17, 0));
    for changed in [
        proof_with(0x10, 0x07, 0x0F),
        proof_with(0x03, 0x10, 0x0F),
        proof_with(0x03, 0x07, 0x10),
    ] {
        assert_eq!(put(4, 0x03, 0x05, &changed), refused(18, 0));
    }
}

/// The lines of the table that others copy.
#[test]
fn the_table() {
    let table = degree_4();
    for (name, value) in [
        ("u", "6F"),
        ("v, an element for each coordinate", "03 09 03 09 00 03 09"),
        ("d", "02"),
        ("ũ", "01"),
        ("Ṽ", "03"),
        ("QS0", "07"),
        ("QS1", "0F"),
        ("proof's length", "29"),
        ("reply at Δ = 0F", "accepted 0 0"),
        (
            "key with y = 00, QS1 changed to 0E",
            "accepted at Δ = 00 0B, factor 2",
        ),
        ("Δ changed to 10", "refused 17 0"),
    ] {
        let line = format!("{name:<44} {value}");
        assert!(table.lines().any(|other| other == line), "{line}");
    }
}
