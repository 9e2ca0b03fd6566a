//! The toy sitting of 01, every entry.

use reference::alphabet::TWO;
use reference::check::line;
use reference::factors::{batched_error, candidate, passing};
use reference::field::GF256;
use reference::key::{header, sections, Shape};
use reference::leaves::{u, v};
use reference::strings::{pack, unpack, write_section};
use reference::verifier;
use reference::*;

/// "Key: 02 00 01 00 01 00 01 00, 02 00 00 00 02 00, 01 00 00 00 01, 01 00 00 00 01"
fn key(y: u8) -> Vec<u8> {
    vec![
        0x02, 0x00, 0x01, 0x00, 0x01, 0x00, 0x01, 0x00, // n, m, τ, t
        0x02, 0x00, 0x00, 0x00, 0x02, 0x00, // A
        0x01, 0x00, 0x00, 0x00, 0x01, // b
        0x01, 0x00, 0x00, 0x00, y, // y
    ]
}

fn shape() -> Shape {
    header(GF256, TWO, &key(1))
}

/// "Leaf 2 is 05 00, leaf 3 is 02 04, others 0."
fn leaves() -> Vec<u8> {
    let mut leaves = vec![0; 512];
    leaves[4] = 0x05;
    leaves[6] = 0x02;
    leaves[7] = 0x04;
    leaves
}

/// "x is 01, H′ 05 00, χ 05."
const X: [u8; 1] = [0x01];
const H: [u8; 2] = [0x05, 0x00];
const CHI: [u8; 1] = [0x05];

fn proof(u_tilde: u8, qs1: u8) -> Vec<u8> {
    vec![
        0, 0, 0, 0, // C
        1, 0, 0, 0, 0x02, // d
        1, 0, 0, 0, u_tilde, // ũ
        1, 0, 0, 0, 0x03, // Ṽ
        1, 0, 0, 0, 0x1C, // QS0
        1, 0, 0, 0, qs1, // QS1
    ]
}

fn verify_at(key: &[u8], delta: u8, proof: &[u8]) -> Answer {
    let opened = open_leaves(&shape(), &leaves(), &[delta]);
    verify(key, 8, 2, &[delta], &H, &CHI, &opened, proof)
}

fn refused(number: u32, place: u32) -> Answer {
    Answer::Refused { number, place }
}

#[test]
fn products() {
    assert_eq!(GF256.mul(0x57, 0x83), 0xC1);
    assert_eq!(GF256.mul(0x57, 0x13), 0xFE);
    assert_eq!(GF256.mul(0x05, 0x52), 0x01);
}

#[test]
fn the_equation_is_x0_x1_plus_x0() {
    let bytes = key(1);
    let key = sections(shape(), &bytes).unwrap();
    for x0 in 0..2 {
        for x1 in 0..2 {
            assert_eq!(key.error(0, &[x0, x1]), (x0 * x1) ^ x0 ^ 1);
        }
    }
}

#[test]
fn sums_of_leaves() {
    assert_eq!(pack(&TWO, &u(&shape(), &leaves(), 0)), [0x07, 0x04]);
    let mut expected = vec![0; 11];
    expected[0] = 0x02;
    expected[1] = 0x03;
    expected[2] = 0x02;
    expected[10] = 0x03;
    assert_eq!(v(&shape(), &leaves(), 0), expected);
}

#[test]
fn the_proof() {
    let mut out = vec![0xEE; 29];
    assert_eq!(test(&key(1), 8, 2, &X), Answer::Accepted);
    assert_eq!(
        prove(&key(1), 8, 2, &leaves(), &X, &H, &CHI, &mut out),
        Answer::Accepted
    );
    assert_eq!(out, proof(0x01, 0x04));
}

#[test]
fn the_verifier() {
    let honest = proof(0x01, 0x04);
    for delta in 0..=255 {
        assert_eq!(verify_at(&key(1), delta, &honest), Answer::Accepted);
    }
    let qs1_changed = proof(0x01, 0x05);
    assert_eq!(verify_at(&key(1), 0x02, &qs1_changed), refused(15, 0));
    assert_eq!(verify_at(&key(1), 0x00, &qs1_changed), Answer::Accepted);
    let u_tilde_changed = proof(0x00, 0x04);
    assert_eq!(verify_at(&key(1), 0x02, &u_tilde_changed), refused(14, 0));
    assert_eq!(word(refused(14, 0)), 14 * 65_536);
}

#[test]
fn y_is_0() {
    assert_eq!(test(&key(0), 8, 2, &X), refused(11, 0));
    let mut out = vec![0xEE; 29];
    assert_eq!(
        prove(&key(0), 8, 2, &leaves(), &X, &H, &CHI, &mut out),
        refused(11, 0)
    );
    assert_eq!(out, vec![0xEE; 29]);

    let forged = proof(0x01, 0x05);
    for delta in 0..=255 {
        let expected = if delta == 0x00 || delta == 0x52 {
            Answer::Accepted
        } else {
            refused(15, 0)
        };
        assert_eq!(verify_at(&key(0), delta, &forged), expected);
    }

    let key_bytes = key(0);
    let key = sections(shape(), &key_bytes).unwrap();
    let read = verifier::sections(&shape(), &forged).unwrap();
    assert_eq!(passing(&key, 0, &H, &CHI, &leaves(), &read), [0x00u8, 0x52]);
    let x = candidate(&shape(), 0, &leaves(), &read);
    assert_eq!(x, unpack(&TWO, &X, 2));
    assert_eq!(batched_error(&key, &x, &CHI), 0x05);
}

fn input(delta: u8, proof: &[u8]) -> Vec<u8> {
    let opened = open_leaves(&shape(), &leaves(), &[delta]);
    let mut input = Vec::new();
    for section in [&key(1)[..], &[delta], &H, &CHI, &opened, proof] {
        write_section(&mut input, section);
    }
    input
}

#[test]
fn the_check_program() {
    let whole = input(0x02, &proof(0x01, 0x04));
    assert_eq!(line(&whole), "accepted 0 0");
    assert_eq!(line(&input(0x02, &proof(0x01, 0x05))), "refused 15 0");
    assert_eq!(line(&input(0x02, &proof(0x00, 0x04))), "refused 14 0");
    // Every cut: a section, or a count, is not there whole.
    for length in 0..whole.len() {
        assert_eq!(line(&whole[..length]), "unread 0 0");
    }
    // Bytes left over.
    let mut longer = whole.clone();
    longer.push(0);
    assert_eq!(line(&longer), "unread 0 0");
    // A count of FFFFFFFF.
    let mut large = whole.clone();
    large[0..4].copy_from_slice(&[0xFF; 4]);
    assert_eq!(line(&large), "unread 0 0");
    // 65,536 bytes in all are read, one more is not: the proof is padded, so the answer is 12.
    let rest = 65_536 - whole.len();
    let padded = |more: usize| {
        let mut proof = proof(0x01, 0x04);
        proof.resize(proof.len() + rest + more, 0);
        input(0x02, &proof)
    };
    assert_eq!(padded(0).len(), 65_536);
    assert_eq!(line(&padded(0)), "refused 12 0");
    assert_eq!(line(&padded(1)), "unread 0 0");
    // The program itself.
    for (input, expected) in [
        (whole, "accepted 0 0\n"),
        (longer, "unread 0 0\n"),
        (padded(0), "refused 12 0\n"),
        (padded(1), "unread 0 0\n"),
        (Vec::new(), "unread 0 0\n"),
    ] {
        assert_eq!(run_program(input), expected);
    }
}

fn run_program(input: Vec<u8>) -> String {
    use std::io::Write;
    use std::process::{Command, Stdio};
    let mut child = Command::new(env!("CARGO_BIN_EXE_check"))
        .stdin(Stdio::piped())
        .stdout(Stdio::piped())
        .spawn()
        .unwrap();
    // The program may stop reading past its limit; then the pipe is closed early.
    let _ = child.stdin.take().unwrap().write_all(&input);
    String::from_utf8(child.wait_with_output().unwrap().stdout).unwrap()
}
