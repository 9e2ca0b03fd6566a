//! All sittings of the files of vectors: of the two older files, made by other hands, those with one repetition; and of
//! the rendering's own three, with a mask for each repetition, one of four symbols.

use reference::alphabet::{Alphabet, FOUR, TWO};
use reference::check::line;
use reference::factors::factors;
use reference::field::{Field, GF16, GF256};
use reference::key::{has_header, header, sections, Key};
use reference::prover::whole;
use reference::strings::{pack, write_section};
use reference::verifier;
use reference::*;

const DEGREE_8: &str = include_str!("vectors/sittings-degree8.rsp");
const DEGREE_4: &str = include_str!("vectors/sittings-degree4.rsp");
const MASKS_8: &str = include_str!("vectors/masks-degree8.rsp");
const MASKS_4: &str = include_str!("vectors/masks-degree4.rsp");
const FOUR_VALUED: &str = include_str!("vectors/four-valued.rsp");

/// "changed = d byte 10 xor 1: reply 983040 factors 1 1"
#[derive(Debug)]
struct Changed {
    section: String,
    byte: usize,
    xor: u8,
    reply: u32,
    factors: Vec<usize>,
}

/// "several = Vt byte 22 xor 1, Vt byte 24 xor 1: reply 917504"
#[derive(Debug)]
struct Several {
    changes: Vec<(usize, u8)>,
    reply: u32,
}

/// "exchanged = C bytes 4 to 6 with bytes 7 to 9: reply 917505"
#[derive(Debug)]
struct Exchanged {
    first: (usize, usize),
    second: (usize, usize),
    reply: u32,
}

#[derive(Debug, Default)]
struct Sitting {
    numbers: Vec<(String, usize)>,
    key: Vec<u8>,
    witness: Vec<u8>,
    leaves: Vec<u8>,
    h: Vec<u8>,
    chi: Vec<u8>,
    proof: Vec<u8>,
    delta: Vec<u8>,
    opened: Vec<u8>,
    reply: u32,
    changed: Vec<Changed>,
    several: Vec<Several>,
    exchanged: Vec<Exchanged>,
    /// commit, hash and batch.
    steps: Vec<Vec<u8>>,
    /// u_e by e, and v_e by e.
    u: Vec<Vec<u8>>,
    v: Vec<Vec<u8>>,
}

fn hex(text: &str) -> Vec<u8> {
    assert_eq!(text.len() % 2, 0);
    (0..text.len() / 2)
        .map(|at| u8::from_str_radix(&text[2 * at..2 * at + 2], 16).unwrap())
        .collect()
}

fn changed(text: &str) -> Changed {
    let words: Vec<&str> = text.split_whitespace().collect();
    assert_eq!([words[1], words[3]], ["byte", "xor"]);
    assert_eq!([words[5], words[7]], ["reply", "factors"]);
    Changed {
        section: words[0].to_string(),
        byte: words[2].parse().unwrap(),
        xor: words[4].strip_suffix(':').unwrap().parse().unwrap(),
        reply: words[6].parse().unwrap(),
        factors: words[8..]
            .iter()
            .map(|word| word.parse().unwrap())
            .collect(),
    }
}

fn several(text: &str) -> Several {
    let (changes, reply) = text.split_once(": reply ").unwrap();
    let change = |text: &str| {
        let words: Vec<&str> = text.split_whitespace().collect();
        assert_eq!([words[1], words[3]], ["byte", "xor"]);
        (words[2].parse().unwrap(), words[4].parse().unwrap())
    };
    Several {
        changes: changes.split(", ").map(change).collect(),
        reply: reply.parse().unwrap(),
    }
}

fn exchanged(text: &str) -> Exchanged {
    let words: Vec<&str> = text.split_whitespace().collect();
    assert_eq!([words[1], words[6], words[10]], ["bytes", "bytes", "reply"]);
    let number = |at: usize| -> usize { words[at].trim_end_matches(':').parse().unwrap() };
    Exchanged {
        first: (number(2), number(4)),
        second: (number(7), number(9)),
        reply: words[11].parse().unwrap(),
    }
}

/// Every line of a file: a line of no known kind is an error.
fn read(text: &str) -> Vec<Sitting> {
    let mut sittings: Vec<Sitting> = Vec::new();
    for line in text.lines() {
        if line.starts_with("# sitting ") {
            sittings.push(Sitting::default());
        } else if line.is_empty() || line.starts_with('#') {
            continue;
        } else {
            let sitting = sittings.last_mut().unwrap();
            let (name, value) = line.split_once(" = ").unwrap();
            match name {
                "key" => sitting.key = hex(value),
                "witness" => sitting.witness = hex(value),
                "leaves" => sitting.leaves = hex(value),
                "hprime" => sitting.h = hex(value),
                "chi" => sitting.chi = hex(value),
                "proof" => sitting.proof = hex(value),
                "delta" => sitting.delta = hex(value),
                "opened" => sitting.opened = hex(value),
                "reply" => sitting.reply = value.parse().unwrap(),
                "changed" => sitting.changed.push(changed(value)),
                "several" => sitting.several.push(several(value)),
                "exchanged" => sitting.exchanged.push(exchanged(value)),
                "commit" | "hash" | "batch" => sitting.steps.push(hex(value)),
                "u_0" | "u_1" | "u_2" => sitting.u.push(hex(value)),
                "v_0" | "v_1" | "v_2" => sitting.v.push(hex(value)),
                _ => {
                    let name = name.strip_prefix('[').unwrap().to_string();
                    let value = value.strip_suffix(']').unwrap().parse().unwrap();
                    sitting.numbers.push((name, value));
                }
            }
        }
    }
    sittings
}

/// What the equations say of a sitting, over the given field.
fn equations(field: Field, symbols: Alphabet, sitting: &Sitting) {
    assert!(has_header(&sitting.key));
    let shape = header(field, symbols, &sitting.key);
    let numbers: Vec<(&str, usize)> = sitting
        .numbers
        .iter()
        .map(|(name, value)| (name.as_str(), *value))
        .collect();
    assert_eq!(
        numbers,
        [
            ("n", shape.n),
            ("m", shape.m),
            ("tau", shape.tau),
            ("t", shape.t)
        ]
    );
    let key = sections(shape, &sitting.key).unwrap();
    assert!(key.spare_bits_are_0());
    assert_eq!(
        whole(
            &key,
            &sitting.leaves,
            &sitting.witness,
            &sitting.h,
            &sitting.chi
        ),
        sitting.proof
    );
    assert_eq!(
        open_leaves(&shape, &sitting.leaves, &sitting.delta),
        sitting.opened
    );
    assert_eq!(reply(&key, sitting, &sitting.proof), sitting.reply);
    let all = vec![field.size; shape.tau];
    assert_eq!(factors_of(&key, sitting, &sitting.proof), all);
    for changed in &sitting.changed {
        let proof = change(&key, sitting, changed);
        assert_eq!(reply(&key, sitting, &proof), changed.reply, "{changed:?}");
        assert_eq!(
            factors_of(&key, sitting, &proof),
            changed.factors,
            "{changed:?}"
        );
    }
}

/// What the rendering's own files have besides: changes of several bytes, rows of C exchanged, the steps' bytes and the
/// sums of the leaves.
fn more_equations(field: Field, symbols: Alphabet, sitting: &Sitting) {
    let shape = header(field, symbols, &sitting.key);
    let key = sections(shape, &sitting.key).unwrap();
    for several in &sitting.several {
        let mut proof = sitting.proof.clone();
        for (byte, xor) in &several.changes {
            proof[*byte] ^= xor;
        }
        assert_eq!(reply(&key, sitting, &proof), several.reply, "{several:?}");
    }
    for exchanged in &sitting.exchanged {
        let ((first, first_end), (second, second_end)) = (exchanged.first, exchanged.second);
        let [width, other] = [first_end + 1 - first, second_end + 1 - second];
        assert_eq!(
            [width, other, second],
            [shape.w(), shape.w(), first + width]
        );
        let mut proof = sitting.proof.clone();
        for at in 0..width {
            proof.swap(first + at, second + at);
        }
        let replied = reply(&key, sitting, &proof);
        assert_eq!(replied, exchanged.reply, "{exchanged:?}");
    }
    if !sitting.steps.is_empty() {
        assert_eq!(sitting.steps.concat(), sitting.proof);
        assert_eq!([sitting.u.len(), sitting.v.len()], [shape.tau; 2]);
        for e in 0..shape.tau {
            assert_eq!(
                pack(&symbols, &leaves::u(&shape, &sitting.leaves, e)),
                sitting.u[e]
            );
            assert_eq!(leaves::v(&shape, &sitting.leaves, e), sitting.v[e]);
        }
    }
}

/// The verifier's word for a proof.
fn reply(key: &Key, sitting: &Sitting, proof: &[u8]) -> u32 {
    word(verify(
        &sitting.key,
        key.shape.degree(),
        key.shape.alphabet(),
        &sitting.delta,
        &sitting.h,
        &sitting.chi,
        &sitting.opened,
        proof,
    ))
}

fn factors_of(key: &Key, sitting: &Sitting, proof: &[u8]) -> Vec<usize> {
    let proof = verifier::sections(&key.shape, proof).unwrap();
    factors(key, &sitting.h, &sitting.chi, &sitting.leaves, &proof)
}

/// The changed proof; the byte lies in the section that the line names.
fn change(key: &Key, sitting: &Sitting, changed: &Changed) -> Vec<u8> {
    let mut start = 0;
    for (name, length) in ["C", "d", "ut", "Vt", "QS0", "QS1"]
        .iter()
        .zip(key.shape.proof_sections())
    {
        if *name == changed.section {
            assert!((start + 4..start + 4 + length).contains(&changed.byte));
        }
        start += 4 + length;
    }
    let mut proof = sitting.proof.clone();
    proof[changed.byte] ^= changed.xor;
    proof
}

/// What the calls say of a sitting at the degree of the field: the whole and the three steps.
fn calls(field: Field, symbols: Alphabet, sitting: &Sitting) {
    let shape = header(field, symbols, &sitting.key);
    let (degree, alphabet) = (shape.degree(), shape.alphabet());
    let (key, leaves, witness) = (&sitting.key, &sitting.leaves, &sitting.witness);
    let (h, chi) = (&sitting.h, &sitting.chi);
    assert_eq!(test(key, degree, alphabet, witness), Answer::Accepted);
    let mut out = vec![0xEE; shape.proof_length()];
    let answer = prove(key, degree, alphabet, leaves, witness, h, chi, &mut out);
    assert_eq!(answer, Answer::Accepted);
    assert_eq!(out, sitting.proof);

    let mut first = vec![0xEE; shape.commit_length()];
    let mut second = vec![0xEE; shape.hash_length()];
    let mut third = vec![0xEE; shape.batch_length()];
    let answers = [
        commit(key, degree, alphabet, leaves, witness, &mut first),
        hash(key, degree, alphabet, leaves, h, &mut second),
        batch(key, degree, alphabet, leaves, witness, chi, &mut third),
    ];
    assert_eq!(answers, [Answer::Accepted; 3]);
    assert_eq!([first, second, third].concat(), sitting.proof);
}

/// The check program's line for the proof and each change; "the check program stays at 8" (02, request 3).
fn lines(sitting: &Sitting) {
    checked(sitting, &sitting.proof, sitting.reply);
    let key = sections(header(GF256, TWO, &sitting.key), &sitting.key).unwrap();
    for changed in &sitting.changed {
        checked(sitting, &change(&key, sitting, changed), changed.reply);
    }
}

fn checked(sitting: &Sitting, proof: &[u8], reply: u32) {
    let mut input = Vec::new();
    for section in [
        &sitting.key[..],
        &sitting.delta,
        &sitting.h,
        &sitting.chi,
        &sitting.opened,
        proof,
    ] {
        write_section(&mut input, section);
    }
    let verdict = if reply == 0 { "accepted" } else { "refused" };
    assert_eq!(
        line(&input),
        format!("{verdict} {} {}", reply / 65_536, reply % 65_536)
    );
}

/// How many sittings, changed lines, and other changes there are.
fn counted(sittings: &[Sitting]) -> [usize; 3] {
    let lines = sittings.iter().map(|sitting| sitting.changed.len()).sum();
    let others = sittings
        .iter()
        .map(|sitting| sitting.several.len() + sitting.exchanged.len())
        .sum();
    [sittings.len(), lines, others]
}

#[test]
fn degree_8() {
    let sittings = read(DEGREE_8);
    assert_eq!(counted(&sittings), [1, 5, 0]);
    for sitting in &sittings {
        equations(GF256, TWO, sitting);
        calls(GF256, TWO, sitting);
        lines(sitting);
    }
}

#[test]
fn degree_4() {
    let sittings = read(DEGREE_4);
    assert_eq!(counted(&sittings), [1, 8, 0]);
    for sitting in &sittings {
        equations(GF16, TWO, sitting);
        calls(GF16, TWO, sitting);
    }
}

#[test]
fn masks_of_degree_8() {
    let sittings = read(MASKS_8);
    assert_eq!(counted(&sittings), [2, 24, 1]);
    for sitting in &sittings {
        assert!(!sitting.steps.is_empty());
        equations(GF256, TWO, sitting);
        more_equations(GF256, TWO, sitting);
        calls(GF256, TWO, sitting);
        lines(sitting);
    }
    assert_eq!(MASKS_8, reference::sittings::degree_8());
}

#[test]
fn masks_of_degree_4() {
    let sittings = read(MASKS_4);
    assert_eq!(counted(&sittings), [2, 24, 5]);
    for sitting in &sittings {
        equations(GF16, TWO, sitting);
        calls(GF16, TWO, sitting);
        more_equations(GF16, TWO, sitting);
    }
    assert_eq!(MASKS_4, reference::sittings::degree_4());
}

#[test]
fn four_valued() {
    let sittings = read(FOUR_VALUED);
    assert_eq!(counted(&sittings), [3, 42, 16]);
    for sitting in &sittings {
        assert!(!sitting.steps.is_empty());
        equations(GF256, FOUR, sitting);
        more_equations(GF256, FOUR, sitting);
        calls(GF256, FOUR, sitting);
    }
    // 13 for the last bits of C, d and ũ, where they are spare.
    let spare: Vec<Vec<bool>> = sittings
        .iter()
        .map(|sitting| {
            sitting.several[2..5]
                .iter()
                .map(|s| s.reply == 13 * 65_536)
                .collect()
        })
        .collect();
    assert_eq!(spare, [[true, true, true], [true, true, true], [false; 3]]);
    assert_eq!(FOUR_VALUED, reference::sittings::four_valued());
}
