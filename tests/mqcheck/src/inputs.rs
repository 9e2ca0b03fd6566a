//! The inputs: the toy of 01 and its changes, and random honest cases and their changes.

use reference::cases::{case, Case, Random};
use reference::check::{ALPHABET, DEGREE};
use reference::key::Shape;
use reference::prover::whole;
use reference::strings::write_section;

/// An input, and the line where 01 or a file of vectors names it.
pub struct Input {
    pub name: String,
    pub bytes: Vec<u8>,
    pub line: Option<String>,
    /// The length of the pieces that it is written in.
    pub piece: usize,
}

pub fn input(name: String, bytes: Vec<u8>, line: Option<&str>) -> Input {
    Input {
        name,
        bytes,
        line: line.map(str::to_string),
        piece: usize::MAX,
    }
}

/// "Key, Δ, H′, χ, opened leaves, proof ..., each after its four-byte count."
pub fn framed(sections: &[Vec<u8>; 6]) -> Vec<u8> {
    let mut bytes = Vec::new();
    for section in sections {
        write_section(&mut bytes, section);
    }
    bytes
}

/// The toy's six sections at a Δ, with y, ũ and QS1.
fn toy_sections(delta: u8, y: u8, u_tilde: u8, qs1: u8) -> [Vec<u8>; 6] {
    let key = vec![
        2, 0, 1, 0, 1, 0, 1, 0, 2, 0, 0, 0, 2, 0, 1, 0, 0, 0, 1, 1, 0, 0, 0, y,
    ];
    let mut opened = Vec::new();
    for j in 0..=255u8 {
        if j != delta {
            opened.extend_from_slice(match j {
                2 => &[0x05, 0x00],
                3 => &[0x02, 0x04],
                _ => &[0x00, 0x00],
            });
        }
    }
    let mut proof = Vec::new();
    for section in [&[][..], &[0x02], &[u_tilde], &[0x03], &[0x1C], &[qs1]] {
        write_section(&mut proof, section);
    }
    assert_eq!(proof.len(), 29);
    [
        key,
        vec![delta],
        vec![0x05, 0x00],
        vec![0x05],
        opened,
        proof,
    ]
}

fn toy_input() -> Vec<u8> {
    framed(&toy_sections(0x02, 1, 0x01, 0x04))
}

/// The toy example's entries that a verifier answers.
pub fn toy() -> Vec<Input> {
    let mut inputs = Vec::new();
    for delta in 0..=255 {
        let honest = framed(&toy_sections(delta, 1, 0x01, 0x04));
        inputs.push(input(
            format!("toy at {delta:02X}"),
            honest,
            Some("accepted 0 0"),
        ));
        let forged = framed(&toy_sections(delta, 0, 0x01, 0x05));
        let line = match delta {
            0x00 | 0x52 => "accepted 0 0",
            _ => "refused 15 0",
        };
        inputs.push(input(
            format!("toy, y = 0, QS1 = 05, at {delta:02X}"),
            forged,
            Some(line),
        ));
    }
    for (delta, u_tilde, qs1, line) in [
        (0x02, 0x01, 0x05, "refused 15 0"),
        (0x00, 0x01, 0x05, "accepted 0 0"),
        (0x02, 0x00, 0x04, "refused 14 0"),
    ] {
        let name = format!("toy, ũ = {u_tilde:02X}, QS1 = {qs1:02X}, at {delta:02X}");
        inputs.push(input(
            name,
            framed(&toy_sections(delta, 1, u_tilde, qs1)),
            Some(line),
        ));
    }
    for piece in [1, 7, 100] {
        let name = format!("toy in pieces of {piece} bytes");
        let mut whole = input(name, toy_input(), Some("accepted 0 0"));
        whole.piece = piece;
        inputs.push(whole);
    }
    inputs
}

/// "A cut section or bytes left over give `unread 0 0`."
pub fn cuts() -> Vec<Input> {
    let toy = toy_input();
    let mut inputs = Vec::new();
    for length in 0..toy.len() {
        inputs.push(input(
            format!("toy, its first {length} bytes"),
            toy[..length].to_vec(),
            Some("unread 0 0"),
        ));
    }
    for over in [1, 2, 3, 4, 5, 64_944, 64_945, 64_946, 64_947] {
        let bytes = [toy.clone(), vec![0; over]].concat();
        inputs.push(input(
            format!("toy and {over} bytes"),
            bytes,
            Some("unread 0 0"),
        ));
    }
    inputs
}

/// The toy with one of the six counts changed, and with a section made longer or shorter with its count.
pub fn counts() -> Vec<Input> {
    let sections = toy_sections(0x02, 1, 0x01, 0x04);
    let mut inputs = Vec::new();
    let mut at = 0;
    for (i, section) in sections.iter().enumerate() {
        let count = section.len() as u32;
        for changed in [
            0,
            1,
            count.wrapping_sub(1),
            count + 1,
            count + 256,
            count + 65_536,
            0x7FFF_FFFF,
            0x8000_0000,
            0xFFFF_FFF8,
            0xFFFF_FFFC,
            0xFFFF_FFFF,
        ] {
            let mut bytes = toy_input();
            bytes[at..at + 4].copy_from_slice(&changed.to_le_bytes());
            let line = if changed == count {
                Some("accepted 0 0")
            } else {
                None
            };
            inputs.push(input(
                format!("toy, count {i} changed to {changed}"),
                bytes,
                line,
            ));
        }
        for changed in [
            0,
            1,
            section.len() - 1,
            section.len() + 1,
            section.len() + 8,
        ] {
            let mut other = sections.clone();
            other[i].resize(changed, 0);
            inputs.push(input(
                format!("toy, section {i} of {changed} bytes"),
                framed(&other),
                None,
            ));
        }
        at += 4 + section.len();
    }
    inputs
}

/// 01 and request 1: n = 320 taken, 321 refused 2; 0 refused 2. m likewise, but 0 is taken (request 12). τ = 48 taken,
/// 49 refused 2. t = 288 taken, 289 refused 2.
pub fn headers() -> Vec<Input> {
    let mut inputs = Vec::new();
    for (field, least, most) in [(0, 1, 320), (1, 0, 320), (2, 1, 48), (3, 1, 288)] {
        for number in [
            0,
            1,
            160,
            161,
            255,
            256,
            257,
            most - 1,
            most,
            most + 1,
            512,
            65_535,
        ] {
            let mut key = vec![2, 0, 2, 0, 2, 0, 2, 0];
            key[2 * field] = (number % 256) as u8;
            key[2 * field + 1] = (number / 256) as u8;
            // A header alone is refused 3 where its numbers are taken.
            let line = if (least..=most).contains(&number) {
                "refused 3 0"
            } else {
                "refused 2 0"
            };
            let sections = [key, vec![], vec![], vec![], vec![], vec![]];
            inputs.push(input(
                format!("header alone, number {field} is {number}"),
                framed(&sections),
                Some(line),
            ));
        }
    }
    let nothing = [vec![], vec![], vec![], vec![], vec![], vec![]];
    inputs.push(input(
        "six empty sections".to_string(),
        framed(&nothing),
        Some("refused 1 0"),
    ));
    inputs
}

/// The six sections of an honest case.
fn honest(case: &Case) -> [Vec<u8>; 6] {
    let proof = whole(
        &case.read_key(),
        &case.leaves,
        &case.witness,
        &case.h,
        &case.chi,
    );
    [
        case.key.clone(),
        case.delta.clone(),
        case.h.clone(),
        case.chi.clone(),
        case.opened(),
        proof,
    ]
}

/// Honest cases at the largest numbers that an input has room for, and some past it: the leaves of sixteen repetitions
/// alone have more bytes.
pub fn limits() -> Vec<Input> {
    [
        (160, 10, 2, 3, "accepted 0 0"),
        (161, 1, 1, 161, "accepted 0 0"),
        (320, 1, 1, 1, "accepted 0 0"),
        (320, 2, 1, 3, "accepted 0 0"),
        (320, 4, 2, 3, "unread 0 0"),
        (1, 320, 1, 1, "accepted 0 0"),
        (8, 320, 3, 9, "accepted 0 0"),
        (1, 1, 15, 1, "accepted 0 0"),
        (1, 1, 16, 1, "unread 0 0"),
        (9, 3, 14, 16, "accepted 0 0"),
        (9, 3, 48, 16, "unread 0 0"),
        (1, 1, 1, 288, "accepted 0 0"),
        (256, 1, 1, 288, "accepted 0 0"),
        (1, 0, 1, 1, "accepted 0 0"),
        (9, 0, 14, 5, "accepted 0 0"),
        (320, 0, 1, 288, "accepted 0 0"),
    ]
    .iter()
    .map(|&(n, m, tau, t, line)| {
        let bytes = framed(&honest(&case(1, n, m, tau, t, DEGREE, ALPHABET)));
        assert_eq!(bytes.len() <= MOST, line != "unread 0 0");
        input(
            format!("honest, n = {n}, m = {m}, τ = {tau}, t = {t}"),
            bytes,
            Some(line),
        )
    })
    .collect()
}

/// A key with no equations: the section of χ is empty, and any other length is refused 5; the key has 20 bytes.
pub fn no_equations() -> Vec<Input> {
    let sections = honest(&case(3, 9, 0, 2, 5, DEGREE, ALPHABET));
    [
        (3, vec![], "accepted 0 0"),
        (3, vec![0], "refused 5 0"),
        (3, vec![0, 0], "refused 5 0"),
        (0, sections[0][..19].to_vec(), "refused 3 0"),
        (0, [&sections[0][..], &[0]].concat(), "refused 3 0"),
    ]
    .into_iter()
    .map(|(i, other, line)| {
        let name = format!("no equations, section {i} of {} bytes", other.len());
        let mut sections = sections.clone();
        sections[i] = other;
        input(name, framed(&sections), Some(line))
    })
    .collect()
}

/// The length of an input of these sizes.
fn total(n: usize, m: usize, tau: usize, t: usize) -> usize {
    let shape = Shape::new(n, m, tau, t, DEGREE, ALPHABET);
    let key = 8 + 12 + shape.key_sections().iter().sum::<usize>();
    let proof = 24 + shape.proof_sections().iter().sum::<usize>();
    let challenges = shape.delta_length() + shape.h_length() + shape.chi_length();
    24 + key + challenges + shape.opened_length() + proof
}

/// An honest case whose input is of exactly this length.
fn of_length(length: usize) -> Case {
    for tau in (1..=48).rev().filter(|tau| total(1, 1, *tau, 1) <= length) {
        for n in 1..=320 {
            for t in 1..=288 {
                for m in 1..=320 {
                    if total(n, m, tau, t) == length {
                        return case(2, n, m, tau, t, DEGREE, ALPHABET);
                    }
                }
            }
        }
    }
    panic!("no sizes give an input of {length} bytes");
}

/// The most bytes of input in all (01).
const MOST: usize = 65_536;

/// The toy with bytes of 0 after its proof, and counted to it, so that the input is of exactly this length.
fn longer_proof(length: usize) -> Vec<u8> {
    let mut sections = toy_sections(0x02, 1, 0x01, 0x04);
    let longer = sections[5].len() + length - toy_input().len();
    sections[5].resize(longer, 0);
    let bytes = framed(&sections);
    assert_eq!(bytes.len(), length);
    bytes
}

/// Pushes an input twice: in one piece, and in pieces.
fn push_both(inputs: &mut Vec<Input>, name: String, bytes: Vec<u8>, line: &str) {
    let mut pieces = input(format!("{name}, in pieces"), bytes.clone(), Some(line));
    pieces.piece = 4_097;
    inputs.push(input(name, bytes, Some(line)));
    inputs.push(pieces);
}

/// "More than 65,536 bytes of input in all ... give `unread 0 0`."
pub fn totals() -> Vec<Input> {
    let mut inputs = Vec::new();
    for length in [MOST - 1, MOST, MOST + 1, MOST + 2] {
        let line = if length <= MOST {
            "accepted 0 0"
        } else {
            "unread 0 0"
        };
        let bytes = framed(&honest(&of_length(length)));
        assert_eq!(bytes.len(), length);
        push_both(&mut inputs, format!("honest, {length} bytes"), bytes, line);
    }
    for length in [MOST, MOST + 1, MOST + 2, 2 * MOST, 1_000_000] {
        let line = if length <= MOST {
            "refused 12 0"
        } else {
            "unread 0 0"
        };
        let name = format!("toy, its proof longer, {length} bytes");
        inputs.push(input(name, longer_proof(length), Some(line)));
        let zeros = vec![0; length];
        inputs.push(input(format!("{length} zeros"), zeros, Some("unread 0 0")));
    }
    inputs.extend(extended());
    inputs
}

/// Whole inputs of the most bytes, which are read, and then bytes left over: a program that looks at the first 65,536
/// alone would read them too.
fn extended() -> Vec<Input> {
    let mut inputs = Vec::new();
    for (name, whole, read) in [
        ("honest", framed(&honest(&of_length(MOST))), "accepted 0 0"),
        ("toy, its proof longer", longer_proof(MOST), "refused 12 0"),
    ] {
        assert_eq!(whole.len(), MOST);
        assert_eq!(reference::check::line(&whole), read);
        for over in [1, 2, 3, 4, 5, 24, MOST] {
            for byte in [0x00, 0xFF] {
                let bytes = [whole.clone(), vec![byte; over]].concat();
                let name = format!("{name}, {MOST} bytes, and {over} of {byte:02X}");
                push_both(&mut inputs, name, bytes, "unread 0 0");
            }
        }
    }
    inputs
}

/// Random cases, honest and with a byte of a section or of the whole input changed, cut or put in.
pub fn random() -> Vec<Input> {
    let mut random = Random::new(3);
    let mut inputs = Vec::new();
    for seed in 0..60 {
        let (n, m) = (1 + random.below(20), random.below(13));
        let (tau, t) = (1 + random.below(5), 1 + random.below(20));
        let case = case(100 + seed, n, m, tau, t, DEGREE, ALPHABET);
        let sections = honest(&case);
        inputs.push(input(
            format!("random {seed}"),
            framed(&sections),
            Some("accepted 0 0"),
        ));
        for change in 0..12 {
            let mut other = sections.clone();
            let i = random.below(6);
            let at = random.below(other[i].len().max(1));
            match change % 4 {
                _ if other[i].is_empty() => other[i].push(random.below(256) as u8),
                0 | 1 => other[i][at] ^= 1 << random.below(8),
                2 => drop(other[i].remove(at)),
                _ => other[i].insert(at, random.below(256) as u8),
            }
            inputs.push(input(
                format!("random {seed}, section {i} changed at {at}"),
                framed(&other),
                None,
            ));
        }
        for _ in 0..4 {
            let mut bytes = framed(&sections);
            let at = random.below(bytes.len());
            bytes[at] ^= 1 << random.below(8);
            inputs.push(input(
                format!("random {seed}, changed at {at}"),
                bytes,
                None,
            ));
        }
    }
    inputs
}
