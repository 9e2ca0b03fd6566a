//! The toy over four symbols: its bytes, and the same computed once more another way. Products go by the powers of 03,
//! symbols by the table of their sixteen products, and the sums over the leaves that are not 0 alone.

// Rows and columns are counted by number, as in the equations.
#![allow(clippy::needless_range_loop)]

use reference::alphabet::FOUR;
use reference::factors::{batched_error, candidate, factors, passing};
use reference::field::GF256;
use reference::toy44::*;
use reference::verifier::sections;
use reference::*;

/// The honest proof, by sections.
#[rustfmt::skip]
const PROOF: [u8; 39] = [
    4, 0, 0, 0, 0xBB, 0x88, 0xC3, 0x12, // C
    2, 0, 0, 0, 0x9F, 0x02, // d
    1, 0, 0, 0, 0x07, // ũ
    4, 0, 0, 0, 0x54, 0x62, 0x11, 0xDA, // Ṽ
    2, 0, 0, 0, 0x0B, 0x78, // QS0
    2, 0, 0, 0, 0xDB, 0xB1, // QS1
];

#[rustfmt::skip]
const KEY: [u8; 45] = [
    5, 0, 2, 0, 2, 0, 2, 0, // n, m, τ, t
    20, 0, 0, 0, // A
    0x08, 0x01, 0x03, 0x00, 0x10, 0x02, 0x8C, 0x00, 0x40, 0x03,
    0x31, 0x00, 0x08, 0x00, 0x42, 0x00, 0xC0, 0x02, 0x07, 0x00,
    4, 0, 0, 0, 0x23, 0x01, 0xC8, 0x02, // b
    1, 0, 0, 0, 0x0B, // y
];

/// GF(4): 2·2 = 3, 2·3 = 1, 3·3 = 2.
const TIMES: [[usize; 4]; 4] = [[0, 0, 0, 0], [0, 1, 2, 3], [0, 2, 3, 1], [0, 3, 1, 2]];

/// What the symbols stand for; with 2 and 3 exchanged, to see that the toy tells.
const RIGHT: [u8; 4] = [0x00, 0x01, 0xBC, 0xBD];
const EXCHANGED: [u8; 4] = [0x00, 0x01, 0xBD, 0xBC];

fn refused(number: u32, place: u32) -> Answer {
    Answer::Refused { number, place }
}

/// The powers of 03, which are all elements but 0.
fn powers() -> Vec<u8> {
    let mut powers = vec![1u8];
    for at in 0..254 {
        let last = powers[at] as usize;
        let next = last ^ (2 * last) ^ if last >= 128 { 0x11B } else { 0 };
        powers.push(next as u8);
    }
    powers
}

struct Products {
    powers: Vec<u8>,
}

impl Products {
    fn of(&self, a: u8, b: u8) -> u8 {
        let log = |z: u8| self.powers.iter().position(|power| *power == z);
        match (log(a), log(b)) {
            (Some(i), Some(j)) => self.powers[(i + j) % 255],
            _ => 0,
        }
    }
}

fn symbols(bytes: &[u8], entries: usize) -> Vec<usize> {
    let of = |byte: &u8| [*byte & 3, (*byte >> 2) & 3, (*byte >> 4) & 3, *byte >> 6];
    let all: Vec<usize> = bytes.iter().flat_map(of).map(usize::from).collect();
    assert!(all[entries..].iter().all(|symbol| *symbol == 0));
    all[..entries].to_vec()
}

fn packed(symbols: &[usize]) -> Vec<u8> {
    let byte = |four: &[usize]| four.iter().rev().fold(0, |sum, s| 4 * sum + s) as u8;
    symbols.chunks(4).map(byte).collect()
}

fn section(bytes: &[u8]) -> Vec<u8> {
    [&(bytes.len() as u32).to_le_bytes(), bytes].concat()
}

/// The honest proof from the tables of the toy, with what the symbols stand for and the powers of α given.
fn computed(stand: [u8; 4], alphas: &[u8]) -> Vec<u8> {
    let products = Products { powers: powers() };
    let times = |a: u8, b: u8| products.of(a, b);
    let lent = lent();
    let mut u = [[0usize; 15]; 2];
    let mut v = [[0u8; 15]; 2];
    for (e, j, bytes) in LEAVES {
        for (c, symbol) in symbols(&bytes, 15).into_iter().enumerate() {
            u[e][c] ^= symbol;
            v[e][c] ^= times(j as u8, stand[symbol]);
        }
    }
    let corrections: Vec<usize> = (0..15).map(|c| u[1][c] ^ u[0][c]).collect();
    let d: Vec<usize> = (0..5).map(|c| X[c] as usize ^ u[0][c]).collect();

    let rows: Vec<Vec<usize>> = lent.h.chunks(4).map(|row| symbols(row, 13)).collect();
    let hash =
        |row: usize| (0..13).fold(u[0][13 + row], |sum, c| sum ^ TIMES[rows[row][c]][u[0][c]]);
    let u_tilde = [hash(0), hash(1)];
    let hash = |e: usize, row: usize| {
        (0..13).fold(v[e][13 + row], |sum, c| {
            sum ^ times(stand[rows[row][c]], v[e][c])
        })
    };
    let v_tilde = [hash(0, 0), hash(0, 1), hash(1, 0), hash(1, 1)];

    let x = X.map(|symbol| stand[symbol as usize]);
    let (mut qs0, mut qs1) = ([0u8; 2], [0u8; 2]);
    for e in 0..2 {
        for i in 0..2 {
            let chi = lent.chi[2 * e + i];
            for r in 0..5 {
                for c in 0..5 {
                    let entry = times(chi, stand[A[i][r][c] as usize]);
                    qs0[e] ^= times(entry, times(v[e][r], v[e][c]));
                    qs1[e] ^= times(entry, times(v[e][r], x[c]) ^ times(x[r], v[e][c]));
                }
                qs1[e] ^= times(times(chi, stand[B[i][r] as usize]), v[e][r]);
            }
        }
        for (s, alpha) in alphas.iter().enumerate() {
            let c = 5 + alphas.len() * e + s;
            qs0[e] ^= times(*alpha, v[e].get(c).copied().unwrap_or(0));
            qs1[e] ^= times(*alpha, stand[u[0].get(c).copied().unwrap_or(0)]);
        }
    }
    [
        section(&packed(&corrections)),
        section(&packed(&d)),
        section(&packed(&u_tilde)),
        section(&v_tilde),
        section(&qs0),
        section(&qs1),
    ]
    .concat()
}

/// "BC² = BD, BC·BD = 01, BC + BD = 01": the four elements are a field of their own, by all sums and products.
#[test]
fn the_symbols_are_gf_4() {
    assert_eq!(FOUR.elements, RIGHT);
    assert_eq!(GF256.mul(0xBC, 0xBC), 0xBD);
    assert_eq!(GF256.mul(0xBC, 0xBD), 0x01);
    assert_eq!(GF256.mul(0xBD, 0xBD), 0xBC);
    assert_eq!(0xBC ^ 0xBD, 0x01);
    let products = Products { powers: powers() };
    for a in 0..4 {
        for b in 0..4 {
            let product = RIGHT[TIMES[a][b]];
            assert_eq!(GF256.mul(RIGHT[a], RIGHT[b]), product);
            assert_eq!(GF256.symbol_times(RIGHT[a], RIGHT[b]), product);
            assert_eq!(products.of(RIGHT[a], RIGHT[b]), product);
            // "Sums of symbols are exclusive ors of their bits."
            assert_eq!(RIGHT[a] ^ RIGHT[b], RIGHT[a ^ b]);
        }
    }
    // No other four elements are: z² + z + 1 = 0 has these two solutions alone.
    let roots: Vec<u8> = (0..=255)
        .filter(|z| GF256.mul(*z, *z) ^ z ^ 1 == 0)
        .collect();
    assert_eq!(roots, [0xBC, 0xBD]);
}

#[test]
fn what_is_lent() {
    let toy = lent();
    assert_eq!(toy.key, KEY);
    assert_eq!(toy.witness, [0x2E, 0x01]);
    assert_eq!(toy.leaves.len(), 2048);
    assert_eq!(toy.leaves.iter().filter(|byte| **byte != 0).count(), 24);
    assert_eq!([toy.shape.k(), toy.shape.l(), toy.shape.w()], [13, 15, 4]);
    for i in 0..2 {
        let transposed: Vec<Vec<u8>> = (0..5)
            .map(|c| A[i].iter().map(|row| row[c]).collect())
            .collect();
        assert!((0..5).any(|r| transposed[r] != A[i][r]));
        for symbol in [2, 3] {
            assert!(A[i].iter().flatten().any(|entry| *entry == symbol));
            assert!(B[i].contains(&symbol) && X.contains(&symbol) && Y.contains(&symbol));
        }
    }
    // Read back.
    let key = toy.read_key();
    for i in 0..2 {
        for r in 0..5 {
            let row: Vec<u8> = (0..5).map(|c| FOUR.symbol(key.a_entry(i, r, c))).collect();
            assert_eq!(row, A[i][r]);
        }
        let row: Vec<u8> = (0..5).map(|c| FOUR.symbol(key.b_entry(i, c))).collect();
        assert_eq!(row, B[i]);
    }
    assert_eq!([0, 1].map(|i| key.y_entry(i)), [0xBD, 0xBC]);
}

#[test]
fn the_proof() {
    let toy = lent();
    assert_eq!(test(&KEY, 8, 4, &toy.witness), Answer::Accepted);
    let mut out = vec![0xEE; 39];
    let answer = prove(
        &KEY,
        8,
        4,
        &toy.leaves,
        &toy.witness,
        &toy.h,
        &toy.chi,
        &mut out,
    );
    assert_eq!(answer, Answer::Accepted);
    assert_eq!(out, PROOF);
    assert_eq!(computed(RIGHT, &[1, 2, 4, 8]), PROOF);
}

/// What is easily taken for the rule gives other bytes: BC and BD exchanged, eight mask coordinates, α^4 to α^7.
#[test]
fn the_toy_tells() {
    let differs =
        |other: &[u8]| -> Vec<usize> { (0..39).filter(|at| other[*at] != PROOF[*at]).collect() };
    let values: Vec<usize> = vec![23, 24, 25, 26, 31, 32, 37, 38];
    assert_eq!(differs(&computed(EXCHANGED, &[1, 2, 4, 8])), values);
    let eight = [1, 2, 4, 8, 16, 32, 64, 128];
    assert_eq!(differs(&computed(RIGHT, &eight)), [31, 32, 37, 38]);
    assert_eq!(differs(&computed(RIGHT, &eight[4..])), [31, 32, 37, 38]);
}

#[test]
fn the_verifier() {
    let toy = lent();
    for delta_0 in 0..=255u8 {
        let delta = [delta_0, delta_0.wrapping_mul(7).wrapping_add(3)];
        assert_eq!(at(&toy, &delta, &PROOF), Answer::Accepted);
    }
    let numbers = [
        (14, 1),
        (14, 1),
        (15, 0),
        (15, 0),
        (15, 0),
        (15, 0),
        (14, 0),
        (14, 0),
        (14, 0),
        (14, 1),
        (15, 1),
        (15, 0),
        (14, 1),
        (13, 0),
        (13, 0),
        (13, 0),
        (13, 0),
    ];
    for (changes, (number, place)) in CHANGES.iter().zip(numbers) {
        let changed = with(&PROOF, changes);
        let answer = at(&toy, &toy.delta, &changed);
        assert_eq!(answer, refused(number, place), "{changes:?}");
    }
    for other in [&PROOF[..38], &[&PROOF[..], &[0]].concat()] {
        assert_eq!(at(&toy, &toy.delta, other), refused(12, 0));
    }
}

#[test]
fn wrong_witnesses() {
    for (x, place) in WRONG.iter().zip([0, 1, 0, 0, 0]) {
        let witness = packed(&x.map(usize::from));
        assert_eq!(test(&KEY, 8, 4, &witness), refused(11, place));
        let toy = lent();
        let mut out = vec![0xEE; 39];
        let answer = prove(
            &KEY,
            8,
            4,
            &toy.leaves,
            &witness,
            &toy.h,
            &toy.chi,
            &mut out,
        );
        assert_eq!(answer, refused(11, place));
        assert!(out.iter().all(|byte| *byte == 0xEE));
    }
}

/// All 1,024 witnesses against the table of products: 72 solve.
#[test]
fn every_witness() {
    let mut solve = 0;
    for number in 0..1024usize {
        let x: Vec<usize> = (0..5).map(|c| (number >> (2 * c)) & 3).collect();
        let error = |i: usize| {
            let mut sum = Y[i] as usize;
            for r in 0..5 {
                for c in 0..5 {
                    sum ^= TIMES[TIMES[x[r]][A[i][r][c] as usize]][x[c]];
                }
                sum ^= TIMES[B[i][r] as usize][x[r]];
            }
            sum
        };
        let expected = match (error(0), error(1)) {
            (0, 0) => Answer::Accepted,
            (0, _) => refused(11, 1),
            _ => refused(11, 0),
        };
        assert_eq!(test(&KEY, 8, 4, &packed(&x)), expected);
        solve += (expected == Answer::Accepted) as usize;
    }
    assert_eq!(solve, 72);
}

#[test]
fn refused_24() {
    let toy = lent();
    for (degree, alphabet, number) in [
        (8, 3, 24),
        (8, 0, 24),
        (8, 260, 24),
        (4, 3, 24),
        (4, 4, 24),
        (5, 3, 16),
        (5, 4, 16),
    ] {
        for key in [&KEY[..], &[]] {
            assert_eq!(
                test(key, degree, alphabet, &toy.witness),
                refused(number, 0)
            );
            let opened = toy.opened();
            let answer = verify(
                key, degree, alphabet, &toy.delta, &toy.h, &toy.chi, &opened, &PROOF,
            );
            assert_eq!(answer, refused(number, 0));
        }
    }
    assert_eq!(test(&[], 8, 4, &toy.witness), refused(1, 0));
    assert_eq!(test(&KEY, 8, 2, &toy.witness), refused(3, 0));
}

#[test]
fn the_count() {
    let toy = lent();
    let key = toy.read_key();
    let read = sections(&toy.shape, &PROOF).unwrap();
    assert_eq!(
        factors(&key, &toy.h, &toy.chi, &toy.leaves, &read),
        [256, 256]
    );
    for e in 0..2 {
        let x = candidate(&toy.shape, e, &toy.leaves, &read);
        assert_eq!(x, X.map(|symbol| RIGHT[symbol as usize]));
    }
    // 2 added to the first symbol of d.
    let changed = with(&PROOF, &[(12, 0x02)]);
    let read = sections(&toy.shape, &changed).unwrap();
    assert_eq!(factors(&key, &toy.h, &toy.chi, &toy.leaves, &read), [2, 2]);
    for e in 0..2 {
        let x = candidate(&toy.shape, e, &toy.leaves, &read);
        assert_eq!(x, [0x00, 0xBD, 0xBC, 0x00, 0x01]);
    }
}

/// 0 for y_1, and QS1 moved: 83·BC·Δ² + 01·Δ and BD·Δ² + BD·Δ.
#[test]
fn forged() {
    let doctored = doctored();
    assert_eq!(test(&doctored.key, 8, 4, &doctored.witness), refused(11, 1));
    let forged = with(&PROOF, &FORGED);
    let key = doctored.read_key();
    let read = sections(&doctored.shape, &forged).unwrap();
    let passing = |e| passing(&key, e, &doctored.h, &doctored.chi, &doctored.leaves, &read);
    assert_eq!([passing(0), passing(1)], [[0x00, 0x33], [0x00, 0x01]]);
    assert_eq!(GF256.mul(GF256.mul(0x83, 0xBC), 0x33), 0x01);
    for (e, error) in [GF256.mul(0x83, 0xBC), 0xBD].into_iter().enumerate() {
        let x = candidate(&doctored.shape, e, &doctored.leaves, &read);
        let column = doctored.shape.column(&doctored.chi, e);
        assert_eq!(batched_error(&key, &x, column), error);
    }
    assert_eq!(at(&doctored, &[0x33, 0x01], &forged), Answer::Accepted);
    assert_eq!(at(&doctored, &[0x33, 0x83], &forged), refused(15, 1));
    assert_eq!(at(&doctored, &[0x57, 0x83], &forged), refused(15, 0));
}

/// The lines of the table that others copy.
#[test]
fn the_table() {
    let table = table();
    for (name, value) in [
        ("u_0", "B1 AF 0A 05 [1 0 3 2 3 3 2 2 2 2 0 0 1 1 0]"),
        ("u_1", "0A 27 C9 17 [2 2 0 0 3 1 2 0 1 2 0 3 3 1 1]"),
        (
            "v_0, an element for each coordinate",
            "DC 70 FA 56 EA FA CD DD 98 BD 55 70 47 72 35",
        ),
        (
            "v_1, an element for each coordinate",
            "F5 11 34 D0 42 D1 77 E4 AC F5 D0 89 6D 48 CA",
        ),
        ("d", "9F 02 [3 3 1 2 2]"),
        ("ũ", "07 [3 1]"),
        ("Ṽ", "54 62 11 DA"),
        ("QS0", "0B 78"),
        ("QS1", "DB B1"),
        ("proof's length", "39"),
        ("reply at Δ = 57 83", "accepted 0 0"),
        ("honest proof: factors", "256 256"),
        ("forged: factors", "2 2"),
        ("forged: Δ_0 that pass", "00 33"),
        ("A_0, row 3", "8C 00 [0 3 0 2 0]"),
        ("y", "0B [3 2]"),
    ] {
        let line = format!("{name:<44} {value}");
        assert!(table.lines().any(|other| other == line), "{line}");
    }
}

/// Every element of K is the mask of exactly one choice of four symbols.
#[test]
fn one_mask_for_each_element() {
    let mut masks: Vec<u8> = (0..=255u8)
        .map(|byte| {
            let elements: Vec<u8> = symbols(&[byte], 4).into_iter().map(|s| RIGHT[s]).collect();
            GF256.mask(&FOUR, 0, &elements)
        })
        .collect();
    masks.sort();
    assert_eq!(masks, (0..=255).collect::<Vec<u8>>());
}
