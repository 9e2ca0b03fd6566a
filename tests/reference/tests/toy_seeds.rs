//! The toy on seeds: its bytes, and the same computed once more another way, from the leaves on: strings are numbers,
//! and products go by the powers of 02.

use reference::toy_seeds::*;
use reference::*;

/// By hashlib.shake_256 of Python 3.11, as numbers of 16 bits, with the lowest 11 kept.
const LEAVES: [[u16; 16]; 2] = [
    [
        0x173, 0x01F, 0x1D0, 0x257, 0x79B, 0x7BC, 0x204, 0x0EF, 0x3C5, 0x6B3, 0x04A, 0x40A, 0x51A,
        0x0DD, 0x3C5, 0x621,
    ],
    [
        0x40D, 0x476, 0x7B3, 0x14B, 0x0E4, 0x7D4, 0x3EF, 0x014, 0x14E, 0x048, 0x134, 0x5D4, 0x7BD,
        0x5F6, 0x18D, 0x266,
    ],
];

/// The honest proof, by sections.
#[rustfmt::skip]
const PROOF: [u8; 34] = [
    2, 0, 0, 0, 0x3C, 0x07, // C
    1, 0, 0, 0, 0x03, // d
    1, 0, 0, 0, 0x01, // ũ
    2, 0, 0, 0, 0x01, 0x0D, // Ṽ
    2, 0, 0, 0, 0x0C, 0x03, // QS0
    2, 0, 0, 0, 0x07, 0x08, // QS1
];

#[rustfmt::skip]
const KEY: [u8; 24] = [
    2, 0, 1, 0, 2, 0, 1, 0, // n, m, τ, t
    2, 0, 0, 0, 0x02, 0x00, // A
    1, 0, 0, 0, 0x01, // b
    1, 0, 0, 0, 0x01, // y
];

fn refused(number: u32, place: u32) -> Answer {
    Answer::Refused { number, place }
}

/// GF(16) by the powers of 02.
fn times(a: u8, b: u8) -> u8 {
    const POWERS: [u8; 15] = [1, 2, 4, 8, 3, 6, 12, 11, 5, 10, 7, 14, 15, 13, 9];
    let log = |z: u8| POWERS.iter().position(|power| *power == z);
    match (log(a), log(b)) {
        (Some(i), Some(j)) => POWERS[(i + j) % 15],
        _ => 0,
    }
}

#[test]
fn what_is_lent() {
    let toy = lent();
    assert_eq!(toy.case.key, KEY);
    assert_eq!(toy.salt[..3], [0x80, 0x81, 0x82]);
    assert_eq!([toy.salt.len(), toy.seeds.len()], [32, 512]);
    assert_eq!(toy.opened_seeds().len(), 480);
    let seed = |place: usize| &toy.seeds[16 * place..16 * place + 16];
    assert_eq!([seed(0)[0], seed(0)[15]], [0x00, 0x0F]);
    assert_eq!([seed(3)[0], seed(3)[15]], [0x30, 0x3F]);
    assert_eq!([seed(31)[0], seed(31)[15]], [0xFF, 0xF0]);
    let bytes: Vec<u8> = LEAVES
        .concat()
        .into_iter()
        .flat_map(u16::to_le_bytes)
        .collect();
    assert_eq!(toy.case.leaves, bytes);
}

/// The equation is x0·x1 + x0 = 1, and x is 1, 0: a₀ = v0·v1, a₁ = v1 + v0.
#[test]
fn the_proof_another_way() {
    let sum = |e: usize| LEAVES[e].iter().fold(0, |sum, leaf| sum ^ leaf);
    let (u_0, u_1) = (sum(0), sum(1));
    let v = |e: usize, c: usize| {
        (0..16).fold(0, |sum, j| {
            sum ^ (((LEAVES[e][j] >> c) & 1) as u8 * j as u8)
        })
    };
    let h: u16 = 0x26D;
    let u_tilde = ((u_0 & h).count_ones() as u16 + (u_0 >> 10)) % 2;
    let v_tilde = |e: usize| {
        let chosen = (0..10).filter(|c| (h >> c) & 1 == 1);
        chosen.fold(v(e, 10), |sum, c| sum ^ v(e, c))
    };
    let chi = [0x05, 0x0B];
    // α^s·z is z times 1, 2, 4, 8; the mask of u is its four bits as they are.
    let qs0 = |e: usize| {
        let mask = (0..4).fold(0, |sum, s| sum ^ times(1 << s, v(e, 2 + 4 * e + s)));
        times(chi[e], times(v(e, 0), v(e, 1))) ^ mask
    };
    let qs1 = |e: usize| {
        let mask = (u_0 >> (2 + 4 * e)) as u8 & 15;
        times(chi[e], v(e, 0) ^ v(e, 1)) ^ mask
    };
    let c = (u_0 ^ u_1).to_le_bytes();
    let d = (u_0 & 3) as u8 ^ 1;
    let bytes = [
        c[0],
        c[1],
        d,
        u_tilde as u8,
        v_tilde(0),
        v_tilde(1),
        qs0(0),
        qs0(1),
        qs1(0),
        qs1(1),
    ];
    let places = [4, 5, 10, 15, 20, 21, 26, 27, 32, 33];
    assert_eq!(places.map(|at| PROOF[at]), bytes);
}

#[test]
fn the_calls() {
    let toy = lent();
    let case = &toy.case;
    assert_eq!(test(&KEY, 4, 2, &case.witness), Answer::Accepted);
    let mut out = vec![0xEE; 34];
    let answer = prove_seeds(
        &KEY,
        4,
        2,
        &toy.salt,
        &toy.seeds,
        &case.witness,
        &case.h,
        &case.chi,
        &mut out,
    );
    assert_eq!((answer, &out[..]), (Answer::Accepted, &PROOF[..]));
    let (salt, seeds, x) = (&toy.salt, &toy.seeds, &case.witness);
    let [mut first, mut second, mut third] = [11, 11, 12].map(|length| vec![0xEE; length]);
    let answers = [
        commit_seeds(&KEY, 4, 2, salt, seeds, x, &mut first),
        hash_seeds(&KEY, 4, 2, salt, seeds, &case.h, &mut second),
        batch_seeds(&KEY, 4, 2, salt, seeds, x, &case.chi, &mut third),
    ];
    assert_eq!(answers, [Answer::Accepted; 3]);
    assert_eq!([first, second, third].concat(), PROOF);
}

#[test]
fn the_verifier() {
    let toy = lent();
    for number in 0..=255u8 {
        let delta = [number % 16, number / 16];
        assert_eq!(reply_at(&toy, &delta, &PROOF), Answer::Accepted);
    }
    let replies = [
        (14, 1),
        (14, 1),
        (13, 0),
        (15, 0),
        (14, 0),
        (14, 1),
        (15, 1),
        (15, 0),
    ];
    for (changes, (number, place)) in CHANGES.iter().zip(replies) {
        let changed = toy44::with(&PROOF, changes);
        assert_eq!(reply(&toy, &changed), refused(number, place), "{changes:?}");
    }
}

/// Salts of 31 and 33 bytes, lists that are a byte or a seed off, the full list lent to the verifier.
#[test]
fn refused_7() {
    let toy = lent();
    let (salt, seeds, opened) = (&toy.salt[..], &toy.seeds[..], &toy.opened_seeds()[..]);
    let all = |answer: Answer| [answer; 5];
    let lent = answers(&toy, salt, seeds, opened, &PROOF);
    assert_eq!(lent, all(Answer::Accepted));
    let longer = |bytes: &[u8], by: usize| [bytes, &vec![0; by]].concat();
    for salt in [&salt[..0], &salt[..31], &longer(salt, 1)] {
        let given = answers(&toy, salt, seeds, opened, &PROOF);
        assert_eq!(given, all(refused(7, 0)));
    }
    for by in [1, 16] {
        let [less, opened_less] = [seeds, opened].map(|list| &list[..list.len() - by]);
        let given = answers(&toy, salt, less, opened_less, &PROOF);
        assert_eq!(given, all(refused(7, 0)));
        let [more, opened_more] = [seeds, opened].map(|list| longer(list, by));
        let given = answers(&toy, salt, &more, &opened_more, &PROOF);
        assert_eq!(given, all(refused(7, 0)));
    }
    let given = answers(&toy, salt, opened, seeds, &PROOF);
    assert_eq!(given, all(refused(7, 0)));
}

/// The lines of the table that others copy.
#[test]
fn the_table() {
    let table = table();
    for (name, value) in [
        ("L", "11"),
        ("w", "2"),
        ("seeds' length", "512"),
        ("opened seeds' length", "480"),
        ("H′", "6D 02"),
        ("χ", "05 0B"),
        ("Δ", "03 0C"),
        ("seed (0,3)", "30 31 32 33 34 35 36 37 38 39 3A 3B 3C 3D 3E 3F"),
        ("seed (1,12)", "CF CE CD CC CB CA C9 C8 C7 C6 C5 C4 C3 C2 C1 C0"),
        (
            "hashed for ℓ(1,12)",
            "01 80 81 82 83 84 85 86 87 88 89 8A 8B 8C 8D 8E 8F 90 91 92 93 94 95 96 97 98 99 9A 9B 9C 9D 9E 9F CF CE CD CC \
             CB CA C9 C8 C7 C6 C5 C4 C3 C2 C1 C0 01 00 0C 00",
        ),
        ("leaf ℓ(0,3)", "57 02"),
        ("leaf ℓ(1,12)", "BD 07"),
        ("u_0", "32 01"),
        ("u_1", "0E 06"),
        ("C", "3C 07"),
        ("QS0", "0C 03"),
        ("QS1", "07 08"),
        ("proof's length", "34"),
        ("reply at Δ = 03 0C", "accepted 0 0"),
        ("reply at Δ = 00 0F", "accepted 0 0"),
        ("salt, byte 31 xor 80", "refused 14 0"),
        ("opened seeds, last byte xor 01", "refused 15 1"),
        (
            "salt of 31 bytes, χ_0 = 10",
            "commit: refused 7 0; hash: refused 7 0; batch: refused 17 0; prove: refused 17 0; verify: refused 17 0",
        ),
        ("salt of 31 bytes, proof cut by a byte", "refused 7 0"),
        ("right salt, proof cut by a byte", "refused 12 0"),
    ] {
        let line = format!("{name:<44} {value}");
        assert!(table.lines().any(|other| other == line), "{line}");
    }
}
