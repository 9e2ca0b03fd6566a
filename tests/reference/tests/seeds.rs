//! Leaves from seeds (02, request 6): what is hashed, what is cleared, seed lists full and opened, and the calls on
//! seeds against the calls on the leaves of these seeds. Their refusals are in `refusals.rs`.

// Repetitions and leaves are counted by number, as in 01.
#![allow(clippy::needless_range_loop)]

use reference::cases::{case, seeded, Random, Seeded, SETTINGS};
use reference::key::Shape;
use reference::seeds::*;
use reference::shake::shake256;
use reference::strings::{spare_bits_are_0, symbol};
use reference::toy_seeds::{other_leaf, OTHERS};
use reference::*;

/// L, w and the bytes of the leaves that `toy_seeds::OTHERS` names, by hashlib.shake_256 of Python 3.11: the first w
/// bytes of the output as one number, lowest byte first, of which the L·1 or L·2 lowest bits are kept.
const BY_HASHLIB: [(usize, usize, &str); 9] = [
    (
        11,
        2,
        "3b01",
    ),
    (
        432,
        54,
        "d856673a7c37dcf1a1daeee1101e3e9b10b6d61c7748f52562ad497e3bd10bd4b379f8574b6c62dae15c39788e622f9f\
         23c5a8ae76fa",
    ),
    (
        991,
        124,
        "941f7934080cc9971347f71c91b855a5b64b1280984b2075eb3bede3ec08ccf7e025f3caeeeaec853854f64807b2061f\
         fd2d38f4f1e01565a77764f30df110d5e0b490e76734478f161f779a759f3bb42cce12742567d206c0c9708bbd9e6c37\
         4983aa5c88de51911b757dc6cda39ac21efa9157193f4632f170a756",
    ),
    (
        466,
        59,
        "e893ab25aed21099b7015e7b5fce263d93fd1acf75b0438cbabacc5d8175208311187e4d59b165495099a887a5c56323\
         185ab3d34e9ea1a5cb7600",
    ),
    (
        800,
        100,
        "7a1bec028b349ab130a401ddc4a9bfef7bf3e4644338b3f59f084d00da738a85a4131a4831f3b2df3b28ece665e411b4\
         f629e0a83a9442cf7ba8241bf58d59dbad2e4f6e7e34d3a6b686908290bc9f76b5bb877d9ea173f2373803bbce09a889\
         8e8458f3",
    ),
    (
        228,
        57,
        "f924f7a111233a06c942e3840e9d3d07eebfa5aa21e43461be6cf4d88e7c670c7c9b8ee052ad5d43bdaebf71aa01780d\
         3c1afb655b47f0a21b",
    ),
    (
        544,
        136,
        "149c6826f4c8d1cdf45638ad92111433c61ce71b153b35a12334fcc1715318ae04235ffec2cf48d3201f1f817ea7461c\
         39c38eb00134645c3382ee00471684aca2e06126331a9597b08beffe5664e9548229c42bbb76c301943f4b3b85b5f672\
         a3da634800c1b6ee8f0b4e7363f1e2192f412b3db22239a157e950f0cb1890ff3e89ea7fadad9ad7",
    ),
    (
        545,
        137,
        "00e1991716bb00b8fd606163774db982e5644772e7e97d670ccd5292ea4ddf7fbb0c10345c1a556594a282a2f44e3949\
         b36c5f6c7502cf82b9b8268b5d29277c3f54db711854bb25197efcf4bf02da2ee03afbeb19ee16a550d67b1f91a52f3e\
         40adaed286307fb76393e3da47b882a6accc89dc7557b3a26073f1e02f55b63504c5064220c956fd03",
    ),
    (
        799,
        200,
        "d5153be820027b1a564f40f589ad09a48a873297c7f9d6152cea5dce1db230a90a1f3521b9caf0075a5d0830906f0473\
         c8eb0a731dbe4471b1898895ce7f11f1a6ed774e3ca30024cd10db920d4ffa64c0d71dec68598ed93e4fe758cea64012\
         150b4adf11c4b74fd41880d3bb80a3d5603737b7b38a1ce59c61570b257c8a30795c5489206d6a39734e6e97a6c5f9b3\
         5c746b7cc7837937a2378f59415c7368e6bce1911f493ad0356d14a436c88b9f1cc2e880fafb415c39ffe162a81b86c6\
         b7643cf563f39714",
    ),
];

fn hex(text: &str) -> Vec<u8> {
    (0..text.len() / 2)
        .map(|at| u8::from_str_radix(&text[2 * at..2 * at + 2], 16).unwrap())
        .collect()
}

#[test]
fn leaves_by_hashlib() {
    for ((numbers, e, j), (l, w, bytes)) in OTHERS.into_iter().zip(BY_HASHLIB) {
        let (shape, leaf) = other_leaf(numbers, e, j);
        assert_eq!([shape.l(), shape.w()], [l, w]);
        assert_eq!(leaf, hex(bytes));
    }
}

/// "the byte 01, a 32-byte salt, the seed, e and j (two bytes each, lowest first)": 53 bytes.
#[test]
fn what_is_hashed() {
    let salt: Vec<u8> = (0x20..0x40).collect();
    let seed: Vec<u8> = (0x70..0x80).collect();
    let hashed = hashed_for_a_leaf(&salt, &seed, 0x2F, 0xFE);
    assert_eq!(hashed.len(), 53);
    assert_eq!(hashed[0], 0x01);
    assert_eq!(hashed[1..33], salt);
    assert_eq!(hashed[33..49], seed);
    assert_eq!(hashed[49..], [0x2F, 0x00, 0xFE, 0x00]);
    // No repetition or leaf has so high a number, but so the rule reads.
    let hashed = hashed_for_a_leaf(&salt, &seed, 0x0102, 0x0304);
    assert_eq!(hashed[49..], [0x02, 0x01, 0x04, 0x03]);
}

/// Every byte of the salt and of the seed, e and j enter.
#[test]
fn all_of_it_enters() {
    for (degree, alphabet) in SETTINGS {
        let shape = Shape::new(150, 1, 3, 144, degree, alphabet);
        let mut random = Random::new(1);
        let (salt, seed) = (random.bytes(32), random.bytes(16));
        let mut seen = vec![leaf_of_seed(&shape, &salt, &seed, 1, 2)];
        for (e, j) in [(0, 2), (2, 2), (2, 1), (1, 0), (1, 1), (1, 3)] {
            seen.push(leaf_of_seed(&shape, &salt, &seed, e, j));
        }
        for at in 0..32 {
            let mut other = salt.clone();
            other[at] ^= 0x80;
            seen.push(leaf_of_seed(&shape, &other, &seed, 1, 2));
        }
        for at in 0..16 {
            let mut other = seed.clone();
            other[at] ^= 0x01;
            seen.push(leaf_of_seed(&shape, &salt, &other, 1, 2));
        }
        let all = seen.len();
        seen.sort();
        seen.dedup();
        assert_eq!([all, seen.len()], [55, 55]);
    }
}

/// "the first w bytes of the output ..., spare bits then cleared": each bit of a leaf is the output's below L bits, or
/// 2·L at alphabet 4, and 0 past them. All numbers of spare bits, and leaves of one block and of two.
#[test]
fn spare_bits_are_cleared() {
    for (degree, alphabet) in SETTINGS {
        let bits = if alphabet == 4 { 2 } else { 1 };
        let mut spare = Vec::new();
        let mut cleared = false;
        for (seed, (n, tau)) in (1..=10)
            .chain(300..=320)
            .map(|n| (n, 1 + n % 48))
            .enumerate()
        {
            let shape = Shape::new(n, 1, tau, 288, degree, alphabet);
            let mut random = Random::new(seed as u64);
            let (salt, seed) = (random.bytes(32), random.bytes(16));
            let output = shake256(&hashed_for_a_leaf(&salt, &seed, 0, 1), 300);
            let leaf = leaf_of_seed(&shape, &salt, &seed, 0, 1);
            assert_eq!(leaf.len(), shape.w());
            let bit = |bytes: &[u8], at: usize| (bytes[at / 8] >> (at % 8)) & 1;
            for at in 0..8 * leaf.len() {
                let kept = at < bits * shape.l();
                let expected = if kept { bit(&output, at) } else { 0 };
                assert_eq!(bit(&leaf, at), expected);
                cleared |= !kept && bit(&output, at) == 1;
            }
            for c in 0..shape.l() {
                let [one, other] = [&leaf, &output].map(|bytes| symbol(&shape.symbols, bytes, c));
                assert_eq!(one, other);
            }
            assert!(spare_bits_are_0(&shape.symbols, &leaf, shape.l()));
            spare.push(8 * leaf.len() - bits * shape.l());
        }
        assert!(cleared);
        spare.sort();
        spare.dedup();
        let all: Vec<usize> = (0..8).step_by(bits).collect();
        assert_eq!(spare, all);
    }
}

/// A leaf of 200 bytes at alphabet 4 goes past a block of 136.
#[test]
fn leaves_longer_than_a_block() {
    let (salt, seed) = ([0x5A; 32], [0xA5; 16]);
    let longest = shake256(&hashed_for_a_leaf(&salt, &seed, 3, 9), 200);
    for w in [135, 136, 137, 199, 200] {
        // L = n + 4·48 + 288.
        let shape = Shape::new(4 * w - 480, 1, 48, 288, 8, 4);
        let leaf = leaf_of_seed(&shape, &salt, &seed, 3, 9);
        assert_eq!([shape.w(), shape.l()], [w, 4 * w]);
        assert_eq!(leaf, longest[..w]);
    }
}

/// "A seed list, full or opened, has its seeds in the order of the leaves.", and the opened ones are expanded with
/// their own j: expanding what is opened is opening what is expanded.
#[test]
fn opened_and_expanded() {
    for (degree, alphabet) in SETTINGS {
        let lent = seeded(3, 3, 1, 2, 5, degree, alphabet);
        let shape = &lent.case.shape;
        let size = shape.field.size;
        let leaves = leaves_of_seeds(shape, &lent.salt, &lent.seeds);
        assert_eq!(lent.seeds.len(), 2 * 16 * size);
        assert_eq!(leaves.len(), 2 * shape.w() * size);
        for e in 0..2 {
            for j in 0..size {
                let place = e * size + j;
                let seed = &lent.seeds[16 * place..16 * place + 16];
                let leaf = leaf_of_seed(shape, &lent.salt, seed, e, j);
                assert_eq!(leaves[shape.w() * place..][..shape.w()], leaf);
            }
        }
        for delta_0 in 0..size {
            let delta = [delta_0 as u8, (size - 1 - delta_0) as u8];
            let opened = open_seeds(shape, &lent.seeds, &delta);
            assert_eq!(opened.len(), 2 * 16 * (size - 1));
            let by_hand: Vec<u8> = (0..2 * size)
                .filter(|place| place % size != delta[place / size] as usize)
                .flat_map(|place| lent.seeds[16 * place..16 * place + 16].to_vec())
                .collect();
            assert_eq!(opened, by_hand);
            let expanded = opened_leaves_of_seeds(shape, &lent.salt, &opened, &delta);
            assert_eq!(expanded, open_leaves(shape, &leaves, &delta));
        }
    }
}

/// What a call answers, and what it has written.
type Reply = (Answer, Vec<u8>);

/// The four prover's calls on seeds.
fn on_seeds(lent: &Seeded, witness: &[u8]) -> [Reply; 4] {
    let case = &lent.case;
    let (key, degree, alphabet) = (&case.key, case.degree(), case.alphabet());
    let (salt, seeds, h, chi) = (&lent.salt, &lent.seeds, &case.h, &case.chi);
    let mut out = outputs(&case.shape);
    let [first, second, third, whole] = &mut out;
    let answers = [
        commit_seeds(key, degree, alphabet, salt, seeds, witness, first),
        hash_seeds(key, degree, alphabet, salt, seeds, h, second),
        batch_seeds(key, degree, alphabet, salt, seeds, witness, chi, third),
        prove_seeds(key, degree, alphabet, salt, seeds, witness, h, chi, whole),
    ];
    paired(answers, out)
}

/// The same on the leaves of these seeds.
fn on_leaves(lent: &Seeded, witness: &[u8]) -> [Reply; 4] {
    let case = &lent.case;
    let (key, degree, alphabet) = (&case.key, case.degree(), case.alphabet());
    let leaves = leaves_of_seeds(&case.shape, &lent.salt, &lent.seeds);
    let (leaves, h, chi) = (&leaves, &case.h, &case.chi);
    let mut out = outputs(&case.shape);
    let [first, second, third, whole] = &mut out;
    let answers = [
        commit(key, degree, alphabet, leaves, witness, first),
        hash(key, degree, alphabet, leaves, h, second),
        batch(key, degree, alphabet, leaves, witness, chi, third),
        prove(key, degree, alphabet, leaves, witness, h, chi, whole),
    ];
    paired(answers, out)
}

fn outputs(shape: &Shape) -> [Vec<u8>; 4] {
    [
        vec![0xEE; shape.commit_length()],
        vec![0xEE; shape.hash_length()],
        vec![0xEE; shape.batch_length()],
        vec![0xEE; shape.proof_length()],
    ]
}

fn paired(answers: [Answer; 4], out: [Vec<u8>; 4]) -> [Reply; 4] {
    let mut out = out.into_iter();
    answers.map(|answer| (answer, out.next().unwrap()))
}

/// Both forms of the verifier's call at a Δ, which give the same answer.
fn verified(lent: &Seeded, delta: &[u8], proof: &[u8]) -> Answer {
    let case = &lent.case;
    let shape = &case.shape;
    let opened = open_seeds(shape, &lent.seeds, delta);
    let answer = verify_seeds(
        &case.key,
        case.degree(),
        case.alphabet(),
        delta,
        &case.h,
        &case.chi,
        &lent.salt,
        &opened,
        proof,
    );
    let of_leaves = verify(
        &case.key,
        case.degree(),
        case.alphabet(),
        delta,
        &case.h,
        &case.chi,
        &open_leaves(shape, &case.leaves, delta),
        proof,
    );
    assert_eq!(answer, of_leaves);
    answer
}

/// "Expanded leaves may still be lent, and what is proved for them carries to seeds."
#[test]
fn seeds_and_their_leaves() {
    for (degree, alphabet) in SETTINGS {
        for seed in 0..12u64 {
            let n = 1 + (seed * 7 % 20) as usize;
            let m = (seed * 5 % 9) as usize;
            let tau = 1 + (seed % 4) as usize;
            let t = 1 + (seed * 3 % 19) as usize;
            let lent = seeded(seed, n, m, tau, t, degree, alphabet);
            let case = &lent.case;
            let written = on_seeds(&lent, &case.witness);
            assert_eq!(written, on_leaves(&lent, &case.witness));
            assert_eq!(
                written.clone().map(|(answer, _)| answer),
                [Answer::Accepted; 4]
            );
            let [first, second, third, proof] = written.map(|(_, bytes)| bytes);
            assert_eq!([first, second, third].concat(), proof);
            let highest = (case.shape.field.size - 1) as u8;
            for delta in [&case.delta, &vec![0; tau], &vec![highest; tau]] {
                assert_eq!(verified(&lent, delta, &proof), Answer::Accepted);
            }
            // Another witness: the same answers, and nothing written, or the same bytes.
            let mut other = case.witness.clone();
            other[0] ^= 1;
            assert_eq!(on_seeds(&lent, &other), on_leaves(&lent, &other));
            // Some ten bytes of the proof changed, each alone: the same answers.
            for at in (0..proof.len()).step_by(1 + proof.len() / 10) {
                let mut changed = proof.clone();
                changed[at] ^= 1 << (at % 4);
                verified(&lent, &case.delta, &changed);
            }
        }
    }
}

/// Accepted at every Δ of a repetition.
#[test]
fn accepted_at_every_delta() {
    for (degree, alphabet) in SETTINGS {
        let lent = seeded(4, 5, 3, 2, 4, degree, alphabet);
        let [_, _, _, (answer, proof)] = on_seeds(&lent, &lent.case.witness);
        assert_eq!(answer, Answer::Accepted);
        let size = lent.case.shape.field.size;
        for delta_0 in 0..size {
            let delta = [delta_0 as u8, ((7 * delta_0 + 3) % size) as u8];
            assert_eq!(verified(&lent, &delta, &proof), Answer::Accepted);
        }
    }
}

/// "8 cannot fail there": any salt and any seeds are taken, and no leaf of theirs has a spare bit.
#[test]
fn any_salt_and_any_seeds() {
    for (degree, alphabet) in SETTINGS {
        let case = case(5, 5, 1, 1, 4, degree, alphabet);
        for byte in 0..=255u8 {
            let seeds = vec![byte; case.shape.seeds_length()];
            let salt = vec![!byte; SALT_LENGTH];
            let lent = Seeded::new(case.clone(), salt, seeds);
            let (leaves, l) = (&lent.case.leaves, case.shape.l());
            assert!(spare_bits_are_0(&case.shape.symbols, leaves, l));
            let [_, _, _, (answer, proof)] = on_seeds(&lent, &case.witness);
            assert_eq!(answer, Answer::Accepted);
            assert_eq!(verified(&lent, &case.delta, &proof), Answer::Accepted);
        }
    }
}

/// A verifier with another salt, with seeds exchanged or opened at another Δ has other leaves: 14 where there are
/// enough hash rows.
#[test]
fn other_seeds_are_other_leaves() {
    for (degree, alphabet) in SETTINGS {
        let lent = seeded(6, 5, 3, 2, 40, degree, alphabet);
        let case = &lent.case;
        let [_, _, _, (_, proof)] = on_seeds(&lent, &case.witness);
        let answered = |salt: &[u8], opened: &[u8]| {
            word(verify_seeds(
                &case.key,
                degree,
                alphabet,
                &case.delta,
                &case.h,
                &case.chi,
                salt,
                opened,
                &proof,
            ))
        };
        let opened = lent.opened_seeds();
        assert_eq!(answered(&lent.salt, &opened), 0);
        for at in 0..32 {
            let mut salt = lent.salt.clone();
            salt[at] ^= 1 << (at % 8);
            assert_eq!(answered(&salt, &opened), 14 * 65_536);
        }
        let of_one = opened.len() / 2;
        for place in [0, 1, of_one / 16 - 2] {
            for e in 0..2 {
                let mut exchanged = opened.clone();
                let start = e * of_one + 16 * place;
                exchanged[start..start + 32].rotate_left(16);
                assert_eq!(answered(&lent.salt, &exchanged), 14 * 65_536 + e as u32);
            }
        }
        let mut halves = opened.clone();
        halves.rotate_left(of_one);
        assert_eq!(answered(&lent.salt, &halves), 14 * 65_536);
        // Opened at another Δ_1.
        let mut other = case.delta.clone();
        other[1] ^= 1;
        let opened = open_seeds(&case.shape, &lent.seeds, &other);
        assert_eq!(answered(&lent.salt, &opened), 14 * 65_536 + 1);
    }
}

/// The longest leaves in each setting, of 12,288 or 768 seeds.
#[test]
fn the_highest() {
    for (degree, alphabet) in SETTINGS {
        let lent = seeded(7, 320, 0, 48, 288, degree, alphabet);
        let [_, _, _, (answer, proof)] = on_seeds(&lent, &lent.case.witness);
        assert_eq!(answer, Answer::Accepted);
        assert_eq!(verified(&lent, &lent.case.delta, &proof), Answer::Accepted);
    }
}
