//! Every refusal, the order of the questions, and outputs left as they were; of the calls on leaves and of those on
//! seeds.

use reference::cases::{case, key_bytes, seeded, Case, SETTINGS};
use reference::key::Shape;
use reference::strings::bytes_for;
use reference::*;

/// All that is lent in one sitting, so that it can be spoiled.
#[derive(Clone)]
struct Lent {
    key: Vec<u8>,
    degree: u32,
    alphabet: u32,
    witness: Vec<u8>,
    leaves: Vec<u8>,
    salt: Vec<u8>,
    seeds: Vec<u8>,
    h: Vec<u8>,
    chi: Vec<u8>,
    delta: Vec<u8>,
    opened: Vec<u8>,
    opened_seeds: Vec<u8>,
    proof: Vec<u8>,
    out: [usize; 4],
}

/// Three equations.
fn sitting(degree: u32, alphabet: u32) -> (Case, Lent) {
    sitting_of(degree, alphabet, 3, 4)
}

fn sitting_of(degree: u32, alphabet: u32, m: usize, t: usize) -> (Case, Lent) {
    // With t = 4: k = 29, L = 33 at degree 8 and alphabet 2, k = 17, L = 21 at the others. n, m, k and L leave spare
    // bits, and t at alphabet 2; at alphabet 4 it does with t = 5.
    let seeded = seeded(31, 5, m, 3, t, degree, alphabet);
    let case = seeded.case.clone();
    let shape = case.shape;
    let mut proof = vec![0; case.proof_length()];
    assert_eq!(
        prove(
            &case.key,
            degree,
            alphabet,
            &case.leaves,
            &case.witness,
            &case.h,
            &case.chi,
            &mut proof
        ),
        Answer::Accepted
    );
    let lent = Lent {
        key: case.key.clone(),
        degree,
        alphabet,
        witness: case.witness.clone(),
        leaves: case.leaves.clone(),
        salt: seeded.salt.clone(),
        seeds: seeded.seeds.clone(),
        h: case.h.clone(),
        chi: case.chi.clone(),
        delta: case.delta.clone(),
        opened: case.opened(),
        opened_seeds: seeded.opened_seeds(),
        out: [
            shape.commit_length(),
            shape.hash_length(),
            shape.batch_length(),
            shape.proof_length(),
        ],
        proof,
    };
    (case, lent)
}

const CALLS: [&str; 11] = [
    "test",
    "commit",
    "hash",
    "batch",
    "prove",
    "verify",
    "commit_seeds",
    "hash_seeds",
    "batch_seeds",
    "prove_seeds",
    "verify_seeds",
];

/// The call on leaves that a call on seeds is a second form of; any other call itself.
fn on_leaves(call: &str) -> &str {
    call.strip_suffix("_seeds").unwrap_or(call)
}

/// The questions "that concern its inputs", by call, in the order in which they are put. 17 and 18 speak of
/// degree 4 alone: at degree 8 "a byte is an element". A key with no equations has no spare bits, "11 never occurs
/// there" (02, request 12), and of the challenges that 17 speaks of only Δ has bytes. Of seeds 8 cannot get a no.
fn questions(call: &str, degree: u32, m: usize) -> Vec<u32> {
    let mut numbers = match on_leaves(call) {
        "test" => vec![16, 24, 1, 2, 3, 4, 9, 11],
        "commit" => vec![16, 24, 1, 2, 3, 4, 7, 8, 9, 10, 11],
        "hash" => vec![16, 24, 1, 2, 3, 4, 5, 6, 7, 8, 10],
        "batch" => vec![16, 24, 1, 2, 3, 4, 5, 17, 7, 8, 9, 10, 11],
        "prove" => vec![16, 24, 1, 2, 3, 4, 5, 6, 17, 7, 8, 9, 10, 11],
        _ => vec![16, 24, 1, 2, 3, 4, 5, 6, 17, 7, 8, 12, 13, 18, 14, 15],
    };
    numbers.retain(|number| degree == 4 || ![17, 18].contains(number));
    if m == 0 {
        let has_bytes = |number: &u32| *number != 17 || on_leaves(call) == "verify";
        numbers.retain(|number| ![4, 11].contains(number) && has_bytes(number));
    }
    if call != on_leaves(call) {
        numbers.retain(|number| *number != 8);
    }
    numbers
}

/// The calls that put a question.
fn that_put(number: u32, degree: u32, m: usize) -> Vec<&'static str> {
    CALLS
        .into_iter()
        .filter(|call| questions(call, degree, m).contains(&number))
        .collect()
}

/// Puts a call; looks that a refusal leaves the output as it was, and that an acceptance writes
/// its sections of the honest proof.
fn put(call: &str, lent: &Lent, honest: &[u8]) -> Answer {
    let (key, degree, alphabet) = (&lent.key, lent.degree, lent.alphabet);
    let (leaves, salt, seeds) = (&lent.leaves, &lent.salt, &lent.seeds);
    let [first, second, third, whole] = lent.out;
    // The output of the call, and where its sections start in the proof.
    let (mut out, start) = match on_leaves(call) {
        "commit" => (vec![0xEE; first], 0),
        "hash" => (vec![0xEE; second], first),
        "batch" => (vec![0xEE; third], first + second),
        "prove" => (vec![0xEE; whole], 0),
        _ => (Vec::new(), 0),
    };
    let answer = match call {
        "test" => test(key, degree, alphabet, &lent.witness),
        "commit" => commit(key, degree, alphabet, leaves, &lent.witness, &mut out),
        "hash" => hash(key, degree, alphabet, leaves, &lent.h, &mut out),
        "batch" => batch(
            key,
            degree,
            alphabet,
            leaves,
            &lent.witness,
            &lent.chi,
            &mut out,
        ),
        "prove" => prove(
            key,
            degree,
            alphabet,
            leaves,
            &lent.witness,
            &lent.h,
            &lent.chi,
            &mut out,
        ),
        "verify" => verify(
            key,
            degree,
            alphabet,
            &lent.delta,
            &lent.h,
            &lent.chi,
            &lent.opened,
            &lent.proof,
        ),
        "commit_seeds" => {
            let witness = &lent.witness;
            commit_seeds(key, degree, alphabet, salt, seeds, witness, &mut out)
        }
        "hash_seeds" => hash_seeds(key, degree, alphabet, salt, seeds, &lent.h, &mut out),
        "batch_seeds" => batch_seeds(
            key,
            degree,
            alphabet,
            salt,
            seeds,
            &lent.witness,
            &lent.chi,
            &mut out,
        ),
        "prove_seeds" => prove_seeds(
            key,
            degree,
            alphabet,
            salt,
            seeds,
            &lent.witness,
            &lent.h,
            &lent.chi,
            &mut out,
        ),
        _ => verify_seeds(
            key,
            degree,
            alphabet,
            &lent.delta,
            &lent.h,
            &lent.chi,
            salt,
            &lent.opened_seeds,
            &lent.proof,
        ),
    };
    if answer == Answer::Accepted {
        assert_eq!(out, honest[start..start + out.len()]);
    } else {
        assert!(out.iter().all(|byte| *byte == 0xEE));
    }
    answer
}

/// Spoils what is lent so that the question of that number, in that call, gets a no.
fn spoil(number: u32, call: &str, lent: &mut Lent) {
    match number {
        1 => lent.key.truncate(7),
        2 => lent.key[0] = 0,
        3 => lent.key[8] ^= 1,
        4 => {
            // The last byte of row 0 of A.
            let last = 12 + lent.witness.len() - 1;
            lent.key[last] |= 0x80;
        }
        5 => match on_leaves(call) {
            "hash" => lent.h.push(0),
            "batch" => lent.chi.push(0),
            "prove" => lent.chi.push(0),
            _ => lent.delta.push(0),
        },
        6 => lent.h[row(lent.degree, lent.alphabet) - 1] |= 0x80,
        7 => {
            lent.leaves.push(0);
            lent.opened.push(0);
            lent.seeds.push(0);
            lent.opened_seeds.push(0);
        }
        8 => {
            lent.leaves[w(lent.degree, lent.alphabet) - 1] |= 0x80;
            lent.opened[w(lent.degree, lent.alphabet) - 1] |= 0x80;
        }
        9 => *lent.witness.last_mut().unwrap() |= 0x80,
        10 => lent.out = lent.out.map(|length| length + 1),
        11 => {
            // y has one byte, the last of the key: equation 1 now fails.
            let last = lent.key.len() - 1;
            lent.key[last] ^= if lent.alphabet == 4 { 0b1000 } else { 0b10 };
        }
        12 => lent.proof.push(0),
        13 => lent.proof[4 + w(lent.degree, lent.alphabet) - 1] |= 0x80,
        16 => lent.degree += 1,
        24 => lent.alphabet += 1,
        17 => match on_leaves(call) {
            "verify" => lent.delta[2] |= 0x10,
            _ => *lent.chi.last_mut().unwrap() |= 0x10,
        },
        18 => *lent.proof.last_mut().unwrap() |= 0x10,
        14 => {
            // Ṽ of repetition 2, hash row 3.
            let at = lent.out[0] + 4 + 1 + 4 + 2 * 4 + 3;
            lent.proof[at] ^= 1;
        }
        _ => {
            // QS0 of repetition 1.
            let at = lent.out[0] + lent.out[1] + 4 + 1;
            lent.proof[at] ^= 1;
        }
    }
}

/// The bytes of a leaf: L is 33 at degree 8, 21 at degree 4, 21 at alphabet 4.
fn w(degree: u32, alphabet: u32) -> usize {
    match (degree, alphabet) {
        (8, 2) => 5,
        (4, 2) => 3,
        _ => 6,
    }
}

/// The bytes of a row of H′: k is 29 at degree 8, 17 at degree 4, 17 at alphabet 4.
fn row(degree: u32, alphabet: u32) -> usize {
    match (degree, alphabet) {
        (8, 2) => 4,
        (4, 2) => 3,
        _ => 5,
    }
}

fn place_of(number: u32) -> u32 {
    match number {
        11 => 1,
        14 => 2,
        15 => 1,
        _ => 0,
    }
}

#[test]
fn honest_is_accepted_by_every_call() {
    for (degree, alphabet) in SETTINGS {
        honest_is_accepted_by_every_call_at(degree, alphabet, 3);
        honest_is_accepted_by_every_call_at(degree, alphabet, 0);
    }
}

fn honest_is_accepted_by_every_call_at(degree: u32, alphabet: u32, m: usize) {
    let (_, lent) = sitting_of(degree, alphabet, m, 4);
    for call in CALLS {
        assert_eq!(put(call, &lent, &lent.proof), Answer::Accepted);
    }
}

#[test]
fn every_refusal_of_every_call() {
    for (degree, alphabet) in SETTINGS {
        every_refusal_of_every_call_at(degree, alphabet, 3);
        every_refusal_of_every_call_at(degree, alphabet, 0);
    }
}

fn every_refusal_of_every_call_at(degree: u32, alphabet: u32, m: usize) {
    let (_, lent) = sitting_of(degree, alphabet, m, 4);
    for call in CALLS {
        for number in questions(call, degree, m) {
            let mut spoiled = lent.clone();
            spoil(number, call, &mut spoiled);
            let answer = put(call, &spoiled, &lent.proof);
            let place = place_of(number);
            assert_eq!(answer, Answer::Refused { number, place }, "{call}");
            assert_eq!(word(answer), number * 65_536 + place);
        }
    }
    assert_eq!(word(Answer::Accepted), 0);
}

/// "in this order": where two questions get a no, the call ends with the earlier.
#[test]
fn the_earlier_question_ends_the_call() {
    for (degree, alphabet) in SETTINGS {
        the_earlier_question_ends_the_call_at(degree, alphabet, 3);
        the_earlier_question_ends_the_call_at(degree, alphabet, 0);
    }
}

fn the_earlier_question_ends_the_call_at(degree: u32, alphabet: u32, m: usize) {
    let (_, lent) = sitting_of(degree, alphabet, m, 4);
    for call in CALLS {
        let numbers = questions(call, degree, m);
        for (index, earlier) in numbers.iter().enumerate() {
            for later in &numbers[index + 1..] {
                let mut spoiled = lent.clone();
                // The later first, since the earlier may cut what the later spoils.
                spoil(*later, call, &mut spoiled);
                spoil(*earlier, call, &mut spoiled);
                let answer = put(call, &spoiled, &lent.proof);
                assert_eq!(word(answer) / 65_536, *earlier, "{call} {earlier} {later}");
            }
        }
    }
}

/// A question that does not concern a call's inputs is not put: H′ and χ are one question for
/// the calls that take both, and each alone is enough for a no.
#[test]
fn question_5_is_one_question() {
    for (degree, alphabet) in SETTINGS {
        question_5_is_one_question_at(degree, alphabet);
    }
}

fn question_5_is_one_question_at(degree: u32, alphabet: u32) {
    let (_, lent) = sitting(degree, alphabet);
    let number_of = |call: &str, spoil: &dyn Fn(&mut Lent)| {
        let mut spoiled = lent.clone();
        spoil(&mut spoiled);
        word(put(call, &spoiled, &lent.proof)) / 65_536
    };
    for longer in [true, false] {
        let change = |bytes: &mut Vec<u8>| {
            if longer {
                bytes.push(0)
            } else {
                bytes.pop();
            }
        };
        for call in ["prove", "verify", "prove_seeds", "verify_seeds"] {
            assert_eq!(number_of(call, &|lent| change(&mut lent.h)), 5);
            assert_eq!(number_of(call, &|lent| change(&mut lent.chi)), 5);
        }
        for call in ["verify", "verify_seeds"] {
            assert_eq!(number_of(call, &|lent| change(&mut lent.delta)), 5);
        }
        // Wrong χ before the spare bits of H′.
        let both = |lent: &mut Lent| {
            change(&mut lent.chi);
            lent.h[row(lent.degree, lent.alphabet) - 1] |= 0x80;
        };
        for call in ["prove", "verify", "prove_seeds", "verify_seeds"] {
            assert_eq!(number_of(call, &both), 5);
        }
    }
}

/// Every spare bit of every string, each alone.
#[test]
fn every_spare_bit() {
    for (degree, alphabet) in SETTINGS {
        every_spare_bit_at(degree, alphabet);
    }
}

fn every_spare_bit_at(degree: u32, alphabet: u32) {
    let (case, lent) = sitting_of(degree, alphabet, 3, if alphabet == 4 { 5 } else { 4 });
    let shape = case.shape;
    let bits = if alphabet == 4 { 2 } else { 1 };
    // Each: the bytes of one string, the entries in it.
    let each_spare = |length: usize, entries: usize| -> Vec<(usize, u8)> {
        let one = bytes_for(&shape.symbols, entries);
        assert!(entries * bits < 8 * one);
        let mut found = Vec::new();
        for start in (0..length).step_by(one) {
            for c in entries * bits..8 * one {
                found.push((start + c / 8, 1 << (c % 8)));
            }
        }
        found
    };
    let lengths = shape.key_sections();
    let [a, b, y] = [12, 16 + lengths[0], 20 + lengths[0] + lengths[1]];
    for (start, length, entries) in [
        (a, lengths[0], shape.n),
        (b, lengths[1], shape.n),
        (y, lengths[2], shape.m),
    ] {
        for (at, with) in each_spare(length, entries) {
            let mut key = lent.key.clone();
            key[start + at] |= with;
            assert_eq!(
                word(test(&key, degree, alphabet, &lent.witness)),
                4 * 65_536
            );
        }
    }
    for (at, with) in each_spare(shape.h_length(), shape.k()) {
        let mut spoiled = lent.clone();
        spoiled.h[at] |= with;
        for call in that_put(6, degree, 3) {
            assert_eq!(word(put(call, &spoiled, &lent.proof)), 6 * 65_536);
        }
    }
    for (at, with) in each_spare(shape.leaves_length(), shape.l()) {
        let mut spoiled = lent.clone();
        spoiled.leaves[at] |= with;
        assert_eq!(word(put("commit", &spoiled, &lent.proof)), 8 * 65_536);
    }
    for (at, with) in each_spare(shape.opened_length(), shape.l()) {
        let mut spoiled = lent.clone();
        spoiled.opened[at] |= with;
        assert_eq!(word(put("verify", &spoiled, &lent.proof)), 8 * 65_536);
    }
    for (at, with) in each_spare(shape.witness_length(), shape.n) {
        let mut witness = lent.witness.clone();
        witness[at] |= with;
        assert_eq!(
            word(test(&lent.key, degree, alphabet, &witness)),
            9 * 65_536
        );
    }
    let lengths = shape.proof_sections();
    let [c, d, u] = [4, 8 + lengths[0], 12 + lengths[0] + lengths[1]];
    for (start, length, entries) in [
        (c, lengths[0], shape.l()),
        (d, lengths[1], shape.n),
        (u, lengths[2], shape.t),
    ] {
        for (at, with) in each_spare(length, entries) {
            let mut spoiled = lent.clone();
            spoiled.proof[start + at] |= with;
            assert_eq!(word(put("verify", &spoiled, &lent.proof)), 13 * 65_536);
        }
    }
    for witness in [&[][..], &[0; 3][..], &[0, 0][shape.witness_length() - 1..]] {
        assert_eq!(word(test(&lent.key, degree, alphabet, witness)), 9 * 65_536);
    }
}

/// "Refusal 11 now names the lowest-numbered failing equation, in the test call and every prover
/// call that takes a witness": every set of equations that fail.
#[test]
fn the_lowest_failing_equation() {
    for (degree, alphabet) in SETTINGS {
        the_lowest_failing_equation_at(degree, alphabet);
    }
}

fn the_lowest_failing_equation_at(degree: u32, alphabet: u32) {
    let (_, lent) = sitting(degree, alphabet);
    let last = lent.key.len() - 1;
    // Each equation's error, one or two bits, lowest first.
    let bits = if alphabet == 4 { 2 } else { 1 };
    for errors in 1..1u8 << (3 * bits) {
        let mut spoiled = lent.clone();
        spoiled.key[last] ^= errors;
        for call in that_put(11, degree, 3) {
            let answer = put(call, &spoiled, &lent.proof);
            let place = errors.trailing_zeros() / bits;
            assert_eq!(answer, Answer::Refused { number: 11, place }, "{call}");
        }
    }
}

/// The same where y has several bytes, by each first failing equation: alone, with all after it,
/// and with the last.
#[test]
fn the_lowest_failing_equation_of_many() {
    // Entries of a byte of y, bytes of y, and what is added to an entry.
    lowest_of_many(2, 8, 3, &[1]);
    lowest_of_many(4, 4, 6, &[1, 2, 3]);
}

fn lowest_of_many(alphabet: u32, in_a_byte: usize, bytes: usize, errors: &[u8]) {
    let case = case(32, 3, 21, 1, 2, 8, alphabet);
    let y = case.key.len() - bytes;
    assert_eq!(case.key[y - 4..y], [bytes as u8, 0, 0, 0]);
    for (first, error) in (0..21).flat_map(|first| errors.iter().map(move |e| (first, e))) {
        for others in [first..first, first + 1..21, first.max(20)..21] {
            let mut key = case.key.clone();
            let mut add = |i: usize, error: u8| {
                key[y + i / in_a_byte] ^= error << (8 / in_a_byte * (i % in_a_byte));
            };
            add(first, *error);
            for other in others.filter(|other| *other != first) {
                add(other, 1);
            }
            assert_eq!(
                test(&key, 8, alphabet, &case.witness),
                Answer::Refused {
                    number: 11,
                    place: first as u32
                }
            );
        }
    }
}

/// "14 ... with the first e where not" and "15 ... with the first e where not"; 14 of all
/// repetitions before 15 of any.
#[test]
fn first_repetition_and_order_of_14_and_15() {
    for (degree, alphabet) in SETTINGS {
        first_repetition_and_order_of_14_and_15_at(degree, alphabet);
    }
}

fn first_repetition_and_order_of_14_and_15_at(degree: u32, alphabet: u32) {
    let (_, lent) = sitting(degree, alphabet);
    let v_tilde = |e: usize| lent.out[0] + 4 + 1 + 4 + e * 4;
    let qs0 = |e: usize| lent.out[0] + lent.out[1] + 4 + e;
    for consistency in 0..8usize {
        for product in 0..8usize {
            let mut spoiled = lent.clone();
            for e in 0..3 {
                spoiled.proof[v_tilde(e)] ^= 7 * ((consistency >> e) & 1) as u8;
                spoiled.proof[qs0(e)] ^= 9 * ((product >> e) & 1) as u8;
            }
            let expected = if consistency != 0 {
                14 * 65_536 + consistency.trailing_zeros()
            } else if product != 0 {
                15 * 65_536 + product.trailing_zeros()
            } else {
                0
            };
            for call in ["verify", "verify_seeds"] {
                assert_eq!(word(put(call, &spoiled, &lent.proof)), expected);
            }
        }
    }
}

/// "16, degree neither 8 nor 4, first of all questions": for any number, before the key is looked at, and
/// with nothing written.
#[test]
fn every_other_degree() {
    let (_, lent) = sitting(4, 2);
    let low = (0..40).filter(|degree| ![8, 4].contains(degree));
    let high = [
        256 + 4,
        256 + 8,
        65_536 + 4,
        1 << 31,
        u32::MAX - 3,
        u32::MAX,
    ];
    for degree in low.chain(high) {
        for call in CALLS {
            let mut spoiled = lent.clone();
            spoiled.degree = degree;
            assert_eq!(word(put(call, &spoiled, &lent.proof)), 16 * 65_536);
            spoiled.key.clear();
            assert_eq!(word(put(call, &spoiled, &lent.proof)), 16 * 65_536);
        }
    }
}

/// "24, an alphabet neither 2 nor 4, or 4 with degree 4, after 16": for any number, before the key is looked at, and
/// with nothing written. Another degree beside it is 16.
#[test]
fn every_other_alphabet() {
    for (degree, alphabet) in SETTINGS {
        let (_, lent) = sitting(degree, alphabet);
        let taken: &[u32] = if degree == 4 { &[2] } else { &[2, 4] };
        let low = (0..40).filter(|number| !taken.contains(number));
        let high = [
            256 + 2,
            256 + 4,
            65_536 + 4,
            1 << 31,
            (1 << 31) + 2,
            u32::MAX - 3,
            u32::MAX,
        ];
        for other in low.chain(high) {
            for call in CALLS {
                let mut spoiled = lent.clone();
                spoiled.alphabet = other;
                assert_eq!(word(put(call, &spoiled, &lent.proof)), 24 * 65_536);
                spoiled.key.clear();
                assert_eq!(word(put(call, &spoiled, &lent.proof)), 24 * 65_536);
                for no_degree in [0, 2, 5, 16, 256 + 8] {
                    spoiled.degree = no_degree;
                    assert_eq!(word(put(call, &spoiled, &lent.proof)), 16 * 65_536);
                }
            }
        }
    }
}

/// What is lent at alphabet 4 with the degree changed to 4 is 24; at alphabet 2 it is not.
#[test]
fn four_symbols_with_degree_4() {
    let (_, mut lent) = sitting(8, 4);
    let proof = lent.proof.clone();
    lent.degree = 4;
    for call in CALLS {
        assert_eq!(word(put(call, &lent, &proof)), 24 * 65_536);
    }
}

/// At the other alphabet a key with n = 5 has another length: 3.
#[test]
fn lent_at_the_other_alphabet() {
    for (made, named) in [(2, 4), (4, 2)] {
        let (_, mut lent) = sitting(8, made);
        let proof = lent.proof.clone();
        lent.alphabet = named;
        for call in CALLS {
            assert_eq!(word(put(call, &lent, &proof)), 3 * 65_536);
        }
    }
}

/// Up to four variables and equations a row is a byte at both alphabets, and so nothing tells bits from symbols but
/// what is spare.
#[test]
fn short_keys_at_the_other_alphabet() {
    // As bits x0·x1 + x0 = 0, as symbols 2·x0² + x0 = 0.
    let shape = Shape::new(2, 1, 1, 1, 8, 2);
    let key = key_bytes(&shape, &[0x02, 0x00], &[0x01], &[0x00]);
    let solves =
        |alphabet: u32, witness: &u8| test(&key, 8, alphabet, &[*witness]) == Answer::Accepted;
    let solutions =
        |alphabet: u32| -> Vec<u8> { (0..=255).filter(|x| solves(alphabet, x)).collect() };
    assert_eq!(solutions(2), [0b00, 0b10, 0b11]);
    // x0 = 0 or 1/2 = 3, and any x1.
    assert_eq!(solutions(4), [0, 3, 4, 7, 8, 11, 12, 15]);
    // The first byte of A, b and y, and the least bits that are spare at 2 and at 4.
    for (at, of_2, of_4) in [(12, 0x04, 0x10), (18, 0x04, 0x10), (23, 0x02, 0x04)] {
        let number = |alphabet: u32, bit: u8| {
            let mut changed = key.clone();
            changed[at] |= bit;
            word(test(&changed, 8, alphabet, &[0x00])) / 65_536
        };
        assert_eq!([number(2, of_2), number(2, of_4)], [4, 4]);
        assert_ne!(number(4, of_2), 4);
        assert_eq!(number(4, of_4), 4);
    }
}

/// A key is the same at both degrees. What else is lent at the other one has wrong lengths: H′ first, where
/// the call takes it, else the leaves.
#[test]
fn lent_at_the_other_degree() {
    for (made, named) in [(8, 4), (4, 8)] {
        let (_, mut lent) = sitting(made, 2);
        let proof = lent.proof.clone();
        lent.degree = named;
        assert_eq!(put("test", &lent, &proof), Answer::Accepted);
        // Bytes of χ above 15 are 17 at degree 4, before the leaves are looked at.
        let of_batch = if named == 4 { 17 } else { 7 };
        for call in &CALLS[1..] {
            let number = match on_leaves(call) {
                "commit" => 7,
                "batch" => of_batch,
                _ => 5,
            };
            assert_eq!(word(put(call, &lent, &proof)), number * 65_536);
        }
    }
}

/// "17, a byte of Δ or χ above 15 at degree 4, after 6": every byte of Δ and χ, each alone, and every bit
/// past the fourth. 15 is taken.
#[test]
fn every_byte_of_question_17() {
    let (case, lent) = sitting(4, 2);
    for bit in 4..8 {
        for at in 0..case.shape.chi_length() {
            let mut spoiled = lent.clone();
            spoiled.chi[at] |= 1 << bit;
            for call in that_put(17, 4, 3) {
                assert_eq!(word(put(call, &spoiled, &lent.proof)), 17 * 65_536);
            }
        }
        for at in 0..case.shape.delta_length() {
            let mut spoiled = lent.clone();
            spoiled.delta[at] |= 1 << bit;
            assert_eq!(word(put("verify", &spoiled, &lent.proof)), 17 * 65_536);
        }
    }
    let mut highest = lent.clone();
    highest.delta.fill(15);
    highest.opened = open_leaves(&case.shape, &case.leaves, &highest.delta);
    assert_eq!(put("verify", &highest, &lent.proof), Answer::Accepted);
}

/// "18, a byte of Ṽ, QS0 or QS1 above 15 at degree 4, after 13": every byte of the three, each alone, and
/// every bit past the fourth; bytes of C, d and ũ are not asked.
#[test]
fn every_byte_of_question_18() {
    let (case, lent) = sitting(4, 2);
    let mut start = 0;
    for (section, length) in case.shape.proof_sections().iter().enumerate() {
        for at in start + 4..start + 4 + length {
            for bit in 4..8 {
                let mut spoiled = lent.clone();
                spoiled.proof[at] ^= 1 << bit;
                let answer = put("verify", &spoiled, &lent.proof);
                let is_18 = word(answer) == 18 * 65_536;
                assert_eq!(is_18, section >= 3, "{section} {at}");
            }
        }
        start += 4 + length;
    }
}

/// At degree 8 neither is put: bytes above 15 are elements like others.
#[test]
fn no_17_and_18_at_degree_8() {
    let (case, lent) = sitting(8, 2);
    assert!(lent.chi.iter().any(|byte| *byte > 15));
    assert!(lent.delta.iter().any(|byte| *byte > 15));
    assert!(lent.proof[lent.out[0]..].iter().any(|byte| *byte > 15));
    let delta = vec![0xFF; case.shape.tau];
    let mut highest = lent.clone();
    highest.opened = open_leaves(&case.shape, &case.leaves, &delta);
    highest.delta = delta;
    assert_eq!(put("verify", &highest, &lent.proof), Answer::Accepted);
    highest.proof[lent.out[0] + 4 + 1 + 4] ^= 0xF0;
    let refused = word(put("verify", &highest, &lent.proof));
    assert_eq!(refused, 14 * 65_536);
}

/// "A salt or seed list of wrong length is refused 7." (02, request 6): of either alone, of both, and where the two
/// together have the right length.
#[test]
fn salt_and_seeds_of_wrong_length() {
    for (degree, alphabet) in SETTINGS {
        salt_and_seeds_of_wrong_length_at(degree, alphabet, 3);
        salt_and_seeds_of_wrong_length_at(degree, alphabet, 0);
    }
}

fn salt_and_seeds_of_wrong_length_at(degree: u32, alphabet: u32, m: usize) {
    let (case, lent) = sitting_of(degree, alphabet, m, 4);
    let full = 3 * 16 * case.shape.field.size;
    let opened = 3 * 16 * (case.shape.field.size - 1);
    assert_eq!([lent.salt.len(), lent.seeds.len()], [32, full]);
    assert_eq!(lent.opened_seeds.len(), opened);
    let number_with = |call: &str, salt: usize, seeds: usize| {
        let mut other = lent.clone();
        other.salt.resize(salt, 0);
        match call {
            "verify_seeds" => other.opened_seeds.resize(seeds, 0),
            _ => other.seeds.resize(seeds, 0),
        }
        word(put(call, &other, &lent.proof))
    };
    for call in &CALLS[6..] {
        // A full list lent to the verifier, an opened one to the prover.
        let (right, other) = match *call {
            "verify_seeds" => (opened, full),
            _ => (full, opened),
        };
        for salt in [0, 1, 16, 31, 33, 48, 64] {
            assert_eq!(number_with(call, salt, right), 7 * 65_536);
            assert_eq!(number_with(call, salt, other), 7 * 65_536);
            if salt < 32 + right {
                assert_eq!(number_with(call, salt, 32 + right - salt), 7 * 65_536);
            }
        }
        // A byte, a seed, a tree; leaves in their place.
        let w = case.shape.w();
        for seeds in [
            0,
            right - 1,
            right + 1,
            right - 16,
            right + 16,
            right - right / 3,
            right + right / 3,
            right / 16 * w,
            other,
        ] {
            assert_ne!(seeds, right);
            assert_eq!(number_with(call, 32, seeds), 7 * 65_536);
        }
        assert_eq!(number_with(call, 32, right), 0);
    }
}

/// Around 7, where the salt alone is wrong: what comes before it and what comes after it, in each call.
#[test]
fn the_order_around_a_wrong_salt() {
    for (degree, alphabet) in SETTINGS {
        for m in [3, 0] {
            the_order_around_a_wrong_salt_at(degree, alphabet, m);
        }
    }
}

fn the_order_around_a_wrong_salt_at(degree: u32, alphabet: u32, m: usize) {
    let (_, lent) = sitting_of(degree, alphabet, m, 4);
    for call in &CALLS[6..] {
        let numbers = questions(call, degree, m);
        let seven = numbers.iter().position(|number| *number == 7).unwrap();
        for length in [31, 33] {
            for (index, number) in numbers.iter().enumerate() {
                let mut spoiled = lent.clone();
                spoil(*number, call, &mut spoiled);
                spoiled.salt.resize(length, 0);
                let expected = numbers[index.min(seven)];
                let answer = word(put(call, &spoiled, &lent.proof));
                assert_eq!(answer, 65_536 * expected, "{call} {number}");
            }
        }
    }
}

/// The calls on leaves do not take a salt, nor those on seeds leaves.
#[test]
fn what_is_not_taken_is_not_asked() {
    for (degree, alphabet) in SETTINGS {
        let (_, lent) = sitting(degree, alphabet);
        let mut no_seeds = lent.clone();
        no_seeds.salt.clear();
        no_seeds.seeds.clear();
        no_seeds.opened_seeds.clear();
        let mut no_leaves = lent.clone();
        no_leaves.leaves.clear();
        no_leaves.opened.clear();
        for call in CALLS {
            let other = match call == on_leaves(call) {
                true => &no_seeds,
                false => &no_leaves,
            };
            assert_eq!(put(call, other, &lent.proof), Answer::Accepted);
        }
    }
}
