//! Keys with no equations (02, request 12): "m = 0 is taken: A, b and y are empty, χ has no bytes, and QS0 and QS1 are
//! the masks alone."

use reference::cases::{case, Case, SETTINGS};
use reference::check::line;
use reference::factors::{batched_error, candidate, factors};
use reference::leaves::{u, v};
use reference::strings::write_section;
use reference::verifier::sections;
use reference::*;

fn proof_of(case: &Case, witness: &[u8]) -> Vec<u8> {
    let mut out = vec![0xEE; case.proof_length()];
    let (degree, alphabet) = (case.degree(), case.alphabet());
    let answer = prove(
        &case.key,
        degree,
        alphabet,
        &case.leaves,
        witness,
        &case.h,
        &[],
        &mut out,
    );
    assert_eq!(answer, Answer::Accepted);
    out
}

fn verify_at(case: &Case, delta: &[u8], proof: &[u8]) -> Answer {
    let opened = open_leaves(&case.shape, &case.leaves, delta);
    verify(
        &case.key,
        case.degree(),
        case.alphabet(),
        delta,
        &case.h,
        &[],
        &opened,
        proof,
    )
}

/// n, 0, τ, t and three counts of 0: 20 bytes.
#[test]
fn the_key() {
    let key = [5, 0, 0, 0, 2, 0, 4, 0, 0, 0, 0, 0, 0, 0, 0, 0, 0, 0, 0, 0];
    for (degree, alphabet) in SETTINGS {
        let case = case(1, 5, 0, 2, 4, degree, alphabet);
        assert_eq!(case.key, key);
        assert_eq!([case.shape.key_length(), case.shape.chi_length()], [20, 0]);
        assert_eq!(case.shape.key_sections(), [0, 0, 0]);
        assert_eq!(
            test(&key, degree, alphabet, &case.witness),
            Answer::Accepted
        );
    }
}

/// Other lengths and counts are 3; "n, τ, t" of 0, also beside m = 0, are 2.
#[test]
fn refused_keys() {
    let key = case(1, 5, 0, 2, 4, 8, 2).key;
    let number = |key: &[u8]| word(test(key, 8, 2, &[0])) / 65_536;
    for length in 0..20 {
        assert_eq!(number(&key[..length]), if length < 8 { 1 } else { 3 });
    }
    assert_eq!(number(&[&key[..], &[0]].concat()), 3);
    for place in 8..20 {
        let mut changed = key.clone();
        changed[place] = 1;
        assert_eq!(number(&changed), 3);
    }
    // A count of 1, and the byte that it counts.
    for section in 0..3 {
        let mut longer = key[..8].to_vec();
        for other in 0..3 {
            write_section(&mut longer, &vec![0; (other == section) as usize]);
        }
        assert_eq!(number(&longer), 3);
    }
    for place in [0, 4, 6] {
        let mut changed = key.clone();
        changed[place] = 0;
        assert_eq!(number(&changed), 2);
    }
    for outside in [321, 512, 65_535] {
        let mut changed = key.clone();
        changed[2..4].copy_from_slice(&[(outside % 256) as u8, (outside / 256) as u8]);
        assert_eq!(number(&changed), 2);
    }
}

/// "practice keys that any witness fits": 11 never, 9 as ever.
#[test]
fn any_witness_fits() {
    for (degree, alphabet) in SETTINGS {
        let case = case(2, 5, 0, 2, 4, degree, alphabet);
        for byte in 0..=255u8 {
            // Five entries: five bits, or a byte and a symbol.
            let (witness, fits) = match alphabet {
                4 => (vec![byte.wrapping_mul(31), byte], byte < 4),
                _ => (vec![byte], byte < 32),
            };
            let expected = if fits { 0 } else { 9 * 65_536 };
            assert_eq!(word(test(&case.key, degree, alphabet, &witness)), expected);
            let mut first = vec![0; case.shape.commit_length()];
            let mut third = vec![0; case.shape.batch_length()];
            let (key, leaves) = (&case.key, &case.leaves);
            let answers = [
                commit(key, degree, alphabet, leaves, &witness, &mut first),
                batch(key, degree, alphabet, leaves, &witness, &[], &mut third),
            ];
            assert_eq!(answers.map(word), [expected; 2]);
            if fits {
                let proof = proof_of(&case, &witness);
                assert_eq!(verify_at(&case, &case.delta, &proof), Answer::Accepted);
                assert_eq!(proof[..first.len()], first);
                assert_eq!(proof[proof.len() - third.len()..], third);
            }
        }
        for witness in [&[][..], &[0; 3][..], &[0, 0][case.witness.len() - 1..]] {
            assert_eq!(word(test(&case.key, degree, alphabet, witness)), 9 * 65_536);
        }
    }
}

/// "χ has no bytes": one byte, also of 0, or a column is 5.
#[test]
fn chi_is_empty() {
    for (degree, alphabet) in SETTINGS {
        let case = case(3, 5, 0, 2, 4, degree, alphabet);
        let proof = proof_of(&case, &case.witness);
        let (key, opened) = (&case.key, case.opened());
        for chi in [&[0][..], &[0, 0], &[0x10]] {
            let answer = verify(
                key,
                degree,
                alphabet,
                &case.delta,
                &case.h,
                chi,
                &opened,
                &proof,
            );
            assert_eq!(word(answer), 5 * 65_536);
            let mut out = vec![0xEE; proof.len()];
            let answer = prove(
                key,
                degree,
                alphabet,
                &case.leaves,
                &case.witness,
                &case.h,
                chi,
                &mut out,
            );
            assert_eq!(word(answer), 5 * 65_536);
            let mut out = vec![0xEE; case.shape.batch_length()];
            let answer = batch(
                key,
                degree,
                alphabet,
                &case.leaves,
                &case.witness,
                chi,
                &mut out,
            );
            assert_eq!(word(answer), 5 * 65_536);
            assert!(out.iter().all(|byte| *byte == 0xEE));
        }
    }
}

/// "QS0 and QS1 are the masks alone."
#[test]
fn the_masks_alone() {
    for (degree, alphabet) in SETTINGS {
        for seed in 0..10 {
            let case = case(seed, 1 + seed as usize, 0, 3, 2, degree, alphabet);
            let shape = case.shape;
            let proof = proof_of(&case, &case.witness);
            let read = sections(&shape, &proof).unwrap();
            let u_0 = u(&shape, &case.leaves, 0);
            for e in 0..3 {
                let mut masks = [0, 0];
                let v_e = v(&shape, &case.leaves, e);
                // "r coordinates for each repetition, r the degree"; with four symbols, four.
                let r = if alphabet == 4 { 4 } else { degree as usize };
                for s in 0..r {
                    let c = shape.n + r * e + s;
                    masks[0] ^= shape.field.mul(1 << s, v_e[c]);
                    masks[1] ^= shape.field.mul(1 << s, u_0[c]);
                }
                assert_eq!([read.qs0[e], read.qs1[e]], masks);
            }
        }
    }
}

/// The toys without their equation, by hand: 01's has 02 at the first mask coordinate of v and 1 in u, else 0; the one
/// at degree 4 has the masks 09 and 0B.
#[test]
fn the_toys_without_their_equation() {
    let key = [2, 0, 0, 0, 1, 0, 1, 0, 0, 0, 0, 0, 0, 0, 0, 0, 0, 0, 0, 0];
    let mut leaves = vec![0; 512];
    leaves[4] = 0x05;
    leaves[6] = 0x02;
    leaves[7] = 0x04;
    let mut out = vec![0xEE; 29];
    let answer = prove(&key, 8, 2, &leaves, &[0x01], &[0x05, 0x00], &[], &mut out);
    assert_eq!(answer, Answer::Accepted);
    assert_eq!(
        [out[8], out[13], out[18], out[23], out[28]],
        [0x02, 0x01, 0x03, 0x02, 0x01]
    );

    let toy = toys::lent_at_degree_4();
    let answer = prove(&key, 4, 2, &toy.leaves, &[0x01], &toy.h, &[], &mut out);
    assert_eq!(answer, Answer::Accepted);
    assert_eq!(
        [out[8], out[13], out[18], out[23], out[28]],
        [0x02, 0x01, 0x03, 0x09, 0x0B]
    );
}

/// Every Δ of one repetition, and all 256 of two at degree 4.
#[test]
fn accepted_at_every_delta() {
    for (degree, alphabet, tau) in [(8, 2, 1), (4, 2, 1), (4, 2, 2), (8, 4, 1)] {
        let case = case(5, 6, 0, tau, 3, degree, alphabet);
        let proof = proof_of(&case, &case.witness);
        let size = 1usize << degree;
        for number in 0..size.pow(tau as u32) {
            let delta: Vec<u8> = (0..tau as u32)
                .map(|e| (number / size.pow(e) % size) as u8)
                .collect();
            assert_eq!(verify_at(&case, &delta, &proof), Answer::Accepted);
        }
    }
}

/// With no equations nothing is quadratic: each factor is 0, 1 or the size, and all three occur. A change of d is seen
/// by nothing.
#[test]
fn factors_are_0_1_or_the_size() {
    for (degree, alphabet) in SETTINGS {
        let case = case(6, 3, 0, 2, 2, degree, alphabet);
        let size = case.shape.field.size;
        let honest = proof_of(&case, &case.witness);
        let key = case.read_key();
        let mut seen = Vec::new();
        let mut start = 0;
        for (section, length) in case.shape.proof_sections().iter().enumerate() {
            for at in start + 4..start + 4 + length {
                for bit in 0..degree {
                    let mut changed = honest.clone();
                    changed[at] ^= 1 << bit;
                    let read = sections(&case.shape, &changed).unwrap();
                    if !read.spare_bits_are_0(&case.shape) {
                        continue;
                    }
                    let found = factors(&key, &case.h, &[], &case.leaves, &read);
                    if section == 1 {
                        assert_eq!(found, [size, size]);
                    }
                    seen.extend(found);
                }
            }
            start += 4 + length;
        }
        seen.sort();
        seen.dedup();
        assert_eq!(seen, [0, 1, size]);
    }
}

/// "The single empty column counts as one column with sum zero."
#[test]
fn the_empty_column() {
    let case = case(7, 4, 0, 2, 2, 4, 2);
    let key = case.read_key();
    let proof = proof_of(&case, &case.witness);
    let read = sections(&case.shape, &proof).unwrap();
    for e in 0..2 {
        assert_eq!(case.shape.column(&case.chi, e), []);
        let x = candidate(&case.shape, e, &case.leaves, &read);
        assert_eq!(batched_error(&key, &x, &[]), 0);
        assert_eq!(key.first_failing(&x), None);
    }
}

/// The check program reads an empty section for χ.
#[test]
fn the_check_program() {
    let case = case(8, 2, 0, 1, 1, 8, 2);
    let proof = proof_of(&case, &case.witness);
    let lines = [&[][..], &[0][..]].map(|chi| {
        let mut input = Vec::new();
        for section in [
            &case.key[..],
            &case.delta,
            &case.h,
            chi,
            &case.opened(),
            &proof,
        ] {
            write_section(&mut input, section);
        }
        line(&input)
    });
    assert_eq!(lines, ["accepted 0 0", "refused 5 0"]);
}

#[test]
fn the_highest_with_no_equations() {
    for (degree, alphabet) in SETTINGS {
        let case = case(9, 320, 0, 48, 288, degree, alphabet);
        let proof = proof_of(&case, &case.witness);
        assert_eq!(verify_at(&case, &case.delta, &proof), Answer::Accepted);
    }
}
