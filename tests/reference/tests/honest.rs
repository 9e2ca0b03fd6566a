//! Random honest proofs, the three steps against the whole call, and the forgery count.

use reference::alphabet::{FOUR, TWO};
use reference::cases::{case, case_over, Case, SETTINGS};
use reference::factors::{batched_error, candidate, factors, passing};
use reference::field::{GF16, GF256};
use reference::key::Shape;
use reference::prover::{coefficients, whole};
use reference::strings::{pack, unpack};
use reference::verifier::{sections, Proof};
use reference::*;

fn proof_of(case: &Case) -> Vec<u8> {
    let mut out = vec![0xEE; case.proof_length()];
    let answer = prove(
        &case.key,
        case.degree(),
        case.alphabet(),
        &case.leaves,
        &case.witness,
        &case.h,
        &case.chi,
        &mut out,
    );
    assert_eq!(answer, Answer::Accepted);
    out
}

fn verify_at(case: &Case, delta: &[u8], proof: &[u8]) -> Answer {
    let opened = open_leaves(&case.shape, &case.leaves, delta);
    verify(
        &case.key,
        case.degree(),
        case.alphabet(),
        delta,
        &case.h,
        &case.chi,
        &opened,
        proof,
    )
}

#[test]
fn accepted_at_every_delta() {
    for (seed, n, m, tau, t) in [
        (1, 1, 1, 1, 1),
        (2, 5, 3, 2, 4),
        (3, 8, 8, 3, 8),
        (4, 9, 2, 2, 7),
    ] {
        for alphabet in [2, 4] {
            let case = case(seed, n, m, tau, t, 8, alphabet);
            let answer = test(&case.key, 8, alphabet, &case.witness);
            assert_eq!(answer, Answer::Accepted);
            let proof = proof_of(&case);
            for delta_0 in 0..=255u8 {
                let mut delta = case.delta.clone();
                for (e, delta_e) in delta.iter_mut().enumerate() {
                    *delta_e = delta_0.wrapping_add(e as u8 * 77);
                }
                assert_eq!(verify_at(&case, &delta, &proof), Answer::Accepted);
            }
        }
    }
}

/// The same at degree 4, at all 16 or 256 Δ.
#[test]
fn accepted_at_every_delta_at_degree_4() {
    for (seed, n, m, tau, t) in [
        (1, 1, 1, 1, 1),
        (2, 5, 3, 2, 4),
        (3, 8, 8, 2, 8),
        (4, 9, 2, 1, 7),
    ] {
        let case = case(seed, n, m, tau, t, 4, 2);
        assert_eq!(test(&case.key, 4, 2, &case.witness), Answer::Accepted);
        let proof = proof_of(&case);
        for number in 0..16usize.pow(tau as u32) {
            let delta: Vec<u8> = (0..tau).map(|e| (number >> (4 * e)) as u8 & 15).collect();
            assert_eq!(verify_at(&case, &delta, &proof), Answer::Accepted);
        }
    }
}

/// "Degree 4 uses GF(16), modulus X^4+X+1": X·X³ = X+1, and what follows.
#[test]
fn products_over_gf16() {
    for (a, b, product) in [
        (2, 8, 3),
        (2, 9, 1),
        (8, 8, 12),
        (4, 4, 3),
        (7, 6, 1),
        (15, 15, 10),
        (0, 15, 0),
        (1, 15, 15),
    ] {
        assert_eq!(GF16.mul(a, b), product);
        assert_eq!(GF16.mul(b, a), product);
    }
    let powers: Vec<u8> = (0..4).map(|s| GF16.alpha_to(s)).collect();
    assert_eq!(powers, [1, 2, 4, 8]);
    assert_eq!(GF16.alpha_to(15), 1);
}

#[test]
fn many_random_shapes() {
    for (degree, alphabet) in SETTINGS {
        many_random_shapes_at(degree, alphabet);
    }
}

fn many_random_shapes_at(degree: u32, alphabet: u32) {
    for seed in 0..40u64 {
        let n = 1 + (seed * 7 % 20) as usize;
        let m = 1 + (seed * 5 % 13) as usize;
        let tau = 1 + (seed % 5) as usize;
        let t = 1 + (seed * 3 % 19) as usize;
        let case = case(seed, n, m, tau, t, degree, alphabet);
        let proof = proof_of(&case);
        assert_eq!(verify_at(&case, &case.delta, &proof), Answer::Accepted);
        // The candidate of an honest proof is the witness in every repetition.
        let key = case.read_key();
        let read = sections(&case.shape, &proof).unwrap();
        for e in 0..tau {
            let x = candidate(&case.shape, e, &case.leaves, &read);
            assert_eq!(pack(&case.shape.symbols, &x), case.witness);
            assert_eq!(batched_error(&key, &x, case.shape.column(&case.chi, e)), 0);
        }
    }
}

#[test]
fn three_steps_are_the_whole() {
    for (degree, alphabet) in SETTINGS {
        three_steps_at(degree, alphabet);
    }
}

fn three_steps_at(degree: u32, alphabet: u32) {
    for seed in 100..120u64 {
        let case = case(
            seed,
            1 + (seed % 17) as usize,
            1 + (seed % 6) as usize,
            1 + (seed % 4) as usize,
            1 + (seed % 11) as usize,
            degree,
            alphabet,
        );
        let mut first = vec![0xEE; case.shape.commit_length()];
        let mut second = vec![0xEE; case.shape.hash_length()];
        let mut third = vec![0xEE; case.shape.batch_length()];
        assert_eq!(
            commit(
                &case.key,
                degree,
                alphabet,
                &case.leaves,
                &case.witness,
                &mut first
            ),
            Answer::Accepted
        );
        assert_eq!(
            hash(
                &case.key,
                degree,
                alphabet,
                &case.leaves,
                &case.h,
                &mut second
            ),
            Answer::Accepted
        );
        assert_eq!(
            batch(
                &case.key,
                degree,
                alphabet,
                &case.leaves,
                &case.witness,
                &case.chi,
                &mut third
            ),
            Answer::Accepted
        );
        assert_eq!([first, second, third].concat(), proof_of(&case));
    }
}

#[test]
fn x_squared_coefficient_is_0_for_a_solution() {
    for alphabet in [2, 4] {
        let case = case(7, 12, 9, 1, 3, 8, alphabet);
        let key = case.read_key();
        let x = unpack(&case.shape.symbols, &case.witness, 12);
        let v_0 = leaves::v(&case.shape, &case.leaves, 0);
        for i in 0..9 {
            assert_eq!(coefficients(&key, i, &v_0, &x)[2], 0);
        }
    }
}

/// The expansion against its definition: a₀ + a₁·X + a₂·X² at every X in K equals
/// (v+Xx)ᵀA_i·(v+Xx) + X·(b_i·(v+Xx)) + y_i·X², for any v and any x.
#[test]
fn the_expansion_is_right_at_every_point() {
    expansion_at(2);
    expansion_at(4);
}

fn expansion_at(alphabet: u32) {
    let case = case(8, 6, 4, 1, 1, 8, alphabet);
    let key = case.read_key();
    let v_0 = &leaves::v(&case.shape, &case.leaves, 0)[..6];
    for number in 0..64u8 {
        // Symbols of all kinds among them.
        let bytes = [number, (number ^ 0x2D) & 0x0F];
        let x = unpack(&case.shape.symbols, &bytes, 6);
        for i in 0..4 {
            let [a_0, a_1, a_2] = coefficients(&key, i, v_0, &x);
            for point in 0..=255u8 {
                let square = GF256.mul(point, point);
                let at: Vec<u8> = (0..6).map(|c| v_0[c] ^ GF256.mul(point, x[c])).collect();
                let expected = key.a_form(i, &at, &at)
                    ^ GF256.mul(point, key.b_form(i, &at))
                    ^ GF256.mul(square, key.y_entry(i));
                assert_eq!(
                    a_0 ^ GF256.mul(a_1, point) ^ GF256.mul(a_2, square),
                    expected
                );
            }
        }
    }
}

/// The field: every law a product must have, in both fields.
#[test]
fn products_are_a_field() {
    for field in [GF256, GF16] {
        let elements: Vec<u8> = (0..field.size).map(|element| element as u8).collect();
        for &a in &elements {
            assert_eq!(field.mul(a, 1), a);
            let inverses = elements.iter().filter(|&&b| field.mul(a, b) == 1).count();
            assert_eq!(inverses, if a == 0 { 0 } else { 1 });
            for &b in &elements {
                assert!((field.mul(a, b) as usize) < field.size);
                assert_eq!(field.mul(a, b), field.mul(b, a));
                for c in [1, 2, 3, 7, 11] {
                    assert_eq!(field.mul(a, b ^ c), field.mul(a, b) ^ field.mul(a, c));
                    assert_eq!(field.mul(field.mul(a, b), c), field.mul(a, field.mul(b, c)));
                }
            }
        }
    }
}

/// Over GF(16) too an honest proof passes everywhere.
#[test]
fn honest_over_gf16() {
    for seed in 0..10 {
        let case = case_over(GF16, TWO, seed, 5, 3, 3, 4);
        let key = case.read_key();
        let proof = whole(&key, &case.leaves, &case.witness, &case.h, &case.chi);
        let read = sections(&case.shape, &proof).unwrap();
        assert_eq!(
            factors(&key, &case.h, &case.chi, &case.leaves, &read),
            [16, 16, 16]
        );
    }
}

/// "repetition e uses n+re up to n+re+r−1" (02): one mask coordinate of one leaf is changed, and QS0 and QS1 change
/// exactly where the equations say. A leaf of repetition 0 counts in u, which every A*₁ is taken from, and in v_0; any
/// other leaf in its own v_e alone.
#[test]
fn every_repetition_has_its_own_mask() {
    let case = case_over(GF256, TWO, 41, 4, 2, 3, 2);
    own_masks(&case);
    let case = case_over(GF16, TWO, 42, 4, 2, 3, 2);
    own_masks(&case);
    let case = case_over(GF256, FOUR, 43, 4, 2, 3, 2);
    own_masks(&case);
}

fn own_masks(case: &Case) {
    let (shape, field) = (case.shape, case.shape.field);
    // Coordinates of a repetition, coordinates in a byte, and what can be added to one of them: a number of bits, and
    // the element that it stands for.
    let (r, in_a_byte, changes): (usize, usize, &[(u8, u8)]) = match case.alphabet() {
        4 => (4, 4, &[(1, 0x01), (2, 0xBC), (3, 0xBD)]),
        _ => (field.degree, 8, &[(1, 0x01)]),
    };
    let key = case.read_key();
    let checks = |leaves: &[u8]| {
        let proof = whole(&key, leaves, &case.witness, &case.h, &case.chi);
        let read = sections(&shape, &proof).unwrap();
        [read.qs0.to_vec(), read.qs1.to_vec()]
    };
    let before = checks(&case.leaves);
    let places = (0..shape.tau).flat_map(|of| (0..r).map(move |s| (of, s)));
    let leaf = |e: usize, j: usize| (e * field.size + j) * shape.w();
    for ((of, s), &(bits, element)) in
        places.flat_map(|place| changes.iter().map(move |c| (place, c)))
    {
        let c = 4 + r * of + s;
        for e in 0..shape.tau {
            for j in [0, 1, 6, field.size - 1] {
                let mut leaves = case.leaves.clone();
                leaves[leaf(e, j) + c / in_a_byte] ^= bits << (8 / in_a_byte * (c % in_a_byte));
                let [qs0, qs1] = checks(&leaves);
                let mut expected = before.clone();
                let by = field.mul(field.alpha_to(s), element);
                if of == e {
                    expected[0][e] ^= field.mul(by, j as u8);
                }
                if e == 0 {
                    expected[1][of] ^= by;
                }
                assert_eq!([qs0, qs1], expected);
            }
        }
    }
}

/// The lengths of 02: "k = n+rτ", and what follows from it.
#[test]
fn lengths_with_own_masks() {
    let largest = case_over(GF256, TWO, 1, 320, 1, 48, 288).shape;
    assert_eq!([largest.k(), largest.l(), largest.w()], [704, 992, 124]);
    assert_eq!(largest.leaves_length(), 48 * 256 * 124);
    assert_eq!(largest.opened_length(), 48 * 255 * 124);
    assert_eq!(largest.h_length(), 288 * 88);
    assert_eq!(
        largest.proof_sections(),
        [47 * 124, 40, 36, 48 * 288, 48, 48]
    );
    let toy = case_over(GF256, TWO, 1, 2, 1, 1, 1).shape;
    assert_eq!([toy.k(), toy.l(), toy.w()], [10, 11, 2]);
}

/// "16 leaves, 15 opened, four mask coordinates", by request 4 four for each repetition: k = n+4τ.
#[test]
fn lengths_at_degree_4() {
    let largest = Shape::new(320, 320, 48, 288, 4, 2);
    assert_eq!([largest.k(), largest.l(), largest.w()], [512, 800, 100]);
    assert_eq!(largest.leaves_length(), 48 * 16 * 100);
    assert_eq!(largest.opened_length(), 48 * 15 * 100);
    assert_eq!(largest.h_length(), 288 * 64);
    let fast = Shape::new(150, 150, 43, 144, 4, 2);
    assert_eq!([fast.k(), fast.l(), fast.w()], [322, 466, 59]);
    assert_eq!(fast.key_length(), 20 + 150 * 151 * 19 + 19);
    assert_eq!(fast.chi_length(), 43 * 150);
    assert_eq!(fast.commit_length(), 8 + 42 * 59 + 19);
    assert_eq!(fast.hash_length(), 8 + 18 + 43 * 144);
    assert_eq!(fast.batch_length(), 8 + 86);
    let steps = fast.commit_length() + fast.hash_length() + fast.batch_length();
    assert_eq!(fast.proof_length(), steps);
}

/// "The mask is four symbols for each repetition", k = n+4τ, and "every bit row of c entries becomes a symbol row of
/// ⌈c/4⌉ bytes" (02, request 11).
#[test]
fn lengths_at_alphabet_4() {
    let largest = Shape::new(320, 320, 48, 288, 8, 4);
    assert_eq!([largest.k(), largest.l(), largest.w()], [512, 800, 200]);
    assert_eq!(largest.leaves_length(), 48 * 256 * 200);
    assert_eq!(largest.opened_length(), 48 * 255 * 200);
    assert_eq!(largest.h_length(), 288 * 128);
    assert_eq!(largest.key_sections(), [320 * 320 * 80, 320 * 80, 80]);
    assert_eq!(
        largest.proof_sections(),
        [47 * 200, 80, 72, 48 * 288, 48, 48]
    );
    let partners = Shape::new(88, 88, 17, 72, 8, 4);
    assert_eq!([partners.k(), partners.l(), partners.w()], [156, 228, 57]);
    assert_eq!(partners.key_length(), 20 + 88 * 89 * 22 + 22);
    assert_eq!(
        [partners.witness_length(), partners.chi_length()],
        [22, 17 * 88]
    );
    assert_eq!(partners.h_length(), 72 * 39);
    assert_eq!(partners.commit_length(), 8 + 16 * 57 + 22);
    assert_eq!(partners.hash_length(), 8 + 18 + 17 * 72);
    assert_eq!(partners.batch_length(), 8 + 34);
}

/// Every length of a case is its shape's, at all settings.
#[test]
fn lengths_of_cases() {
    for (degree, alphabet) in SETTINGS {
        for seed in 0..12 {
            let case = case(seed, 1 + seed as usize, 9, 3, 5, degree, alphabet);
            let shape = case.shape;
            assert_eq!([shape.degree(), case.degree()], [degree; 2]);
            assert_eq!([shape.alphabet(), case.alphabet()], [alphabet; 2]);
            assert_eq!(case.key.len(), shape.key_length());
            assert_eq!(case.witness.len(), shape.witness_length());
            assert_eq!(case.leaves.len(), shape.leaves_length());
            assert_eq!(case.opened().len(), shape.opened_length());
            assert_eq!(case.h.len(), shape.h_length());
            assert_eq!(case.chi.len(), shape.chi_length());
            assert_eq!(case.delta.len(), shape.delta_length());
            assert_eq!(proof_of(&case).len(), shape.proof_length());
        }
    }
}

/// A correction in a mask that is not the repetition's own is seen by consistency alone: where H′ is 0 there, by
/// nothing.
#[test]
fn corrections_in_the_masks() {
    corrections_in_the_masks_at(2, 8, &[1]);
    corrections_in_the_masks_at(4, 4, &[1, 2, 3]);
}

/// With so many coordinates of a repetition, which are as many as in a byte, and these to be added to each.
fn corrections_in_the_masks_at(alphabet: u32, r: usize, changes: &[u8]) {
    let mut case = case(43, 4, 2, 3, 2, 8, alphabet);
    case.h.fill(0);
    case.delta = vec![0x35, 0xC2, 0x01];
    let proof = proof_of(&case);
    for e in 1..3 {
        for of in 0..3 {
            for s in 0..r {
                for change in changes {
                    let c = 4 + r * of + s;
                    let at = 4 + (e - 1) * case.shape.w() + c / r;
                    let changed = flip(&proof, at, change << (8 / r * (c % r)));
                    let expected = if of == e {
                        Answer::Refused {
                            number: 15,
                            place: e as u32,
                        }
                    } else {
                        Answer::Accepted
                    };
                    assert_eq!(verify_at(&case, &case.delta, &changed), expected);
                }
            }
        }
    }
}

fn flip(proof: &[u8], at: usize, with: u8) -> Vec<u8> {
    let mut changed = proof.to_vec();
    changed[at] ^= with;
    changed
}

/// Where the sections of a proof start, past their counts.
fn starts(shape: &Shape) -> [usize; 6] {
    let mut starts = [0; 6];
    let mut at = 0;
    for (number, length) in shape.proof_sections().iter().enumerate() {
        starts[number] = at + 4;
        at += 4 + length;
    }
    starts
}

fn factors_of(case: &Case, proof: &[u8]) -> Vec<usize> {
    let read: Proof = sections(&case.shape, proof).unwrap();
    factors(&case.read_key(), &case.h, &case.chi, &case.leaves, &read)
}

/// "Counted are all Δ of τ bytes at which the verifier's call answers accepted": with one
/// repetition the count, by the call itself, is the factor.
#[test]
fn the_count_is_the_factor_for_one_repetition() {
    for (seed, alphabet) in (0..12u64).flat_map(|seed| [(seed, 2), (seed, 4)]) {
        let case = case(seed, 3, 2, 1, 2, 8, alphabet);
        let honest = proof_of(&case);
        let starts = starts(&case.shape);
        for (at, with) in [
            (starts[1], 1),
            (starts[1], if alphabet == 4 { 0x38 } else { 6 }),
            (starts[2], 1),
            (starts[3], 9),
            (starts[4], 1),
            (starts[5], 0x80),
        ] {
            let changed = flip(&honest, at, with);
            let accepted = |delta: &u8| verify_at(&case, &[*delta], &changed) == Answer::Accepted;
            let count = (0..=255).filter(accepted).count();
            assert_eq!(factors_of(&case, &changed), [count]);
        }
    }
}

/// With two repetitions the count, by the call itself over all 65,536 Δ, is the product of the
/// factors.
#[test]
fn the_count_is_the_product_for_two_repetitions() {
    the_count_is_the_product_at(2);
    the_count_is_the_product_at(4);
}

fn the_count_is_the_product_at(alphabet: u32) {
    // A wrong witness, each QS1 moved: at most two Δ_e pass in each repetition.
    let case = case(21, 2, 1, 2, 1, 8, alphabet);
    let honest = proof_of(&case);
    let starts = starts(&case.shape);
    let forged = flip(&flip(&honest, starts[1], 1), starts[5], 0x35);
    let factors = factors_of(&case, &forged);
    let key = case.read_key();
    let read = sections(&case.shape, &forged).unwrap();
    let lists: Vec<Vec<u8>> = (0..2)
        .map(|e| passing(&key, e, &case.h, &case.chi, &case.leaves, &read))
        .collect();
    let mut count = 0;
    for delta_0 in 0..=255u8 {
        for delta_1 in 0..=255u8 {
            let accepted = verify_at(&case, &[delta_0, delta_1], &forged) == Answer::Accepted;
            let expected = lists[0].contains(&delta_0) && lists[1].contains(&delta_1);
            assert_eq!(accepted, expected);
            if accepted {
                count += 1;
            }
        }
    }
    assert_eq!(count, factors[0] * factors[1]);
}

/// "at degree 4 each factor is 0, 1, 2 or 16" (02, request 3): every change of one byte, and the count by
/// the call itself over all 16 Δ. All four occur.
#[test]
fn factors_at_degree_4() {
    let mut seen = [0; 17];
    for seed in 0..6u64 {
        let case = case(seed, 3, 2, 1, 2, 4, 2);
        let honest = proof_of(&case);
        let starts = starts(&case.shape);
        for (section, highest) in [(1, 8), (2, 4), (3, 16), (4, 16), (5, 16)] {
            for with in 0..highest {
                let changed = flip(&honest, starts[section], with);
                let accepted =
                    |delta: &u8| verify_at(&case, &[*delta], &changed) == Answer::Accepted;
                let count = (0..16).filter(accepted).count();
                assert_eq!(factors_of(&case, &changed), [count]);
                seen[count] += 1;
            }
        }
    }
    for (count, times) in seen.iter().enumerate() {
        assert_eq!([0, 1, 2, 16].contains(&count), *times > 0, "{count}");
    }
}

/// A doctored proof at degree 4: the key with one bit of y changed, so that the witness fails, bytes honest
/// otherwise, QS1 changed by f. With g the χ of that equation, QS1's change leaves g·Δ² + f·Δ = 0:
/// accepted at exactly the two challenges 0 and f/g.
#[test]
fn doctored_at_degree_4() {
    let case = case(5, 4, 2, 1, 3, 4, 2);
    let honest = proof_of(&case);
    let g = case.chi[1];
    assert_ne!(g, 0);
    let mut doctored = case.clone();
    *doctored.key.last_mut().unwrap() ^= 0b10;
    let refused = Answer::Refused {
        number: 11,
        place: 1,
    };
    assert_eq!(test(&doctored.key, 4, 2, &case.witness), refused);
    let qs1 = starts(&case.shape)[5];
    for f in 1..16 {
        let changed = flip(&honest, qs1, f);
        let accepted: Vec<u8> = (0..16)
            .filter(|delta| verify_at(&doctored, &[*delta], &changed) == Answer::Accepted)
            .collect();
        assert_eq!(accepted.len(), 2);
        assert_eq!(accepted[0], 0);
        assert_eq!(GF16.mul(g, accepted[1]), f);
    }
}

/// "the counts of accepted challenges and columns are as at degree 8" (02, request 11): each factor is 0, 1, 2 or 256
/// with four symbols, and all occur.
#[test]
fn factors_at_alphabet_4() {
    let mut seen = Vec::new();
    for seed in 0..3u64 {
        let case = case(seed, 3, 2, 1, 2, 8, 4);
        let honest = proof_of(&case);
        let starts = starts(&case.shape);
        for (section, highest) in [(1, 64), (2, 16), (3, 16), (4, 16), (5, 16)] {
            for with in 0..highest {
                seen.extend(factors_of(&case, &flip(&honest, starts[section], with)));
            }
        }
    }
    seen.sort();
    seen.dedup();
    assert_eq!(seen, [0, 1, 2, 256]);
}

/// A doctored proof at alphabet 4: y_1 of the key changed by each symbol z, so that the witness fails, bytes honest
/// otherwise, QS1 changed by f. With g the χ of that equation what is left is g·z·Δ² + f·Δ = 0: accepted at exactly 0
/// and f/(g·z). The batched error is g·z.
#[test]
fn doctored_at_alphabet_4() {
    let case = case(5, 5, 2, 1, 3, 8, 4);
    let honest = proof_of(&case);
    let g = case.chi[1];
    assert_ne!(g, 0);
    let qs1 = starts(&case.shape)[5];
    for (symbol, z) in [(1u8, 0x01), (2, 0xBC), (3, 0xBD)] {
        let mut doctored = case.clone();
        *doctored.key.last_mut().unwrap() ^= symbol << 2;
        let refused = Answer::Refused {
            number: 11,
            place: 1,
        };
        assert_eq!(test(&doctored.key, 8, 4, &case.witness), refused);
        for f in [0x01, 0x02, 0x5B, 0xBC, 0xFF] {
            let changed = flip(&honest, qs1, f);
            let accepted: Vec<u8> = (0..=255)
                .filter(|delta| verify_at(&doctored, &[*delta], &changed) == Answer::Accepted)
                .collect();
            assert_eq!(accepted.len(), 2);
            assert_eq!(accepted[0], 0);
            assert_eq!(GF256.mul(GF256.mul(g, z), accepted[1]), f);
            let read = sections(&case.shape, &changed).unwrap();
            let x = candidate(&case.shape, 0, &case.leaves, &read);
            let error = batched_error(&doctored.read_key(), &x, &case.chi);
            assert_eq!(error, GF256.mul(g, z));
        }
    }
}

/// With a candidate whose batched error is not 0, and consistency holding everywhere, no QS0 and
/// QS1 let more than two elements pass.
#[test]
fn at_most_two_for_a_batched_error() {
    at_most_two_at(8, 2, 29);
    at_most_two_at(4, 2, 2);
    at_most_two_at(8, 4, 29);
}

fn at_most_two_at(degree: u32, alphabet: u32, step: u8) {
    for seed in 0..30u64 {
        let case = case(seed, 4, 3, 2, 2, degree, alphabet);
        let starts = starts(&case.shape);
        let with = 1 + (seed % 15) as u8;
        // Four symbols fill the byte of d.
        let with = if alphabet == 4 { with * 17 } else { with };
        let forged = flip(&proof_of(&case), starts[1], with);
        let key = case.read_key();
        let read = sections(&case.shape, &forged).unwrap();
        for e in 0..2 {
            let x = candidate(&case.shape, e, &case.leaves, &read);
            let error = batched_error(&key, &x, case.shape.column(&case.chi, e));
            for qs1 in 0..8 {
                let moved = flip(&forged, starts[5] + e, qs1 * step);
                let factor = factors_of(&case, &moved)[e];
                if error != 0 {
                    assert!(factor <= 2);
                }
            }
        }
    }
}
