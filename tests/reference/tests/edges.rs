//! Edges of the ranges: n = 320, 321, 0, m = 320, 321, t = 288, 289, 0 and τ = 48, 49, 0. m = 0 is taken, and has a
//! file of its own.

use reference::cases::{case, Case, SETTINGS};
use reference::strings::write_section;
use reference::*;

fn whole_proof(case: &Case) {
    assert_eq!(
        test(&case.key, case.degree(), case.alphabet(), &case.witness),
        Answer::Accepted
    );
    let mut proof = vec![0; case.proof_length()];
    assert_eq!(
        prove(
            &case.key,
            case.degree(),
            case.alphabet(),
            &case.leaves,
            &case.witness,
            &case.h,
            &case.chi,
            &mut proof
        ),
        Answer::Accepted
    );
    assert_eq!(
        verify(
            &case.key,
            case.degree(),
            case.alphabet(),
            &case.delta,
            &case.h,
            &case.chi,
            &case.opened(),
            &proof
        ),
        Answer::Accepted
    );
}

#[test]
fn taken_at_the_highest() {
    for (degree, alphabet) in SETTINGS {
        whole_proof(&case(1, 320, 2, 2, 3, degree, alphabet));
        whole_proof(&case(2, 3, 320, 2, 3, degree, alphabet));
        whole_proof(&case(3, 3, 2, 48, 3, degree, alphabet));
        whole_proof(&case(4, 3, 2, 2, 288, degree, alphabet));
        whole_proof(&case(5, 1, 1, 1, 1, degree, alphabet));
    }
    whole_proof(&case(6, 160, 160, 48, 160, 8, 2));
    whole_proof(&case(7, 320, 320, 2, 288, 8, 2));
}

/// "sixteen leaves per tree: 150 variables, 43 repetitions (document 003)" (02, request 3).
#[test]
fn the_fast_set() {
    whole_proof(&case(8, 150, 150, 43, 144, 4, 2));
}

/// "document 003's set over GF(4) with 88 variables and 17 repetitions" (02, request 11). 003 asks t for 4^-t = 2^-144.
#[test]
fn the_four_valued_set() {
    whole_proof(&case(8, 88, 88, 17, 72, 8, 4));
}

/// All limits but m, of four symbols: the longest leaves, of 200 bytes.
#[test]
fn the_longest_leaves() {
    let case = case(12, 320, 1, 48, 288, 8, 4);
    assert_eq!(case.shape.w(), 200);
    whole_proof(&case);
}

/// "every key served before gets the same replies", and those past the limits of 01 go on to the other questions: a
/// header alone is refused 3.
#[test]
fn headers_alone() {
    for (place, lowest, highest) in [(0, 1, 320), (1, 0, 320), (2, 1, 48), (3, 1, 288)] {
        for number in [0, 1, 47, 160, 161, 255, 256, 257, highest, highest + 1] {
            for (degree, alphabet) in SETTINGS {
                let taken = (lowest..=highest).contains(&number);
                let answer = test(&with_number(place, number)[..8], degree, alphabet, &[0]);
                assert_eq!(word(answer), if taken { 3 } else { 2 } * 65_536);
            }
        }
    }
}

/// The key of a case, one number of its header replaced: "n, m, τ, t, two bytes each".
fn with_number(place: usize, number: usize) -> Vec<u8> {
    let mut key = case(9, 5, 3, 2, 4, 8, 2).key;
    key[2 * place] = (number % 256) as u8;
    key[2 * place + 1] = (number / 256) as u8;
    key
}

#[test]
fn refused_2_outside() {
    for (degree, alphabet) in SETTINGS {
        refused_2_outside_at(degree, alphabet);
    }
}

fn refused_2_outside_at(degree: u32, alphabet: u32) {
    let refused_2 = Answer::Refused {
        number: 2,
        place: 0,
    };
    for (place, highest) in [(0, 320), (1, 320), (2, 48), (3, 288)] {
        for outside in [0, highest + 1, 512, 512 + 5, 65_535] {
            // "m = 0 is taken" (02, request 12).
            if [place, outside] == [1, 0] {
                continue;
            }
            assert_eq!(
                test(&with_number(place, outside), degree, alphabet, &[0]),
                refused_2
            );
            // Also where the whole key has the length of such a shape, and so only 2 is left.
            if outside == highest + 1 {
                let mut numbers = [5, 3, 2, 4];
                numbers[place] = outside;
                let larger = case(
                    9, numbers[0], numbers[1], numbers[2], numbers[3], degree, alphabet,
                );
                assert_eq!(
                    test(&larger.key, degree, alphabet, &larger.witness),
                    refused_2
                );
                let mut out = vec![0xEE; larger.proof_length()];
                let before = out.clone();
                assert_eq!(
                    prove(
                        &larger.key,
                        degree,
                        alphabet,
                        &larger.leaves,
                        &larger.witness,
                        &larger.h,
                        &larger.chi,
                        &mut out
                    ),
                    refused_2
                );
                assert_eq!(out, before);
                assert_eq!(
                    verify(
                        &larger.key,
                        degree,
                        alphabet,
                        &larger.delta,
                        &larger.h,
                        &larger.chi,
                        &larger.opened(),
                        &out
                    ),
                    refused_2
                );
            }
        }
    }
}

#[test]
fn refused_3_with_counts_up_to_the_highest() {
    for (degree, alphabet) in SETTINGS {
        refused_3_at(degree, alphabet);
    }
}

fn refused_3_at(degree: u32, alphabet: u32) {
    let case = case(9, 5, 3, 2, 4, degree, alphabet);
    let refused_3 = Answer::Refused {
        number: 3,
        place: 0,
    };
    let lengths = case.shape.key_sections();
    let places = [8, 12 + lengths[0], 16 + lengths[0] + lengths[1]];
    for place in places {
        for count in [0, 1, 0x7FFF_FFFFu32, 0x8000_0000, 0xFFFF_FFFE, 0xFFFF_FFFF] {
            let mut key = case.key.clone();
            let right = key[place..place + 4].to_vec();
            key[place..place + 4].copy_from_slice(&count.to_le_bytes());
            if key[place..place + 4] != right {
                assert_eq!(
                    test(&key, case.degree(), case.alphabet(), &case.witness),
                    refused_3
                );
            }
        }
    }
    // Every cut past the header, and a byte more.
    for length in 8..case.key.len() {
        assert_eq!(
            test(
                &case.key[..length],
                case.degree(),
                case.alphabet(),
                &case.witness
            ),
            refused_3
        );
    }
    let mut longer = case.key.clone();
    longer.push(0);
    assert_eq!(
        test(&longer, case.degree(), case.alphabet(), &case.witness),
        refused_3
    );
    // The same in the proof: 12.
    let mut proof = vec![0; case.proof_length()];
    assert_eq!(
        prove(
            &case.key,
            case.degree(),
            case.alphabet(),
            &case.leaves,
            &case.witness,
            &case.h,
            &case.chi,
            &mut proof
        ),
        Answer::Accepted
    );
    let opened = case.opened();
    let at = |proof: &[u8]| {
        verify(
            &case.key,
            case.degree(),
            case.alphabet(),
            &case.delta,
            &case.h,
            &case.chi,
            &opened,
            proof,
        )
    };
    let refused_12 = Answer::Refused {
        number: 12,
        place: 0,
    };
    assert_eq!(at(&proof), Answer::Accepted);
    for length in 0..proof.len() {
        assert_eq!(at(&proof[..length]), refused_12);
    }
    let mut place = 0;
    for length in case.shape.proof_sections() {
        for byte in 0..4 {
            for with in [0x01, 0x80, 0xFF] {
                let mut changed = proof.clone();
                changed[place + byte] ^= with;
                assert_eq!(at(&changed), refused_12);
            }
        }
        place += 4 + length;
    }
    proof.push(0);
    assert_eq!(at(&proof), refused_12);
}

/// Sections that agree with their own counts, but not with the shape: one section a byte shorter
/// or longer, and also the next one longer or shorter by a byte, so that the whole length is right.
#[test]
fn refused_3_and_12_with_counts_that_fit_the_bytes() {
    for (degree, alphabet) in SETTINGS {
        refused_3_and_12_at(degree, alphabet);
    }
}

fn refused_3_and_12_at(degree: u32, alphabet: u32) {
    let case = case(10, 5, 3, 2, 4, degree, alphabet);
    let mut proof = vec![0; case.proof_length()];
    assert_eq!(
        prove(
            &case.key,
            case.degree(),
            case.alphabet(),
            &case.leaves,
            &case.witness,
            &case.h,
            &case.chi,
            &mut proof
        ),
        Answer::Accepted
    );
    let opened = case.opened();

    for lengths in other_lengths(&case.shape.key_sections()) {
        let mut key = case.key[..8].to_vec();
        for length in lengths {
            write_section(&mut key, &vec![0; length]);
        }
        assert_eq!(
            word(test(&key, case.degree(), case.alphabet(), &case.witness)),
            3 * 65_536
        );
    }
    for lengths in other_lengths(&case.shape.proof_sections()) {
        let mut other = Vec::new();
        for length in lengths {
            write_section(&mut other, &vec![0; length]);
        }
        let answer = verify(
            &case.key,
            case.degree(),
            case.alphabet(),
            &case.delta,
            &case.h,
            &case.chi,
            &opened,
            &other,
        );
        assert_eq!(word(answer), 12 * 65_536);
    }
}

fn other_lengths(right: &[usize]) -> Vec<Vec<usize>> {
    let mut found = Vec::new();
    for section in 0..right.len() {
        let mut shorter = right.to_vec();
        shorter[section] -= 1;
        found.push(shorter.clone());
        let mut longer = right.to_vec();
        longer[section] += 1;
        found.push(longer.clone());
        if section + 1 < right.len() {
            shorter[section + 1] += 1;
            longer[section + 1] -= 1;
            found.push(shorter);
            found.push(longer);
        }
    }
    found
}

/// "matrix 0 row 0 first": the form of one bit alone. Answers cannot show a transposed A_i, since
/// xᵀA_i·x is also xᵀA_iᵀ·x; this does. With four symbols too.
#[test]
fn rows_and_columns_of_a() {
    for (degree, alphabet) in SETTINGS {
        rows_and_columns_of_a_at(degree, alphabet);
    }
}

fn rows_and_columns_of_a_at(degree: u32, alphabet: u32) {
    let case = case(11, 10, 3, 1, 1, degree, alphabet);
    let key = case.read_key();
    let unit = |place: usize| -> Vec<u8> { (0..10).map(|c| (c == place) as u8).collect() };
    for i in 0..3 {
        for row in 0..10 {
            for column in 0..10 {
                let entry = if alphabet == 4 {
                    let byte = key.a[(i * 10 + row) * 3 + column / 4];
                    [0x00, 0x01, 0xBC, 0xBD][(byte >> (2 * (column % 4))) as usize & 3]
                } else {
                    let byte = key.a[(i * 10 + row) * 2 + column / 8];
                    (byte >> (column % 8)) & 1
                };
                assert_eq!(key.a_form(i, &unit(row), &unit(column)), entry);
                assert_eq!(key.a_entry(i, row, column), entry);
            }
        }
    }
}
