//! "Questions put to each call": the questions in order, and the calls over byte slices.
//!
//! "Each call puts those that concern its inputs, in this order. A no ends the call with that
//! number."
//!
//! 02 (request 3) adds 16, "first of all questions", 17, "after 6", and 18, "after 13"; and request 11 adds 24, "after
//! 16", and so before 1. Request 6 adds a second form of each call that takes leaves, with salt and seeds in their
//! place.

use crate::alphabet::Alphabet;
use crate::field::Field;
use crate::key::{has_header, header, sections as key_sections, Key, Shape};
use crate::leaves::opened_of;
use crate::prover::{first_step, second_step, third_step, whole};
use crate::seeds::{leaves_of_seeds, opened_leaves_of_seeds, SALT_LENGTH};
use crate::strings::{spare_bits_are_0, unpack};
use crate::verifier::{consistency, product_check, sections as proof_sections, Proof};
use std::borrow::Cow;

/// "An answer is accepted, or refused with a number and a place held together".
#[derive(Clone, Copy, Debug, PartialEq, Eq)]
pub enum Answer {
    Accepted,
    Refused { number: u32, place: u32 },
}

/// "it receives number × 65,536 + place, 0 for accepted."
pub fn word(answer: Answer) -> u32 {
    match answer {
        Answer::Accepted => 0,
        Answer::Refused { number, place } => number * 65_536 + place,
    }
}

/// "A no ends the call with that number."; "the place is 0 for numbers 1 to 10, 12 and 13.", and from
/// 02: "The place is 0 for these and every later number."
fn question(number: u32, yes: bool) -> Result<(), Answer> {
    question_with_place(number, yes, 0)
}

/// A question whose no also carries a place: "refused with a number and a place held together".
fn question_with_place(number: u32, yes: bool, place: usize) -> Result<(), Answer> {
    if yes {
        Ok(())
    } else {
        Err(Answer::Refused {
            number,
            place: place as u32,
        })
    }
}

/// From 02 (request 3): "Refused: 16, degree neither 8 nor 4, first of all questions".
fn question_16(degree: u32) -> Result<Field, Answer> {
    let found = Field::of_degree(degree);
    question(16, found.is_some())?;
    Ok(found.unwrap())
}

/// From 02 (request 11): "Refused: 24, an alphabet neither 2 nor 4, or 4 with degree 4, after 16."
fn question_24(field: &Field, alphabet: u32) -> Result<Alphabet, Answer> {
    let found = Alphabet::beside(field, alphabet);
    question(24, found.is_some())?;
    Ok(found.unwrap())
}

/// 16 and 24, and then
/// "1. Has the key at least the 8 bytes of its header? 1
/// 2. Are n, m, τ, t in range? 2
/// 3. Are all counts and the key's length exact? 3
/// 4. Are the key's spare bits 0? 4"
fn questions_of_the_key(bytes: &[u8], degree: u32, alphabet: u32) -> Result<Key<'_>, Answer> {
    let field = question_16(degree)?;
    let symbols = question_24(&field, alphabet)?;
    question(1, has_header(bytes))?;
    let shape = header(field, symbols, bytes);
    question(2, shape.in_range())?;
    let found = key_sections(shape, bytes);
    question(3, found.is_some())?;
    let key = found.unwrap();
    question(4, key.spare_bits_are_0())?;
    Ok(key)
}

/// "6. Are the spare bits of H′ 0? 6"
fn question_6(shape: &Shape, h: &[u8]) -> Result<(), Answer> {
    question(6, spare_bits_are_0(&shape.symbols, h, shape.k()))
}

/// From 02 (request 3): "17, a byte of Δ or χ above 15 at degree 4, after 6". Where no H′ is taken 6 is
/// not put, and 17 comes after 5. The bytes are those of Δ, of χ or of both, as the call takes them.
fn question_17(shape: &Shape, challenges: &[&[u8]]) -> Result<(), Answer> {
    question(
        17,
        challenges.iter().all(|bytes| shape.field.has_all(bytes)),
    )
}

/// "7. Have the leaves their exact length? 7
/// 8. Are their spare bits 0? 8"
///
/// The length is that of full leaves for the prover's calls, of opened leaves for the verifier's.
fn questions_7_and_8(shape: &Shape, leaves: &[u8], length: usize) -> Result<(), Answer> {
    question(7, leaves.len() == length)?;
    question(8, spare_bits_are_0(&shape.symbols, leaves, shape.l()))
}

/// From 02 (request 6): "A salt or seed list of wrong length is refused 7." It is one question of both. 8 is not put:
/// the leaves have their "spare bits then cleared".
fn question_7_of_seeds(salt: &[u8], seeds: &[u8], length: usize) -> Result<(), Answer> {
    question(7, salt.len() == SALT_LENGTH && seeds.len() == length)
}

/// What is lent for leaves: "Expanded leaves may still be lent" (02, request 6). Either is full for the prover's calls,
/// opened for the verifier's.
#[derive(Clone, Copy)]
enum Lent<'a> {
    Leaves(&'a [u8]),
    Seeds { salt: &'a [u8], seeds: &'a [u8] },
}

/// 7 and 8 of what is lent to the prover's calls, and then the full leaves.
fn full_leaves<'a>(shape: &Shape, lent: Lent<'a>) -> Result<Cow<'a, [u8]>, Answer> {
    match lent {
        Lent::Leaves(leaves) => {
            questions_7_and_8(shape, leaves, shape.leaves_length())?;
            Ok(Cow::Borrowed(leaves))
        }
        Lent::Seeds { salt, seeds } => {
            question_7_of_seeds(salt, seeds, shape.seeds_length())?;
            Ok(Cow::Owned(leaves_of_seeds(shape, salt, seeds)))
        }
    }
}

/// 7 and 8 of what is lent to the verifier's call, and then the leaves opened at Δ.
fn opened_leaves<'a>(shape: &Shape, lent: Lent<'a>, delta: &[u8]) -> Result<Cow<'a, [u8]>, Answer> {
    match lent {
        Lent::Leaves(opened) => {
            questions_7_and_8(shape, opened, shape.opened_length())?;
            Ok(Cow::Borrowed(opened))
        }
        Lent::Seeds { salt, seeds } => {
            question_7_of_seeds(salt, seeds, shape.opened_seeds_length())?;
            let opened = opened_leaves_of_seeds(shape, salt, seeds, delta);
            Ok(Cow::Owned(opened))
        }
    }
}

/// "9. Has the witness ⌈n/8⌉ bytes, spare bits 0? 9"
fn question_9(shape: &Shape, witness: &[u8]) -> Result<(), Answer> {
    question(
        9,
        witness.len() == shape.witness_length()
            && spare_bits_are_0(&shape.symbols, witness, shape.n),
    )
}

/// "10. Has the output exactly the length to be written? 10"
///
/// What is to be written are the given sections, "each after its four-byte count".
fn question_10(out: &[u8], lengths: &[usize]) -> Result<(), Answer> {
    let mut to_be_written = 0;
    for length in lengths {
        to_be_written += 4 + length;
    }
    question(10, out.len() == to_be_written)
}

/// "11. Does the witness solve the system? 11", and from 02: "Refusal 11 now names the
/// lowest-numbered failing equation, in the test call and every prover call that takes a witness."
fn question_11(key: &Key, witness: &[u8]) -> Result<(), Answer> {
    let x = unpack(&key.shape.symbols, witness, key.shape.n);
    match key.first_failing(&x) {
        None => Ok(()),
        Some(lowest) => question_with_place(11, false, lowest),
    }
}

/// "12. Are the proof's counts and length exact? 12
/// 13. Are the spare bits of C, d, ũ 0? 13"
fn questions_12_and_13<'a>(shape: &Shape, bytes: &'a [u8]) -> Result<Proof<'a>, Answer> {
    let found = proof_sections(shape, bytes);
    question(12, found.is_some())?;
    let proof = found.unwrap();
    question(13, proof.spare_bits_are_0(shape))?;
    Ok(proof)
}

/// From 02 (request 3): "18, a byte of Ṽ, QS0 or QS1 above 15 at degree 4, after 13."
fn question_18(shape: &Shape, proof: &Proof) -> Result<(), Answer> {
    let sections = [proof.v_tilde, proof.qs0, proof.qs1];
    question(18, sections.iter().all(|bytes| shape.field.has_all(bytes)))
}

/// "14. Does consistency hold in every repetition? 14, with the first e where not
/// 15. Does the product check hold in every repetition? 15, with the first e where not"
///
/// 14 of all repetitions before 15 of any.
pub fn questions_14_and_15(
    key: &Key,
    delta: &[u8],
    h: &[u8],
    chi: &[u8],
    opened: &[u8],
    proof: &Proof,
) -> Result<(), Answer> {
    let shape = &key.shape;
    for e in 0..shape.tau {
        let opened_e = opened_of(shape, opened, e);
        let holds = consistency(shape, e, delta[e], h, opened_e, proof);
        question_with_place(14, holds, e)?;
    }
    for e in 0..shape.tau {
        let opened_e = opened_of(shape, opened, e);
        let holds = product_check(key, e, delta[e], chi, opened_e, proof);
        question_with_place(15, holds, e)?;
    }
    Ok(())
}

/// "A refusal writes nothing." What is to be written is made whole first, and copied at the end.
fn write(result: Result<Vec<u8>, Answer>, out: &mut [u8]) -> Answer {
    match result {
        Ok(bytes) => {
            out.copy_from_slice(&bytes);
            Answer::Accepted
        }
        Err(refusal) => refusal,
    }
}

/// The answer of a call that writes nothing.
fn answer(result: Result<(), Answer>) -> Answer {
    match result {
        Ok(()) => Answer::Accepted,
        Err(refusal) => refusal,
    }
}

/// "A separate call tests a key and witness: questions 1 to 4, 9, 11." And 16 and 24 before them (02): the degree is
/// "passed beside the key in every call that takes one, the test call too", and the alphabet "beside the degree".
pub fn test(key: &[u8], degree: u32, alphabet: u32, witness: &[u8]) -> Answer {
    answer(tested(key, degree, alphabet, witness))
}

/// The questions of `test`, in order.
fn tested(key: &[u8], degree: u32, alphabet: u32, witness: &[u8]) -> Result<(), Answer> {
    let key = questions_of_the_key(key, degree, alphabet)?;
    question_9(&key.shape, witness)?;
    question_11(&key, witness)
}

/// The first step: "Three step calls write the first two ... sections. All take the key and full
/// leaves; the first also the witness". Questions 16, 24, 1 to 4, 7 to 11.
pub fn commit(
    key: &[u8],
    degree: u32,
    alphabet: u32,
    leaves: &[u8],
    witness: &[u8],
    out: &mut [u8],
) -> Answer {
    let result = committed(key, degree, alphabet, Lent::Leaves(leaves), witness, out);
    write(result, out)
}

/// The questions of `commit`, in order, and then the bytes to be written.
fn committed(
    key: &[u8],
    degree: u32,
    alphabet: u32,
    lent: Lent,
    witness: &[u8],
    out: &[u8],
) -> Result<Vec<u8>, Answer> {
    let key = questions_of_the_key(key, degree, alphabet)?;
    let shape = &key.shape;
    let leaves = full_leaves(shape, lent)?;
    question_9(shape, witness)?;
    question_10(out, &shape.proof_sections()[0..2])?;
    question_11(&key, witness)?;
    Ok(first_step(&key, &leaves, witness))
}

/// `commit` with salt and seeds "where `leaves` stood" (INTERFACE.md; 02, request 6). Questions 16, 24, 1 to 4, 7, 9 to
/// 11.
pub fn commit_seeds(
    key: &[u8],
    degree: u32,
    alphabet: u32,
    salt: &[u8],
    seeds: &[u8],
    witness: &[u8],
    out: &mut [u8],
) -> Answer {
    let lent = Lent::Seeds { salt, seeds };
    let result = committed(key, degree, alphabet, lent, witness, out);
    write(result, out)
}

/// The second step: "the middle two ... sections"; it takes "the key and full leaves; ... the
/// second H′". Questions 16, 24, 1 to 8, 10: it takes neither Δ nor χ, and so does not put 17.
pub fn hash(
    key: &[u8],
    degree: u32,
    alphabet: u32,
    leaves: &[u8],
    h: &[u8],
    out: &mut [u8],
) -> Answer {
    let result = hashed(key, degree, alphabet, Lent::Leaves(leaves), h, out);
    write(result, out)
}

/// The questions of `hash`, in order, and then the bytes to be written.
fn hashed(
    key: &[u8],
    degree: u32,
    alphabet: u32,
    lent: Lent,
    h: &[u8],
    out: &[u8],
) -> Result<Vec<u8>, Answer> {
    let key = questions_of_the_key(key, degree, alphabet)?;
    let shape = &key.shape;
    question(5, h.len() == shape.h_length())?;
    question_6(shape, h)?;
    let leaves = full_leaves(shape, lent)?;
    question_10(out, &shape.proof_sections()[2..4])?;
    Ok(second_step(&key, &leaves, h))
}

/// `hash` with salt and seeds (02, request 6). Questions 16, 24, 1 to 7, 10.
pub fn hash_seeds(
    key: &[u8],
    degree: u32,
    alphabet: u32,
    salt: &[u8],
    seeds: &[u8],
    h: &[u8],
    out: &mut [u8],
) -> Answer {
    let lent = Lent::Seeds { salt, seeds };
    let result = hashed(key, degree, alphabet, lent, h, out);
    write(result, out)
}

/// The third step: "the last two sections"; it takes "the key and full leaves; ... the third the
/// witness and χ." Questions 16, 24, 1 to 5, 17, 7 to 11.
pub fn batch(
    key: &[u8],
    degree: u32,
    alphabet: u32,
    leaves: &[u8],
    witness: &[u8],
    chi: &[u8],
    out: &mut [u8],
) -> Answer {
    let lent = Lent::Leaves(leaves);
    let result = batched(key, degree, alphabet, lent, witness, chi, out);
    write(result, out)
}

/// The questions of `batch`, in order, and then the bytes to be written.
fn batched(
    key: &[u8],
    degree: u32,
    alphabet: u32,
    lent: Lent,
    witness: &[u8],
    chi: &[u8],
    out: &[u8],
) -> Result<Vec<u8>, Answer> {
    let key = questions_of_the_key(key, degree, alphabet)?;
    let shape = &key.shape;
    question(5, chi.len() == shape.chi_length())?;
    question_17(shape, &[chi])?;
    let leaves = full_leaves(shape, lent)?;
    question_9(shape, witness)?;
    question_10(out, &shape.proof_sections()[4..6])?;
    question_11(&key, witness)?;
    Ok(third_step(&key, &leaves, witness, chi))
}

/// `batch` with salt and seeds (02, request 6). Questions 16, 24, 1 to 5, 17, 7, 9 to 11.
pub fn batch_seeds(
    key: &[u8],
    degree: u32,
    alphabet: u32,
    salt: &[u8],
    seeds: &[u8],
    witness: &[u8],
    chi: &[u8],
    out: &mut [u8],
) -> Answer {
    let lent = Lent::Seeds { salt, seeds };
    let result = batched(key, degree, alphabet, lent, witness, chi, out);
    write(result, out)
}

/// "A whole call takes all of these and writes all six, the same bytes." Questions 16, 24, 1 to 6, 17, 7 to 11.
pub fn prove(
    key: &[u8],
    degree: u32,
    alphabet: u32,
    leaves: &[u8],
    witness: &[u8],
    h: &[u8],
    chi: &[u8],
    out: &mut [u8],
) -> Answer {
    let lent = Lent::Leaves(leaves);
    let result = proved(key, degree, alphabet, lent, witness, h, chi, out);
    write(result, out)
}

/// The questions of `prove`, in order, and then the bytes to be written.
fn proved(
    key: &[u8],
    degree: u32,
    alphabet: u32,
    lent: Lent,
    witness: &[u8],
    h: &[u8],
    chi: &[u8],
    out: &[u8],
) -> Result<Vec<u8>, Answer> {
    let key = questions_of_the_key(key, degree, alphabet)?;
    let shape = &key.shape;
    question(
        5,
        h.len() == shape.h_length() && chi.len() == shape.chi_length(),
    )?;
    question_6(shape, h)?;
    question_17(shape, &[chi])?;
    let leaves = full_leaves(shape, lent)?;
    question_9(shape, witness)?;
    question_10(out, &shape.proof_sections())?;
    question_11(&key, witness)?;
    Ok(whole(&key, &leaves, witness, h, chi))
}

/// `prove` with salt and seeds (02, request 6). Questions 16, 24, 1 to 6, 17, 7, 9 to 11.
pub fn prove_seeds(
    key: &[u8],
    degree: u32,
    alphabet: u32,
    salt: &[u8],
    seeds: &[u8],
    witness: &[u8],
    h: &[u8],
    chi: &[u8],
    out: &mut [u8],
) -> Answer {
    let lent = Lent::Seeds { salt, seeds };
    let result = proved(key, degree, alphabet, lent, witness, h, chi, out);
    write(result, out)
}

/// "The verifier accepts only what is right, whoever wrote the proof." "The verifier never
/// writes." Questions 16, 24, 1 to 6, 17, 7, 8, 12, 13, 18, 14, 15.
pub fn verify(
    key: &[u8],
    degree: u32,
    alphabet: u32,
    delta: &[u8],
    h: &[u8],
    chi: &[u8],
    opened: &[u8],
    proof: &[u8],
) -> Answer {
    let lent = Lent::Leaves(opened);
    answer(verified(key, degree, alphabet, delta, h, chi, lent, proof))
}

/// The questions of `verify`, in order.
fn verified(
    key: &[u8],
    degree: u32,
    alphabet: u32,
    delta: &[u8],
    h: &[u8],
    chi: &[u8],
    lent: Lent,
    proof: &[u8],
) -> Result<(), Answer> {
    let key = questions_of_the_key(key, degree, alphabet)?;
    let shape = &key.shape;
    question(
        5,
        delta.len() == shape.delta_length()
            && h.len() == shape.h_length()
            && chi.len() == shape.chi_length(),
    )?;
    question_6(shape, h)?;
    question_17(shape, &[delta, chi])?;
    let opened = opened_leaves(shape, lent, delta)?;
    let proof = questions_12_and_13(shape, proof)?;
    question_18(shape, &proof)?;
    questions_14_and_15(&key, delta, h, chi, &opened, &proof)
}

/// `verify` with salt and opened seeds where the opened leaves stood (02, request 6). Questions 16, 24, 1 to 6, 17, 7,
/// 12, 13, 18, 14, 15.
pub fn verify_seeds(
    key: &[u8],
    degree: u32,
    alphabet: u32,
    delta: &[u8],
    h: &[u8],
    chi: &[u8],
    salt: &[u8],
    opened_seeds: &[u8],
    proof: &[u8],
) -> Answer {
    let seeds = opened_seeds;
    let lent = Lent::Seeds { salt, seeds };
    answer(verified(key, degree, alphabet, delta, h, chi, lent, proof))
}
