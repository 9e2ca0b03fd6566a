//! The toy of the scope paper, and what the calls answer where something is wrong with it. The library itself is tested
//! elsewhere: here it is seen that each call is lent its own inputs, in their order.

use super::*;
use crate::refusal::Reason;
use crate::size;

const EIGHT: Degree = Degree::Eight;
const KEY: [u8; 24] = [
    2, 0, 1, 0, 1, 0, 1, 0, 2, 0, 0, 0, 0x02, 0x00, 1, 0, 0, 0, 0x01, 1, 0, 0, 0, 0x01,
];
const WITNESS: [u8; 1] = [0x01];
const HASH_MATRIX: [u8; 2] = [0x05, 0x00];
const BATCHING: [u8; 1] = [0x05];
const DELTA: [u8; 1] = [0x02];
/// C with count 0, d, u~, V~, QS0, QS1.
const PROOF: [u8; 29] = [
    0, 0, 0, 0, 1, 0, 0, 0, 0x02, 1, 0, 0, 0, 0x01, 1, 0, 0, 0, 0x03, 1, 0, 0, 0, 0x1C, 1, 0, 0, 0,
    0x04,
];

fn leaves() -> Vec<u8> {
    let mut leaves = vec![0; 512];
    leaves[4..8].copy_from_slice(&[0x05, 0x00, 0x02, 0x04]);
    leaves
}

fn opened() -> Vec<u8> {
    let mut opened = leaves();
    opened.drain(4..6);
    opened
}

fn refused(answer: Answer) -> (Reason, u16) {
    let refusal = answer.unwrap_err();
    (refusal.reason, refusal.place)
}

#[test]
fn the_toy_is_proved_and_verified() {
    assert_eq!(test(&KEY, EIGHT, &WITNESS), Ok(()));
    let mut steps = [0; 29];
    let (first, rest) = steps.split_at_mut(size::commit(2, 1, 1, 1, EIGHT));
    let (second, third) = rest.split_at_mut(size::hash(2, 1, 1, 1, EIGHT));
    assert_eq!(third.len(), size::batch(2, 1, 1, 1, EIGHT));
    assert_eq!(commit(&KEY, EIGHT, &leaves(), &WITNESS, first), Ok(()));
    assert_eq!(hash(&KEY, EIGHT, &leaves(), &HASH_MATRIX, second), Ok(()));
    assert_eq!(
        batch(&KEY, EIGHT, &leaves(), &WITNESS, &BATCHING, third),
        Ok(())
    );
    assert_eq!(steps, PROOF);

    let mut whole = [0; 29];
    let answer = prove(
        &KEY,
        EIGHT,
        &leaves(),
        &WITNESS,
        &HASH_MATRIX,
        &BATCHING,
        &mut whole,
    );
    assert_eq!(answer, Ok(()));
    assert_eq!(whole, PROOF);
    let answer = verify(
        &KEY,
        EIGHT,
        &DELTA,
        &HASH_MATRIX,
        &BATCHING,
        &opened(),
        &PROOF,
    );
    assert_eq!(answer, Ok(()));
}

#[test]
fn a_forged_toy_is_refused() {
    let answer = |proof: &[u8]| {
        refused(verify(
            &KEY,
            EIGHT,
            &DELTA,
            &HASH_MATRIX,
            &BATCHING,
            &opened(),
            proof,
        ))
    };
    let mut forged = PROOF;
    forged[28] = 0x05;
    assert_eq!(answer(&forged), (Reason::ProductDiffers, 0));
    forged[13] = 0x00;
    assert_eq!(answer(&forged), (Reason::Inconsistent, 0));
    forged[8] |= 0x80;
    assert_eq!(answer(&forged), (Reason::ProofSpareBit, 0));
    assert_eq!(answer(&forged[..28]), (Reason::ProofLength, 0));
}

/// Each call with one input empty: the answer tells which one it was.
#[test]
fn empty_inputs_are_refused() {
    let leaves = leaves();
    let opened = opened();
    let out = &mut [0; 64];
    assert_eq!(refused(test(&[], EIGHT, &WITNESS)).0, Reason::ShortHeader);
    assert_eq!(refused(test(&KEY, EIGHT, &[])).0, Reason::WitnessForm);
    assert_eq!(
        refused(commit(&KEY, EIGHT, &[], &WITNESS, out)).0,
        Reason::LeafLength
    );
    assert_eq!(
        refused(commit(&KEY, EIGHT, &leaves, &[], out)).0,
        Reason::WitnessForm
    );
    assert_eq!(
        refused(commit(&KEY, EIGHT, &leaves, &WITNESS, &mut [])).0,
        Reason::OutputLength
    );
    assert_eq!(
        refused(hash(&KEY, EIGHT, &[], &HASH_MATRIX, out)).0,
        Reason::LeafLength
    );
    assert_eq!(
        refused(hash(&KEY, EIGHT, &leaves, &[], out)).0,
        Reason::ChallengeLength
    );
    assert_eq!(
        refused(batch(&KEY, EIGHT, &leaves, &WITNESS, &[], out)).0,
        Reason::ChallengeLength
    );
    assert_eq!(
        refused(prove(
            &KEY,
            EIGHT,
            &leaves,
            &WITNESS,
            &HASH_MATRIX,
            &[],
            out
        ))
        .0,
        Reason::ChallengeLength
    );
    assert_eq!(
        refused(verify(
            &KEY,
            EIGHT,
            &[],
            &HASH_MATRIX,
            &BATCHING,
            &opened,
            &PROOF
        ))
        .0,
        Reason::ChallengeLength
    );
    assert_eq!(
        refused(verify(
            &KEY,
            EIGHT,
            &DELTA,
            &HASH_MATRIX,
            &BATCHING,
            &[],
            &PROOF
        ))
        .0,
        Reason::LeafLength
    );
    assert_eq!(
        refused(verify(
            &KEY,
            EIGHT,
            &DELTA,
            &HASH_MATRIX,
            &BATCHING,
            &opened,
            &[]
        ))
        .0,
        Reason::ProofLength
    );
    assert_eq!(
        refused(verify(&[], EIGHT, &[], &[], &[], &[], &[])).0,
        Reason::ShortHeader
    );
}

#[test]
fn a_refused_call_leaves_the_output_as_it_was() {
    let mut out = [0xEE; 29];
    let answer = prove(
        &KEY,
        EIGHT,
        &leaves(),
        &[0x02],
        &HASH_MATRIX,
        &BATCHING,
        &mut out,
    );
    assert_eq!(refused(answer), (Reason::EquationFails, 0));
    assert_eq!(out, [0xEE; 29]);
}

#[test]
fn out_of_range_a_length_is_0() {
    assert_eq!(size::key(2, 1, 1, 1, EIGHT), KEY.len());
    assert_eq!(size::proof(320, 320, 48, 288, EIGHT), 19_848);
    assert_eq!(size::proof(320, 320, 48, 288, Degree::Four), 18_720);
    for [n, m, tau, t] in [
        [321, 320, 48, 288],
        [320, 321, 48, 288],
        [320, 320, 49, 288],
        [320, 320, 48, 289],
    ] {
        assert_eq!(size::proof(n, m, tau, t, EIGHT), 0);
        assert_eq!(size::proof(n, m, tau, t, Degree::Four), 0);
    }
    assert_eq!(size::key(0, 1, 1, 1, EIGHT), 0);
}

/// The toy at degree 4: leaves 3 and 9 are 25 and 4A, the others 0.
#[test]
fn the_toy_at_degree_4() {
    const FOUR: Degree = Degree::Four;
    let (hash_matrix, delta) = ([0x2D], [0x03]);
    let mut leaves = [0; 16];
    (leaves[3], leaves[9]) = (0x25, 0x4A);
    let mut opened = leaves.to_vec();
    opened.remove(3);
    assert_eq!(size::leaves(2, 1, 1, 1, FOUR), leaves.len());
    assert_eq!(size::opened(2, 1, 1, 1, FOUR), opened.len());
    assert_eq!(test(&KEY, FOUR, &WITNESS), Ok(()));

    let mut steps = [0; 29];
    let (first, rest) = steps.split_at_mut(size::commit(2, 1, 1, 1, FOUR));
    let (second, third) = rest.split_at_mut(size::hash(2, 1, 1, 1, FOUR));
    assert_eq!(commit(&KEY, FOUR, &leaves, &WITNESS, first), Ok(()));
    assert_eq!(hash(&KEY, FOUR, &leaves, &hash_matrix, second), Ok(()));
    assert_eq!(
        batch(&KEY, FOUR, &leaves, &WITNESS, &BATCHING, third),
        Ok(())
    );
    let mut proof = PROOF;
    (proof[23], proof[28]) = (0x07, 0x0F);
    assert_eq!(steps, proof);
    let mut whole = [0; 29];
    let answer = prove(
        &KEY,
        FOUR,
        &leaves,
        &WITNESS,
        &hash_matrix,
        &BATCHING,
        &mut whole,
    );
    assert_eq!(answer, Ok(()));
    assert_eq!(whole, proof);

    let answer = |delta: &[u8], batching: &[u8], proof: &[u8]| {
        verify(&KEY, FOUR, delta, &hash_matrix, batching, &opened, proof)
    };
    assert_eq!(answer(&delta, &BATCHING, &proof), Ok(()));
    let no_element = (Reason::ChallengeElement, 0);
    assert_eq!(refused(answer(&[0x10], &BATCHING, &proof)), no_element);
    assert_eq!(refused(answer(&delta, &[0x10], &proof)), no_element);
    let refusal = refused(batch(&KEY, FOUR, &leaves, &WITNESS, &[0x10], &mut [0; 10]));
    assert_eq!(refusal, no_element);
    for at in [18, 23, 28] {
        let mut forged = proof;
        forged[at] |= 0x10;
        let refusal = refused(answer(&delta, &BATCHING, &forged));
        assert_eq!(refusal, (Reason::ProofElement, 0));
    }
    // What was made for one degree is none for the other.
    let refusal = refused(commit(&KEY, EIGHT, &leaves, &WITNESS, &mut [0; 9]));
    assert_eq!(refusal, (Reason::LeafLength, 0));
}

/// The library answers 16 to what a `Degree` cannot be.
#[test]
fn another_degree_is_16() {
    for number in [0, 1, 5, 12, 260, u32::MAX] {
        // SAFETY: lengths are 0.
        let word = unsafe { ffi::mq_test([].as_ptr(), 0, number, [].as_ptr(), 0) };
        let refusal = Degree::try_from(number).unwrap_err();
        assert_eq!(Refusal::from_word(word), Err(refusal));
        assert_eq!(refusal.reason.number(), 16);
    }
    for degree in [EIGHT, Degree::Four] {
        assert_eq!(Degree::try_from(degree.number()), Ok(degree));
    }
}
