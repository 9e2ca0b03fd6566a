//! A key with no equations, m = 0: it has 20 bytes, any witness fits, and `batching` is an empty slice.

use solfadrus::{batch, commit, hash, prove, size, test, verify, Degree, Reason};

const DEGREES: [Degree; 2] = [Degree::Eight, Degree::Four];

/// n = 8, tau = 2, t = 8: no string has a spare bit, at either degree.
const KEY: [u8; 20] = [8, 0, 0, 0, 2, 0, 8, 0, 0, 0, 0, 0, 0, 0, 0, 0, 0, 0, 0, 0];

type Size = fn(usize, usize, usize, usize, Degree) -> usize;

fn length(size: Size, degree: Degree) -> usize {
    size(8, 0, 2, 8, degree)
}

/// So many bytes that differ.
fn bytes(count: usize, seed: usize) -> Vec<u8> {
    (0..count)
        .map(|i| ((i + seed) * (i + 7) * 167 >> 3) as u8)
        .collect()
}

fn room(size: Size, degree: Degree) -> Vec<u8> {
    vec![0xEE; length(size, degree)]
}

/// Both trees, each without its leaf at delta.
fn opened(leaves: &[u8], delta: [u8; 2], degree: Degree) -> Vec<u8> {
    let each = leaves.len() / 2;
    let width = each / if degree == Degree::Eight { 256 } else { 16 };
    let trees = leaves.chunks(each).zip(delta);
    trees
        .flat_map(|(tree, at)| {
            let at = usize::from(at) * width;
            [&tree[..at], &tree[at + width..]].concat()
        })
        .collect()
}

#[test]
fn any_witness_fits() {
    for degree in DEGREES {
        let leaves = bytes(length(size::leaves, degree), 1);
        let hash_matrix = bytes(length(size::hash_matrix, degree), 2);
        for witness in [[0x00], [0x5A], [0xFF]] {
            test(&KEY, degree, &witness).unwrap();
            let mut steps =
                [size::commit as Size, size::hash, size::batch].map(|s| room(s, degree));
            commit(&KEY, degree, &leaves, &witness, &mut steps[0]).unwrap();
            hash(&KEY, degree, &leaves, &hash_matrix, &mut steps[1]).unwrap();
            batch(&KEY, degree, &leaves, &witness, &[], &mut steps[2]).unwrap();
            let mut proof = room(size::proof, degree);
            prove(
                &KEY,
                degree,
                &leaves,
                &witness,
                &hash_matrix,
                &[],
                &mut proof,
            )
            .unwrap();
            assert_eq!(steps.concat(), proof);
            let delta = [0x00, 0x0D];
            let opened = opened(&leaves, delta, degree);
            verify(&KEY, degree, &delta, &hash_matrix, &[], &opened, &proof).unwrap();
        }
    }
}

#[test]
fn a_byte_of_batching_is_refused() {
    for degree in DEGREES {
        let leaves = bytes(length(size::leaves, degree), 1);
        let mut out = room(size::batch, degree);
        let refusal = batch(&KEY, degree, &leaves, &[0], &[0], &mut out).unwrap_err();
        assert_eq!(refusal.reason, Reason::ChallengeLength);
        assert_eq!(out, room(size::batch, degree));
    }
}

/// Out of range every length is 0, that of a key too; in range that of batching alone.
#[test]
fn lengths() {
    for degree in DEGREES {
        assert_eq!(length(size::key, degree), KEY.len());
        assert_eq!(length(size::batching, degree), 0);
        for (n, m, tau, t) in [(0, 0, 2, 8), (8, 0, 0, 8), (8, 0, 2, 0), (8, 321, 2, 8)] {
            assert_eq!(size::key(n, m, tau, t, degree), 0);
        }
    }
}
