//! The attack. QS1_e is a mask plus Σ χ·a₁, and a₁ = xᵀ(A + Aᵀ)v_e + b·v_e. The verifier has K_e = v_e + Δ_e·x. Put in
//! for v_e, xᵀ(A + Aᵀ)x is 0, so that a₁ is affine in the bits of x, with coefficients that he knows. Where two
//! repetitions have one mask, the sum of their QS1 gives him as many linear equations over GF(2) as the degree says.

use crate::case::View;
use crate::format::{bit, pack, sections, Key, Sizes};
use crate::random::Random;
use crate::verifier::evaluations;

/// QS1 of a repetition is its mask, plus `constant`, plus the coefficients of those bits of x that are 1.
pub struct Form {
    coefficients: Vec<u8>,
    constant: u8,
}

impl Form {
    /// What is left of QS1 once the witness is known: the mask.
    pub fn mask(&self, qs1: u8, witness: &[u8]) -> u8 {
        let terms = self.coefficients.iter().enumerate();
        terms.fold(qs1 ^ self.constant, |sum, (c, coefficient)| {
            sum ^ (coefficient * bit(witness, c))
        })
    }
}

/// The form of each repetition.
pub fn forms(view: &View) -> Vec<Form> {
    let key = Key::read(view.key, view.field);
    let Sizes { n, m, tau, .. } = key.sizes;
    let product = |a, b| view.field.product(a, b);
    let form = |e: usize| {
        let batched = key.batched(&view.batching[m * e..][..m]);
        let k = evaluations(view, n, e);
        let coefficient = |c: usize| {
            let polar = |r: usize| batched.matrix[r][c] ^ batched.matrix[c][r];
            let constant = product(view.delta[e], batched.linear[c]);
            (0..n).fold(constant, |sum, r| sum ^ product(polar(r), k[r]))
        };
        Form {
            coefficients: (0..n).map(coefficient).collect(),
            constant: (0..n).fold(0, |sum, c| sum ^ product(batched.linear[c], k[c])),
        }
    };
    (0..tau).map(form).collect()
}

/// The most bits that are tried, where the equations leave some free.
const MOST_TRIED: usize = 10;

/// The witness's bits, as the sums of QS1 of the first and each other repetition give them.
pub fn guess(view: &View, forms: &[Form], coins: &mut Random) -> Vec<u8> {
    let key = Key::read(view.key, view.field);
    let n = key.sizes.n;
    let [.., qs1] = sections::<6>(view.proof);
    let mut equations = Vec::new();
    for e in 1..forms.len() {
        let mut sum: Vec<u8> = (0..n)
            .map(|c| forms[0].coefficients[c] ^ forms[e].coefficients[c])
            .collect();
        sum.push(qs1[0] ^ qs1[e] ^ forms[0].constant ^ forms[e].constant);
        equations.extend(
            (0..view.field.degree())
                .map(|s| sum.iter().map(|byte| byte >> s & 1).collect::<Vec<u8>>()),
        );
    }
    let solved = solve(equations, n);
    let free: Vec<usize> = (0..n)
        .filter(|c| solved.iter().all(|(own, _)| own != c))
        .collect();
    // The key tells which of few is right.
    let tried = if free.len() <= MOST_TRIED {
        1 << free.len()
    } else {
        0
    };
    (0..tried)
        .map(|number: usize| completed(&solved, n, &free, |i| (number >> i & 1) as u8))
        .find(|x| key.solved_by(&pack(x)))
        .unwrap_or_else(|| completed(&solved, n, &free, |_| coins.bit()))
}

/// An equation that is solved for a coordinate, which no other of them has: n coefficients, and the value of their sum.
type Solved = (usize, Vec<u8>);

/// Solves the equations one after another, and leaves out those that contradict the ones before.
fn solve(equations: Vec<Vec<u8>>, n: usize) -> Vec<Solved> {
    let add = |to: &mut [u8], row: &[u8]| to.iter_mut().zip(row).for_each(|(to, bit)| *to ^= bit);
    let mut solved: Vec<Solved> = Vec::new();
    for mut equation in equations {
        for (own, row) in &solved {
            if equation[*own] == 1 {
                add(&mut equation, row);
            }
        }
        let Some(own) = equation[..n].iter().position(|bit| *bit == 1) else {
            continue;
        };
        for (_, row) in &mut solved {
            if row[own] == 1 {
                add(row, &equation);
            }
        }
        solved.push((own, equation));
    }
    solved
}

/// The solution that has these bits at the free coordinates.
fn completed(
    solved: &[Solved],
    n: usize,
    free: &[usize],
    mut bit: impl FnMut(usize) -> u8,
) -> Vec<u8> {
    let mut x = vec![0; n];
    free.iter().enumerate().for_each(|(i, c)| x[*c] = bit(i));
    for (own, row) in solved {
        x[*own] = free.iter().fold(row[n], |sum, c| sum ^ row[*c] & x[*c]);
    }
    x
}
