//! Doctored proofs: for one repetition all values of its Δ are put to the library. It must accept at exactly the
//! values that the rendering counts in that repetition's factor.

use crate::calls::VERIFY;
use crate::groups::{add_proof, open_at, Run, Sizes};
use crate::inputs::{section_start, Inputs, Name};
use crate::judge::describe;
use reference::factors::passing;
use reference::key::{header, sections as key_sections, Shape};
use reference::verifier::sections as proof_sections;

/// What is changed, in the proof of repetition e or in the key.
#[derive(Clone, Copy, Debug, PartialEq, Eq)]
pub enum Forgery {
    Honest,
    Qs0,
    Qs1,
    BothQs,
    VTilde,
    UTilde,
    /// Both in the same hash row, so that they cancel at one Δ.
    BothTilde,
    /// A correction of that repetition, so that the hash does not see it.
    Correction,
    D,
    /// One bit of y: the witness fails that equation.
    Y,
    YAndQs0,
    YAndQs1,
    YAndBothQs,
    /// The same, with batching byte 0 for it.
    YHidden,
    AllRandom,
}

const FORGERIES: [Forgery; 15] = [
    Forgery::Honest,
    Forgery::Qs0,
    Forgery::Qs1,
    Forgery::BothQs,
    Forgery::VTilde,
    Forgery::UTilde,
    Forgery::BothTilde,
    Forgery::Correction,
    Forgery::D,
    Forgery::Y,
    Forgery::YAndQs0,
    Forgery::YAndQs1,
    Forgery::YAndBothQs,
    Forgery::YHidden,
    Forgery::AllRandom,
];

impl Forgery {
    /// Whether it changes an equation.
    fn of_y(self) -> bool {
        use Forgery::{YAndBothQs, YAndQs0, YAndQs1, YHidden, Y};
        [Y, YAndQs0, YAndQs1, YAndBothQs, YHidden].contains(&self)
    }
}

impl Run<'_> {
    /// Every forgery of every repetition. The factors 0, 1, 2 and the field's size must all come up; with no equations
    /// nothing is quadratic, and 2 must not.
    pub fn forged(&mut self, sizes: Sizes) -> Result<(), String> {
        let mut honest = self.inputs(sizes);
        add_proof(&mut honest)?;
        let mut met = Vec::new();
        let none = honest.shape.m == 0;
        for forgery in FORGERIES
            .into_iter()
            .filter(|forgery| !none || !forgery.of_y())
        {
            for e in 0..honest.shape.tau {
                let mut inputs = honest.clone();
                self.forge(&mut inputs, forgery, e);
                let factor = self.count(&mut inputs, e)?;
                met.push(factor);
                let size = honest.shape.field.size;
                if !explained(forgery, factor, size) || none && factor == 2 {
                    return Err(format!("{forgery:?} in repetition {e} has factor {factor}"));
                }
            }
        }
        let all = [0, 1, if none { 1 } else { 2 }, honest.shape.field.size];
        match all.iter().find(|factor| !met.contains(factor)) {
            None => Ok(()),
            Some(factor) => Err(format!("no forgery with the factor {factor}")),
        }
    }

    fn forge(&mut self, inputs: &mut Inputs, forgery: Forgery, e: usize) {
        let shape = inputs.shape;
        let row = self.random.below(shape.t);
        match forgery {
            Forgery::Honest => {}
            Forgery::Qs0 => self.change(inputs, 4, e),
            Forgery::Qs1 => self.change(inputs, 5, e),
            Forgery::VTilde => self.change(inputs, 3, e * shape.t + row),
            Forgery::UTilde => flip(inputs, 2, row),
            Forgery::BothQs => {
                self.change(inputs, 4, e);
                self.change(inputs, 5, e);
            }
            Forgery::BothTilde => {
                flip(inputs, 2, row);
                self.change(inputs, 3, e * shape.t + row);
            }
            Forgery::Correction => self.unseen_correction(inputs, e),
            Forgery::D => flip(inputs, 1, self.random.below(shape.n)),
            Forgery::Y | Forgery::YAndQs0 | Forgery::YAndQs1 | Forgery::YAndBothQs => {
                self.wrong_y(inputs, false);
                if matches!(forgery, Forgery::YAndQs0 | Forgery::YAndBothQs) {
                    self.change(inputs, 4, e);
                }
                if matches!(forgery, Forgery::YAndQs1 | Forgery::YAndBothQs) {
                    self.change(inputs, 5, e);
                }
            }
            Forgery::YHidden => self.wrong_y(inputs, true),
            Forgery::AllRandom => {
                for section in 3..6 {
                    let rows = if section == 3 {
                        shape.tau * shape.t
                    } else {
                        shape.tau
                    };
                    (0..rows).for_each(|at| self.change(inputs, section, at));
                }
            }
        }
    }

    /// Another byte at this place of a section of the proof.
    fn change(&mut self, inputs: &mut Inputs, section: usize, at: usize) {
        let start = section_start(Name::Proof, &inputs.shape, section) + 4;
        let change = self.other_than_0(inputs);
        inputs.get_mut(Name::Proof)[start + at] ^= change;
    }

    /// An element other than 0.
    pub fn other_than_0(&mut self, inputs: &Inputs) -> u8 {
        1 + self.random.below(inputs.shape.field.size - 1) as u8
    }

    /// Changes y in one equation, whose batching bytes are then 0 or not 0.
    fn wrong_y(&mut self, inputs: &mut Inputs, hidden: bool) {
        let (m, tau) = (inputs.shape.m, inputs.shape.tau);
        let i = self.random.below(m);
        let y = section_start(Name::Key, &inputs.shape, 2) + 4;
        inputs.get_mut(Name::Key)[y + i / 8] ^= 1 << (i % 8);
        // The proof is the honest one of the other y, under the batching bytes that are put here.
        let key = inputs.get(Name::Key).to_vec();
        inputs.get_mut(Name::Key)[y + i / 8] ^= 1 << (i % 8);
        for e in 0..tau {
            let byte = if hidden { 0 } else { self.other_than_0(inputs) };
            inputs.get_mut(Name::Batching)[e * m + i] = byte;
        }
        add_proof(inputs).expect("the witness solves the first key");
        *inputs.get_mut(Name::Key) = key;
    }

    /// A coordinate below n of C_e is changed, so that the hash does not see it. For repetition 0, which has no
    /// correction, d is changed.
    fn unseen_correction(&mut self, inputs: &mut Inputs, e: usize) {
        let c = self.random.below(inputs.shape.n);
        if e == 0 {
            return flip(inputs, 1, c);
        }
        flip_unseen(inputs, e, c);
    }

    /// Puts all values of Δ_e, the other repetitions being at values that pass where there are any. Gives the
    /// rendering's factor, once the library has accepted at exactly its values.
    fn count(&mut self, inputs: &mut Inputs, e: usize) -> Result<usize, String> {
        let sets = passing_sets(inputs);
        let mut delta: Vec<u8> = Vec::new();
        for set in &sets {
            let any = self.random.below(inputs.shape.field.size) as u8;
            delta.push(if set.is_empty() {
                any
            } else {
                set[self.random.below(set.len())]
            });
        }
        let others = (0..sets.len()).all(|other| other == e || !sets[other].is_empty());
        let mut accepted = Vec::new();
        for value in elements(&inputs.shape) {
            delta[e] = value;
            open_at(inputs, delta.clone());
            self.put(&VERIFY, inputs, &[], None)?;
            if self.judge.word == 0 {
                accepted.push(value);
            }
        }
        let expected = if others { sets[e].clone() } else { Vec::new() };
        if accepted != expected {
            let what = format!("accepted at {accepted:02x?}, the rendering counts {expected:02x?}");
            return Err(describe(&VERIFY, inputs, &[], &what));
        }
        Ok(sets[e].len())
    }
}

/// What the equations give, where that can be said beforehand.
fn explained(forgery: Forgery, factor: usize, size: usize) -> bool {
    match forgery {
        Forgery::Honest | Forgery::YHidden => factor == size,
        Forgery::Qs0 | Forgery::VTilde => factor == 0,
        Forgery::Qs1 | Forgery::BothQs | Forgery::UTilde | Forgery::BothTilde => factor == 1,
        Forgery::Y | Forgery::YAndQs0 => factor == 1,
        Forgery::YAndQs1 => factor == 2,
        Forgery::YAndBothQs => factor == 0 || factor == 2,
        Forgery::Correction | Forgery::D | Forgery::AllRandom => [0, 1, 2, size].contains(&factor),
    }
}

/// Every element of the field.
fn elements(shape: &Shape) -> impl Iterator<Item = u8> {
    (0..shape.field.size).map(|value| value as u8)
}

/// Changes a coordinate below k of C_e, and the identity part of H so that every row's sum stays.
pub fn flip_unseen(inputs: &mut Inputs, e: usize, c: usize) {
    let shape = inputs.shape;
    let start = 8 * (e - 1) * shape.w();
    let row_length = shape.h_length() / shape.t;
    flip(inputs, 0, start + c);
    for r in 0..shape.t {
        if inputs.get(Name::HashMatrix)[r * row_length + c / 8] >> (c % 8) & 1 == 1 {
            flip(inputs, 0, start + shape.k() + r);
        }
    }
}

/// For each repetition the values of Δ that the rendering counts in its factor.
fn passing_sets(inputs: &Inputs) -> Vec<Vec<u8>> {
    let shape = inputs.shape;
    let bytes = inputs.get(Name::Key);
    let key = key_sections(header(shape.field, shape.symbols, bytes), bytes)
        .expect("a key of the right form");
    let proof = proof_sections(&shape, inputs.get(Name::Proof)).expect("a proof of the right form");
    let (h, chi, leaves) = (
        inputs.get(Name::HashMatrix),
        inputs.get(Name::Batching),
        inputs.get(Name::Leaves),
    );
    (0..shape.tau)
        .map(|e| passing(&key, e, h, chi, leaves, &proof))
        .collect()
}

/// Changes one bit of a section of the proof.
pub fn flip(inputs: &mut Inputs, section: usize, bit: usize) {
    let start = section_start(Name::Proof, &inputs.shape, section) + 4;
    inputs.get_mut(Name::Proof)[start + bit / 8] ^= 1 << (bit % 8);
}
