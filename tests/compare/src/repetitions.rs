//! Each repetition by itself: its mask, and the refusals that name it. What is answered here follows from the
//! equations, so that the rendering need not be asked where it is dear.

use crate::calls::{PROVE, STEPS, VERIFY};
use crate::forged::{flip, flip_unseen};
use crate::groups::{add_proof, dear, open_at, Run, Sizes};
use crate::inputs::{Inputs, Name};
use crate::judge::Expected;
use reference::Answer;

impl Run<'_> {
    pub fn repetitions(&mut self, sizes: Sizes) -> Result<(), String> {
        let mut honest = self.inputs(sizes);
        add_proof(&mut honest)?;
        self.open_past_0(&mut honest);
        for e in 0..honest.shape.tau {
            self.named(&honest, e)?;
            for of in self.some_masks(&honest, e) {
                self.mask_checked(&honest, e, of)?;
                if !dear(&honest.shape) {
                    self.mask_proved(&honest, e, of)?;
                }
            }
        }
        Ok(())
    }

    /// The first, the last and another of an honest proof.
    pub fn some_repetitions(&mut self, honest: &Inputs) -> Result<(), String> {
        let mut inputs = honest.clone();
        self.open_past_0(&mut inputs);
        let tau = inputs.shape.tau;
        for e in [0, tau - 1, self.random.below(tau)] {
            self.named(&inputs, e)?;
            self.mask_checked(&inputs, e, e)?;
            self.mask_checked(&inputs, e, (e + 1) % tau)?;
        }
        Ok(())
    }

    /// No Δ_e is 0, where neither C_e nor QS1_e counts.
    fn open_past_0(&mut self, inputs: &mut Inputs) {
        let delta = (0..inputs.shape.tau)
            .map(|_| self.other_than_0(inputs))
            .collect();
        open_at(inputs, delta);
    }

    /// The repetition itself, those beside it, the first and the last.
    fn some_masks(&self, honest: &Inputs, e: usize) -> Vec<usize> {
        let last = honest.shape.tau - 1;
        let mut some = vec![e, e.saturating_sub(1), (e + 1).min(last), 0, last];
        some.sort();
        some.dedup();
        some
    }

    /// A bit of one byte of Ṽ, of QS0 or of QS1 is changed: the repetition that it belongs to is named.
    fn named(&mut self, honest: &Inputs, e: usize) -> Result<(), String> {
        let row = self.random.below(honest.shape.t);
        for (section, byte, number) in [(3, e * honest.shape.t + row, 14), (4, e, 15), (5, e, 15)] {
            let mut inputs = honest.clone();
            flip(
                &mut inputs,
                section,
                8 * byte + self.random.below(honest.shape.field.degree),
            );
            let place = e as u32;
            self.answered(&inputs, Answer::Refused { number, place })?;
        }
        Ok(())
    }

    /// A coordinate of C_e, in the mask of a repetition, is changed so that the hash does not see it: the product check
    /// does where the mask is that of e, and else nothing does.
    fn mask_checked(&mut self, honest: &Inputs, e: usize, of: usize) -> Result<(), String> {
        if e == 0 {
            return Ok(());
        }
        let mut inputs = honest.clone();
        let c = self.coordinate(honest, of);
        flip_unseen(&mut inputs, e, c);
        let answer = if of == e {
            Answer::Refused {
                number: 15,
                place: e as u32,
            }
        } else {
            Answer::Accepted
        };
        self.answered(&inputs, answer)
    }

    /// The same coordinate of a leaf of repetition e is changed: the steps and the whole write the rendering's bytes.
    fn mask_proved(&mut self, honest: &Inputs, e: usize, of: usize) -> Result<(), String> {
        let mut inputs = honest.clone();
        let c = self.coordinate(honest, of);
        let w = honest.shape.w();
        let leaves = honest.shape.field.size;
        let leaf = (e * leaves + self.random.below(leaves)) * w;
        inputs.get_mut(Name::Leaves)[leaf + c / 8] ^= 1 << (c % 8);
        for call in STEPS.iter().chain([&PROVE]) {
            self.put(call, &inputs, &[], None)?;
        }
        Ok(())
    }

    /// A mask coordinate of a repetition.
    fn coordinate(&mut self, honest: &Inputs, of: usize) -> usize {
        honest.shape.mask_start(of) + self.random.below(honest.shape.field.degree)
    }

    /// What the equations say, and the rendering too, where that is not dear.
    fn answered(&mut self, inputs: &Inputs, answer: Answer) -> Result<(), String> {
        let expected = Expected {
            answer,
            output: Vec::new(),
        };
        self.put(&VERIFY, inputs, &[], Some(&expected))?;
        if !dear(&inputs.shape) {
            self.put(&VERIFY, inputs, &[], None)?;
        }
        Ok(())
    }
}
