//! Keys with no equations, m = 0 (02, request 12). What is answered here is what the card says, and the rendering is
//! asked too.

use crate::calls::CALLS;
use crate::groups::{Run, Sizes};
use crate::inputs::{Inputs, Name, Output};
use crate::judge::{describe, Expected};
use reference::Answer;

/// How many witnesses are tried.
const WITNESSES: usize = 24;

impl Run<'_> {
    pub fn no_equations(&mut self, sizes: Sizes) -> Result<(), String> {
        let mut honest = self.inputs(sizes);
        self.honest(&mut honest)?;
        let lengths = [Name::Key, Name::Batching].map(|name| honest.get(name).len());
        if lengths != [20, 0] {
            return Err(format!("a key and batching bytes of {lengths:?} bytes"));
        }
        self.any_witness(&honest)?;
        // "χ has no bytes": so one byte, 0 too, is one too many.
        for byte in [0, 1] {
            let mut inputs = honest.clone();
            inputs.get_mut(Name::Batching).push(byte);
            self.refused(&inputs, Name::Batching, 5)?;
        }
        let mut longer = honest.clone();
        longer.get_mut(Name::Key).push(0);
        self.refused(&longer, Name::Key, 3)?;
        for count in [8, 12, 16] {
            let mut inputs = honest.clone();
            inputs.get_mut(Name::Key)[count] = 1;
            self.refused(&inputs, Name::Key, 3)?;
        }
        // "m = 0 alone": n, τ or t = 0 is 2, as is an m past its limit.
        for size in [0, 4, 6] {
            let mut inputs = honest.clone();
            inputs.get_mut(Name::Key)[size..size + 2].fill(0);
            self.refused(&inputs, Name::Key, 2)?;
        }
        let mut inputs = honest.clone();
        inputs.get_mut(Name::Key)[2..4].copy_from_slice(&[0x41, 0x01]);
        self.refused(&inputs, Name::Key, 2)
    }

    /// "keys that any witness fits": the calls that take one accept each.
    fn any_witness(&mut self, honest: &Inputs) -> Result<(), String> {
        for _ in 0..WITNESSES {
            let mut inputs = honest.clone();
            *inputs.get_mut(Name::Witness) =
                self.random.string(&honest.shape.symbols, honest.shape.n);
            for call in CALLS.iter().filter(|c| c.takes.contains(&Name::Witness)) {
                self.put(call, &inputs, &[], None)?;
                if self.judge.word != 0 {
                    return Err(describe(call, &inputs, &[], "a witness does not fit"));
                }
            }
        }
        Ok(())
    }

    /// Every call that takes the input refuses with the number, place 0; so does the rendering.
    fn refused(&mut self, inputs: &Inputs, input: Name, number: u32) -> Result<(), String> {
        let answer = Answer::Refused { number, place: 0 };
        for call in CALLS.iter().filter(|call| call.takes.contains(&input)) {
            self.put(call, inputs, &[], None)?;
            let mut inputs = inputs.clone();
            inputs.output = Output::Is(0);
            let output = Vec::new();
            self.put(call, &inputs, &[], Some(&Expected { answer, output }))?;
        }
        Ok(())
    }
}
