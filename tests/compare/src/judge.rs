//! One call on one set of inputs, put to the library and to the rendering.

use crate::calls::{Call, Lent, CALLS};
use crate::damage::Damage;
use crate::inputs::Inputs;
use crate::memory::{read, Memory};
use reference::cases::Random;
use reference::{word, Answer};
use shapes::DEGREES;
use std::fmt::Write;

/// What the self-test changes after the library has returned, to see that it is reported.
#[derive(Clone, Copy, Debug, PartialEq, Eq)]
pub enum Tamper {
    /// Another word: its bits are changed by exclusive or.
    Word(u32),
    /// Another place, the number staying.
    Place(u32),
    /// The byte of the output at this place from its start, or from its end.
    Output(usize),
    OutputFromEnd(usize),
    GuardBefore,
    GuardAfter,
    Input(usize),
}

/// What a call should answer, and its output afterwards.
#[derive(Clone, Debug)]
pub struct Expected {
    pub answer: Answer,
    pub output: Vec<u8>,
}

/// Numbers of the published list, and 0 for accepted.
pub const NUMBERS: usize = 19;

/// How often each call gave each number to what was made for each degree.
pub type Tally = Vec<(&'static str, u32, [u64; NUMBERS])>;

pub struct Judge {
    memory: Memory,
    pub tamper: Option<Tamper>,
    pub tally: Tally,
    /// An input (the first number) that is lent as a part of another (the second), from this place on.
    pub shared: Option<(usize, usize, usize)>,
    /// What the library answered last.
    pub word: u32,
}

/// Inputs are sealed in one call of so many: it costs more than most calls do.
const SEALED: usize = 8;

/// What the library answered and left behind.
struct Seen {
    word: u32,
    /// The output with its guards, before and after.
    before: Vec<u8>,
    after: Vec<u8>,
    output: std::ops::Range<usize>,
    changed_input: Option<usize>,
}

impl Judge {
    pub fn new() -> Judge {
        Judge {
            // Twice the longest input of the largest shape, and some: damages double an input.
            memory: Memory::new(8, 9 << 20),
            tamper: None,
            tally: DEGREES
                .iter()
                .flat_map(|degree| CALLS.iter().map(|call| (call.name, *degree, [0; NUMBERS])))
                .collect(),
            shared: None,
            word: 0,
        }
    }

    /// Puts the call to both. Gives back what the library wrote, or says where they differ.
    pub fn compare(
        &mut self,
        call: &Call,
        inputs: &Inputs,
        known: Option<&Expected>,
        random: &mut Random,
    ) -> Result<Vec<u8>, String> {
        let taken: Vec<&[u8]> = call.takes.iter().map(|name| inputs.get(*name)).collect();
        let length = inputs.output.length(call.writes.length(&inputs.shape));
        let seen = self.ask_library(call, &taken, inputs.degree, length, random);
        let before = &seen.before[seen.output.clone()];
        let expected = match known {
            Some(known) => known.clone(),
            None => ask_rendering(call, &taken, inputs.degree, before),
        };
        self.count(call, inputs.shape.degree(), expected.answer);
        judge(&seen, &expected)?;
        Ok(seen.after[seen.output].to_vec())
    }

    fn ask_library(
        &mut self,
        call: &Call,
        taken: &[&[u8]],
        degree: u32,
        length: usize,
        random: &mut Random,
    ) -> Seen {
        let mut lent: Vec<Lent> = (0..taken.len())
            .map(|i| self.memory.lend(i, taken[i], random))
            .collect();
        if let Some((part, whole, from)) = self.shared {
            lent[part].at = read(&lent[whole])[from..from + lent[part].len].as_ptr();
        }
        let out = self.memory.lend_output(length, random);
        let before = self.memory.watched().to_vec();
        let sealed = random.below(SEALED) == 0;
        if sealed {
            self.memory.seal(taken.len(), true);
        }
        let mut word = unsafe { (call.library)(&lent, degree, out) };
        if sealed {
            self.memory.seal(taken.len(), false);
        }
        self.word = word;
        if let Some(tamper) = self.tamper {
            word = self.meddle(tamper, word, &lent);
        }
        Seen {
            word,
            before,
            after: self.memory.watched().to_vec(),
            output: self.memory.output_part(),
            changed_input: (0..taken.len()).find(|i| read(&lent[*i]) != taken[*i]),
        }
    }

    /// What a faulty library would have done.
    fn meddle(&mut self, tamper: Tamper, word: u32, lent: &[Lent]) -> u32 {
        let output = self.memory.output_part();
        let watched = self.memory.watched();
        match tamper {
            Tamper::Word(bits) => return word ^ bits,
            Tamper::Place(place) => return word / 65_536 * 65_536 + place,
            Tamper::Output(at) => watched[output.start + at] ^= 0x10,
            Tamper::OutputFromEnd(at) => watched[output.end - 1 - at] ^= 0x10,
            Tamper::GuardBefore => watched[output.start - 1] ^= 0x10,
            Tamper::GuardAfter => watched[output.end] ^= 0x10,
            Tamper::Input(index) => unsafe { *lent[index].at.cast_mut() ^= 0x10 },
        }
        word
    }

    fn count(&mut self, call: &Call, degree: u32, answer: Answer) {
        let number = match answer {
            Answer::Accepted => 0,
            Answer::Refused { number, .. } => number as usize,
        };
        for (name, at, numbers) in &mut self.tally {
            if (*name, *at) == (call.name, degree) {
                numbers[number] += 1;
            }
        }
    }

    /// How many answers were compared, to what was made for a degree.
    pub fn compared(&self, degree: u32) -> u64 {
        let made = self.tally.iter().filter(|(_, at, _)| *at == degree);
        made.map(|(_, _, numbers)| numbers.iter().sum::<u64>())
            .sum()
    }
}

fn ask_rendering(call: &Call, taken: &[&[u8]], degree: u32, before: &[u8]) -> Expected {
    let mut output = before.to_vec();
    let answer = (call.rendering)(taken, degree, &mut output);
    Expected { answer, output }
}

fn judge(seen: &Seen, expected: &Expected) -> Result<(), String> {
    if seen.word != word(expected.answer) {
        return Err(format!(
            "the library answers {} place {}, the rendering {:?}",
            seen.word / 65_536,
            seen.word % 65_536,
            expected.answer
        ));
    }
    if let Some(index) = seen.changed_input {
        return Err(format!("the library changed input {index}"));
    }
    let mut watched = seen.before.clone();
    watched[seen.output.clone()].copy_from_slice(&expected.output);
    match (0..watched.len()).find(|i| watched[*i] != seen.after[*i]) {
        None => Ok(()),
        Some(at) => Err(format!(
            "byte {} of the output's {} is {:02x}, should be {:02x} (it was {:02x} before the call)",
            at as isize - seen.output.start as isize,
            seen.output.len(),
            seen.after[at],
            watched[at],
            seen.before[at]
        )),
    }
}

/// All that is needed to see a difference again.
pub fn describe(call: &Call, inputs: &Inputs, damages: &[Damage], what: &str) -> String {
    let shape = &inputs.shape;
    let mut text = String::new();
    writeln!(text, "{}: {what}", call.name).unwrap();
    writeln!(
        text,
        "  n={} m={} tau={} t={} degree={}, lent degree {}, damages {damages:?}, output {:?}",
        shape.n,
        shape.m,
        shape.tau,
        shape.t,
        shape.degree(),
        inputs.degree,
        inputs.output
    )
    .unwrap();
    for name in call.takes {
        let bytes = inputs.get(*name);
        let shown: String = bytes
            .iter()
            .take(1024)
            .map(|b| format!("{b:02x}"))
            .collect();
        let more = if bytes.len() > 1024 { " ..." } else { "" };
        writeln!(text, "  {name:?} ({} bytes) {shown}{more}", bytes.len()).unwrap();
    }
    text
}
