//! Groups of cases. Each group has its own random numbers, made from the run's seed and the group's number, so
//! that it can be run alone.

use crate::calls::{Call, Writes, ALPHABET, CALLS, PROVE, STEPS, TEST, VERIFY};
use crate::damage::{all, layout_agrees, Damage};
use crate::inputs::{section_start, Inputs, Name, Output};
use crate::judge::{describe, Expected, Judge};
use reference::cases::Random;
use reference::key::Shape;
use reference::{open_leaves, Answer};

pub use shapes::Sizes;
use shapes::{edits, DEGREES};

/// n, m, τ, t, to be tried at each degree.
type Four = (usize, usize, usize, usize);

#[derive(Clone, Copy, Debug, PartialEq, Eq)]
pub enum Group {
    /// 01's toy, with its bytes written out.
    Toy,
    /// One size at a limit, past it, or 0.
    Edge(Sizes),
    /// Every pair of damages.
    Pairs(Sizes),
    /// Honest inputs, and every damage alone.
    Shape(Sizes),
    /// Honest inputs, and a few changed coordinates: several kernels at their thresholds at once.
    Kernels(Sizes),
    /// Honest proofs, the rendering's and the library's, at many Δ.
    Challenges(Sizes),
    /// Doctored proofs, at all values of one repetition's Δ: see `forged`.
    Forged(Sizes),
    /// Each repetition's mask, and the refusals that name it: see `repetitions`.
    Repetitions(Sizes),
    /// Equations that fail: each of them the first, alone and with others after it.
    Equations(Sizes),
    /// A key with no equations, its answers as the card has them: see `no_equations`.
    NoEquations(Sizes),
    /// Degrees that are not served, and bytes that are no elements: see `shapes::edits`.
    Edits(Sizes),
    /// A shape and damages at random.
    Random,
}

/// Those of `shapes::small`.
const SMALL: Four = (9, 3, 2, 5);

/// The same with no equations.
const NO_EQUATIONS: Four = (9, 0, 2, 5);

/// Small, and with spare bits in every section.
const PAIRED: [Four; 3] = [SMALL, (3, 9, 1, 2), NO_EQUATIONS];

/// With leaves of less and of more than 16 bytes, and repetitions to 1, 16, 17 and 48.
const CHALLENGED: [Four; 6] = [
    SMALL,
    NO_EQUATIONS,
    (1, 2, 1, 1),
    (65, 4, 16, 63),
    (12, 5, 17, 20),
    (7, 3, 48, 9),
];

const FORGED: [Four; 4] = [SMALL, (3, 2, 3, 2), (66, 1, 1, 60), NO_EQUATIONS];

/// Two, three, a register of sixteen and one more, and the most.
const REPEATED: [Four; 5] = [
    SMALL,
    (5, 2, 3, 4),
    (3, 2, 17, 2),
    (1, 1, 48, 1),
    NO_EQUATIONS,
];

/// With several bytes of y, and the most.
const FAILING: [Four; 2] = [(9, 21, 2, 5), (3, 320, 1, 2)];

/// One repetition, two, and more than a register of sixteen.
const EDITED: [Four; 4] = [SMALL, (3, 2, 1, 1), (5, 4, 17, 3), NO_EQUATIONS];

/// Beside those of the thresholds: the set of 150 variables of 003, and the limits of 01 together.
const LARGE: [Four; 3] = [(160, 160, 1, 160), (150, 150, 19, 144), (160, 160, 48, 160)];

/// The sets of 224 and of 320 variables of 003: t is 16 more than the bits of the level.
const LONG_LIVED: [Four; 2] = [(224, 224, 28, 208), (320, 320, 37, 272)];

/// n far from m: pieces and lines in two with few equations, and blocks of equations with few variables.
const FAR: [Four; 6] = [
    (320, 1, 3, 288),
    (1, 320, 2, 161),
    (319, 161, 1, 161),
    (161, 319, 1, 288),
    (257, 9, 17, 12),
    (24, 257, 16, 161),
];

/// The limits of today together, at both degrees. (At degree 4 `shapes::joint` has the set of 150 variables.)
const LARGEST: Four = (320, 320, 48, 288);

/// The groups that every run has, before the random ones.
pub fn fixed() -> Vec<Group> {
    let mut groups = vec![Group::Toy];
    groups.extend(DEGREES.into_iter().flat_map(at));
    groups
}

/// The same at a degree.
fn at(degree: u32) -> Vec<Group> {
    let at = |(n, m, tau, t): Four| (n, m, tau, t, degree, ALPHABET);
    let mut groups = Vec::new();
    for which in 0..4 {
        let limit = shapes::LIMITS[which];
        // The limits of 01 too, and where the header's high byte comes in.
        let within = [160, 161, 255, 256, 257];
        let within = within.into_iter().filter(|size| *size < limit);
        for size in within.chain([0, limit, limit + 1]) {
            let mut sizes = [3, 2, 2, 3];
            sizes[which] = size;
            groups.push(Group::Edge(at((sizes[0], sizes[1], sizes[2], sizes[3]))));
        }
    }
    groups.extend(PAIRED.map(at).map(Group::Pairs));
    groups.extend(CHALLENGED.map(at).map(Group::Challenges));
    groups.extend(FORGED.map(at).map(Group::Forged));
    groups.extend(REPEATED.map(at).map(Group::Repetitions));
    groups.extend(FAILING.map(at).map(Group::Equations));
    groups.extend(EDITED.map(at).map(Group::Edits));
    let none = shapes::no_equations(degree, ALPHABET);
    groups.extend(none.map(Group::NoEquations));
    groups.extend(
        shapes::single(degree, ALPHABET)
            .into_iter()
            .map(Group::Shape),
    );
    groups.extend(
        shapes::joint(degree, ALPHABET)
            .into_iter()
            .map(Group::Kernels),
    );
    groups.extend(FAR.map(at).map(Group::Kernels));
    if degree == 8 {
        groups.extend(LONG_LIVED.map(at).map(Group::Kernels));
        groups.extend(LARGE.map(at).map(Group::Shape));
    }
    groups.push(Group::Shape(at(LARGEST)));
    groups
}

/// Steps of the rendering, roughly: each repetition puts two quadratic forms of n² terms to each equation.
fn cost(shape: &Shape) -> usize {
    let forms = shape.tau * shape.m * shape.n * shape.n * 10;
    let hashes = shape.tau * shape.t * shape.k();
    let leaves = shape.tau * shape.field.size * shape.l() * 6;
    forms + hashes + leaves
}

/// Above this the rendering is asked once for the whole proof, and no more.
const DEAR: usize = 4_000_000;

pub fn dear(shape: &Shape) -> bool {
    cost(shape) > DEAR
}

/// Above this its verifier, too, is asked once, and of the damages one in eight is tried; what follows from the
/// equations is tried beside.
const DEAREST: usize = 2_500_000_000;

/// Adds the rendering's proof to honest inputs.
pub fn add_proof(inputs: &mut Inputs) -> Result<(), String> {
    let mut proof = vec![0; PROVE.writes.length(&inputs.shape)];
    let taken: Vec<&[u8]> = PROVE.takes.iter().map(|name| inputs.get(*name)).collect();
    match (PROVE.rendering)(&taken, inputs.degree, &mut proof) {
        Answer::Accepted => *inputs.get_mut(Name::Proof) = proof,
        refused => {
            return Err(format!(
                "the rendering answers {refused:?} to honest inputs"
            ))
        }
    }
    Ok(())
}

/// Puts another Δ, and the leaves opened there.
pub fn open_at(inputs: &mut Inputs, delta: Vec<u8>) {
    let opened = open_leaves(&inputs.shape, inputs.get(Name::Leaves), &delta);
    *inputs.get_mut(Name::Delta) = delta;
    *inputs.get_mut(Name::Opened) = opened;
}

/// Another byte at a place of an input.
fn put_byte(inputs: &mut Inputs, name: Name, at: usize, byte: u8) -> Name {
    inputs.get_mut(name)[at] = byte;
    name
}

/// Whether the call takes or writes what is damaged.
fn concerns(damage: &Damage, call: &Call) -> bool {
    match damage.input() {
        Some(name) => call.takes.contains(&name),
        None => call.writes != Writes::Nothing,
    }
}

pub struct Run<'a> {
    pub judge: &'a mut Judge,
    pub random: Random,
}

impl Run<'_> {
    pub fn group(&mut self, group: Group) -> Result<(), String> {
        match group {
            Group::Toy => self.toy(),
            Group::Edge(sizes) => self.edge(sizes),
            Group::Pairs(sizes) => self.pairs(sizes),
            Group::Shape(sizes) => self.shape(sizes),
            Group::Kernels(sizes) => self.kernels(sizes),
            Group::Challenges(sizes) => self.challenges(sizes),
            Group::Forged(sizes) => self.forged(sizes),
            Group::Repetitions(sizes) => self.repetitions(sizes),
            Group::Equations(sizes) => self.equations(sizes),
            Group::NoEquations(sizes) => self.no_equations(sizes),
            Group::Edits(sizes) => self.edits(sizes),
            Group::Random => self.random_damages(),
        }
    }

    pub fn inputs(&mut self, sizes: Sizes) -> Inputs {
        let inputs = Inputs::honest(self.random.number(), sizes);
        assert!(layout_agrees(&inputs), "the layout is not the rendering's");
        inputs
    }

    pub fn put(
        &mut self,
        call: &Call,
        inputs: &Inputs,
        damages: &[Damage],
        known: Option<&Expected>,
    ) -> Result<Vec<u8>, String> {
        self.judge
            .compare(call, inputs, known, &mut self.random)
            .map_err(|what| describe(call, inputs, damages, &what))
    }

    /// Every call on honest inputs; the steps' bytes are those of the whole. The rendering's proof is added to
    /// the inputs.
    pub fn honest(&mut self, inputs: &mut Inputs) -> Result<(), String> {
        add_proof(inputs)?;
        let dear = dear(&inputs.shape);
        let known = |call: &Call| Expected {
            answer: Answer::Accepted,
            output: inputs.get(Name::Proof)[call.writes.part(&inputs.shape)].to_vec(),
        };
        let mut written = Vec::new();
        for call in CALLS {
            let known = if dear { Some(known(call)) } else { None };
            let output = self.put(call, inputs, &[], known.as_ref())?;
            written.push((call.name, output));
        }
        let of = |call: &Call| {
            let found = written.iter().find(|(name, _)| *name == call.name);
            found.unwrap().1.clone()
        };
        let whole = of(&PROVE);
        let steps: Vec<u8> = STEPS.iter().flat_map(of).collect();
        if steps != whole {
            let what = "the steps' bytes are not those of the whole";
            return Err(describe(&PROVE, inputs, &[], what));
        }
        // The library's own proof is accepted too.
        *inputs.get_mut(Name::Proof) = whole;
        self.accepted(inputs)
    }

    /// Damaged inputs, to every call that all of the damages concern. (One that does not concern a call leaves it
    /// with fewer damages, which are tried too.)
    fn damaged(&mut self, honest: &Inputs, damages: &[Damage]) -> Result<(), String> {
        let mut inputs = honest.clone();
        for damage in damages {
            if !damage.apply(&mut inputs, &mut self.random) {
                return Ok(());
            }
        }
        for call in CALLS {
            if damages.iter().all(|damage| concerns(damage, call)) {
                self.put(call, &inputs, damages, None)?;
            }
        }
        Ok(())
    }

    /// All damages of the inputs that some call takes.
    fn damages(&mut self, inputs: &Inputs) -> Vec<Damage> {
        let mut names = Vec::new();
        for call in CALLS {
            for name in call.takes {
                if !names.contains(name) {
                    names.push(*name);
                }
            }
        }
        let lengths: Vec<usize> = CALLS
            .iter()
            .map(|call| call.writes.length(&inputs.shape))
            .collect();
        let mut damages = all(&names, &lengths, &inputs.shape);
        if dear(&inputs.shape) {
            damages.retain(|damage| !damage.keeps_form());
        }
        if cost(&inputs.shape) > DEAREST {
            damages.retain(|_| self.random.below(8) == 0);
        }
        damages
    }

    fn shape(&mut self, sizes: Sizes) -> Result<(), String> {
        let mut inputs = self.inputs(sizes);
        self.honest(&mut inputs)?;
        for damage in self.damages(&inputs) {
            self.damaged(&inputs, &[damage])?;
        }
        if dear(&inputs.shape) {
            self.dear_flips(&inputs)?;
        }
        Ok(())
    }

    fn kernels(&mut self, sizes: Sizes) -> Result<(), String> {
        let mut inputs = self.inputs(sizes);
        self.honest(&mut inputs)?;
        self.dear_flips(&inputs)?;
        // Question 11, by the sections of the key in turn and by the witness.
        for (name, section) in [
            (Name::Key, 0),
            (Name::Key, 1),
            (Name::Key, 2),
            (Name::Witness, 0),
        ] {
            let damage = Damage::Flipped(name, section);
            let mut changed = inputs.clone();
            if damage.apply(&mut changed, &mut self.random) {
                self.put(&TEST, &changed, &[damage], None)?;
            }
        }
        Ok(())
    }

    /// Where the rendering is dear, it is asked about a few changed coordinates only, and by the verifier, which is
    /// its cheaper part: one of each two sections of the proof, one of the leaves, one of the rest.
    fn dear_flips(&mut self, honest: &Inputs) -> Result<(), String> {
        let others = [Name::Key, Name::Delta, Name::HashMatrix, Name::Batching];
        let other = others[self.random.below(others.len())];
        let mut damages = vec![
            Damage::Flipped(Name::Proof, self.random.below(2)),
            Damage::Flipped(Name::Proof, 2 + self.random.below(2)),
            Damage::Flipped(Name::Proof, 4 + self.random.below(2)),
            Damage::Flipped(Name::Opened, 0),
            Damage::Flipped(other, 0),
        ];
        if cost(&honest.shape) > DEAREST {
            self.some_repetitions(honest)?;
            damages = vec![damages[self.random.below(damages.len())]];
        }
        for damage in damages {
            let mut inputs = honest.clone();
            if damage.apply(&mut inputs, &mut self.random) {
                self.put(&VERIFY, &inputs, &[damage], None)?;
            }
        }
        Ok(())
    }

    fn pairs(&mut self, sizes: Sizes) -> Result<(), String> {
        let mut inputs = self.inputs(sizes);
        self.honest(&mut inputs)?;
        let damages = self.damages(&inputs);
        for first in &damages {
            for second in &damages {
                self.damaged(&inputs, &[*first, *second])?;
            }
        }
        Ok(())
    }

    /// Question 11 in every call that takes a witness: y is changed at one equation, and at some after it.
    fn equations(&mut self, sizes: Sizes) -> Result<(), String> {
        let honest = self.inputs(sizes);
        let y = section_start(Name::Key, &honest.shape, 2) + 4;
        let m = honest.shape.m;
        for first in 0..m {
            for others in [0, 1, m] {
                let mut inputs = honest.clone();
                let key = inputs.get_mut(Name::Key);
                let change = |key: &mut Vec<u8>, i: usize| key[y + i / 8] ^= 1 << (i % 8);
                change(key, first);
                for other in first + 1..m {
                    if self.random.below(m) < others {
                        change(key, other);
                    }
                }
                for call in CALLS.iter().filter(|c| c.takes.contains(&Name::Witness)) {
                    self.put(call, &inputs, &[], None)?;
                    if self.judge.word != 11 * 65_536 + first as u32 {
                        let what = "the lowest failing equation is not named";
                        return Err(describe(call, &inputs, &[], what));
                    }
                }
            }
        }
        Ok(())
    }

    /// Each edit alone: the number is the one that it names, and the rendering's. With a degree that is not served
    /// nothing else is looked at: neither the key, which may be empty, nor the output.
    fn edits(&mut self, sizes: Sizes) -> Result<(), String> {
        let mut honest = self.inputs(sizes);
        self.honest(&mut honest)?;
        for edit in edits::edits(sizes) {
            let mut inputs = honest.clone();
            let edited = match edit.what {
                edits::What::Degree(degree) => {
                    inputs.degree = degree;
                    Name::Key
                }
                // The library takes no alphabet until request 11.
                edits::What::Alphabet(_) => continue,
                edits::What::Delta { at, byte } => put_byte(&mut inputs, Name::Delta, at, byte),
                edits::What::Chi { at, byte } => put_byte(&mut inputs, Name::Batching, at, byte),
                edits::What::Proof { at, byte } => put_byte(&mut inputs, Name::Proof, at, byte),
            };
            let refused = Expected {
                answer: Answer::Refused {
                    number: edit.number,
                    place: 0,
                },
                output: Vec::new(),
            };
            for call in CALLS.iter().filter(|call| call.takes.contains(&edited)) {
                self.put(call, &inputs, &[], None)?;
                let mut inputs = inputs.clone();
                inputs.output = Output::Is(0);
                if edit.number == 16 || call.writes == Writes::Nothing {
                    self.put(call, &inputs, &[], Some(&refused))?;
                }
                for len in [7, 0] {
                    if edit.number == 16 {
                        inputs.get_mut(Name::Key).truncate(len);
                        self.put(call, &inputs, &[], Some(&refused))?;
                    }
                }
            }
        }
        Ok(())
    }

    /// Up to three damages of the inputs of one call, to every call that they concern.
    fn random_damages(&mut self) -> Result<(), String> {
        let sizes = self.random_sizes();
        let mut inputs = self.inputs(sizes);
        self.honest(&mut inputs)?;
        let damages = self.damages(&inputs);
        for _ in 0..32 {
            let call = &CALLS[self.random.below(CALLS.len())];
            let how_many = 1 + self.random.below(3);
            let mut chosen = Vec::new();
            while chosen.len() < how_many {
                let damage = damages[self.random.below(damages.len())];
                if concerns(&damage, call) {
                    chosen.push(damage);
                }
            }
            self.damaged(&inputs, &chosen)?;
        }
        self.challenge(&mut inputs, None)?;
        Ok(())
    }

    /// Draws Δ anew, with a value given for one repetition, and opens the leaves there. The proof must be accepted.
    fn challenge(&mut self, inputs: &mut Inputs, fixed: Option<(usize, u8)>) -> Result<(), String> {
        let mut delta: Vec<u8> = (0..inputs.shape.tau)
            .map(|_| self.random.below(inputs.shape.field.size) as u8)
            .collect();
        if let Some((e, value)) = fixed {
            delta[e] = value;
        }
        open_at(inputs, delta);
        self.accepted(inputs)
    }

    /// What is accepted is accepted by the rendering too, where that is not dear.
    fn accepted(&mut self, inputs: &Inputs) -> Result<(), String> {
        let accepted = Expected {
            answer: Answer::Accepted,
            output: Vec::new(),
        };
        self.put(&VERIFY, inputs, &[], Some(&accepted))?;
        if !dear(&inputs.shape) {
            self.put(&VERIFY, inputs, &[], None)?;
        }
        Ok(())
    }

    fn challenges(&mut self, sizes: Sizes) -> Result<(), String> {
        let mut inputs = self.inputs(sizes);
        self.honest(&mut inputs)?;
        let by_library = self.put(&PROVE, &inputs, &[], None)?;
        let by_rendering = inputs.get(Name::Proof).to_vec();
        let tau = inputs.shape.tau;
        for proof in [by_rendering, by_library] {
            *inputs.get_mut(Name::Proof) = proof;
            let last = (inputs.shape.field.size - 1) as u8;
            let middle = last / 2 + 1;
            for all in shapes::challenges(inputs.degree)
                .into_iter()
                .chain([middle])
            {
                open_at(&mut inputs, vec![all; tau]);
                self.accepted(&inputs)?;
            }
            for e in 0..tau {
                for value in [0, last, self.random.number() as u8 & last] {
                    self.challenge(&mut inputs, Some((e, value)))?;
                }
            }
            self.overlapping(&mut inputs)?;
        }
        Ok(())
    }

    /// Δ lent as a part of the proof: inputs may overlap.
    fn overlapping(&mut self, inputs: &mut Inputs) -> Result<(), String> {
        for section in [4, 5] {
            let from = section_start(Name::Proof, &inputs.shape, section) + 4;
            let delta = inputs.get(Name::Proof)[from..from + inputs.shape.tau].to_vec();
            open_at(inputs, delta);
            let place = |name| {
                VERIFY
                    .takes
                    .iter()
                    .position(|taken| *taken == name)
                    .unwrap()
            };
            self.judge.shared = Some((place(Name::Delta), place(Name::Proof), from));
            let result = self.accepted(inputs);
            self.judge.shared = None;
            result?;
        }
        Ok(())
    }

    /// Mostly small, so that many are tried; some with one size up to its limit, and some large throughout.
    fn random_sizes(&mut self) -> Sizes {
        let small = [24, 24, 6, 24];
        let limits = shapes::LIMITS;
        let large = self.random.below(20);
        let sizes: Vec<usize> = (0..4)
            .map(|which| {
                let limit = if large == which {
                    limits[which]
                } else {
                    small[which]
                };
                let limit = if large == 4 { limits[which] / 3 } else { limit };
                self.random_size(limit).max(shapes::LEAST[which])
            })
            .collect();
        let degree = DEGREES[self.random.below(2)];
        (sizes[0], sizes[1], sizes[2], sizes[3], degree, ALPHABET)
    }

    /// Half of the time a multiple of 8 or beside one; 0 among them.
    fn random_size(&mut self, limit: usize) -> usize {
        let beside = 8 * self.random.below(limit / 8 + 1) + self.random.below(3);
        let anywhere = 1 + self.random.below(limit);
        let size = if self.random.below(2) == 0 {
            anywhere
        } else {
            beside.saturating_sub(1)
        };
        size.min(limit)
    }

    /// A size out of range is refused 2 by every call, whatever else is right; at the limit it is taken.
    fn edge(&mut self, sizes: Sizes) -> Result<(), String> {
        let mut inputs = self.inputs(sizes);
        if inputs.shape.in_range() {
            self.honest(&mut inputs)?;
        } else {
            let refused = Expected {
                answer: Answer::Refused {
                    number: 2,
                    place: 0,
                },
                output: Vec::new(),
            };
            for call in CALLS {
                inputs.output = Output::Is(0);
                self.put(call, &inputs, &[], Some(&refused))?;
                inputs.output = Output::Exact;
                self.put(call, &inputs, &[], None)?;
            }
        }
        // With the header alone, a size in range leaves only the counts to be missed.
        inputs.get_mut(Name::Key).truncate(8);
        inputs.output = Output::Is(0);
        let refused = Expected {
            answer: Answer::Refused {
                number: if inputs.shape.in_range() { 3 } else { 2 },
                place: 0,
            },
            output: Vec::new(),
        };
        for call in CALLS {
            self.put(call, &inputs, &[], Some(&refused))?;
        }
        Ok(())
    }

    /// "n=2, m=1, τ=1, t=1": bytes and answers as 01 gives them, with no rendering between.
    fn toy(&mut self) -> Result<(), String> {
        let mut inputs = self.inputs((2, 1, 1, 1, 8, ALPHABET));
        let key = [
            2, 0, 1, 0, 1, 0, 1, 0, 2, 0, 0, 0, 2, 0, 1, 0, 0, 0, 1, 1, 0, 0, 0, 1,
        ];
        let mut leaves = vec![0; 512];
        leaves[4..8].copy_from_slice(&[0x05, 0x00, 0x02, 0x04]);
        *inputs.get_mut(Name::Key) = key.to_vec();
        *inputs.get_mut(Name::Leaves) = leaves;
        *inputs.get_mut(Name::Witness) = vec![0x01];
        *inputs.get_mut(Name::HashMatrix) = vec![0x05, 0x00];
        *inputs.get_mut(Name::Batching) = vec![0x05];
        let proof = Expected {
            answer: Answer::Accepted,
            output: vec![
                0, 0, 0, 0, 1, 0, 0, 0, 0x02, 1, 0, 0, 0, 0x01, 1, 0, 0, 0, 0x03, 1, 0, 0, 0, 0x1C,
                1, 0, 0, 0, 0x04,
            ],
        };
        self.put(&PROVE, &inputs, &[], Some(&proof))?;
        open_at(&mut inputs, vec![0x02]);
        self.honest(&mut inputs)?;
        if inputs.get(Name::Proof) != proof.output {
            return Err("the rendering's toy is not 01's".to_string());
        }
        self.toy_challenges(&mut inputs.clone())?;
        // "y = 0: witness refused 11 place 0".
        inputs.get_mut(Name::Key)[23] = 0;
        let refused = Expected {
            answer: Answer::Refused {
                number: 11,
                place: 0,
            },
            output: Vec::new(),
        };
        self.put(&TEST, &inputs, &[], Some(&refused))?;
        for call in CALLS {
            self.put(call, &inputs, &[], None)?;
        }
        Ok(())
    }

    /// "Δ = 02 accepted. QS1 changed to 05: refused 15 place 0 at Δ = 02, accepted at 00. ũ changed to 00: refused
    /// 14 place 0 at 02."; "y = 0: ... with QS1 = 05, accepted at Δ = 00 and 52 only."
    fn toy_challenges(&mut self, inputs: &mut Inputs) -> Result<(), String> {
        let honest = inputs.get(Name::Proof).to_vec();
        let mut qs1 = honest.clone();
        qs1[28] = 0x05;
        let mut u_tilde = honest.clone();
        u_tilde[13] = 0x00;
        self.toy_verdict(inputs, &honest, 0x02, 0)?;
        self.toy_verdict(inputs, &qs1, 0x02, 15)?;
        self.toy_verdict(inputs, &qs1, 0x00, 0)?;
        self.toy_verdict(inputs, &u_tilde, 0x02, 14)?;
        inputs.get_mut(Name::Key)[23] = 0;
        for delta in 0..=0xFF {
            let accepted = delta == 0x00 || delta == 0x52;
            self.toy_verdict(inputs, &qs1, delta, if accepted { 0 } else { 15 })?;
        }
        Ok(())
    }

    fn toy_verdict(
        &mut self,
        inputs: &mut Inputs,
        proof: &[u8],
        delta: u8,
        number: u32,
    ) -> Result<(), String> {
        *inputs.get_mut(Name::Proof) = proof.to_vec();
        open_at(inputs, vec![delta]);
        let answer = match number {
            0 => Answer::Accepted,
            number => Answer::Refused { number, place: 0 },
        };
        let expected = Expected {
            answer,
            output: Vec::new(),
        };
        self.put(&VERIFY, inputs, &[], Some(&expected))?;
        self.put(&VERIFY, inputs, &[], None)?;
        Ok(())
    }
}
