//! That a difference is reported: after the library has returned, one thing is changed that it answered or left
//! behind, and the comparison must say so.

use crate::calls::{Call, ALPHABET, BATCH, CALLS, COMMIT, HASH, PROVE, TEST, VERIFY};
use crate::groups::{add_proof, open_at};
use crate::inputs::{section_start, Inputs, Name, Output};
use crate::judge::{Judge, Tamper};
use crate::sizes;
use reference::cases::Random;

pub fn run(seed: u64) -> Result<u64, String> {
    let mut random = Random::new(seed);
    let mut judge = Judge::new();
    let mut reported = 0;
    let mut all = situations(&mut random, 8)?;
    all.extend(situations(&mut random, 4)?);
    for (name, call, inputs, places) in all {
        // Untouched, nothing may be reported.
        judge.tamper = None;
        judge
            .compare(call, &inputs, None, &mut random)
            .map_err(|what| format!("{name}, untouched: {what}"))?;
        let places = places.into_iter().map(Tamper::Place);
        for tamper in tampers(call, &inputs).into_iter().chain(places) {
            judge.tamper = Some(tamper);
            if judge.compare(call, &inputs, None, &mut random).is_ok() {
                return Err(format!("{name}: {tamper:?} went unreported"));
            }
            reported += 1;
        }
    }
    if sizes::compare(&mut random, 1).is_ok() {
        return Err("a size function that is off by one went unreported".to_string());
    }
    Ok(reported + 1)
}

/// A call on inputs, what it shows, and other places that must be reported.
type Situation = (String, &'static Call, Inputs, Vec<u32>);

/// Accepted and refused calls of each kind, at a degree.
fn situations(random: &mut Random, degree: u32) -> Result<Vec<Situation>, String> {
    let mut honest = Inputs::honest(random.number(), shapes::small(degree, ALPHABET));
    add_proof(&mut honest)?;
    let mut situations = Vec::new();
    for call in CALLS {
        let what = format!("{} accepted", call.name);
        situations.push((what, call, honest.clone(), vec![]));
    }
    // With no equations, accepted too, and 5 for a batching byte.
    let [shape, ..] = shapes::no_equations(degree, ALPHABET);
    let mut none = Inputs::honest(random.number(), shape);
    add_proof(&mut none)?;
    for call in CALLS {
        let what = format!("{} accepted, with no equations", call.name);
        situations.push((what, call, none.clone(), vec![]));
    }
    for call in [&BATCH, &PROVE, &VERIFY] {
        let mut inputs = none.clone();
        inputs.get_mut(Name::Batching).push(0);
        situations.push((format!("{} refused 5", call.name), call, inputs, vec![]));
    }
    for call in [&COMMIT, &HASH, &BATCH, &PROVE] {
        let mut inputs = honest.clone();
        inputs.output = Output::More(1);
        situations.push((format!("{} refused 10", call.name), call, inputs, vec![]));
    }
    // Where several equations fail, another that fails is as wrong as one that does not.
    for call in [&TEST, &COMMIT, &BATCH, &PROVE] {
        for errors in 1..1u8 << honest.shape.m {
            let mut inputs = honest.clone();
            let y = inputs.get(Name::Key).len() - 1;
            inputs.get_mut(Name::Key)[y] ^= errors;
            let first = errors.trailing_zeros();
            let places = (0..honest.shape.m as u32).filter(|place| *place != first);
            let what = format!("{} refused 11, errors {errors:03b}", call.name);
            situations.push((what, call, inputs, places.collect()));
        }
    }
    // One bit of the last byte of V~, and of QS1: the last repetition fails, at a Δ that is not 0.
    for (section, number) in [(4, 14), (6, 15)] {
        let mut inputs = honest.clone();
        open_at(&mut inputs, vec![0x05, 0x0C]);
        let last = section_start(Name::Proof, &inputs.shape, section) - 1;
        inputs.get_mut(Name::Proof)[last] ^= 1;
        let what = format!("mq_verify refused {number}");
        situations.push((what, &VERIFY, inputs, vec![]));
    }
    // 16 comes first, and a bit past an element is refused where all else is right.
    for call in CALLS {
        let mut inputs = honest.clone();
        inputs.degree = 260;
        let what = format!("{} refused 16", call.name);
        situations.push((what, call, inputs, vec![]));
    }
    for (call, input, number) in [
        (&BATCH, Name::Batching, 17),
        (&PROVE, Name::Batching, 17),
        (&VERIFY, Name::Delta, 17),
        (&VERIFY, Name::Proof, 18),
    ] {
        let mut inputs = honest.clone();
        let last = inputs.get(input).len() - 1;
        inputs.get_mut(input)[last] ^= 0x10;
        let what = format!("{} refused {number}", call.name);
        if degree == 4 {
            situations.push((what, call, inputs, vec![]));
        }
    }
    Ok(situations)
}

/// What can be changed after this call.
fn tampers(call: &Call, inputs: &Inputs) -> Vec<Tamper> {
    let mut tampers = vec![
        Tamper::Word(1),
        Tamper::Word(1 << 16),
        Tamper::Word(1 << 31),
        Tamper::GuardBefore,
        Tamper::GuardAfter,
    ];
    let some = |index: &usize| !inputs.get(call.takes[*index]).is_empty();
    let lent = (0..call.takes.len()).filter(some);
    tampers.extend(lent.map(Tamper::Input));
    if call.writes.length(&inputs.shape) > 0 {
        let last = call.writes.length(&inputs.shape) - 1;
        tampers.extend((0..=last).map(Tamper::Output));
        tampers.push(Tamper::OutputFromEnd(0));
    }
    tampers
}
