//! Mounts the linear attack on proofs in which one mask serves every repetition, and shows that it gains nothing where
//! each repetition has its own.
//!
//! attack [SEED] [--bare] [--shared]
//!
//! The controls are a small prover in this crate: with one mask the attack must recover every witness, with own masks
//! none; and that the last two repetitions share one must be seen. Then the library's proofs are attacked, and the
//! attack must do no better than guessing. All at both degrees.
//!
//! With `--bare` the library is one whose calls take no degree, and is attacked at degree 8; with `--shared` it is one
//! of those that had one mask, and the attack must recover every witness.

mod attack;
mod case;
mod field;
mod format;
mod judge;
mod library;
mod prover;
mod random;
mod verifier;

use case::Case;
use field::Field;
use format::{Masks, Sizes};
use judge::Tally;
use library::Calls;
use random::Random;
use std::process::exit;
use std::time::{SystemTime, UNIX_EPOCH};

/// 88 equations for 64 bits: 24 more than unknowns, so that a rank below 64 is met once in some 16 million proofs.
fn sizes(field: Field) -> Sizes {
    let tau = match field {
        Field::Eight => 12,
        Field::Four => 23,
    };
    Sizes {
        n: 64,
        m: 16,
        tau,
        t: 16,
        field,
    }
}
const PROOFS: usize = 200;

/// The usual sizes. At degree 8 there are 144 equations for 150 bits, and the key tells which of the 64 solutions, or a
/// few more, is the witness; at degree 4 there are 168.
fn usual_sizes(field: Field) -> Sizes {
    let tau = match field {
        Field::Eight => 19,
        Field::Four => 43,
    };
    Sizes {
        n: 150,
        m: 150,
        tau,
        t: 144,
        field,
    }
}
const USUAL_PROOFS: usize = 60;
const USUAL_CONTROLS: usize = 5;

/// The most repetitions, since the library takes sixteen at a time.
fn most_sizes(field: Field) -> Sizes {
    Sizes {
        tau: 48,
        ..sizes(field)
    }
}
const MOST_PROOFS: usize = 100;

#[derive(Clone, Copy, PartialEq, Eq)]
enum Prover {
    Control,
    Library(Calls),
}

/// The attack on so many proofs.
fn attacked(
    random: &mut Random,
    prover: Prover,
    masks: Masks,
    sizes: Sizes,
    proofs: usize,
) -> Result<Tally, String> {
    let mut tally = Tally::default();
    for _ in 0..proofs {
        let case = Case::new(random, sizes, masks);
        let proof = match prover {
            Prover::Control => prover::prove(&case),
            Prover::Library(calls) => library::prove(&case, calls)?,
        };
        let view = case.view(&proof);
        // What the attack reads of a proof must be what the checks hold of: else it would seem to guess.
        if !verifier::accepts(&view, masks) {
            return Err("a proof is none".to_string());
        }
        if let Prover::Library(calls) = prover {
            library::verify(&view, calls)?;
        }
        let forms = attack::forms(&view);
        let guess = attack::guess(&view, &forms, random);
        tally.add(&view, &forms, &case.witness, &guess);
    }
    Ok(tally)
}

fn run(seed: u64, of_library: Masks, calls: Calls) -> Result<(), String> {
    let mut random = Random::new(seed);
    let mut judged = |prover, masks, sizes: Sizes, proofs| {
        let tally = attacked(&mut random, prover, masks, sizes, proofs)?;
        let who = match prover {
            Prover::Control => "control",
            Prover::Library(_) => "library",
        };
        let (how, right, expected) = match masks {
            Masks::Shared => ("one mask", tally.all_recovered(), "every witness"),
            Masks::Own => ("own masks", tally.as_guessing(), "what a guess gives"),
            Masks::LastShared => (
                "the last mask shared",
                !tally.as_guessing(),
                "more than a guess",
            ),
        };
        println!(
            "{who}, {how}, n = {}, tau = {}, degree {}: {tally}",
            sizes.n,
            sizes.tau,
            sizes.field.degree()
        );
        match right {
            true => Ok(()),
            false => Err(format!(
                "the attack on the {who} with {how} does not get {expected}"
            )),
        }
    };
    let fields: &[Field] = match calls {
        Calls::WithDegree => &[Field::Eight, Field::Four],
        Calls::Bare => &[Field::Eight],
    };
    let library = Prover::Library(calls);
    for field in fields.iter().copied() {
        let (small, usual) = (sizes(field), usual_sizes(field));
        judged(Prover::Control, Masks::Shared, small, PROOFS)?;
        judged(Prover::Control, Masks::Shared, usual, USUAL_CONTROLS)?;
        judged(Prover::Control, Masks::LastShared, small, PROOFS)?;
        judged(Prover::Control, Masks::Own, small, PROOFS)?;
        judged(library, of_library, small, PROOFS)?;
        judged(library, of_library, usual, USUAL_PROOFS)?;
        judged(library, of_library, most_sizes(field), MOST_PROOFS)?;
    }
    Ok(())
}

fn main() {
    let now = SystemTime::now().duration_since(UNIX_EPOCH);
    let mut seed = now.map_or(0, |now| now.as_micros() as u64);
    let (mut of_library, mut calls) = (Masks::Own, Calls::WithDegree);
    for word in std::env::args().skip(1) {
        match (word.as_str(), word.parse()) {
            ("--bare", _) => calls = Calls::Bare,
            ("--shared", _) => (of_library, calls) = (Masks::Shared, Calls::Bare),
            (_, Ok(number)) => seed = number,
            _ => {
                eprintln!("usage: attack [SEED] [--bare] [--shared]");
                exit(2);
            }
        }
    }
    println!("seed {seed}");
    if let Err(said) = run(seed, of_library, calls) {
        println!("FAILED: {said}");
        exit(1);
    }
}
