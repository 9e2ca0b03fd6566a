//! Holds libsolfadrus.a against the Rust rendering.
//!
//! compare [SEED] [--seconds S] [--group G] [--selftest]
//!
//! The seed is printed, and a run with the same seed makes the same cases. The fixed groups are always run, then
//! random ones for so many seconds of processor time more. `--group` runs one group alone; a difference says which.

mod calls;
mod damage;
mod forged;
mod groups;
mod inputs;
mod judge;
mod memory;
mod no_equations;
mod repetitions;
mod selftest;
mod sizes;
mod watch;

use calls::ALPHABET;
use groups::{fixed, Group, Run};
use judge::{Judge, Tally, NUMBERS};
use reference::cases::Random;
use reference::key::Shape;
use shapes::DEGREES;
use std::process::exit;
use std::time::{SystemTime, UNIX_EPOCH};

struct Arguments {
    seed: u64,
    seconds: f64,
    group: Option<usize>,
    selftest: bool,
}

fn arguments() -> Option<Arguments> {
    let mut arguments = Arguments {
        seed: SystemTime::now()
            .duration_since(UNIX_EPOCH)
            .ok()?
            .as_micros() as u64,
        seconds: 6.0,
        group: None,
        selftest: false,
    };
    let mut words = std::env::args().skip(1);
    while let Some(word) = words.next() {
        match word.as_str() {
            "--seconds" => arguments.seconds = words.next()?.parse().ok()?,
            "--group" => arguments.group = Some(words.next()?.parse().ok()?),
            "--selftest" => arguments.selftest = true,
            seed => arguments.seed = seed.parse().ok()?,
        }
    }
    Some(arguments)
}

fn main() {
    let Some(arguments) = arguments() else {
        eprintln!("usage: compare [SEED] [--seconds S] [--group G] [--selftest]");
        exit(2);
    };
    println!("seed {}", arguments.seed);
    watch::start(arguments.seed);
    let result = if arguments.selftest {
        selftest::run(arguments.seed)
            .map(|reported| format!("selftest: {reported} changes made, each reported"))
    } else {
        compared(&arguments)
    };
    match result {
        Ok(said) => println!("{said}"),
        Err(said) => {
            println!("DIFFERS: {said}");
            exit(1);
        }
    }
}

fn compared(arguments: &Arguments) -> Result<String, String> {
    let mut judge = Judge::new();
    if let Some(group) = arguments.group {
        one_group(&mut judge, arguments.seed, group)?;
        return Ok(format!("group {group}: {}, all equal", answers(&judge)));
    }
    lengths()?;
    let sizes = sizes::compare(&mut Random::new(arguments.seed), 0)?;
    let mut group = 0;
    let mut end = 0.0;
    while group < fixed().len() || watch::seconds() < end {
        one_group(&mut judge, arguments.seed, group)?;
        group += 1;
        if group == fixed().len() {
            end = watch::seconds() + arguments.seconds;
        }
    }
    table(&judge.tally);
    unmet(&judge.tally)?;
    Ok(format!(
        "compared: {group} groups, {}, {sizes} sizes; all equal",
        answers(&judge)
    ))
}

fn answers(judge: &Judge) -> String {
    let [eight, four] = DEGREES.map(|degree| judge.compared(degree));
    format!("{eight} answers at degree 8 and {four} at degree 4")
}

fn one_group(judge: &mut Judge, seed: u64, number: usize) -> Result<(), String> {
    watch::group(number);
    let group = fixed().get(number).copied().unwrap_or(Group::Random);
    // One step of the generator parts the seeds of neighbouring groups.
    let mut random = Random::new(seed ^ (number as u64).wrapping_mul(0xD134_2543_DE82_EF95));
    let random = Random::new(random.number());
    Run { judge, random }.group(group).map_err(|what| {
        format!("{what}  {group:?}; run again with the arguments: {seed} --group {number}")
    })
}

fn lengths() -> Result<(), String> {
    for degree in DEGREES {
        for (n, m, tau, t) in [
            (1, 1, 1, 1),
            (9, 3, 2, 5),
            (9, 0, 2, 5),
            (320, 320, 48, 288),
        ] {
            if !sizes::own_lengths_agree(&Shape::new(n, m, tau, t, degree, ALPHABET)) {
                return Err("the lengths of this program are not the rendering's".to_string());
            }
        }
    }
    Ok(())
}

/// How often each call gave each number to what was made for each degree.
fn table(tally: &Tally) {
    print!("{:12}{:>7}", "number", "degree");
    (0..NUMBERS).for_each(|number| print!("{number:>7}"));
    println!();
    for (name, degree, numbers) in tally {
        print!("{name:12}{degree:>7}");
        numbers.iter().for_each(|times| print!("{times:>7}"));
        println!();
    }
}

/// Every number that a call can answer at a degree must have come up.
fn unmet(tally: &Tally) -> Result<(), String> {
    for (name, degree, numbers) in tally {
        let call = calls::CALLS.iter().find(|call| call.name == *name).unwrap();
        for number in call.answers_at(*degree) {
            if numbers[number] == 0 {
                return Err(format!(
                    "no case in which {name} answers {number} at degree {degree}"
                ));
            }
        }
    }
    Ok(())
}
