//! answers.rsp: one call in each case, and its answer: every number that a call can answer, and the order in which
//! the questions are put.

use crate::calls::{Call, CALLS};
use crate::damages::{
    add_to_key_count, change_all_y, change_proof, change_y, set_size, spare_in_last, Damage,
    DAMAGES,
};
use crate::lent::{honest, toy, toy_at_degree_4, Lent};
use crate::rsp::File;

pub fn file() -> String {
    let mut file = File::new(&[
        "Solfadrus: answers, one call in each case. The form is that of README.md.",
        "Written by tests/vectors; every number below was answered by the Rust rendering, tests/reference.",
    ]);
    for degree in [8, 4] {
        let base = base(degree);
        for call in CALLS {
            for damage in damages(call, degree) {
                let mut lent = base.clone();
                (damage.make)(&mut lent);
                let word = damage.number * 65_536 + damage.place;
                add(&mut file, call, &lent, damage.what, word);
            }
            both(&mut file, call, &base);
        }
        notes(&mut file, &base);
        first_equations(&mut file, degree);
        last_places(&mut file, degree);
        no_equations(&mut file, degree);
    }
    toy_answers(&mut file);
    toy_answers_at_degree_4(&mut file);
    file.text()
}

/// The case that is damaged: all its strings have spare bits.
fn base(degree: u32) -> Lent {
    let mut lent = honest(2026, [3, 3, 2, 2], degree);
    lent.open_at(if degree == 8 {
        &[0x35, 0xC2]
    } else {
        &[0x05, 0x0C]
    });
    lent
}

/// The damages that concern a call.
fn damages(call: Call, degree: u32) -> impl Iterator<Item = &'static Damage> {
    let lent = base(degree);
    let inputs: Vec<&str> = call.inputs(&lent).iter().map(|(name, _)| *name).collect();
    DAMAGES.iter().filter(move |damage| {
        call.questions(degree).contains(&damage.number)
            && (damage.input == "out" || inputs.contains(&damage.input))
    })
}

/// Two questions that follow each other both get a no: the answer is the first.
fn both(file: &mut File, call: Call, base: &Lent) {
    let first = |number| {
        damages(call, base.degree)
            .find(|damage| damage.number == number)
            .unwrap_or_else(|| panic!("no damage for {number} of {}", call.name()))
    };
    for pair in call.questions(base.degree).windows(2) {
        let (earlier, later) = (first(pair[0]), first(pair[1]));
        let mut lent = base.clone();
        (later.make)(&mut lent);
        (earlier.make)(&mut lent);
        let what = format!("{}, and {}", earlier.what, later.what);
        add(
            file,
            call,
            &lent,
            &what,
            earlier.number * 65_536 + earlier.place,
        );
    }
}

/// What docs/REFUSALS.md notes beside its table.
fn notes(file: &mut File, base: &Lent) {
    let mut lent = base.clone();
    change_y(&mut lent, 0);
    let what = "y of equation 0 is changed: hash takes no witness";
    add(file, Call::Hash, &lent, what, 0);

    let mut lent = base.clone();
    lent.batching.pop();
    spare_in_last(&mut lent.hash_matrix);
    for call in [Call::Prove, Call::Verify] {
        let what = "batching has one byte less, and a spare bit in hash_matrix";
        add(file, call, &lent, what, 5 * 65_536);
    }

    // A key serves at both degrees, and what was made for one is none for the other.
    let mut lent = base.clone();
    lent.degree = 12 - base.degree;
    let batch = if base.degree == 8 { 17 } else { 7 };
    let numbers = [0, 7, 5, batch, 5, 5];
    for (call, number) in CALLS.into_iter().zip(numbers) {
        let what = "the degree is the other one";
        add(file, call, &lent, what, number * 65_536);
    }
}

/// Where several equations fail the lowest is named, in every call that takes a witness. y has three bytes.
fn first_equations(file: &mut File, degree: u32) {
    let honest = honest(20, [3, 20, 1, 2], degree);
    let all: Vec<usize> = (0..20).collect();
    let cases: [(&[usize], &str); 6] = [
        (&[0, 7, 19], "equations 0, 7 and 19 of 20 fail"),
        (&[9, 12, 19], "equations 9, 12 and 19 of 20 fail"),
        (&[15, 16], "equations 15 and 16 of 20 fail"),
        (&[18, 19], "equations 18 and 19 of 20 fail"),
        (&[19], "equation 19 of 20 fails"),
        (&all, "all of 20 equations fail"),
    ];
    for call in CALLS
        .into_iter()
        .filter(|call| call.questions(degree).contains(&11))
    {
        for (equations, what) in cases {
            let mut lent = honest.clone();
            change_all_y(&mut lent, equations);
            let word = 11 * 65_536 + equations[0] as u32;
            add(file, call, &lent, what, word);
        }
    }
}

/// The highest place of 11; and of 14 and 15 the last repetition: at degree 8 of nine, since more would make the leaves
/// too long, at degree 4 of 48.
fn last_places(file: &mut File, degree: u32) {
    let mut lent = honest(160, [2, 320, 1, 1], degree);
    change_y(&mut lent, 319);
    let what = "equation 319 of 320 fails";
    add(file, Call::Test, &lent, what, 11 * 65_536 + 319);

    let tau = if degree == 8 { 9 } else { 48 };
    let lent = honest(9, [1, 1, tau, 1], degree);
    let last = tau - 1;
    for (section, name, number) in [(3, "V~", 14), (4, "QS0", 15)] {
        let mut lent = lent.clone();
        change_proof(&mut lent, section, last);
        let what = format!("{name} of repetition {last} of {tau} is changed");
        let word = number * 65_536 + last as u32;
        add(file, Call::Verify, &lent, &what, word);
    }
}

/// A key with no equations: any witness fits, batching has no bytes, and nothing sees a changed d.
fn no_equations(file: &mut File, degree: u32) {
    let mut honest = honest(12, [3, 0, 2, 2], degree);
    honest.open_at(&[0x05, 0x0C]);
    let cases: [(u32, &str, &str, fn(&mut Lent)); 17] = [
        (0, "key", "", |_| {}),
        (0, "witness", ", another witness", |l| l.witness[0] ^= 7),
        (9, "witness", ", a spare bit in the witness", |l| {
            spare_in_last(&mut l.witness)
        }),
        (2, "key", ", n is 0", |l| set_size(l, 0, 0)),
        (2, "key", ", tau is 0", |l| set_size(l, 2, 0)),
        (2, "key", ", t is 0", |l| set_size(l, 3, 0)),
        (3, "key", ", the key has 21 bytes", |l| l.key.push(0)),
        (3, "key", ", the key has 19 bytes", |l| l.key.truncate(19)),
        (3, "key", ", the count of y is 1", |l| {
            add_to_key_count(l, 2, 1)
        }),
        (3, "key", ", m is 1 in the header alone", |l| {
            set_size(l, 1, 1)
        }),
        (5, "batching", ", one byte of batching", |l| {
            l.batching.push(0)
        }),
        (
            5,
            "batching",
            ", a byte of batching for each repetition",
            |l| l.batching = vec![1, 1],
        ),
        (7, "leaves", ", leaves with one byte less", |l| {
            l.leaves.truncate(l.leaves.len() - 1)
        }),
        (0, "proof", ", d is changed", |l| change_proof(l, 1, 0)),
        (14, "proof", ", V~ of repetition 0 is changed", |l| {
            change_proof(l, 3, 0)
        }),
        (15, "proof", ", QS0 of repetition 0 is changed", |l| {
            change_proof(l, 4, 0)
        }),
        (15, "proof", ", QS1 of repetition 0 is changed", |l| {
            change_proof(l, 5, 0)
        }),
    ];
    for call in CALLS {
        for (number, input, what, make) in cases {
            if call.inputs(&honest).iter().any(|(name, _)| *name == input) {
                let mut lent = honest.clone();
                make(&mut lent);
                add(
                    file,
                    call,
                    &lent,
                    &format!("no equations{what}"),
                    number * 65_536,
                );
            }
        }
    }
}

/// The toy's answers that 01 gives, and two more: y = 0 and QS1 = 05 are accepted at 00 and 52 only.
fn toy_answers(file: &mut File) {
    let toy = toy();
    let last = toy.proof.len() - 1;
    let mut forged = toy.clone();
    forged.proof[last] = 0x05;
    let mut other_key = forged.clone();
    change_y(&mut other_key, 0);
    let mut other_hash = toy.clone();
    change_proof(&mut other_hash, 2, 0);
    let cases: [(&Lent, &str, u8, u32); 8] = [
        (&toy, "the toy", 0x02, 0),
        (&forged, "the toy, QS1 changed to 05", 0x02, 15 * 65_536),
        (&forged, "the toy, QS1 changed to 05", 0x00, 0),
        (&other_hash, "the toy, u~ changed to 00", 0x02, 14 * 65_536),
        (&other_key, "the toy, y = 0 and QS1 = 05", 0x00, 0),
        (&other_key, "the toy, y = 0 and QS1 = 05", 0x52, 0),
        (&other_key, "the toy, y = 0 and QS1 = 05", 0x02, 15 * 65_536),
        (&other_key, "the toy, y = 0 and QS1 = 05", 0x53, 15 * 65_536),
    ];
    for (lent, what, delta, word) in cases {
        let mut lent = lent.clone();
        lent.open_at(&[delta]);
        add(file, Call::Verify, &lent, what, word);
    }
    add(file, Call::Test, &other_key, "the toy, y = 0", 11 * 65_536);
}

/// The toy at degree 4, QS1 changed: with y = 0 it is accepted at 00 and 0B only.
fn toy_answers_at_degree_4(file: &mut File) {
    let toy = toy_at_degree_4();
    let last = toy.proof.len() - 1;
    let mut forged = toy.clone();
    forged.proof[last] = 0x0E;
    let mut other_key = forged.clone();
    change_y(&mut other_key, 0);
    let (zero, both) = ("QS1 changed to 0E", "y = 0 and QS1 = 0E");
    let cases: [(&Lent, &str, u8, u32); 7] = [
        (&toy, "as it is", 0x03, 0),
        (&toy, "as it is", 0x0F, 0),
        (&forged, zero, 0x03, 15 * 65_536),
        (&forged, zero, 0x00, 0),
        (&other_key, both, 0x00, 0),
        (&other_key, both, 0x0B, 0),
        (&other_key, both, 0x0A, 15 * 65_536),
    ];
    for (lent, what, delta, word) in cases {
        let mut lent = lent.clone();
        lent.open_at(&[delta]);
        let what = format!("the toy at degree 4, {what}");
        add(file, Call::Verify, &lent, &what, word);
    }
}

/// Writes a case. What is written is the rendering's answer; `meant` is that of 01, and must be the same.
fn add(file: &mut File, call: Call, lent: &Lent, what: &str, meant: u32) {
    let (word, out) = call.answer(lent);
    assert_eq!(word, meant, "{} where {what}", call.name());
    file.case();
    file.line("call", call.name());
    file.line("what", what);
    file.line("degree", &lent.degree.to_string());
    for (name, bytes) in call.inputs(lent) {
        file.bytes(name, bytes);
    }
    if !call.writes(lent).is_empty() {
        file.line("out_len", &call.out_len(lent).to_string());
    }
    file.line("number", &(word / 65_536).to_string());
    file.line("place", &(word % 65_536).to_string());
    if let Some(out) = out.filter(|out| !out.is_empty()) {
        file.bytes("out", &out);
    }
    file.end_case();
}
