//! The examples over GF(256) of the rendering's files of vectors: each at its Δ, and with each of its changes.

use crate::inputs::{framed, input, Input};

const FILES: [(&str, &str); 2] = [
    (
        "one repetition",
        include_str!("../../reference/tests/vectors/sittings-degree8.rsp"),
    ),
    (
        "masks",
        include_str!("../../reference/tests/vectors/masks-degree8.rsp"),
    ),
];

fn hex(text: &str) -> Vec<u8> {
    (0..text.len() / 2)
        .map(|at| u8::from_str_radix(&text[2 * at..2 * at + 2], 16).unwrap())
        .collect()
}

/// The line of a reply, which is number × 65,536 + place.
fn line(reply: &str) -> String {
    let reply: u32 = reply.parse().unwrap();
    match reply {
        0 => "accepted 0 0".to_string(),
        _ => format!("refused {} {}", reply / 65_536, reply % 65_536),
    }
}

/// The value that stands after a name in an example.
fn value<'a>(example: &'a str, name: &str) -> &'a str {
    let start = format!("{name} = ");
    example
        .lines()
        .find_map(|line| line.strip_prefix(&start))
        .unwrap()
}

pub fn all() -> Vec<Input> {
    FILES
        .iter()
        .flat_map(|(name, examples)| of_file(name, examples))
        .collect()
}

fn of_file(file: &str, examples: &str) -> Vec<Input> {
    let mut inputs = Vec::new();
    for (number, example) in examples.split("# sitting ").skip(1).enumerate() {
        let sections = ["key", "delta", "hprime", "chi", "opened", "proof"]
            .map(|name| hex(value(example, name)));
        let reply = line(value(example, "reply"));
        let name = format!("{file}, example {number}");
        inputs.push(input(name.clone(), framed(&sections), Some(&reply)));
        // changed = d byte 10 xor 1: reply 983040 factors 1 1
        for changed in example
            .lines()
            .filter_map(|line| line.strip_prefix("changed = "))
        {
            let words: Vec<&str> = changed.split_whitespace().collect();
            let at: usize = words[2].parse().unwrap();
            let xor: u8 = words[4].trim_end_matches(':').parse().unwrap();
            let mut other = sections.clone();
            other[5][at] ^= xor;
            inputs.push(input(
                format!("{name}, {changed}"),
                framed(&other),
                Some(&line(words[6])),
            ));
        }
    }
    assert!(!inputs.is_empty());
    inputs
}
