//! Runs a check program, `mqcheck-test PROGRAM`, on many inputs. What it writes must be the line of the Rust rendering,
//! and where 01 or a file of vectors names the line, that one. `--count` before the program only counts the inputs with
//! another line; `--totals` does so on inputs of about 65,536 bytes alone.

mod inputs;
mod vectors;

use inputs::Input;
use std::io::{ErrorKind, Write};
use std::process::{exit, Command, Stdio};

/// What the program writes to standard output, given these bytes in pieces of the given length.
fn run(program: &str, bytes: &[u8], piece: usize) -> Vec<u8> {
    let mut child = Command::new(program)
        .stdin(Stdio::piped())
        .stdout(Stdio::piped())
        .spawn()
        .expect("the program does not start");
    let mut stdin = child.stdin.take().unwrap();
    for part in bytes.chunks(piece) {
        match stdin.write_all(part) {
            Ok(()) => {}
            // The program has read all that it needs to know that there is too much.
            Err(error) if error.kind() == ErrorKind::BrokenPipe => break,
            Err(error) => panic!("{error}"),
        }
    }
    drop(stdin);
    let output = child.wait_with_output().unwrap();
    assert!(output.status.success(), "exit status {}", output.status);
    output.stdout
}

fn all() -> Vec<Input> {
    let mut inputs = inputs::toy();
    inputs.extend(inputs::cuts());
    inputs.extend(inputs::counts());
    inputs.extend(inputs::headers());
    inputs.extend(inputs::limits());
    inputs.extend(inputs::no_equations());
    inputs.extend(inputs::totals());
    inputs.extend(vectors::all());
    inputs.extend(inputs::random());
    inputs
}

fn main() {
    let words: Vec<String> = std::env::args().skip(1).collect();
    let (count_only, inputs, program) = match words.as_slice() {
        [program] => (false, all(), program),
        [flag, program] if flag == "--count" => (true, all(), program),
        [flag, program] if flag == "--totals" => (true, inputs::totals(), program),
        _ => panic!("usage: mqcheck-test [--count|--totals] PROGRAM"),
    };

    let mut other = 0;
    let mut lines = std::collections::BTreeMap::new();
    for Input {
        name,
        bytes,
        line,
        piece,
    } in &inputs
    {
        let expected = reference::check::line(bytes);
        if let Some(line) = line {
            assert_eq!(&expected, line, "the rendering's line of: {name}");
        }
        let written = run(program, bytes, *piece);
        if written != format!("{expected}\n").into_bytes() {
            other += 1;
            if !count_only {
                println!(
                    "{name}: {:?}, expected {expected}",
                    String::from_utf8_lossy(&written)
                );
            }
        }
        let numbers: Vec<&str> = expected.split(' ').take(2).collect();
        *lines.entry(numbers.join(" ")).or_insert(0) += 1;
    }
    for (verdict, times) in &lines {
        println!("{verdict}: {times} inputs");
    }
    println!(
        "{} inputs, {other} lines are not the expected ones",
        inputs.len()
    );
    if other > 0 {
        exit(1);
    }
}
