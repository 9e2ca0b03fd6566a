//! The check program: "reads key, Δ, H′, χ, opened leaves, proof from standard input, each after
//! its four-byte count, and prints one line".

use reference::check::{line, LIMIT};
use std::io::Read;

fn main() {
    // One byte past the limit is enough to know that there are more than 65,536.
    let mut input = Vec::new();
    let read = std::io::stdin()
        .lock()
        .take(LIMIT as u64 + 1)
        .read_to_end(&mut input);
    match read {
        Ok(_) => println!("{}", line(&input)),
        Err(_) => println!("unread 0 0"),
    }
}
