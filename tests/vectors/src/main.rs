//! Writes the test vectors: `vectors DIRECTORY` makes proofs.rsp, answers.rsp and digests.rsp there, always with the
//! same bytes.
//!
//! The form is that of vectors/README.md. Every expected byte and number is the Rust rendering's; the library is
//! neither linked nor asked.

mod answers;
mod calls;
mod damages;
mod digests;
mod lent;
mod proofs;
mod rsp;
mod sha256;

use std::path::Path;

fn main() -> std::io::Result<()> {
    let words: Vec<String> = std::env::args().skip(1).collect();
    let [directory] = words.as_slice() else {
        eprintln!("usage: vectors DIRECTORY");
        std::process::exit(2);
    };
    let directory = Path::new(directory);
    std::fs::write(directory.join("proofs.rsp"), proofs::file())?;
    std::fs::write(directory.join("answers.rsp"), answers::file())?;
    std::fs::write(directory.join("digests.rsp"), digests::file())
}
