//! Writes the computed examples with a mask for each repetition: `sittings DIRECTORY`.

use reference::sittings::{degree_4, degree_8, four_valued};
use std::path::Path;

fn main() -> std::io::Result<()> {
    let words: Vec<String> = std::env::args().skip(1).collect();
    let [directory] = words.as_slice() else {
        eprintln!("usage: sittings DIRECTORY");
        std::process::exit(2);
    };
    let directory = Path::new(directory);
    std::fs::write(directory.join("masks-degree4.rsp"), degree_4())?;
    std::fs::write(directory.join("masks-degree8.rsp"), degree_8())?;
    std::fs::write(directory.join("four-valued.rsp"), four_valued())
}
