//! The check program's line.

use crate::calls::{verify, Answer};
use crate::strings::read_section;

/// "More than 65,536 bytes of input in all ... give `unread 0 0`."
pub const LIMIT: usize = 65_536;

/// From 02 (request 3): "the check program stays at 8."
pub const DEGREE: u32 = 8;

/// From 02 (request 11): "the check program stays at 2".
pub const ALPHABET: u32 = 2;

/// "A check program reads key, Δ, H′, χ, opened leaves, proof from standard input, each after its
/// four-byte count, and prints one line: verdict (accepted, refused or unread), number, place,
/// decimal, a space between."
///
/// The line is given back without the end of line.
pub fn line(input: &[u8]) -> String {
    match six_sections(input) {
        None => "unread 0 0".to_string(),
        Some([key, delta, h, chi, opened, proof]) => {
            match verify(key, DEGREE, ALPHABET, delta, h, chi, opened, proof) {
                Answer::Accepted => "accepted 0 0".to_string(),
                Answer::Refused { number, place } => format!("refused {number} {place}"),
            }
        }
    }
}

/// "More than 65,536 bytes of input in all, a cut section or bytes left over give `unread 0 0`."
fn six_sections(input: &[u8]) -> Option<[&[u8]; 6]> {
    if input.len() > LIMIT {
        return None;
    }
    let (key, end) = read_section(input, 0)?;
    let (delta, end) = read_section(input, end)?;
    let (h, end) = read_section(input, end)?;
    let (chi, end) = read_section(input, end)?;
    let (opened, end) = read_section(input, end)?;
    let (proof, end) = read_section(input, end)?;
    if end != input.len() {
        return None;
    }
    Some([key, delta, h, chi, opened, proof])
}
