//! Strings of bits or of symbols, spare bits, counts and sections.
//!
//! What 01 says of bits is said here of an alphabet's symbols (02, request 11): "A symbol takes two bits, four to a
//! byte, lowest first", "so every bit row of c entries becomes a symbol row of ⌈c/4⌉ bytes."

use crate::alphabet::Alphabet;

/// "A bit string of L bits takes ⌈L/8⌉ bytes", and one of four symbols ⌈L/4⌉ (02, request 11).
pub fn bytes_for(alphabet: &Alphabet, entries: usize) -> usize {
    entries.div_ceil(alphabet.in_a_byte())
}

/// The number of the symbol at coordinate c: "coordinate c is bit c mod 8 (bit 0 lowest) of byte ⌊c/8⌋"; of four
/// symbols each takes "two bits, four to a byte, lowest first".
pub fn symbol(alphabet: &Alphabet, string: &[u8], c: usize) -> u8 {
    match alphabet.size {
        2 => (string[c / 8] >> (c % 8)) & 1,
        _ => (string[c / 4] >> (2 * (c % 4))) & 3,
    }
}

/// Coordinate c as the element of K that its symbol stands for; a bit stands for 0 or 1.
pub fn coordinate(alphabet: &Alphabet, string: &[u8], c: usize) -> u8 {
    alphabet.element(symbol(alphabet, string, c))
}

/// The first so many coordinates of a string, as a vector of elements of K.
pub fn unpack(alphabet: &Alphabet, string: &[u8], entries: usize) -> Vec<u8> {
    let mut vector = Vec::new();
    for c in 0..entries {
        vector.push(coordinate(alphabet, string, c));
    }
    vector
}

/// The string whose coordinates are the symbols that stand for the given elements: "Bits past the last coordinate are
/// spare and must be 0."
pub fn pack(alphabet: &Alphabet, vector: &[u8]) -> Vec<u8> {
    let mut string = vec![0; bytes_for(alphabet, vector.len())];
    for c in 0..vector.len() {
        let symbol = alphabet.symbol(vector[c]);
        match alphabet.size {
            2 => string[c / 8] |= symbol << (c % 8),
            _ => string[c / 4] |= symbol << (2 * (c % 4)),
        }
    }
    string
}

/// "Bits past the last coordinate are spare and must be 0."
///
/// Said of each of the strings of so many entries that lie one after another in `strings`.
pub fn spare_bits_are_0(alphabet: &Alphabet, strings: &[u8], entries: usize) -> bool {
    let length = bytes_for(alphabet, entries);
    let mut start = 0;
    while start < strings.len() {
        let string = &strings[start..start + length];
        for c in entries..alphabet.in_a_byte() * length {
            if symbol(alphabet, string, c) != 0 {
                return false;
            }
        }
        start += length;
    }
    true
}

/// A string with its "spare bits then cleared" (02, request 6): so many coordinates as they are, all past them 0.
pub fn cleared(alphabet: &Alphabet, string: &[u8], entries: usize) -> Vec<u8> {
    pack(alphabet, &unpack(alphabet, string, entries))
}

/// "two bytes each, lowest first".
pub fn two_bytes(bytes: &[u8], at: usize) -> usize {
    bytes[at] as usize + 256 * bytes[at + 1] as usize
}

/// Appends a number: "two bytes each, lowest first".
pub fn write_two_bytes(out: &mut Vec<u8>, number: usize) {
    out.push((number % 256) as u8);
    out.push((number / 256) as u8);
}

/// "byte count (four bytes, lowest first)". In 64 bits, so that FFFFFFFF is a number like others.
pub fn four_bytes(bytes: &[u8], at: usize) -> u64 {
    bytes[at] as u64
        + 256 * bytes[at + 1] as u64
        + 65_536 * bytes[at + 2] as u64
        + 16_777_216 * bytes[at + 3] as u64
}

/// Appends a section "after its four-byte count".
pub fn write_section(out: &mut Vec<u8>, section: &[u8]) {
    let mut count = section.len();
    for _ in 0..4 {
        out.push((count % 256) as u8);
        count /= 256;
    }
    out.extend_from_slice(section);
}

/// The section whose count stands at `at`, and where it ends; nothing "where a section is not
/// there whole".
pub fn read_section(bytes: &[u8], at: usize) -> Option<(&[u8], usize)> {
    let rest = &bytes[at..];
    if rest.len() < 4 {
        return None;
    }
    let count = four_bytes(rest, 0);
    if count > (rest.len() - 4) as u64 {
        return None;
    }
    let section = &rest[4..4 + count as usize];
    Some((section, at + 4 + count as usize))
}

/// All sections from `at` to the end of the bytes, when they are as many as the given lengths,
/// each has its length, and no byte is left over: "Are all counts and the ... length exact?"
pub fn exact_sections<'a>(bytes: &'a [u8], at: usize, lengths: &[usize]) -> Option<Vec<&'a [u8]>> {
    let mut sections = Vec::new();
    let mut at = at;
    for length in lengths {
        let (section, end) = read_section(bytes, at)?;
        if section.len() != *length {
            return None;
        }
        sections.push(section);
        at = end;
    }
    if at != bytes.len() {
        return None;
    }
    Some(sections)
}
