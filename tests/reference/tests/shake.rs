//! SHAKE256: some of NIST's vectors, the same function once more bit by bit, and lengths around a block.

// Bits are counted by their coordinates, as in FIPS 202.
#![allow(clippy::needless_range_loop)]

use reference::cases::Random;
use reference::shake::*;

const NIST: &str = include_str!("vectors/shake256.rsp");

fn hex(text: &str) -> Vec<u8> {
    (0..text.len() / 2)
        .map(|at| u8::from_str_radix(&text[2 * at..2 * at + 2], 16).unwrap())
        .collect()
}

/// The lines "name = value" of a text, those in brackets too.
fn lines(text: &str) -> Vec<(&str, &str)> {
    text.lines()
        .map(|line| line.trim().trim_start_matches('[').trim_end_matches(']'))
        .filter(|line| !line.starts_with('#'))
        .filter_map(|line| line.split_once(" = "))
        .collect()
}

/// ShortMsg, LongMsg and VariableOut: every message with its output. How many there were.
fn messages(text: &str) -> usize {
    let (mut bits, mut length, mut message) = (256, 0, Vec::new());
    let mut seen = 0;
    for (name, value) in lines(text) {
        match name {
            "Input Length" | "Len" => bits = value.parse().unwrap(),
            "Outputlen" => length = value.parse().unwrap(),
            "Msg" => message = hex(value),
            "Output" => {
                assert_eq!([bits % 8, length % 8], [0, 0]);
                // A message of no bits is written as 00.
                message.truncate(bits / 8);
                assert_eq!(message.len(), bits / 8);
                assert_eq!(shake256(&message, length / 8), hex(value));
                seen += 1;
            }
            _ => assert_eq!(name, "COUNT"),
        }
    }
    seen
}

/// Monte (NIST's SHA3VS): a thousand times the first 16 bytes of the output, with zeros after it where it is shorter,
/// are the next message, and its last two bytes give the next length. The length comes first from the highest one.
fn monte(text: &str) -> usize {
    let (mut least, mut highest, mut length) = (0, 0, 0);
    let mut output = Vec::new();
    let mut seen = 0;
    for (name, value) in lines(text) {
        match name {
            "Minimum Output Length (bits)" => least = value.parse::<usize>().unwrap() / 8,
            "Maximum Output Length (bits)" => {
                highest = value.parse::<usize>().unwrap() / 8;
                length = highest;
            }
            "Msg" => output = hex(value),
            "Outputlen" => {
                let mut next = length;
                for _ in 0..1000 {
                    length = next;
                    output.resize(16.max(output.len()), 0);
                    output = shake256(&output[..16], length);
                    let last = 256 * output[length - 2] as usize + output[length - 1] as usize;
                    next = least + last % (highest - least + 1);
                }
                assert_eq!(8 * length, value.parse::<usize>().unwrap());
                length = next;
            }
            "Output" => {
                assert_eq!(output, hex(value));
                seen += 1;
            }
            _ => assert_eq!(name, "COUNT"),
        }
    }
    seen
}

#[test]
fn vectors_of_nist() {
    let (once, often) = NIST.split_once("# Monte").unwrap();
    assert_eq!(messages(once), 22);
    assert_eq!(monte(often), 6);
}

/// A[x][y][z], a bit each.
type Bits = [[[bool; 64]; 5]; 5];

fn bits_of(state: &State) -> Bits {
    let mut bits = [[[false; 64]; 5]; 5];
    for x in 0..5 {
        for y in 0..5 {
            for z in 0..64 {
                bits[x][y][z] = (state[x][y] >> z) & 1 == 1;
            }
        }
    }
    bits
}

/// A′[x,y,z] for all x, y, z.
fn each(bit: impl Fn(usize, usize, usize) -> bool) -> Bits {
    let mut bits = [[[false; 64]; 5]; 5];
    for x in 0..5 {
        for y in 0..5 {
            for z in 0..64 {
                bits[x][y][z] = bit(x, y, z);
            }
        }
    }
    bits
}

fn theta_of_bits(a: &Bits) -> Bits {
    let column = |x: usize, z: usize| (0..5).fold(false, |sum, y| sum ^ a[x % 5][y][z % 64]);
    each(|x, y, z| a[x][y][z] ^ column(x + 4, z) ^ column(x + 1, z + 63))
}

/// The offsets as the table of FIPS 202 has them, before they are taken mod 64, by x and then y.
const OFFSETS: [[usize; 5]; 5] = [
    [0, 36, 3, 105, 210],
    [1, 300, 10, 45, 66],
    [190, 6, 171, 15, 253],
    [28, 55, 153, 21, 120],
    [91, 276, 231, 136, 78],
];

fn rho_of_bits(a: &Bits) -> Bits {
    each(|x, y, z| a[x][y][(z + 320 - OFFSETS[x][y]) % 64])
}

fn pi_of_bits(a: &Bits) -> Bits {
    each(|x, y, z| a[(x + 3 * y) % 5][x][z])
}

fn chi_of_bits(a: &Bits) -> Bits {
    each(|x, y, z| a[x][y][z] ^ (!a[(x + 1) % 5][y][z] && a[(x + 2) % 5][y][z]))
}

/// The round constants, as they are often printed.
const CONSTANTS: [u64; 24] = [
    0x0000_0000_0000_0001,
    0x0000_0000_0000_8082,
    0x8000_0000_0000_808A,
    0x8000_0000_8000_8000,
    0x0000_0000_0000_808B,
    0x0000_0000_8000_0001,
    0x8000_0000_8000_8081,
    0x8000_0000_0000_8009,
    0x0000_0000_0000_008A,
    0x0000_0000_0000_0088,
    0x0000_0000_8000_8009,
    0x0000_0000_8000_000A,
    0x0000_0000_8000_808B,
    0x8000_0000_0000_008B,
    0x8000_0000_0000_8089,
    0x8000_0000_0000_8003,
    0x8000_0000_0000_8002,
    0x8000_0000_0000_0080,
    0x0000_0000_0000_800A,
    0x8000_0000_8000_000A,
    0x8000_0000_8000_8081,
    0x8000_0000_0000_8080,
    0x0000_0000_8000_0001,
    0x8000_0000_8000_8008,
];

fn iota_of_bits(a: &Bits, round: usize) -> Bits {
    each(|x, y, z| a[x][y][z] ^ ([x, y] == [0, 0] && (CONSTANTS[round] >> z) & 1 == 1))
}

fn keccak_of_bits(a: &Bits) -> Bits {
    let mut bits = *a;
    for round in 0..24 {
        let four = chi_of_bits(&pi_of_bits(&rho_of_bits(&theta_of_bits(&bits))));
        bits = iota_of_bits(&four, round);
    }
    bits
}

/// SHAKE256 with every bit by itself: the message's bits, lowest first in a byte; 1111; 1, zeros and 1.
fn shake_of_bits(message: &[u8], length: usize) -> Vec<u8> {
    let rate = 1600 - 2 * 256;
    let bit = |byte: &u8, s: usize| (byte >> s) & 1 == 1;
    let mut bits: Vec<bool> = message
        .iter()
        .flat_map(|byte| (0..8).map(move |s| bit(byte, s)))
        .collect();
    bits.extend([true; 4]);
    bits.push(true);
    while bits.len() % rate != rate - 1 {
        bits.push(false);
    }
    bits.push(true);

    // S[64(5y+x)+z] = A[x,y,z].
    let mut state = each(|_, _, _| false);
    for block in bits.chunks(rate) {
        let added = |x: usize, y: usize, z: usize| block.get(64 * (5 * y + x) + z) == Some(&true);
        state = keccak_of_bits(&each(|x, y, z| state[x][y][z] ^ added(x, y, z)));
    }
    let mut output = Vec::new();
    while output.len() < 8 * length {
        output.extend((0..rate).map(|i| state[i / 64 % 5][i / 320][i % 64]));
        state = keccak_of_bits(&state);
    }
    let byte = |bits: &[bool]| (0..8).map(|s| (bits[s] as u8) << s).sum();
    output.chunks(8).take(length).map(byte).collect()
}

#[test]
fn the_constants() {
    assert_eq!(ROUND_CONSTANTS, CONSTANTS);
}

#[test]
fn every_step_bit_by_bit() {
    let mut random = Random::new(202);
    for round in 0..24 {
        let mut state = [[0; 5]; 5];
        for x in 0..5 {
            state[x] = [(); 5].map(|_| random.number());
        }
        let bits = bits_of(&state);
        assert_eq!(bits_of(&theta(&state)), theta_of_bits(&bits));
        assert_eq!(bits_of(&rho(&state)), rho_of_bits(&bits));
        assert_eq!(bits_of(&pi(&state)), pi_of_bits(&bits));
        assert_eq!(bits_of(&chi(&state)), chi_of_bits(&bits));
        assert_eq!(bits_of(&iota(&state, round)), iota_of_bits(&bits, round));
        assert_eq!(bits_of(&keccak_f(&state)), keccak_of_bits(&bits));
    }
}

/// Messages and outputs of no byte, of one, of a leaf's 53, and around one and two blocks of 136.
#[test]
fn every_length_bit_by_bit() {
    let mut random = Random::new(203);
    let lengths = [0, 1, 2, 7, 8, 9, 53, 134, 135, 136, 137, 271, 272, 273];
    for of_message in lengths {
        let message = random.bytes(of_message);
        let longest = shake_of_bits(&message, 300);
        assert_eq!(longest.len(), 300);
        for length in lengths {
            assert_eq!(shake256(&message, length), longest[..length]);
        }
    }
}
