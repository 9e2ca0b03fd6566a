//! The computed examples with a mask for each repetition: files in the form of the older vectors, always with the same
//! bytes, two of bits and one of four symbols. Nothing here is in 01 or 02 but the layout of what is made.
//!
//! Leaves and H′ come from the first seed at which the example tells something: no two masks are alike, nor two bytes
//! of QS0 or of QS1, none of these is 0, nor d nor ũ, and every change is refused. Of the two changes of C the first is
//! one that consistency does not see, but the product check does.

use crate::alphabet::{Alphabet, FOUR, TWO};
use crate::calls::{verify, word};
use crate::cases::{case_over, Case, Random};
use crate::factors::factors;
use crate::field::{Field, GF16, GF256};
use crate::key::{header, Key};
use crate::leaves::{u, v};
use crate::prover::{first_step, second_step, third_step, whole};
use crate::strings::{pack, symbol};
use crate::verifier::sections;

/// The sections of a proof by the names that the files have for them.
const SECTIONS: [&str; 6] = ["C", "d", "ut", "Vt", "QS0", "QS1"];

/// A byte of a section of the proof, and what is added to it by exclusive or.
#[derive(Clone, Copy)]
struct Change {
    section: usize,
    byte: usize,
    xor: u8,
}

const fn change(section: usize, byte: usize, xor: u8) -> Change {
    Change { section, byte, xor }
}

/// The changes that each sitting has, in the order of the older files.
const CHANGES: [Change; 12] = [
    change(0, 0, 1),
    change(0, 0, 2),
    change(4, 0, 1),
    change(4, 1, 2),
    change(5, 0, 1),
    change(5, 1, 2),
    change(3, 0, 1),
    change(3, 1, 2),
    change(1, 0, 1),
    change(1, 0, 2),
    change(2, 0, 1),
    change(2, 0, 2),
];

/// The same of four symbols: in C symbols 0 and 1, in d and ũ also several changes of one symbol.
const CHANGES_OF_SYMBOLS: [Change; 14] = [
    change(0, 0, 2),
    change(0, 0, 12),
    change(4, 0, 1),
    change(4, 1, 2),
    change(5, 0, 1),
    change(5, 1, 188),
    change(3, 0, 1),
    change(3, 1, 2),
    change(1, 0, 1),
    change(1, 0, 2),
    change(1, 0, 12),
    change(2, 0, 1),
    change(2, 0, 2),
    change(2, 0, 12),
];

fn changes_of(sitting: &Case) -> &'static [Change] {
    match sitting.alphabet() {
        4 => &CHANGES_OF_SYMBOLS,
        _ => &CHANGES,
    }
}

/// GF(16): two sittings, of two and of three repetitions.
pub fn degree_4() -> String {
    let mut text = heading(
        "GF(16), modulus X^4+X+1, 16 leaves, four mask coordinates for each repetition: k = n+4*tau, and \
         repetition e uses n+4e to n+4e+3",
    );
    text += "# L = 19 in both sittings: of the last byte of a leaf and of a row of C bits 3 to 7 are spare.\n";

    let old = fixed(
        GF16,
        TWO,
        "090002000200020024000000ff002801c301f2007d01ed01fe00b401f400db006800b900f5012a00ac014a00e800830004000000ac01\
         88010100000003",
        "b100",
        "0f030609",
        "040b",
    );
    let sitting = telling(&old);
    text += &common(0, &sitting);
    let both_rows = [change(3, 0, 1), change(3, sitting.shape.t, 1)];
    text += &several(&sitting, &both_rows);
    let product_and_consistency = [change(4, 0, 1), change(3, sitting.shape.t, 1)];
    text += &several(&sitting, &product_and_consistency);

    let three = fixed(
        GF16,
        TWO,
        "050001000300020005000000\
         07170a1e00\
         0100000016\
         0100000001",
        "13",
        "050e07",
        "0d0701",
    );
    let sitting = telling(&three);
    text += &common(1, &sitting);
    text += &exchanged(&sitting);
    let w = sitting.shape.w();
    for row in 1..=2 {
        text += &several(&sitting, &[change(0, row * w - 1, 0x80)]);
    }
    text
}

/// GF(256): two sittings, of two and of three repetitions.
pub fn degree_8() -> String {
    let mut text = heading(
        "GF(256), rules of 01, eight mask coordinates for each repetition: k = n+8*tau, and repetition e uses n+8e to \
         n+8e+7",
    );
    text += "# commit, hash, batch: what the steps write. u_e: its L bits, packed. v_e: a byte for each of its L \
             coordinates.\n";

    let old = fixed(
        GF256,
        TWO,
        "0900030002000500360000009801db01130008013d01fa0069008f018a01ab010201c6000300af0040007a01280054006201b300fc00\
         e6006f001501cf00fa010e0006000000d8002e0072000100000003",
        "c501",
        "47e952adf6fa",
        "cbc6",
    );
    for (number, start) in [old, case_over(GF256, TWO, 2051, 5, 2, 3, 4)]
        .iter()
        .enumerate()
    {
        let sitting = telling(start);
        text += &common(number, &sitting);
        text += &exchanged(&sitting);
        text += &sums(&sitting);
    }
    text
}

/// Four symbols over GF(256) (02, request 11): three sittings, of two, three and two repetitions. The last has no spare
/// bits anywhere.
pub fn four_valued() -> String {
    let mut text = heading(
        "GF(256) with alphabet 4: symbols of two bits, four to a byte, lowest first; 0, 1, 2, 3 stand for 00, 01, BC, BD; \
         four mask symbols for each repetition: k = n+4*tau, and repetition e uses n+4e to n+4e+3",
    );
    text += "# commit, hash, batch: what the steps write. u_e: its L symbols, packed. v_e: a byte for each of its L \
             coordinates.\n\
             # A, b, y and the witness of each sitting have 1, 2 and 3 in them; y of two entries has 2 and 3.\n";
    for (number, [n, m, tau, t]) in [[9, 5, 2, 5], [6, 2, 3, 3], [8, 4, 2, 4]]
        .into_iter()
        .enumerate()
    {
        let sitting = telling(&with_all_symbols(n, m, tau, t));
        text += &common(number, &sitting);
        let [w, d, t_bytes] = [
            sitting.shape.w(),
            sitting.shape.witness_length(),
            t.div_ceil(4),
        ];
        let both_rows = [change(3, 0, 1), change(3, t, 1)];
        text += &several(&sitting, &both_rows);
        let product_and_consistency = [change(4, 0, 1), change(3, t, 1)];
        text += &several(&sitting, &product_and_consistency);
        // The last bits of C, d and ũ: spare, but in the last sitting.
        for last in [
            change(0, w - 1, 128),
            change(1, d - 1, 128),
            change(2, t_bytes - 1, 128),
        ] {
            text += &several(&sitting, &[last]);
        }
        text += &exchanged(&sitting);
        text += &sums(&sitting);
    }
    text
}

/// The case of the first seed at which A, b, y and the witness have 1, 2 and 3 in them; y of two entries 2 and 3.
fn with_all_symbols(n: usize, m: usize, tau: usize, t: usize) -> Case {
    let has = |string: &[u8], symbols: &[u8]| {
        let there: Vec<u8> = (0..4 * string.len())
            .map(|c| symbol(&FOUR, string, c))
            .collect();
        symbols.iter().all(|symbol| there.contains(symbol))
    };
    let all = [1, 2, 3];
    let in_y = if m == 2 { &all[1..] } else { &all[..] };
    for seed in 0.. {
        let case = case_over(GF256, FOUR, seed, n, m, tau, t);
        let key = case.read_key();
        if has(key.a, &all) && has(key.b, &all) && has(key.y, in_y) && has(&case.witness, &all) {
            return case;
        }
    }
    unreachable!("some seed has all symbols")
}

fn heading(what: &str) -> String {
    format!(
        "# {what}.\n\
         # Written by the rendering (src/sittings.rs). reply = number * 65536 + place; factors are counted over all \
         values of the\n\
         # repetition's challenge. The number of a byte is its offset in the whole proof. several: these bytes are \
         changed at once.\n\
         # exchanged: C_1 and C_2, the first two rows of C, change places.\n"
    )
}

/// A sitting whose key, witness, χ and Δ are given; its leaves and H′ are still empty.
fn fixed(
    field: Field,
    symbols: Alphabet,
    key: &str,
    witness: &str,
    chi: &str,
    delta: &str,
) -> Case {
    let key = bytes(key);
    Case {
        shape: header(field, symbols, &key),
        key,
        witness: bytes(witness),
        leaves: Vec::new(),
        h: Vec::new(),
        chi: bytes(chi),
        delta: bytes(delta),
    }
}

/// The same with leaves and H′ of the first seed at which the example tells something.
fn telling(start: &Case) -> Case {
    let shape = start.shape;
    for seed in 0.. {
        let mut random = Random::new(seed);
        let mut sitting = start.clone();
        sitting.leaves = random.strings(&shape.symbols, shape.tau * shape.field.size, shape.l());
        sitting.h = random.strings(&shape.symbols, shape.t, shape.k());
        if masks_differ(&sitting) && checks_differ(&sitting) && changes_are_refused(&sitting) {
            return sitting;
        }
    }
    unreachable!("some seed tells something")
}

/// Whether no two of these are alike, and none is 0.
fn differ(elements: &[u8]) -> bool {
    let mut all = elements.to_vec();
    all.push(0);
    all.sort();
    all.windows(2).all(|pair| pair[0] != pair[1])
}

/// Whether the mask elements at the coordinates of all repetitions differ, of u_0 and of each v_e. A mask from another
/// repetition's coordinates then shows in QS0 and in QS1.
fn masks_differ(sitting: &Case) -> bool {
    let shape = &sitting.shape;
    let masks = |z: &[u8]| -> Vec<u8> { (0..shape.tau).map(|e| shape.mask(e, z)).collect() };
    differ(&masks(&u(shape, &sitting.leaves, 0)))
        && (0..shape.tau).all(|e| differ(&masks(&v(shape, &sitting.leaves, e))))
}

/// Whether the bytes of QS0 differ, and those of QS1, and neither d nor ũ is 0.
fn checks_differ(sitting: &Case) -> bool {
    let proof = proof_of(sitting);
    let read = sections(&sitting.shape, &proof).unwrap();
    let is_0 = |section: &[u8]| section.iter().all(|byte| *byte == 0);
    differ(read.qs0) && differ(read.qs1) && !is_0(read.d) && !is_0(read.u_tilde)
}

/// Whether each change is refused: the first of C by the product check, the second by consistency.
fn changes_are_refused(sitting: &Case) -> bool {
    let changes = changes_of(sitting);
    let proof = proof_of(sitting);
    let number = |changes: &[Change]| reply(sitting, &changed(sitting, &proof, changes)) / 65_536;
    number(&[]) == 0
        && number(&changes[0..1]) == 15
        && number(&changes[1..2]) == 14
        && changes.iter().all(|change| number(&[*change]) != 0)
        && (sitting.shape.tau < 3 || reply(sitting, &with_rows_exchanged(sitting, &proof)) != 0)
}

fn proof_of(sitting: &Case) -> Vec<u8> {
    whole(
        &sitting.read_key(),
        &sitting.leaves,
        &sitting.witness,
        &sitting.h,
        &sitting.chi,
    )
}

/// The verifier's word.
fn reply(sitting: &Case, proof: &[u8]) -> u32 {
    word(verify(
        &sitting.key,
        sitting.degree(),
        sitting.alphabet(),
        &sitting.delta,
        &sitting.h,
        &sitting.chi,
        &sitting.opened(),
        proof,
    ))
}

/// Where a change lies in the whole proof.
fn offset(sitting: &Case, change: &Change) -> usize {
    let lengths = sitting.shape.proof_sections();
    assert!(change.byte < lengths[change.section]);
    let before: usize = lengths[..change.section].iter().map(|l| 4 + l).sum();
    before + 4 + change.byte
}

fn changed(sitting: &Case, proof: &[u8], changes: &[Change]) -> Vec<u8> {
    let mut proof = proof.to_vec();
    for change in changes {
        proof[offset(sitting, change)] ^= change.xor;
    }
    proof
}

fn with_rows_exchanged(sitting: &Case, proof: &[u8]) -> Vec<u8> {
    let w = sitting.shape.w();
    let mut proof = proof.to_vec();
    proof[4..4 + 2 * w].rotate_left(w);
    proof
}

/// The lines that every sitting has.
fn common(number: usize, sitting: &Case) -> String {
    let shape = &sitting.shape;
    let key: Key = sitting.read_key();
    let proof = proof_of(sitting);
    let mut text = format!("\n# sitting {number}\n");
    let [n, m, tau, t] = [shape.n, shape.m, shape.tau, shape.t];
    text += &format!("[n = {n}]\n[m = {m}]\n[tau = {tau}]\n[t = {t}]\n");
    let opened = sitting.opened();
    for (name, value) in [
        ("key", &sitting.key),
        ("witness", &sitting.witness),
        ("leaves", &sitting.leaves),
        ("hprime", &sitting.h),
        ("chi", &sitting.chi),
        ("proof", &proof),
        ("delta", &sitting.delta),
        ("opened", &opened),
    ] {
        text += &line(name, value);
    }
    text += &format!("reply = {}\n", reply(sitting, &proof));
    for change in changes_of(sitting) {
        let other = changed(sitting, &proof, &[*change]);
        let read = sections(shape, &other).unwrap();
        let factors: Vec<String> = factors(&key, &sitting.h, &sitting.chi, &sitting.leaves, &read)
            .iter()
            .map(usize::to_string)
            .collect();
        text += &format!(
            "changed = {}: reply {} factors {}\n",
            said(sitting, change),
            reply(sitting, &other),
            factors.join(" ")
        );
    }
    text
}

fn said(sitting: &Case, change: &Change) -> String {
    let name = SECTIONS[change.section];
    format!("{name} byte {} xor {}", offset(sitting, change), change.xor)
}

/// Several bytes changed at once.
fn several(sitting: &Case, changes: &[Change]) -> String {
    let proof = changed(sitting, &proof_of(sitting), changes);
    let said: Vec<String> = changes.iter().map(|c| said(sitting, c)).collect();
    let reply = reply(sitting, &proof);
    format!("several = {}: reply {reply}\n", said.join(", "))
}

/// C_1 and C_2 exchanged, where there are two rows.
fn exchanged(sitting: &Case) -> String {
    if sitting.shape.tau < 3 {
        return String::new();
    }
    let w = sitting.shape.w();
    let proof = with_rows_exchanged(sitting, &proof_of(sitting));
    let reply = reply(sitting, &proof);
    format!(
        "exchanged = C bytes 4 to {} with bytes {} to {}: reply {reply}\n",
        3 + w,
        4 + w,
        3 + 2 * w
    )
}

/// What the steps write, and the sums of the leaves.
fn sums(sitting: &Case) -> String {
    let key = sitting.read_key();
    let shape = &sitting.shape;
    let (leaves, witness) = (&sitting.leaves, &sitting.witness);
    let mut text = line("commit", &first_step(&key, leaves, witness));
    text += &line("hash", &second_step(&key, leaves, &sitting.h));
    text += &line("batch", &third_step(&key, leaves, witness, &sitting.chi));
    for e in 0..shape.tau {
        text += &line(
            &format!("u_{e}"),
            &pack(&shape.symbols, &u(shape, leaves, e)),
        );
    }
    for e in 0..shape.tau {
        text += &line(&format!("v_{e}"), &v(shape, leaves, e));
    }
    text
}

fn line(name: &str, bytes: &[u8]) -> String {
    let hex: String = bytes.iter().map(|byte| format!("{byte:02x}")).collect();
    format!("{name} = {hex}\n")
}

fn bytes(hex: &str) -> Vec<u8> {
    (0..hex.len() / 2)
        .map(|at| u8::from_str_radix(&hex[2 * at..2 * at + 2], 16).unwrap())
        .collect()
}
