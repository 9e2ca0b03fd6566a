//! The requests that are sent, and the answers that the rendering gives them.

use crate::calls::{honest, Call, Inputs, Sizes, CALLS};
use crate::calls::{CHI, DELTA, H, KEY, LEAVES, OPENED, PROOF, WITNESS};
use reference::cases::Random;
use reference::word;

/// A request as it is sent, and its answer.
pub struct Request {
    pub what: String,
    /// The place of its call in `CALLS`.
    pub call: usize,
    pub bytes: Vec<u8>,
    pub word: u32,
    /// What an accepted call writes.
    pub output: Vec<u8>,
}

/// The first so many of the pool have megabytes, and are sent once; so many after them are large, and are sent seldom.
pub const LONGEST: usize = 20;
pub const LARGE: usize = 11;

/// The longest key, with as few leaves as can be: the rendering is slow by the repetitions.
const LONGEST_KEY: Sizes = (320, 320, 1, 288, 8);
const LONGEST_KEY_AT_4: Sizes = (320, 320, 1, 288, 4);

/// Both, and each request is made for one of them.
const DEGREES: [u32; 2] = [8, 4];

/// n, m, τ, t of the small requests; one far from the other too, and with no equations.
const SHAPES: [(usize, usize, usize, usize); 12] = [
    (1, 1, 1, 1),
    (2, 1, 1, 1),
    (9, 3, 2, 5),
    (8, 8, 3, 8),
    (17, 2, 1, 9),
    (5, 9, 6, 3),
    (33, 2, 2, 100),
    (3, 17, 17, 1),
    (320, 1, 1, 161),
    (1, 320, 1, 288),
    (9, 0, 2, 5),
    (1, 0, 1, 1),
];

pub fn pool(random: &mut Random) -> Vec<Request> {
    let mut pool = longest(random);
    assert_eq!(pool.len(), LONGEST);
    pool.extend(large(random));
    assert_eq!(pool.len(), LONGEST + LARGE);
    for call in 0..CALLS.len() {
        for (n, m, tau, t) in SHAPES {
            for degree in DEGREES {
                let shape = (n, m, tau, t, degree);
                let inputs = honest(random, shape, &CALLS[call]);
                pool.push(request(format!("{shape:?} honest"), call, &inputs));
                for _ in 0..12 {
                    let mut damaged = inputs.clone();
                    let mut what = format!("{shape:?}");
                    for _ in 0..1 + random.below(2) {
                        what += &damage(&mut damaged, &CALLS[call], random);
                    }
                    pool.push(request(what, call, &damaged));
                }
            }
        }
        for degree in DEGREES {
            pool.extend(no_equations(random, call, degree));
            pool.extend(one_of_each(random, call, degree));
        }
        for _ in 0..20 {
            let mut inputs = Inputs::default();
            for string in &mut inputs.strings {
                *string = bytes(random, 300);
            }
            inputs.output = random.below(300);
            inputs.degree = DEGREES[random.below(2)];
            pool.push(request("random bytes".to_string(), call, &inputs));
        }
    }
    pool
}

/// The longest key to every call, also damaged; the longest leaves; and inputs that are longer than any key allows.
fn longest(random: &mut Random) -> Vec<Request> {
    let mut pool = Vec::new();
    let verify = CALLS.len() - 1;
    let mut inputs = honest(random, LONGEST_KEY, &CALLS[verify]);
    for call in 0..CALLS.len() {
        inputs.output = CALLS[call].length(LONGEST_KEY);
        pool.push(request("the longest key".to_string(), call, &inputs));
    }
    for (call, input, bit) in [(0, KEY, 0x80), (verify, KEY, 1), (verify, PROOF, 1)] {
        let mut damaged = inputs.clone();
        *damaged.strings[input].last_mut().unwrap() ^= bit;
        let what = format!("the longest key, input {input} changed");
        pool.push(request(what, call, &damaged));
    }
    let mut inputs = honest(random, LONGEST_KEY_AT_4, &CALLS[verify]);
    for call in [verify - 1, verify] {
        inputs.output = CALLS[call].length(LONGEST_KEY_AT_4);
        let what = "the longest key at degree 4".to_string();
        pool.push(request(what, call, &inputs));
    }
    for (call, degree) in [(2, 8), (verify, 8), (2, 4), (verify, 4)] {
        let inputs = honest(random, (2, 1, 48, 288, degree), &CALLS[call]);
        let what = format!("the most leaves at degree {degree}");
        pool.push(request(what, call, &inputs));
    }
    for (call, input, len) in [
        (verify, KEY, 4_108_861),
        (verify, DELTA, 49),
        (verify, OPENED, 1_600_000),
        (verify, PROOF, 19_849),
        (verify - 1, LEAVES, 1_600_000),
    ] {
        let mut long = honest(random, (2, 1, 1, 1, 8), &CALLS[call]);
        long.strings[input].resize(len, 0);
        let what = format!("input {input} of {len} bytes");
        pool.push(request(what, call, &long));
    }
    pool
}

/// Inputs of the size of real ones, some damaged.
fn large(random: &mut Random) -> Vec<Request> {
    let mut pool = Vec::new();
    let verify = CALLS.len() - 1;
    for call in 0..CALLS.len() {
        let real = honest(random, (120, 40, 19, 112, 8), &CALLS[call]);
        pool.push(request("large, honest".to_string(), call, &real));
        for input in [KEY, OPENED, PROOF] {
            if call == verify {
                let mut damaged = real.clone();
                *damaged.strings[input].last_mut().unwrap() ^= 1;
                let what = format!("large, input {input} changed");
                pool.push(request(what, call, &damaged));
            }
        }
    }
    for call in [verify - 1, verify] {
        let real = honest(random, (120, 40, 43, 112, 4), &CALLS[call]);
        pool.push(request("large, at degree 4".to_string(), call, &real));
    }
    pool
}

/// Requests for each number that the call can answer at a degree; 11 also with several equations that fail. With n=9,
/// m=3, τ=2, t=5 every section has spare bits.
fn one_of_each(random: &mut Random, call: usize, degree: u32) -> Vec<Request> {
    type Change = fn(&mut Inputs);
    fn spare(string: &mut [u8]) {
        *string.last_mut().unwrap() |= 0x80;
    }
    fn change_y(inputs: &mut Inputs, bits: u8) {
        *inputs.strings[KEY].last_mut().unwrap() ^= bits;
    }
    let changes: [(u32, Change); 24] = [
        (0, |_| {}),
        (1, |inputs| inputs.strings[KEY].truncate(7)),
        (2, |inputs| inputs.strings[KEY][4] = 49),
        (3, |inputs| inputs.strings[KEY].push(0)),
        (4, |inputs| spare(&mut inputs.strings[KEY])),
        (5, |inputs| {
            for name in [DELTA, H, CHI] {
                inputs.strings[name].push(0);
            }
        }),
        (6, |inputs| spare(&mut inputs.strings[H])),
        (7, |inputs| {
            for name in [LEAVES, OPENED] {
                inputs.strings[name].push(0);
            }
        }),
        (8, |inputs| {
            for name in [LEAVES, OPENED] {
                spare(&mut inputs.strings[name]);
            }
        }),
        (9, |inputs| spare(&mut inputs.strings[WITNESS])),
        (10, |inputs| inputs.output += 1),
        (11, |inputs| change_y(inputs, 0b001)),
        (11, |inputs| change_y(inputs, 0b110)),
        (11, |inputs| change_y(inputs, 0b111)),
        (12, |inputs| inputs.strings[PROOF].push(0)),
        (13, |inputs| {
            *inputs.strings[PROOF].iter_mut().nth_back(26).unwrap() |= 0x80 // the last byte of ũ
        }),
        (14, |inputs| {
            *inputs.strings[PROOF].iter_mut().nth_back(12).unwrap() ^= 1 // that of Ṽ
        }),
        (15, |inputs| {
            *inputs.strings[PROOF].iter_mut().nth_back(6).unwrap() ^= 1 // that of QS0
        }),
        (16, |inputs| inputs.degree = 5),
        (16, |inputs| inputs.degree += 256),
        (17, |inputs| {
            for name in [DELTA, CHI] {
                *inputs.strings[name].last_mut().unwrap() |= 0x10;
            }
        }),
        (18, |inputs| {
            *inputs.strings[PROOF].iter_mut().nth_back(12).unwrap() |= 0x10
        }),
        (18, |inputs| {
            *inputs.strings[PROOF].iter_mut().nth_back(6).unwrap() |= 0x10
        }),
        (18, |inputs| {
            *inputs.strings[PROOF].last_mut().unwrap() |= 0x10 // that of QS1
        }),
    ];
    let inputs = honest(random, (9, 3, 2, 5, degree), &CALLS[call]);
    let mut requests = Vec::new();
    for (number, change) in changes {
        // At degree 8 every byte is an element.
        if CALLS[call].answers.contains(&number) && (degree == 4 || number < 17) {
            let mut changed = inputs.clone();
            change(&mut changed);
            let made = request(format!("made for {number}"), call, &changed);
            assert_eq!(made.word >> 16, number, "{}", made.what);
            requests.push(made);
        }
    }
    requests
}

/// With no equations any witness fits, and χ has no bytes: one is too many. The key has 20.
fn no_equations(random: &mut Random, call: usize, degree: u32) -> Vec<Request> {
    let inputs = honest(random, (9, 0, 2, 5, degree), &CALLS[call]);
    let mut requests = Vec::new();
    for (number, name) in [(0, WITNESS), (5, CHI), (3, KEY), (2, KEY)] {
        let mut changed = inputs.clone();
        match number {
            0 => changed.strings[name][0] ^= 0xFF,
            2 => changed.strings[name][0] = 0, // n
            _ => changed.strings[name].push(0),
        }
        if CALLS[call].takes.contains(&name) {
            let what = format!("no equations, made for {number}");
            let made = request(what, call, &changed);
            assert_eq!(made.word, number << 16, "{}", made.what);
            requests.push(made);
        }
    }
    requests
}

/// Damages one input of the call, the last more often than others, or the output's length; says how.
fn damage(inputs: &mut Inputs, call: &Call, random: &mut Random) -> String {
    if call.has_output() && random.below(10) == 0 {
        inputs.output = random.below(inputs.output + 20);
        return ", output of another length".to_string();
    }
    if random.below(12) == 0 {
        let others = [12 - inputs.degree % 12, 0, 1, 5, 12, 260, u32::MAX];
        inputs.degree = others[random.below(others.len())];
        return ", another degree".to_string();
    }
    let last = call.takes.len() - 1;
    let which = call.takes[random.below(2 * call.takes.len()).min(last)];
    let input = &mut inputs.strings[which];
    let how = random.below(8);
    match how {
        0 => input.truncate(random.below(input.len() + 1)),
        1 => input.extend_from_slice(&bytes(random, 40)),
        2 => *input = bytes(random, 200),
        3 if input.len() >= 4 => {
            let at = random.below(input.len() - 3);
            input[at..at + 4].fill(0xFF);
        }
        _ if !input.is_empty() => {
            let at = random.below(input.len());
            input[at] ^= 1 << random.below(8);
        }
        _ => {}
    }
    format!(", input {which} damaged ({how})")
}

/// Up to so many bytes.
fn bytes(random: &mut Random, limit: usize) -> Vec<u8> {
    let len = random.below(limit);
    (0..len).map(|_| random.number() as u8).collect()
}

fn request(what: String, number: usize, inputs: &Inputs) -> Request {
    let call = &CALLS[number];
    let mut bytes = vec![number as u8];
    for name in call.takes {
        bytes.extend_from_slice(&(inputs.strings[*name].len() as u32).to_le_bytes());
        bytes.extend_from_slice(&inputs.strings[*name]);
        if *name == KEY {
            bytes.extend_from_slice(&inputs.degree.to_le_bytes());
        }
    }
    if call.has_output() {
        bytes.extend_from_slice(&(inputs.output as u32).to_le_bytes());
    }
    let mut output = vec![0; inputs.output];
    let word = word((call.rendering)(
        &inputs.strings,
        inputs.degree,
        &mut output,
    ));
    if word != 0 || !call.has_output() {
        output.clear();
    }
    Request {
        what: format!("{}, {what}", call.name),
        call: number,
        bytes,
        word,
        output,
    }
}
