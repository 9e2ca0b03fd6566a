//! SHAKE256 of FIPS 202 (02, request 6), over bytes. The algorithms are numbered as there.
//!
//! The step mappings go by their definitions, each giving a new state; only the bits of a lane are taken together, so
//! that a shift of z is a rotation. A message is padded whole first and then taken block by block.

/// The lanes A[x,y]: bit z of `state[x][y]` is A[x,y,z].
pub type State = [[u64; 5]; 5];

/// The bytes of a block: 1600 bits less the capacity of 512 are 1088.
pub const RATE: usize = 136;

/// θ, algorithm 1: C[x,z] is the sum of A[x,y,z] over y, D[x,z] = C[x−1,z] + C[x+1,z−1], and A′[x,y,z] = A[x,y,z] +
/// D[x,z].
pub fn theta(a: &State) -> State {
    let mut c = [0; 5];
    for x in 0..5 {
        for y in 0..5 {
            c[x] ^= a[x][y];
        }
    }
    let mut result = *a;
    for x in 0..5 {
        let d = c[(x + 4) % 5] ^ c[(x + 1) % 5].rotate_left(1);
        for y in 0..5 {
            result[x][y] ^= d;
        }
    }
    result
}

/// The offsets of algorithm 2: 0 for A[0,0]; from (x,y) = (1,0) on, for t = 0 to 23, (t+1)(t+2)/2, and then (y, 2x+3y)
/// for (x,y). They are taken mod 64.
const OFFSETS: [[u32; 5]; 5] = {
    let mut offsets = [[0; 5]; 5];
    let (mut x, mut y) = (1, 0);
    let mut t = 0;
    while t < 24 {
        offsets[x][y] = (t + 1) * (t + 2) / 2 % 64;
        (x, y) = (y, (2 * x + 3 * y) % 5);
        t += 1;
    }
    offsets
};

/// ρ, algorithm 2: A′[x,y,z] = A[x,y,z−offset], the offset being that of x and y.
pub fn rho(a: &State) -> State {
    let mut result = [[0; 5]; 5];
    for x in 0..5 {
        for y in 0..5 {
            result[x][y] = a[x][y].rotate_left(OFFSETS[x][y]);
        }
    }
    result
}

/// π, algorithm 3: A′[x,y] = A[x+3y,x].
pub fn pi(a: &State) -> State {
    let mut result = [[0; 5]; 5];
    for x in 0..5 {
        for y in 0..5 {
            result[x][y] = a[(x + 3 * y) % 5][x];
        }
    }
    result
}

/// χ, algorithm 4: A′[x,y] = A[x,y] + (A[x+1,y] + 1)·A[x+2,y].
pub fn chi(a: &State) -> State {
    let mut result = [[0; 5]; 5];
    for x in 0..5 {
        for y in 0..5 {
            result[x][y] = a[x][y] ^ (!a[(x + 1) % 5][y] & a[(x + 2) % 5][y]);
        }
    }
    result
}

/// rc(t), algorithm 5. R starts as 10000000; t mod 255 times a 0 is put before it, the ninth bit added to bits 0, 4, 5
/// and 6, and then cut. Bit s of the number is R[s].
const fn rc(t: usize) -> u64 {
    let mut r = 1;
    let mut step = 0;
    while step < t % 255 {
        r *= 2;
        if r >= 256 {
            r ^= 0b1_0111_0001;
        }
        step += 1;
    }
    r % 2
}

/// The lanes RC of algorithm 6, by round: bit 2^j−1 is rc(j+7·round), j = 0 to 6; others are 0.
pub const ROUND_CONSTANTS: [u64; 24] = {
    let mut constants = [0; 24];
    let mut round = 0;
    while round < 24 {
        let mut j = 0;
        while j <= 6 {
            constants[round] |= rc(j + 7 * round) << ((1 << j) - 1);
            j += 1;
        }
        round += 1;
    }
    constants
};

/// ι, algorithm 6: RC is added to A[0,0].
pub fn iota(a: &State, round: usize) -> State {
    let mut result = *a;
    result[0][0] ^= ROUND_CONSTANTS[round];
    result
}

/// KECCAK-f[1600], algorithm 7 with 24 rounds: ι of χ of π of ρ of θ.
pub fn keccak_f(a: &State) -> State {
    let mut state = *a;
    for round in 0..24 {
        state = iota(&chi(&pi(&rho(&theta(&state)))), round);
    }
    state
}

/// Where byte i of the state's string lies: x, y, and the lowest of its bits in the lane. A[x,y,z] is bit 64(5y+x)+z of
/// the string, and a byte holds eight bits of it, lowest first.
fn place(i: usize) -> (usize, usize, usize) {
    (i / 8 % 5, i / 8 / 5, 8 * (i % 8))
}

/// The message, the bits 1111, and 1, zeros and 1 up to a whole block (pad10*1, algorithm 9). Lowest first, 1111 and
/// the next 1 are the byte 1F, and the last bit of a byte is 80.
fn padded(message: &[u8]) -> Vec<u8> {
    let mut blocks = message.to_vec();
    blocks.push(0x1F);
    blocks.resize(blocks.len().next_multiple_of(RATE), 0x00);
    *blocks.last_mut().unwrap() |= 0x80;
    blocks
}

/// SHAKE256, so many bytes of its output: the sponge of algorithm 8.
pub fn shake256(message: &[u8], length: usize) -> Vec<u8> {
    let mut state = [[0; 5]; 5];
    for block in padded(message).chunks(RATE) {
        for i in 0..RATE {
            let (x, y, lowest) = place(i);
            state[x][y] ^= (block[i] as u64) << lowest;
        }
        state = keccak_f(&state);
    }
    let mut output = Vec::new();
    loop {
        for i in 0..RATE {
            let (x, y, lowest) = place(i);
            output.push((state[x][y] >> lowest) as u8);
        }
        if length <= output.len() {
            output.truncate(length);
            return output;
        }
        state = keccak_f(&state);
    }
}
