//! What a call leaves on the stack, and that `burn_stack` overwrites it: both run on a stack that the test owns.

use std::ptr::null_mut;
use std::sync::OnceLock;

use solfadrus::{burn_stack, size, Degree, STACK_BYTES};

/// `ucontext_t` of the C library on x86-64: the fields that are set, and room for the others.
#[repr(C)]
struct Context {
    flags: u64,
    link: *mut Context,
    stack: *mut u8,
    stack_flags: i32,
    stack_size: usize,
    rest: [u64; 128],
}

extern "C" {
    fn getcontext(context: *mut Context) -> i32;
    fn makecontext(context: *mut Context, run: extern "C" fn(), count: i32, ...);
    fn swapcontext(from: *mut Context, to: *const Context) -> i32;
}

fn context() -> Context {
    Context {
        flags: 0,
        link: null_mut(),
        stack: null_mut(),
        stack_flags: 0,
        stack_size: 0,
        rest: [0; 128],
    }
}

const PAINT: u8 = 0xA5;

/// The stack after such a run.
fn left_by(run: extern "C" fn()) -> Vec<u8> {
    let mut stack = vec![PAINT; 1 << 20];
    let (mut inside, mut outside) = (context(), context());
    // SAFETY: the contexts have room for the C library's, the stack outlives the run, and `run` returns, to `outside`.
    unsafe {
        assert_eq!(getcontext(&mut inside), 0);
        inside.stack = stack.as_mut_ptr();
        inside.stack_size = stack.len();
        inside.link = &mut outside;
        makecontext(&mut inside, run, 0);
        assert_eq!(swapcontext(&mut outside, &inside), 0);
    }
    stack
}

/// A key that any witness solves, all of its sections being 0; lengths without spare bits.
struct Case {
    key: Vec<u8>,
    leaves: Vec<u8>,
}

const N: u8 = 64;
const LEAF: usize = (64 + 8 + 64) / 8;
const WITNESS: [u8; 8] = [0x5A; 8];

fn case() -> &'static Case {
    static CASE: OnceLock<Case> = OnceLock::new();
    CASE.get_or_init(|| {
        let mut key = vec![N, 0, 1, 0, 1, 0, N, 0, 0, 2, 0, 0];
        key.extend([0; 512]);
        key.extend([8, 0, 0, 0, 0, 0, 0, 0, 0, 0, 0, 0, 1, 0, 0, 0, 0]);
        let mut state = 1u64;
        let leaves = (0..size::leaves(64, 1, 1, 64, Degree::Eight)).map(|_| {
            state = state
                .wrapping_mul(6_364_136_223_846_793_005)
                .wrapping_add(1);
            (state >> 56) as u8
        });
        Case {
            leaves: leaves.collect(),
            key,
        }
    })
}

#[inline(never)]
fn commit() {
    let mut out = [0; 16];
    solfadrus::commit(
        &case().key,
        Degree::Eight,
        &case().leaves,
        &WITNESS,
        &mut out,
    )
    .unwrap();
}

extern "C" fn bare() {
    commit();
}

extern "C" fn burnt() {
    commit();
    burn_stack();
}

/// u, the sum of the leaves.
fn u() -> [u8; LEAF] {
    let mut sum = [0; LEAF];
    for (i, byte) in case().leaves.iter().enumerate() {
        sum[i % LEAF] ^= byte;
    }
    sum
}

fn holds(stack: &[u8], secret: &[u8]) -> bool {
    stack.windows(secret.len()).any(|window| window == secret)
}

#[test]
fn u_is_there_without_the_burn_and_not_with_it() {
    let pieces = u().windows(8).map(<[u8]>::to_vec).collect::<Vec<_>>();
    let left = left_by(bare);
    assert!(holds(&left, &u()), "the control: u is not found");
    let left = left_by(burnt);
    assert!(!pieces.iter().any(|piece| holds(&left, piece)));
    // Where the call worked, but for the frames at the top, there are zeros and paint.
    let dead = &left[left.len() - STACK_BYTES..left.len() - 1024];
    assert!(dead.iter().all(|byte| [0, PAINT].contains(byte)));
}
