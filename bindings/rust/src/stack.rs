//! The stack on which the calls work, and do not wipe.

/// The bytes of stack that a call must find left: `MQ_STACK_BYTES` of the header.
pub const STACK_BYTES: usize = 262_144;

/// Overwrites the [`STACK_BYTES`] of stack below its own frame, where the calls made from the same function worked.
///
/// After [`commit`](crate::commit), [`hash`](crate::hash), [`batch`](crate::batch) and [`prove`](crate::prove) u is
/// there, the sum of the leaves of the first repetition, and u and the section d of the proof give the witness.
///
/// Call it after each call that took leaves or a witness, from the function that made it or from one that is no deeper.
/// It takes [`STACK_BYTES`] of stack, and a little more. It clears no registers. It is no part of what is proved.
#[inline(never)]
pub fn burn_stack() {
    let mut below = [0u64; STACK_BYTES / 8];
    for word in &mut below {
        // SAFETY: a reference is valid for writing. A volatile write is not left out because nobody reads it.
        unsafe { std::ptr::write_volatile(word, 0) };
    }
}
