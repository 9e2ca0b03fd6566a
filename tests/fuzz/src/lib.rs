//! The Rust rendering for callers in C. Each function takes what the library's call of that name takes, and answers
//! the rendering's word; nothing here is the library's.
//!
//! Safety, of all of them: each string is valid for its length, its pointer is not null, and the output overlaps no
//! input. The caller is tests/fuzz/target.c.
#![allow(clippy::missing_safety_doc)]

use reference::word;

/// The library's one alphabet until it serves request 11.
const ALPHABET: u32 = 2;

/// A byte string as C lends it. The fields are those of `struct lent` in tests/case.h.
#[repr(C)]
pub struct Lent {
    at: *mut u8,
    len: usize,
}

impl Lent {
    unsafe fn input<'a>(&self) -> &'a [u8] {
        std::slice::from_raw_parts(self.at, self.len)
    }

    unsafe fn output<'a>(&self) -> &'a mut [u8] {
        std::slice::from_raw_parts_mut(self.at, self.len)
    }
}

#[no_mangle]
pub unsafe extern "C" fn rendering_test(key: Lent, degree: u32, witness: Lent) -> u32 {
    word(reference::test(
        key.input(),
        degree,
        ALPHABET,
        witness.input(),
    ))
}

#[no_mangle]
pub unsafe extern "C" fn rendering_commit(
    key: Lent,
    degree: u32,
    leaves: Lent,
    witness: Lent,
    out: Lent,
) -> u32 {
    word(reference::commit(
        key.input(),
        degree,
        ALPHABET,
        leaves.input(),
        witness.input(),
        out.output(),
    ))
}

#[no_mangle]
pub unsafe extern "C" fn rendering_hash(
    key: Lent,
    degree: u32,
    leaves: Lent,
    h: Lent,
    out: Lent,
) -> u32 {
    word(reference::hash(
        key.input(),
        degree,
        ALPHABET,
        leaves.input(),
        h.input(),
        out.output(),
    ))
}

#[no_mangle]
pub unsafe extern "C" fn rendering_batch(
    key: Lent,
    degree: u32,
    leaves: Lent,
    witness: Lent,
    chi: Lent,
    out: Lent,
) -> u32 {
    word(reference::batch(
        key.input(),
        degree,
        ALPHABET,
        leaves.input(),
        witness.input(),
        chi.input(),
        out.output(),
    ))
}

#[no_mangle]
pub unsafe extern "C" fn rendering_prove(
    key: Lent,
    degree: u32,
    leaves: Lent,
    witness: Lent,
    h: Lent,
    chi: Lent,
    out: Lent,
) -> u32 {
    word(reference::prove(
        key.input(),
        degree,
        ALPHABET,
        leaves.input(),
        witness.input(),
        h.input(),
        chi.input(),
        out.output(),
    ))
}

#[no_mangle]
pub unsafe extern "C" fn rendering_verify(
    key: Lent,
    degree: u32,
    delta: Lent,
    h: Lent,
    chi: Lent,
    opened: Lent,
    proof: Lent,
) -> u32 {
    word(reference::verify(
        key.input(),
        degree,
        ALPHABET,
        delta.input(),
        h.input(),
        chi.input(),
        opened.input(),
        proof.input(),
    ))
}

/// The sizes of a case. The fields are those of `struct sizes` in tests/case.h.
#[repr(C)]
pub struct Sizes {
    n: usize,
    m: usize,
    tau: usize,
    t: usize,
    degree: u32,
}

/// The light shapes with a size at a kernel's threshold, at degree 8 and then at degree 4.
fn light() -> Vec<shapes::Sizes> {
    let degrees = shapes::DEGREES.into_iter();
    degrees
        .flat_map(|degree| shapes::light(degree, ALPHABET))
        .collect()
}

/// How many cases there are to start from: one for each of them.
#[no_mangle]
pub extern "C" fn shape_count() -> usize {
    light().len()
}

/// The sizes of one of them. The first of a degree is small, with spare bits in every section.
#[no_mangle]
pub extern "C" fn shape_sizes(which: usize) -> Sizes {
    let (n, m, tau, t, degree, _) = light()[which];
    Sizes {
        n,
        m,
        tau,
        t,
        degree,
    }
}
