//! Memory to lend from: each buffer lies against a page that can be neither read nor written, so that the
//! library cannot read or write past it unseen. Inputs can be sealed: then they cannot be written either, not even
//! with the bytes that they have.

use crate::calls::{Lent, LentOut};
use reference::cases::Random;

const PAGE: usize = 4096;
/// Bytes before and after the output that must stay as they were.
const GUARD: usize = 64;

extern "C" {
    fn mmap(
        at: *mut u8,
        len: usize,
        protection: i32,
        flags: i32,
        file: i32,
        offset: i64,
    ) -> *mut u8;
    fn mprotect(at: *mut u8, len: usize, protection: i32) -> i32;
}

/// A run of pages between two that are closed.
struct Arena {
    start: *mut u8,
    size: usize,
}

impl Arena {
    fn new(size: usize) -> Arena {
        let size = size.div_ceil(PAGE) * PAGE;
        // PROT_NONE; MAP_PRIVATE and MAP_ANONYMOUS; then PROT_READ and PROT_WRITE of all but the two ends.
        let mapped = unsafe { mmap(std::ptr::null_mut(), size + 2 * PAGE, 0, 0x22, -1, 0) };
        assert!(mapped as isize != -1, "mmap failed");
        let start = unsafe { mapped.add(PAGE) };
        assert_eq!(unsafe { mprotect(start, size, 3) }, 0, "mprotect failed");
        Arena { start, size }
    }

    /// So many bytes, at the upper or the lower end.
    fn part(&mut self, len: usize, upper: bool) -> &mut [u8] {
        assert!(
            len <= self.size,
            "an arena of {} bytes, {len} asked",
            self.size
        );
        let offset = if upper { self.size - len } else { 0 };
        unsafe { std::slice::from_raw_parts_mut(self.start.add(offset), len) }
    }

    /// Opens the pages for reading alone, or for writing too.
    fn seal(&self, sealed: bool) {
        let protection = if sealed { 1 } else { 3 };
        let failed = unsafe { mprotect(self.start, self.size, protection) };
        assert_eq!(failed, 0, "mprotect failed");
    }

    /// A pointer for a length of 0, which may not be read: none, a small number, or into a closed page.
    fn nowhere(&self, random: &mut Random) -> *mut u8 {
        match random.below(3) {
            0 => std::ptr::null_mut(),
            1 => std::ptr::without_provenance_mut(1),
            _ => self.start.wrapping_add(self.size),
        }
    }
}

/// Arenas for the inputs of one call and for its output.
pub struct Memory {
    inputs: Vec<Arena>,
    output: Arena,
    lent_output: usize,
}

impl Memory {
    pub fn new(inputs: usize, size: usize) -> Memory {
        Memory {
            inputs: (0..inputs).map(|_| Arena::new(size)).collect(),
            output: Arena::new(size),
            lent_output: 0,
        }
    }

    /// Lends a copy of the bytes, from the arena of this input.
    pub fn lend(&mut self, index: usize, bytes: &[u8], random: &mut Random) -> Lent {
        let arena = &mut self.inputs[index];
        if bytes.is_empty() {
            return Lent {
                at: arena.nowhere(random),
                len: 0,
            };
        }
        let part = arena.part(bytes.len(), random.below(4) > 0);
        part.copy_from_slice(bytes);
        Lent {
            at: part.as_ptr(),
            len: part.len(),
        }
    }

    /// Seals the first so many inputs, or opens them again.
    pub fn seal(&self, inputs: usize, sealed: bool) {
        for arena in &self.inputs[..inputs] {
            arena.seal(sealed);
        }
    }

    /// Lends an output with random bytes in it and around it.
    pub fn lend_output(&mut self, len: usize, random: &mut Random) -> LentOut {
        self.lent_output = len;
        for byte in self.watched() {
            *byte = random.number() as u8;
        }
        let at = if len == 0 {
            self.output.nowhere(random)
        } else {
            self.watched()[GUARD..].as_mut_ptr()
        };
        LentOut { at, len }
    }

    /// The output with its guards.
    pub fn watched(&mut self) -> &mut [u8] {
        self.output.part(GUARD + self.lent_output + GUARD, true)
    }

    /// The output alone, as a part of what is watched.
    pub fn output_part(&self) -> std::ops::Range<usize> {
        GUARD..GUARD + self.lent_output
    }
}

/// What is lent, read again.
pub fn read(lent: &Lent) -> &[u8] {
    if lent.len == 0 {
        &[]
    } else {
        unsafe { std::slice::from_raw_parts(lent.at, lent.len) }
    }
}
