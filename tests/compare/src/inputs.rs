//! The inputs of the calls, by name, and how each is laid out.

use reference::alphabet::TWO;
use reference::cases::case;
use reference::key::Shape;
use reference::strings::bytes_for;
use shapes::Sizes;

/// A byte string that a call may take.
#[derive(Clone, Copy, Debug, PartialEq, Eq)]
pub enum Name {
    Key,
    Leaves,
    Opened,
    Witness,
    HashMatrix,
    Batching,
    Delta,
    Proof,
}

pub const NAMES: [Name; 8] = [
    Name::Key,
    Name::Leaves,
    Name::Opened,
    Name::Witness,
    Name::HashMatrix,
    Name::Batching,
    Name::Delta,
    Name::Proof,
];

/// Rows of so many bits, one after another, where `counted` after a four-byte count.
#[derive(Clone, Copy, Debug)]
pub struct Section {
    pub counted: bool,
    pub rows: usize,
    pub bits: usize,
}

impl Section {
    fn counted(rows: usize, bits: usize) -> Section {
        Section {
            counted: true,
            rows,
            bits,
        }
    }

    fn bare(rows: usize, bits: usize) -> Section {
        Section {
            counted: false,
            rows,
            bits,
        }
    }

    pub fn row_length(&self) -> usize {
        bytes_for(&TWO, self.bits)
    }

    pub fn count_length(&self) -> usize {
        if self.counted {
            4
        } else {
            0
        }
    }

    pub fn length(&self) -> usize {
        self.count_length() + self.rows * self.row_length()
    }
}

/// What stands before the first section of an input, in bytes.
pub fn header_length(name: Name) -> usize {
    if name == Name::Key {
        8
    } else {
        0
    }
}

/// The sections of an input that is of the right form.
pub fn sections(name: Name, shape: &Shape) -> Vec<Section> {
    let (n, m, tau, t) = (shape.n, shape.m, shape.tau, shape.t);
    let (k, l) = (shape.k(), shape.l());
    // An element is a row: at degree 4 the high half of its byte is spare.
    let (leaves, element) = (shape.field.size, shape.field.degree);
    match name {
        Name::Key => vec![
            Section::counted(m * n, n),
            Section::counted(m, n),
            Section::counted(1, m),
        ],
        Name::Leaves => vec![Section::bare(leaves * tau, l)],
        Name::Opened => vec![Section::bare((leaves - 1) * tau, l)],
        Name::Witness => vec![Section::bare(1, n)],
        Name::HashMatrix => vec![Section::bare(t, k)],
        Name::Batching => vec![Section::bare(tau * m, element)],
        Name::Delta => vec![Section::bare(tau, element)],
        Name::Proof => vec![
            Section::counted(tau.saturating_sub(1), l),
            Section::counted(1, n),
            Section::counted(1, t),
            Section::counted(tau * t, element),
            Section::counted(tau, element),
            Section::counted(tau, element),
        ],
    }
}

/// Where the count of a section stands (or its first row, where it has no count).
pub fn section_start(name: Name, shape: &Shape, index: usize) -> usize {
    let before = &sections(name, shape)[..index];
    header_length(name) + before.iter().map(Section::length).sum::<usize>()
}

/// The length of an input that is of the right form.
pub fn length(name: Name, shape: &Shape) -> usize {
    section_start(name, shape, sections(name, shape).len())
}

/// What is lent to a call: the degree, all inputs by name, and how the output's length differs from the one to be
/// written. The shape has the degree that the inputs were made for.
#[derive(Clone, Debug)]
pub struct Inputs {
    pub shape: Shape,
    pub degree: u32,
    bytes: [Vec<u8>; 8],
    pub output: Output,
}

/// The length of the output that is lent.
#[derive(Clone, Copy, Debug, PartialEq, Eq)]
pub enum Output {
    Exact,
    Empty,
    Less(usize),
    More(usize),
    Is(usize),
}

impl Output {
    pub fn length(self, exact: usize) -> usize {
        match self {
            Output::Exact => exact,
            Output::Empty => 0,
            Output::Less(by) => exact.saturating_sub(by),
            Output::More(by) => exact + by,
            Output::Is(length) => length,
        }
    }
}

impl Inputs {
    /// Honest inputs, at random: the rendering's own cases. There is no proof among them yet.
    pub fn honest(seed: u64, (n, m, tau, t, degree, alphabet): Sizes) -> Inputs {
        let made = case(seed, n, m, tau, t, degree, alphabet);
        let mut inputs = Inputs {
            shape: made.shape,
            degree,
            bytes: Default::default(),
            output: Output::Exact,
        };
        *inputs.get_mut(Name::Opened) = made.opened();
        *inputs.get_mut(Name::Key) = made.key;
        *inputs.get_mut(Name::Leaves) = made.leaves;
        *inputs.get_mut(Name::Witness) = made.witness;
        *inputs.get_mut(Name::HashMatrix) = made.h;
        *inputs.get_mut(Name::Batching) = made.chi;
        *inputs.get_mut(Name::Delta) = made.delta;
        inputs
    }

    pub fn get(&self, name: Name) -> &[u8] {
        &self.bytes[name as usize]
    }

    pub fn get_mut(&mut self, name: Name) -> &mut Vec<u8> {
        &mut self.bytes[name as usize]
    }
}
