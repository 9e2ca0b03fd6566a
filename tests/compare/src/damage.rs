//! Damages: what may be wrong with an input, for each input and each part of it.

use crate::inputs::{header_length, length, section_start, sections, Inputs, Name, Output, NAMES};
use reference::cases::Random;
use reference::key::Shape;

/// Which row of a section, or which of its spare bits.
#[derive(Clone, Copy, Debug, PartialEq, Eq)]
pub enum Which {
    First,
    Last,
    Any,
}

/// Another value for a size in the key's header.
#[derive(Clone, Copy, Debug, PartialEq, Eq)]
pub enum Size {
    Zero,
    PastLimit,
    Largest,
    HighByte,
    OtherInRange,
}

/// Another value for a count.
#[derive(Clone, Copy, Debug, PartialEq, Eq)]
pub enum Count {
    Zero,
    OneLess,
    OneMore,
    HighByte,
    Largest,
    /// So that the place where the section would end wraps round in 32 bits.
    Wraps,
    Any,
}

#[derive(Clone, Copy, Debug, PartialEq, Eq)]
pub enum Damage {
    Empty(Name),
    OneByteLess(Name),
    OneByteMore(Name),
    OneRowLess(Name),
    OneRowMore(Name),
    Double(Name),
    /// Cut anywhere.
    Cut(Name),
    /// Cut before the count of a section, in it, or after it.
    CutAtCount(Name, usize),
    /// Replaced by another input.
    Replaced(Name, Name),
    Size(usize, Size),
    Count(Name, usize, Count),
    /// A byte moved from one section to the next, both counts being changed.
    ByteMoved(Name, usize),
    /// A spare bit set in a row of a section.
    Spare(Name, usize, Which),
    /// A coordinate of a section changed: the form stays.
    Flipped(Name, usize),
    /// All coordinates of a section 0 or 1: the form stays.
    Filled(Name, usize, bool),
    /// Another degree beside the key.
    Degree(u32),
    Output(Output),
}

/// Both that are served, so that one of them is the other; and of those that are not some which a narrower type, or a
/// test of fewer bits, would take. `edits` has them all.
const DEGREES: [u32; 8] = [8, 4, 0, 1, 5, 12, 260, u32::MAX];

/// The limits of n, m, τ, t, in the header's order.
const LIMITS: [usize; 4] = shapes::LIMITS;
const LEAST: [usize; 4] = shapes::LEAST;

impl Damage {
    /// The input that it damages; none for the output, the key for the degree beside it.
    pub fn input(self) -> Option<Name> {
        match self {
            Damage::Empty(name)
            | Damage::OneByteLess(name)
            | Damage::OneByteMore(name)
            | Damage::OneRowLess(name)
            | Damage::OneRowMore(name)
            | Damage::Double(name)
            | Damage::Cut(name)
            | Damage::CutAtCount(name, _)
            | Damage::Replaced(name, _)
            | Damage::Count(name, _, _)
            | Damage::ByteMoved(name, _)
            | Damage::Spare(name, _, _)
            | Damage::Flipped(name, _)
            | Damage::Filled(name, _, _) => Some(name),
            Damage::Size(_, _) | Damage::Degree(_) => Some(Name::Key),
            Damage::Output(_) => None,
        }
    }

    /// Whether a call may have to compute its output all the same.
    pub fn keeps_form(self) -> bool {
        matches!(self, Damage::Flipped(..) | Damage::Filled(..))
    }

    /// Damages the inputs; false where there is nothing here to damage in this way.
    pub fn apply(self, inputs: &mut Inputs, random: &mut Random) -> bool {
        let shape = inputs.shape;
        match self {
            Damage::Empty(name) => {
                let some = !inputs.get(name).is_empty();
                inputs.get_mut(name).clear();
                return some;
            }
            Damage::OneByteLess(name) => return inputs.get_mut(name).pop().is_some(),
            Damage::OneByteMore(name) => inputs.get_mut(name).push(random.number() as u8 & 1),
            Damage::OneRowLess(name) => return shorten(inputs.get_mut(name), row_of(name, &shape)),
            Damage::OneRowMore(name) => {
                let more = inputs.get(name).len() + row_of(name, &shape);
                inputs.get_mut(name).resize(more, 0);
            }
            Damage::Double(name) => {
                let again = inputs.get(name).to_vec();
                inputs.get_mut(name).extend_from_slice(&again);
                return !again.is_empty();
            }
            Damage::Cut(name) => {
                let whole = inputs.get(name).len();
                inputs.get_mut(name).truncate(random.below(whole.max(1)));
                return whole > 0;
            }
            Damage::CutAtCount(name, section) => {
                let len = section_start(name, &shape, section) + random.below(5);
                inputs.get_mut(name).truncate(len);
            }
            Damage::Replaced(name, by) => *inputs.get_mut(name) = inputs.get(by).to_vec(),
            Damage::Size(which, size) => {
                return set_size(inputs.get_mut(Name::Key), which, size, random)
            }
            Damage::Count(name, section, count) => {
                let at = section_start(name, &shape, section);
                return set_count(inputs.get_mut(name), at, count, random);
            }
            Damage::ByteMoved(name, section) => return move_byte(inputs, name, section),
            Damage::Spare(name, section, which) => {
                return set_spare(inputs, name, section, which, random)
            }
            Damage::Flipped(name, section) => return flip(inputs, name, section, random),
            Damage::Filled(name, section, ones) => return fill(inputs, name, section, ones),
            Damage::Degree(degree) => {
                let other = inputs.degree != degree;
                inputs.degree = degree;
                return other;
            }
            Damage::Output(output) => inputs.output = output,
        }
        true
    }
}

/// Every damage of the given inputs and of the output, whose length may also be one of those given.
pub fn all(names: &[Name], lengths: &[usize], shape: &Shape) -> Vec<Damage> {
    let mut damages = Vec::new();
    for name in names {
        damages.extend(of_length(*name));
        if *name == Name::Key {
            damages.extend(of_header());
        }
        for index in 0..sections(*name, shape).len() {
            damages.extend(of_section(*name, index, shape));
        }
    }
    damages.extend(DEGREES.map(Damage::Degree));
    for output in [
        Output::Empty,
        Output::Less(1),
        Output::More(1),
        Output::More(4),
        Output::More(4096),
    ] {
        damages.push(Damage::Output(output));
    }
    for length in lengths {
        damages.push(Damage::Output(Output::Is(*length)));
    }
    damages
}

fn of_length(name: Name) -> Vec<Damage> {
    let mut damages = vec![
        Damage::Empty(name),
        Damage::OneByteLess(name),
        Damage::OneByteMore(name),
        Damage::OneRowLess(name),
        Damage::OneRowMore(name),
        Damage::Double(name),
        Damage::Cut(name),
    ];
    match name {
        Name::Leaves => damages.push(Damage::Replaced(name, Name::Opened)),
        Name::Opened => damages.push(Damage::Replaced(name, Name::Leaves)),
        _ => {}
    }
    damages
}

fn of_header() -> Vec<Damage> {
    let mut damages = Vec::new();
    for which in 0..4 {
        for size in [
            Size::Zero,
            Size::PastLimit,
            Size::Largest,
            Size::HighByte,
            Size::OtherInRange,
        ] {
            damages.push(Damage::Size(which, size));
        }
    }
    damages
}

fn of_section(name: Name, index: usize, shape: &Shape) -> Vec<Damage> {
    let section = sections(name, shape)[index];
    let mut damages = vec![
        Damage::Flipped(name, index),
        Damage::Filled(name, index, false),
        Damage::Filled(name, index, true),
    ];
    if section.counted {
        damages.push(Damage::CutAtCount(name, index));
        for count in [
            Count::Zero,
            Count::OneLess,
            Count::OneMore,
            Count::HighByte,
            Count::Largest,
            Count::Wraps,
            Count::Any,
        ] {
            damages.push(Damage::Count(name, index, count));
        }
        if index + 1 < sections(name, shape).len() {
            damages.push(Damage::ByteMoved(name, index));
        }
    }
    if section.bits % 8 != 0 {
        for which in [Which::First, Which::Last, Which::Any] {
            damages.push(Damage::Spare(name, index, which));
        }
    }
    damages
}

/// The length of a row of an input's first section.
fn row_of(name: Name, shape: &Shape) -> usize {
    sections(name, shape)[0].row_length()
}

fn shorten(bytes: &mut Vec<u8>, by: usize) -> bool {
    let enough = bytes.len() >= by;
    bytes.truncate(bytes.len().saturating_sub(by));
    enough
}

fn set_size(key: &mut [u8], which: usize, size: Size, random: &mut Random) -> bool {
    if key.len() < 8 {
        return false;
    }
    let at = 2 * which;
    let old = key[at] as usize + 256 * key[at + 1] as usize;
    let limit = LIMITS[which];
    let new = match size {
        Size::Zero => 0,
        Size::PastLimit => limit + 1,
        Size::Largest => 65_535,
        Size::HighByte => old ^ (256 << random.below(8)),
        Size::OtherInRange => LEAST[which] + random.below(limit + 1 - LEAST[which]),
    };
    key[at] = new as u8;
    key[at + 1] = (new >> 8) as u8;
    new != old
}

fn set_count(bytes: &mut [u8], at: usize, count: Count, random: &mut Random) -> bool {
    if bytes.len() < at + 4 {
        return false;
    }
    let old = u32::from_le_bytes(bytes[at..at + 4].try_into().unwrap());
    let new = match count {
        Count::Zero => 0,
        Count::OneLess => old.wrapping_sub(1),
        Count::OneMore => old.wrapping_add(1),
        Count::HighByte => old ^ (0x0100_0000 << random.below(8)),
        Count::Largest => u32::MAX,
        Count::Wraps => (random.below(at + 8) as u32).wrapping_sub(at as u32 + 4),
        Count::Any => random.number() as u32,
    };
    bytes[at..at + 4].copy_from_slice(&new.to_le_bytes());
    new != old
}

/// The bytes stay, but one goes over to the next section: the length is exact, the counts are not.
fn move_byte(inputs: &mut Inputs, name: Name, index: usize) -> bool {
    let shape = inputs.shape;
    if sections(name, &shape)[index].rows == 0 || inputs.get(name).len() != length(name, &shape) {
        return false;
    }
    let at = section_start(name, &shape, index);
    let next = section_start(name, &shape, index + 1);
    let bytes = inputs.get_mut(name);
    add_to_count(bytes, at, u32::MAX);
    add_to_count(bytes, next, 1);
    // The second count now stands one byte earlier, before the byte that went over.
    bytes[next - 1..next + 4].rotate_left(1);
    true
}

fn add_to_count(bytes: &mut [u8], at: usize, more: u32) {
    let old = u32::from_le_bytes(bytes[at..at + 4].try_into().unwrap());
    bytes[at..at + 4].copy_from_slice(&old.wrapping_add(more).to_le_bytes());
}

fn set_spare(
    inputs: &mut Inputs,
    name: Name,
    index: usize,
    which: Which,
    random: &mut Random,
) -> bool {
    let section = sections(name, &inputs.shape)[index];
    if section.bits % 8 == 0 || section.rows == 0 {
        return false;
    }
    let spare = 8 - section.bits % 8;
    let (row, bit) = match which {
        Which::First => (0, 8 - spare),
        Which::Last => (section.rows - 1, 7),
        Which::Any => (random.below(section.rows), 8 - spare + random.below(spare)),
    };
    let rows = section_start(name, &inputs.shape, index) + section.count_length();
    let at = rows + (row + 1) * section.row_length() - 1;
    match inputs.get_mut(name).get_mut(at) {
        Some(byte) => *byte |= 1 << bit,
        None => return false,
    }
    true
}

fn flip(inputs: &mut Inputs, name: Name, index: usize, random: &mut Random) -> bool {
    let section = sections(name, &inputs.shape)[index];
    if section.rows * section.bits == 0 {
        return false;
    }
    let rows = section_start(name, &inputs.shape, index) + section.count_length();
    let coordinate = random.below(section.bits);
    let at = rows + random.below(section.rows) * section.row_length() + coordinate / 8;
    match inputs.get_mut(name).get_mut(at) {
        Some(byte) => *byte ^= 1 << (coordinate % 8),
        None => return false,
    }
    true
}

fn fill(inputs: &mut Inputs, name: Name, index: usize, ones: bool) -> bool {
    let section = sections(name, &inputs.shape)[index];
    let rows = section_start(name, &inputs.shape, index) + section.count_length();
    let end = rows + section.rows * section.row_length();
    if end == rows || inputs.get(name).len() < end {
        return false;
    }
    for row in inputs.get_mut(name)[rows..end].chunks_mut(section.row_length()) {
        row.fill(if ones { 0xFF } else { 0 });
        if section.bits % 8 != 0 {
            *row.last_mut().unwrap() &= (1 << (section.bits % 8)) - 1;
        }
    }
    true
}

/// That the layout which the damages go by is the one that the rendering takes.
pub fn layout_agrees(inputs: &Inputs) -> bool {
    NAMES
        .iter()
        .filter(|name| **name != Name::Proof)
        .all(|name| inputs.get(*name).len() == length(*name, &inputs.shape))
        && header_length(Name::Key) == 8
}
