//! The shapes at which the library's kernels go another way. The kernels' thresholds stand here, and nowhere else in
//! the tests; the shapes of the comparison and of the fuzzer are made from them.
//!
//! A kernel that works by blocks of another length gets another threshold here.

pub mod edits;

/// n, m, τ, t, the degree, 8 or 4 (request 3 of 02), and the alphabet, 2 or 4 (request 11). n and t count symbols.
pub type Sizes = (usize, usize, usize, usize, u32, u32);

/// The degrees that are taken.
pub const DEGREES: [u32; 2] = [8, 4];

/// The alphabets that are taken, 4 at degree 8 alone.
pub const ALPHABETS: [u32; 2] = [2, 4];

/// The degrees and alphabets that are taken together.
pub const SETTINGS: [(u32, u32); 3] = [(8, 2), (4, 2), (8, 4)];

/// The greatest of each (01, and request 1 of 02).
pub const LIMITS: [usize; 4] = [320, 320, 48, 288];

/// The least of each (01, and request 12 of 02).
pub const LEAST: [usize; 4] = [1, 0, 1, 1];

/// What a threshold is of: the four sizes, as `LIMITS` has them, the bytes w of a leaf, and those of a row of H′.
#[derive(Clone, Copy, Debug, PartialEq, Eq)]
pub enum Of {
    Variables,
    Equations,
    Repetitions,
    HashRows,
    LeafBytes,
    RowBytes,
}

/// Where a kernel has a block full, or begins another.
pub struct Threshold {
    pub of: Of,
    pub at: usize,
    pub kernel: &'static str,
}

const fn at(of: Of, at: usize, kernel: &'static str) -> Threshold {
    Threshold { of, at, kernel }
}

/// At alphabet 2.
#[rustfmt::skip] // a table, a line for each
pub const THRESHOLDS: &[Threshold] = &[
    at(Of::Variables, 8, "strings: the bits of a byte of x, A and b"),
    at(Of::Variables, 16, "the fold: a panel of sixteen columns; sixteen rows of it are a chunk of 32 bytes"),
    at(Of::Variables, 41, "the row product: a row of H′, of k = n + 16 bits, is as long as a word of eight bytes"),
    at(Of::Variables, 49, "the same at degree 4, k = n + 8"),
    at(Of::Variables, 57, "the row product: a row of A is as long as a word of eight bytes, and is taken by words"),
    at(Of::Variables, 64, "the fold: a set of four panels; the row product: past it the last word overlaps"),
    at(Of::Variables, 128, "the fold: two sets of four panels; the turn: sixteen bytes of each of eight rows"),
    at(Of::Variables, 145, "the fold: a column whose rows lie past the first sixteen bytes"),
    at(Of::Variables, 160, "the fold: the most rows of one piece; the row product: a row of A is as long as 20 bytes"),
    at(Of::Variables, 192, "the fold: three sets of four panels"),
    at(Of::Variables, 224, "the set of 224 variables"),
    at(Of::Variables, 256, "the lines: a chunk of 32 bytes, and past it a second one; the fold: four sets"),
    at(Of::Variables, 320, "the limit, and five sets"),
    at(Of::Equations, 5, "the choices: five equations, one number in a word"),
    at(Of::Equations, 8, "strings: the bits of a byte of y"),
    at(Of::Equations, 50, "the choices: ten fives, a word"),
    at(Of::Equations, 100, "the choices: two words"),
    at(Of::Equations, 150, "the choices: three words, after which there is room for two fives more"),
    at(Of::Equations, 160, "a block of equations, and past it a second one"),
    at(Of::Equations, 224, "the set of 224 equations"),
    at(Of::Equations, 256, "an equation's number no longer fits a byte"),
    at(Of::Equations, 320, "the limit, and two blocks"),
    at(Of::Repetitions, 2, "the corrections: the first that is sent"),
    at(Of::Repetitions, 16, "the lanes: sixteen repetitions, a register"),
    at(Of::Repetitions, 48, "the limit, and all lanes"),
    at(Of::HashRows, 8, "strings: the bits of a byte of ũ"),
    at(Of::HashRows, 160, "the limit of 01"),
    at(Of::HashRows, 288, "the limit"),
    at(Of::RowBytes, 21, "the hash: a block of a row of H′, and past it a second one"),
    at(Of::RowBytes, 42, "the hash: two blocks"),
    at(Of::RowBytes, 63, "the hash: three blocks; the most bytes at degree 4 are 64"),
    at(Of::RowBytes, 84, "the hash: four blocks; the most bytes are 88"),
    at(Of::LeafBytes, 16, "the leaf sums: a chunk of sixteen bytes; past it the last sixteen overlap those before"),
    at(Of::LeafBytes, 32, "the leaf sums: two chunks"),
    at(Of::LeafBytes, 48, "the leaf sums: three chunks"),
    at(Of::LeafBytes, 64, "the leaf sums: four chunks"),
    at(Of::LeafBytes, 80, "the leaf sums: five chunks"),
    at(Of::LeafBytes, 96, "the leaf sums: six chunks; the most bytes at degree 4 are 100"),
    at(Of::LeafBytes, 112, "the leaf sums: seven chunks; the most bytes are 124"),
];

/// At alphabet 4, by the layout: where rows of symbols fill 4, 8, 16, 32 and 64 bytes; and by what is the same at both
/// alphabets, the bytes of a leaf, the bytes of a row of H′ and the number of equations.
#[rustfmt::skip] // a table, a line for each
pub const THRESHOLDS_OF_SYMBOLS: &[Threshold] = &[
    at(Of::Variables, 4, "strings: the symbols of a byte of x, A and b"),
    at(Of::Variables, 16, "a row of A of 4 bytes"),
    at(Of::Variables, 32, "a row of A of 8 bytes, a word"),
    at(Of::Variables, 64, "a row of A of 16 bytes; as many symbols as a word has bits"),
    at(Of::Variables, 80, "a row of A of 20 bytes, the most at alphabet 2 before request 1"),
    at(Of::Variables, 88, "the set of 88 variables"),
    at(Of::Variables, 128, "a row of A of 32 bytes; the set of 128 variables"),
    at(Of::Variables, 160, "a row of A of 40 bytes, the most at alphabet 2; the set of 160 variables"),
    at(Of::Variables, 256, "a row of A of 64 bytes"),
    at(Of::Variables, 320, "the limit, a row of A of 80 bytes"),
    at(Of::Equations, 4, "strings: the symbols of a byte of y"),
    at(Of::Equations, 16, "a y of 4 bytes"),
    at(Of::Equations, 25, "half of 50: twice as many bits as equations"),
    at(Of::Equations, 32, "a y of 8 bytes"),
    at(Of::Equations, 50, "the choices at alphabet 2: a word; and half of 100"),
    at(Of::Equations, 64, "a y of 16 bytes"),
    at(Of::Equations, 75, "half of 150"),
    at(Of::Equations, 80, "half of 160"),
    at(Of::Equations, 88, "the set of 88 equations"),
    at(Of::Equations, 100, "the choices at alphabet 2: two words"),
    at(Of::Equations, 128, "a y of 32 bytes; half of 256"),
    at(Of::Equations, 150, "the choices at alphabet 2: three words"),
    at(Of::Equations, 160, "a block of equations at alphabet 2, and half of 320"),
    at(Of::Equations, 256, "a y of 64 bytes; an equation's number no longer fits a byte"),
    at(Of::Equations, 320, "the limit"),
    at(Of::Repetitions, 2, "the corrections: the first that is sent"),
    at(Of::Repetitions, 16, "the lanes: sixteen repetitions, a register"),
    at(Of::Repetitions, 17, "the set of 17 repetitions"),
    at(Of::Repetitions, 48, "the limit, and all lanes"),
    at(Of::HashRows, 4, "strings: the symbols of a byte of ũ"),
    at(Of::HashRows, 16, "a ũ of 4 bytes"),
    at(Of::HashRows, 32, "a ũ of 8 bytes"),
    at(Of::HashRows, 64, "a ũ of 16 bytes"),
    at(Of::HashRows, 80, "the set's rows as they are measured"),
    at(Of::HashRows, 128, "a ũ of 32 bytes"),
    at(Of::HashRows, 160, "the limit of 01"),
    at(Of::HashRows, 256, "a ũ of 64 bytes"),
    at(Of::HashRows, 288, "the limit"),
    at(Of::RowBytes, 4, "a row of H′ of 4 bytes"),
    at(Of::RowBytes, 8, "a row of H′ of 8 bytes, a word"),
    at(Of::RowBytes, 16, "a row of H′ of 16 bytes"),
    at(Of::RowBytes, 21, "the hash: a block of a row of H′, and past it a second one"),
    at(Of::RowBytes, 32, "a row of H′ of 32 bytes"),
    at(Of::RowBytes, 42, "the hash: two blocks"),
    at(Of::RowBytes, 63, "the hash: three blocks"),
    at(Of::RowBytes, 64, "a row of H′ of 64 bytes"),
    at(Of::RowBytes, 84, "the hash: four blocks; past 80 a row is longer than one of A can be"),
    at(Of::RowBytes, 88, "the most bytes at alphabet 2"),
    at(Of::RowBytes, 105, "the hash: five blocks"),
    at(Of::RowBytes, 126, "the hash: six blocks"),
    at(Of::RowBytes, 128, "the most bytes"),
    at(Of::LeafBytes, 4, "a leaf of 4 bytes"),
    at(Of::LeafBytes, 8, "a leaf of 8 bytes, a word"),
    at(Of::LeafBytes, 16, "the leaf sums: a chunk of sixteen bytes; past it the last sixteen overlap those before"),
    at(Of::LeafBytes, 32, "the leaf sums: two chunks"),
    at(Of::LeafBytes, 48, "the leaf sums: three chunks"),
    at(Of::LeafBytes, 64, "the leaf sums: four chunks"),
    at(Of::LeafBytes, 80, "the leaf sums: five chunks"),
    at(Of::LeafBytes, 96, "the leaf sums: six chunks"),
    at(Of::LeafBytes, 112, "the leaf sums: seven chunks"),
    at(Of::LeafBytes, 124, "the most bytes at alphabet 2"),
    at(Of::LeafBytes, 128, "the leaf sums: eight chunks"),
    at(Of::LeafBytes, 144, "the leaf sums: nine chunks"),
    at(Of::LeafBytes, 160, "the leaf sums: ten chunks"),
    at(Of::LeafBytes, 176, "the leaf sums: eleven chunks"),
    at(Of::LeafBytes, 192, "the leaf sums: twelve chunks"),
    at(Of::LeafBytes, 200, "the most bytes"),
];

/// The thresholds at an alphabet.
pub fn thresholds(alphabet: u32) -> &'static [Threshold] {
    match alphabet {
        4 => THRESHOLDS_OF_SYMBOLS,
        _ => THRESHOLDS,
    }
}

/// Leaves are added four at a time, but for the four that hold the one left out (the leaf sums).
const FOUR: usize = 4;

/// The leaves of a tree.
fn leaves(degree: u32) -> usize {
    1 << degree
}

/// The symbols of a byte, and those of the mask of a repetition.
fn in_a_byte(alphabet: u32) -> usize {
    if alphabet == 4 {
        4
    } else {
        8
    }
}

fn mask(degree: u32, alphabet: u32) -> usize {
    if alphabet == 4 {
        4
    } else {
        degree as usize
    }
}

/// The bytes of a row of so many entries.
pub fn bytes(entries: usize, alphabet: u32) -> usize {
    entries.div_ceil(in_a_byte(alphabet))
}

/// Small, and with spare bits in every section, at a degree and an alphabet.
pub fn small(degree: u32, alphabet: u32) -> Sizes {
    (9, 3, 2, 5, degree, alphabet)
}

/// Keys with no equations (request 12): with the other sizes small, least, and large.
pub fn no_equations(degree: u32, alphabet: u32) -> [Sizes; 3] {
    let (n, _, tau, t, _, _) = small(degree, alphabet);
    [
        (n, 0, tau, t, degree, alphabet),
        (1, 0, 1, 1, degree, alphabet),
        (LIMITS[0], 0, 3, 161, degree, alphabet),
    ]
}

/// "The fast set" of request 3: sixteen leaves, 150 variables, 43 repetitions. The rendering takes a second for it.
pub const FAST: Sizes = (150, 150, 43, 144, 4, 2);

/// "document 003's set over GF(4) with 88 variables and 17 repetitions" of request 11, with the hash rows that its
/// figures are measured at; 003's own bound, 4^-t = 2^-144, gives 72.
pub const FOUR_VALUED: Sizes = (88, 88, 17, 80, 8, 4);

/// The set of a setting that has one.
fn set(degree: u32, alphabet: u32) -> Option<Sizes> {
    [FAST, FOUR_VALUED]
        .into_iter()
        .find(|set| (set.4, set.5) == (degree, alphabet))
}

/// The most of a size at a degree and an alphabet.
fn most(of: Of, degree: u32, alphabet: u32) -> usize {
    let [n, m, tau, t] = LIMITS;
    let largest = (n, m, tau, t, degree, alphabet);
    match of {
        Of::LeafBytes => leaf_bytes(largest),
        Of::RowBytes => row_bytes(largest),
        of => LIMITS[of as usize],
    }
}

/// A threshold and its neighbours, within the limits at a degree and an alphabet.
fn beside(threshold: &Threshold, degree: u32, alphabet: u32) -> impl Iterator<Item = usize> {
    let (least, most) = (
        least(threshold.of, degree, alphabet),
        most(threshold.of, degree, alphabet),
    );
    (threshold.at - 1..=threshold.at + 1).filter(move |size| (least..=most).contains(size))
}

/// The least of a size that the shapes below have: of a leaf and of a row of H′ with small's repetitions.
fn least(of: Of, degree: u32, alphabet: u32) -> usize {
    let tau = small(degree, alphabet).2;
    match of {
        Of::LeafBytes => leaf_bytes((1, 1, tau, 1, degree, alphabet)),
        Of::RowBytes => row_bytes((1, 1, tau, 1, degree, alphabet)),
        _ => 1,
    }
}

/// The small shape with one size, or the bytes of a leaf or of a row of H′, put in.
fn with(of: Of, size: usize, degree: u32, alphabet: u32) -> Sizes {
    let (n, m, tau, t, _, _) = small(degree, alphabet);
    match of {
        Of::Variables => (size, m, tau, t, degree, alphabet),
        Of::Equations => (n, size, tau, t, degree, alphabet),
        Of::Repetitions => (n, m, size, t, degree, alphabet),
        Of::HashRows => (n, m, tau, size, degree, alphabet),
        Of::LeafBytes => with_leaf_bytes(size, degree, alphabet),
        Of::RowBytes => with_row_bytes(size, degree, alphabet),
    }
}

/// So many bytes, the last with three bits spare, or one symbol.
fn with_spare(size: usize, alphabet: u32) -> usize {
    let spare = if alphabet == 4 { 1 } else { 3 };
    in_a_byte(alphabet) * size - spare
}

/// Some of a leaf's last byte is spare. As few repetitions as the limits of n and t leave room for, since leaves
/// are long by them in two ways: there are more, and each has more mask coordinates.
fn with_leaf_bytes(size: usize, degree: u32, alphabet: u32) -> Sizes {
    let (_, m, fewest, _, _, _) = small(degree, alphabet);
    let mask = mask(degree, alphabet);
    let entries = with_spare(size, alphabet);
    let more = entries.saturating_sub(LIMITS[0] + LIMITS[3]);
    let tau = fewest.max(more.div_ceil(mask));
    let rest = entries - mask * tau;
    let t = rest.div_ceil(2).min(LIMITS[3]);
    (rest - t, m, tau, t, degree, alphabet)
}

/// Some of a row's last byte is spare. As few repetitions as the limit of n leaves room for.
fn with_row_bytes(size: usize, degree: u32, alphabet: u32) -> Sizes {
    let (_, m, fewest, t, _, _) = small(degree, alphabet);
    let mask = mask(degree, alphabet);
    let entries = with_spare(size, alphabet);
    let more = entries.saturating_sub(LIMITS[0]);
    let tau = fewest.max(more.div_ceil(mask));
    (entries - mask * tau, m, tau, t, degree, alphabet)
}

/// The entries k of a row of H′: n, and the mask coordinates of each repetition.
fn row_entries((n, _, tau, _, degree, alphabet): Sizes) -> usize {
    n + mask(degree, alphabet) * tau
}

/// The entries L of a leaf: n and t, and the mask coordinates of each repetition.
pub fn leaf_entries(shape: Sizes) -> usize {
    row_entries(shape) + shape.3
}

/// The bytes of a row of H′.
pub fn row_bytes(shape: Sizes) -> usize {
    bytes(row_entries(shape), shape.5)
}

/// The bytes w of a leaf.
pub fn leaf_bytes(shape: Sizes) -> usize {
    bytes(leaf_entries(shape), shape.5)
}

/// Each threshold with its neighbours at a degree and an alphabet, one at a time, the other sizes small. The first is
/// the small shape itself; then the least, and the most variables with the fewest equations and the other way round;
/// then the setting's set, if it has one, with fewer equations; then those with no equations.
pub fn single(degree: u32, alphabet: u32) -> Vec<Sizes> {
    let mut shapes = vec![
        small(degree, alphabet),
        (1, 1, 1, 1, degree, alphabet),
        (LIMITS[0], 1, 2, 161, degree, alphabet),
        (1, LIMITS[1], 1, LIMITS[3], degree, alphabet),
    ];
    if let Some((n, _, tau, t, _, _)) = set(degree, alphabet) {
        shapes.push((n, 3, tau, t, degree, alphabet));
    }
    shapes.extend(no_equations(degree, alphabet));
    for threshold in thresholds(alphabet) {
        for size in beside(threshold, degree, alphabet) {
            let shape = with(threshold.of, size, degree, alphabet);
            if !shapes.contains(&shape) {
                shapes.push(shape);
            }
        }
    }
    shapes
}

/// Those of the above for the fuzzer, which asks the rendering thousands of times: where the leaves have at most so
/// many bytes; the most repetitions, the other sizes small; and the setting's set. With many variables there is one
/// equation, since the time goes by n² and m.
pub fn light(degree: u32, alphabet: u32) -> Vec<Sizes> {
    let bytes = |shape: Sizes| leaves(degree) * shape.2 * leaf_bytes(shape);
    let fewer = |(n, m, tau, t, degree, alphabet): Sizes| {
        let m = if n > 160 { m.min(1) } else { m };
        (n, m, tau, t, degree, alphabet)
    };
    let most = with(Of::Repetitions, LIMITS[2], degree, alphabet);
    let set = set(degree, alphabet);
    let of_set = |shape: &Sizes| set.is_some_and(|set| (shape.0, shape.2) == (set.0, set.2));
    single(degree, alphabet)
        .into_iter()
        .filter(|shape| bytes(*shape) <= 1 << 17 || *shape == most || of_set(shape))
        .map(fewer)
        .collect()
}

/// All values of a size that some threshold asks for at a degree and an alphabet.
fn values(of: Of, degree: u32, alphabet: u32) -> Vec<usize> {
    let mut values: Vec<usize> = thresholds(alphabet)
        .iter()
        .filter(|threshold| threshold.of == of)
        .flat_map(|threshold| beside(threshold, degree, alphabet))
        .collect();
    values.sort();
    values.dedup();
    values
}

/// Thresholds of several sizes at once: each value of n beside one of m and one of t, in turn. Few repetitions, since
/// what they do does not depend on the other sizes. Then the setting's set, if it has one.
pub fn joint(degree: u32, alphabet: u32) -> Vec<Sizes> {
    let ms = values(Of::Equations, degree, alphabet);
    let ts = values(Of::HashRows, degree, alphabet);
    // At alphabet 4 n and t have nearly the same thresholds: not the same beside each other.
    let step = if alphabet == 4 { 7 } else { 1 };
    let in_turn = |(i, n): (usize, &usize)| {
        let (m, t) = (ms[5 * i % ms.len()], ts[step * i % ts.len()]);
        (*n, m, 1 + i % 3, t, degree, alphabet)
    };
    values(Of::Variables, degree, alphabet)
        .iter()
        .enumerate()
        .map(in_turn)
        .chain(set(degree, alphabet))
        .collect()
}

/// The challenges at which the leaf that is left out stands otherwise among its four: in the first and the last four of
/// a tree.
pub fn challenges(degree: u32) -> Vec<u8> {
    let leaves = leaves(degree);
    (0..leaves)
        .filter(|delta| *delta <= FOUR || *delta >= leaves - FOUR - 1)
        .map(|delta| delta as u8)
        .collect()
}

#[cfg(test)]
mod tests {
    use super::*;

    #[test]
    fn every_threshold_has_its_neighbours() {
        for (degree, alphabet) in SETTINGS {
            for threshold in thresholds(alphabet) {
                for size in [threshold.at - 1, threshold.at, threshold.at + 1] {
                    let met = |shape: &Sizes| {
                        let (n, m, tau, t, _, _) = *shape;
                        let sizes = [n, m, tau, t, leaf_bytes(*shape), row_bytes(*shape)];
                        sizes[threshold.of as usize] == size
                    };
                    let past = size > most(threshold.of, degree, alphabet);
                    assert_eq!(
                        single(degree, alphabet).iter().any(met),
                        !past,
                        "{}: {size} at {degree}, {alphabet}",
                        threshold.kernel
                    );
                }
            }
        }
    }

    /// n and t that matter by the layout of symbols.
    #[test]
    fn rows_of_symbols() {
        let ends = |highest: usize| {
            let mut sizes = vec![1, 3, 4, 5, 15, 16, 17, 31, 32, 33, 63, 64, 65];
            sizes.extend([
                127,
                128,
                129,
                159,
                160,
                161,
                255,
                256,
                257,
                highest - 1,
                highest,
            ]);
            sizes
        };
        let shapes = single(8, 4);
        for n in ends(320) {
            assert!(shapes.iter().any(|shape| shape.0 == n), "{n}");
        }
        for t in ends(288) {
            assert!(shapes.iter().any(|shape| shape.3 == t), "{t}");
        }
        // Rows of A, of H′, ũ and leaves of 4, 8, 16, 32 and 64 bytes.
        for length in [4, 8, 16, 32, 64] {
            let has = |of: &dyn Fn(&Sizes) -> usize| shapes.iter().any(|shape| of(shape) == length);
            assert!(has(&|shape| bytes(shape.0, 4)));
            assert!(has(&|shape| bytes(shape.1, 4)));
            assert!(has(&|shape| bytes(shape.3, 4)));
            assert!(has(&|shape| row_bytes(*shape)));
            assert!(has(&|shape| leaf_bytes(*shape)));
        }
    }

    #[test]
    fn all_within_limits() {
        for (degree, alphabet) in SETTINGS {
            let shapes = single(degree, alphabet);
            for shape in shapes.into_iter().chain(joint(degree, alphabet)) {
                let (n, m, tau, t, at, with) = shape;
                assert_eq!((at, with), (degree, alphabet));
                for (place, size) in [n, m, tau, t].into_iter().enumerate() {
                    assert!((LEAST[place]..=LIMITS[place]).contains(&size));
                }
            }
        }
    }

    #[test]
    fn the_longest_leaf() {
        let [n, m, tau, t] = LIMITS;
        for (degree, alphabet, leaf, row) in [(8, 2, 124, 88), (4, 2, 100, 64), (8, 4, 200, 128)] {
            let largest = (n, m, tau, t, degree, alphabet);
            assert_eq!([leaf_bytes(largest), row_bytes(largest)], [leaf, row]);
        }
    }

    /// Spare bits in every section of the small shape, also at alphabet 4.
    #[test]
    fn the_small_shape_has_spare_bits() {
        for (degree, alphabet) in SETTINGS {
            let shape = small(degree, alphabet);
            let (n, m, _, t, _, _) = shape;
            for entries in [n, m, t, row_entries(shape), leaf_entries(shape)] {
                assert_ne!(entries % in_a_byte(alphabet), 0);
            }
        }
    }

    /// The fuzzer opens the last of its cases at many challenges: its leaves go past five chunks, or nine. Few shapes
    /// are left out, at degree 4 none.
    #[test]
    fn light_shapes() {
        assert_eq!(leaf_bytes(*light(8, 2).last().unwrap()), 81);
        assert_eq!(leaf_bytes(*light(4, 2).last().unwrap()), 97);
        for (degree, alphabet) in SETTINGS {
            let light = light(degree, alphabet);
            assert!(light.iter().any(|shape| shape.2 == LIMITS[2]));
        }
        assert!(light(8, 2).len() + 13 >= single(8, 2).len());
        assert_eq!(light(4, 2).len(), single(4, 2).len());
        assert_eq!(leaf_bytes(*light(8, 4).last().unwrap()), 145);
        assert!(light(8, 4).len() + 22 >= single(8, 4).len());
    }

    #[test]
    fn some_shape_has_every_kernel_in_more_than_one_round() {
        let large = |shape: &Sizes| shape.0 > 64 && shape.1 > 50 && leaf_bytes(*shape) > 16;
        for (degree, alphabet) in SETTINGS {
            assert!(joint(degree, alphabet).iter().any(large));
        }
    }

    #[test]
    fn those_with_no_equations_are_among_them() {
        for (degree, alphabet) in SETTINGS {
            let light = light(degree, alphabet);
            assert!(no_equations(degree, alphabet)
                .iter()
                .all(|shape| light.contains(shape)));
        }
    }

    #[test]
    fn the_sets_are_among_them() {
        assert!(joint(4, 2).contains(&FAST));
        assert!(joint(8, 4).contains(&FOUR_VALUED));
        assert_eq!(set(8, 2), None);
        let light_has = |degree, alphabet, n, tau| {
            let light = light(degree, alphabet);
            light.iter().any(|shape| (shape.0, shape.2) == (n, tau))
        };
        assert!(light_has(4, 2, 150, 43));
        assert!(light_has(8, 4, 88, 17));
    }

    #[test]
    fn challenges_are_elements() {
        assert_eq!(challenges(8), [0, 1, 2, 3, 4, 251, 252, 253, 254, 255]);
        assert_eq!(challenges(4), [0, 1, 2, 3, 4, 11, 12, 13, 14, 15]);
    }
}
