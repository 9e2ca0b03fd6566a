//! The inputs of an honest proof at random, and what is seen of it.

use crate::field::Field;
use crate::format::{pack, section, Key, Masks, Sizes};
use crate::random::Random;

/// What a verifier has, and with him all to whom the proof is shown.
pub struct View<'a> {
    pub key: &'a [u8],
    pub field: Field,
    pub delta: &'a [u8],
    pub hash_matrix: &'a [u8],
    pub batching: &'a [u8],
    pub opened: &'a [u8],
    pub proof: &'a [u8],
}

pub struct Case {
    pub sizes: Sizes,
    pub masks: Masks,
    pub key: Vec<u8>,
    pub witness: Vec<u8>,
    pub leaves: Vec<u8>,
    pub hash_matrix: Vec<u8>,
    pub batching: Vec<u8>,
    pub delta: Vec<u8>,
    pub opened: Vec<u8>,
}

impl Case {
    pub fn new(random: &mut Random, sizes: Sizes, masks: Masks) -> Case {
        let Sizes {
            n,
            m,
            tau,
            t,
            field,
        } = sizes;
        let witness = random.strings(1, n);
        let leaves = random.strings(field.size() * tau, masks.leaf_bits(sizes));
        let delta = random.strings(tau, field.degree());
        Case {
            sizes,
            masks,
            key: solved_by(random, sizes, &witness),
            opened: open(&leaves, &delta, field),
            witness,
            leaves,
            hash_matrix: random.strings(t, masks.end(sizes)),
            batching: random.strings(tau * m, field.degree()),
            delta,
        }
    }

    pub fn view<'a>(&'a self, proof: &'a [u8]) -> View<'a> {
        View {
            key: &self.key,
            field: self.sizes.field,
            delta: &self.delta,
            hash_matrix: &self.hash_matrix,
            batching: &self.batching,
            opened: &self.opened,
            proof,
        }
    }
}

/// A key with random A and b that this witness solves.
fn solved_by(random: &mut Random, sizes: Sizes, witness: &[u8]) -> Vec<u8> {
    let Sizes { n, m, tau, t, .. } = sizes;
    let header: Vec<u8> = [n, m, tau, t]
        .iter()
        .flat_map(|size| (*size as u16).to_le_bytes())
        .collect();
    let (a, b) = (random.strings(m * n, n), random.strings(m, n));
    let key = |y: &[u8]| [&header[..], &section(&a), &section(&b), &section(y)].concat();
    let unsolved = key(&vec![0; m.div_ceil(8)]);
    key(&pack(
        &Key::read(&unsolved, sizes.field).left_sides(witness),
    ))
}

/// All leaves but, in each repetition, the one at Δ.
fn open(leaves: &[u8], delta: &[u8], field: Field) -> Vec<u8> {
    let tree = leaves.len() / delta.len();
    let mut opened = Vec::new();
    for (leaves, delta) in leaves.chunks(tree).zip(delta) {
        let leaf = tree / field.size();
        let hidden = *delta as usize * leaf;
        opened.extend_from_slice(&leaves[..hidden]);
        opened.extend_from_slice(&leaves[hidden + leaf..]);
    }
    opened
}
