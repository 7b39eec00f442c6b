//! Lent buffers, embedded between guard words.

use crate::model::{CELLS, FOG_ENTRIES, LIGHT_ENTRIES};
use crate::random::Random;

/// Guard words before, between and after the buffers.
pub const GUARD: usize = 8;

pub const STATE_LENGTHS: [usize; 3] = [CELLS, FOG_ENTRIES, LIGHT_ENTRIES];

/// Room for the state's three buffers, each up to two words too long.
const STATE_WORDS: usize = CELLS + FOG_ENTRIES + LIGHT_ENTRIES + 4 * GUARD + 6;

/// One side's buffers. Both sides of a comparison hold equal words before a
/// call, so after it every word has to be equal, guards and constants too.
pub struct Memory {
    /// Cells, fog entries, light entries.
    pub state: Vec<u32>,
    /// The same of a spare state, for lists that arrive in pieces.
    pub spare: Vec<u32>,
    /// The other buffers of a call, as its case lays them out.
    pub lent: Vec<u32>,
}

impl Memory {
    pub fn new() -> Memory {
        Memory {
            state: vec![0; STATE_WORDS],
            spare: vec![0; STATE_WORDS],
            lent: Vec::new(),
        }
    }

    pub fn copy_from(&mut self, other: &Memory) {
        self.state.copy_from_slice(&other.state);
        self.lent.clone_from(&other.lent);
    }

    /// The cells of a state whose lengths are right.
    pub fn cells(&mut self) -> &mut [u32] {
        &mut self.state[GUARD..GUARD + CELLS]
    }

    /// Lays buffers out, with garbage as guards.
    pub fn lend(&mut self, random: &mut Random, buffers: &[&[u32]]) {
        self.lent.clear();
        for buffer in buffers {
            self.guard(random);
            self.lent.extend_from_slice(buffer);
        }
        self.guard(random);
    }

    fn guard(&mut self, random: &mut Random) {
        for _ in 0..GUARD {
            self.lent.push(random.word());
        }
    }
}

/// Takes buffers of these lengths out of a layout.
pub fn parts<const N: usize>(mut words: &mut [u32], lengths: [usize; N]) -> [&mut [u32]; N] {
    lengths.map(|length| {
        let (buffer, rest) = std::mem::take(&mut words)[GUARD..].split_at_mut(length);
        words = rest;
        buffer
    })
}

/// Takes two buffers out of a layout: the first one, and one behind it.
pub fn first_and<'a>(
    words: &'a mut [u32],
    lengths: &[usize],
    which: usize,
) -> (&'a mut [u32], &'a mut [u32]) {
    let between: usize = lengths[1..which].iter().map(|length| length + GUARD).sum();
    let (first, rest) = words[GUARD..].split_at_mut(lengths[0]);
    (first, &mut rest[between + GUARD..][..lengths[which]])
}

/// Names the buffer, and the word in it, at a position of a layout.
pub fn locate(names: &[&str], lengths: &[usize], position: usize) -> String {
    let mut start = GUARD;
    for (name, &length) in names.iter().zip(lengths) {
        if position < start {
            return format!("guard before {name}");
        }
        if position < start + length {
            return format!("{name}[{:#x}]", position - start);
        }
        start += length + GUARD;
    }
    "guard at the end".to_string()
}
