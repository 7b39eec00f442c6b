//! Values that a write finds in the state, in whole or in part: writes that make
//! no difference, or hardly one.

use crate::memory::{parts, Memory, STATE_LENGTHS};
use crate::model::{
    allowed, apply, faults::NONE, firsts, header, held_bits, mask_bits, read, Write,
};
use crate::random::Random;

const ENTRY: u32 = 0xFF_FFFF;
const LONGEST_LIST: usize = 65_536;

/// A copy of a state, which goes on as the lists are read that are made for it.
#[derive(Clone)]
pub struct Foreseen {
    cells: Vec<u32>,
    fog: Vec<u32>,
    light: Vec<u32>,
}

impl Foreseen {
    pub fn of(memory: &mut Memory) -> Foreseen {
        let [cells, fog, light] = parts(&mut memory.state, STATE_LENGTHS).map(|b| b.to_vec());
        Foreseen { cells, fog, light }
    }

    /// What a write finds, and the bits of it that the write can change. Port data
    /// finds its entry, and for a table that has none any.
    fn found(&self, id: u32, mask: u32) -> (u32, u32) {
        match id {
            0xE8..=0xEF => (self.fog[self.cells[0xE6] as usize % 128], ENTRY),
            0x1C8..=0x1CF => {
                let entry = self.cells[0x1C5] as usize % 0x2000 % self.light.len();
                (self.light[entry], ENTRY)
            }
            _ => {
                let open = held_bits::<NONE>(id) & mask_bits::<NONE>(mask);
                (self.cells[id as usize], open)
            }
        }
    }

    fn apply(&mut self, write: Write) {
        apply::<NONE>(&mut self.cells, &mut self.fog, &mut self.light, write);
    }

    fn read(&mut self, list: &[u32]) {
        let Foreseen { cells, fog, light } = self;
        read::<NONE>(cells, fog, light, list, &mut [0]);
    }
}

/// What is there in all bits that a write can change, and often in these alone.
fn same(random: &mut Random, (there, open): (u32, u32)) -> u32 {
    let garbage = random.word();
    match random.below(4) {
        0 => there,
        1 => there & open,
        _ => there & open | garbage & !open,
    }
}

/// What is there but for a bit, a byte, or all bits that a write can change.
fn nearly_same(random: &mut Random, (there, open): (u32, u32)) -> u32 {
    let garbage = random.word();
    match random.below(4) {
        0 => there ^ 1 << random.below(32),
        1 => there ^ garbage & 0xFF << (8 * random.below(4)),
        2 => there & !(0xFF << (8 * random.below(4))) | garbage & !open,
        _ => there & !open | garbage & open,
    }
}

/// Which values of a list are those that its writes find.
#[derive(Clone, Copy)]
enum Which {
    All,
    /// All but a command's first: equal values follow each other.
    Extra,
    /// All but some.
    Most,
    Some,
}

/// Whether a write says what is there; `None` for nearly.
fn says_the_same(random: &mut Random, which: Which, parameter: u32) -> Option<bool> {
    match which {
        Which::All => Some(true),
        Which::Extra => Some(parameter > 0),
        Which::Most => Some(random.chance(15, 16)),
        Which::Some if random.chance(1, 4) => None,
        Which::Some => Some(random.chance(1, 2)),
    }
}

/// Goes through the writes of a list up to the first one at fault, and changes
/// some values.
fn restate(random: &mut Random, list: &mut [u32], which: Which, mut state: Foreseen) {
    for first in firsts(list) {
        let header = header::<NONE>(list[first + 1]);
        for parameter in 0..=header.extra {
            let word = first + (parameter + parameter.min(1)) as usize;
            let id = header.id + if header.consecutive { parameter } else { 0 };
            let mask = header.mask;
            if word >= list.len() || allowed::<NONE>(id, mask).is_err() {
                return;
            }
            let found = state.found(id, mask);
            match says_the_same(random, which, parameter) {
                Some(false) => {}
                Some(true) => list[word] = same(random, found),
                None => list[word] = nearly_same(random, found),
            }
            let value = list[word];
            state.apply(Write { id, mask, value });
        }
    }
}

/// Gives a list, most often, some values that its writes find, and reads it.
pub fn restate_some(random: &mut Random, list: &mut [u32], state: &mut Foreseen) {
    let which = match random.below(16) {
        0..=4 => None,
        5..=8 => Some(Which::All),
        9 | 10 => Some(Which::Extra),
        11 | 12 => Some(Which::Most),
        _ => Some(Which::Some),
    };
    // A list that is too long is refused, whatever its values are.
    if let Some(which) = which.filter(|_| list.len() <= LONGEST_LIST) {
        restate(random, list, which, state.clone());
    }
    state.read(list);
}

/// The value of a single write, most often one that it finds.
pub fn value_alone(random: &mut Random, [id, mask, value]: [u32; 3], memory: &mut Memory) -> u32 {
    if mask > 15 || allowed::<NONE>(id, mask).is_err() {
        return value;
    }
    let found = Foreseen::of(memory).found(id, mask);
    match random.below(8) {
        0..=2 => value,
        3 | 4 => nearly_same(random, found),
        _ => same(random, found),
    }
}
