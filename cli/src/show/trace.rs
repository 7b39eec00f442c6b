//! What a list's writes do to a state: followed one by one, because a table's entry is named by the index that stands when it comes.

use std::collections::BTreeMap;

use pica::{Refusal, State, Write, FOG_LENGTH};

/// The tables that a light port's table number, five bits, can name. Only 24 are kept, and of those not all.
pub const TABLES: usize = 32;
/// The entries of each.
pub const TABLE_LENGTH: usize = 256;

const FOG_INDEX: usize = 0xE6;
const LIGHT_INDEX: usize = 0x1C5;

/// The writes to one register.
#[derive(Clone, Copy, Default)]
pub struct Written {
    pub count: usize,
    /// The bits in the bytes that a mask named.
    pub bits: u32,
    pub last: Last,
}

/// The last of them.
#[derive(Clone, Copy, Default)]
pub struct Last {
    pub mask: u32,
    pub value: u32,
}

pub struct Trace {
    pub before: State,
    pub after: State,
    /// By id, port data too.
    pub registers: BTreeMap<u32, Written>,
    /// How often each fog entry was written.
    pub fog: Vec<usize>,
    /// How often each light entry was written, those of tables that keep nothing too.
    pub light: Vec<usize>,
}

/// The table that a write to a port's data goes to.
pub enum Port {
    Fog,
    Light,
}

pub fn port(id: u32) -> Option<Port> {
    match id {
        0xE8..=0xEF => Some(Port::Fog),
        0x1C8..=0x1CF => Some(Port::Light),
        _ => None,
    }
}

impl Trace {
    /// The writes of an accepted list, so that none of them is refused.
    pub fn follow(before: State, writes: &[Write]) -> Result<Self, Refusal> {
        let mut trace = Self {
            after: before.clone(),
            before,
            registers: BTreeMap::new(),
            fog: vec![0; FOG_LENGTH],
            light: vec![0; TABLES * TABLE_LENGTH],
        };
        for write in writes {
            trace.count(write);
            trace.after.write(write.id, write.mask, write.value)?;
        }
        Ok(trace)
    }

    fn count(&mut self, write: &Write) {
        let written = self.registers.entry(write.id).or_default();
        written.count += 1;
        written.bits |= bits_of(write.mask);
        written.last = Last {
            mask: write.mask,
            value: write.value,
        };
        let cells = self.after.cells();
        match port(write.id) {
            Some(Port::Fog) => self.fog[cells[FOG_INDEX] as usize % FOG_LENGTH] += 1,
            Some(Port::Light) => {
                let entry = cells[LIGHT_INDEX] as usize % (TABLES * TABLE_LENGTH);
                self.light[entry] += 1;
            }
            None => {}
        }
    }
}

/// The bits of the bytes that a mask names.
fn bits_of(mask: u32) -> u32 {
    let byte = |k: u32| (mask >> k & 1) * (0xFF << (8 * k));
    (0..4).map(byte).sum()
}

#[cfg(test)]
mod tests {
    use super::*;

    #[test]
    fn masks_name_bytes() {
        assert_eq!(
            [0, 1, 5, 8, 15].map(bits_of),
            [0, 0xFF, 0xFF_00FF, 0xFF00_0000, u32::MAX]
        );
    }

    /// An index rises with each entry, and wraps within its table.
    #[test]
    fn entries_are_those_that_the_index_names() {
        let write = |id: u32, value: u32| Write {
            id,
            mask: 15,
            value,
        };
        let writes = [
            write(0xE6, 127),
            write(0xE8, 1),
            write(0xEF, 2),
            write(0x1C5, 0x02FF),
            write(0x1C8, 3),
            write(0x1C8, 4),
        ];
        let trace = Trace::follow(State::default(), &writes).unwrap();
        let met = |counts: &[usize]| -> Vec<usize> {
            (0..counts.len()).filter(|&k| counts[k] > 0).collect()
        };
        assert_eq!(met(&trace.fog), [0, 127]);
        assert_eq!(met(&trace.light), [0x200, 0x2FF]);
        assert_eq!((trace.after.fog()[127], trace.after.fog()[0]), (1, 2));
        assert_eq!(trace.registers[&0x1C8].count, 2);
    }

    /// What is left is what reading the list leaves.
    #[test]
    fn following_is_reading() {
        let mut seed = 1_u64;
        let mut random = |below: u32| {
            seed = seed.wrapping_mul(6_364_136_223_846_793_005).wrapping_add(1);
            (seed >> 33) as u32 % below
        };
        for _ in 0..50 {
            let writes: Vec<Write> = (0..200)
                .map(|_| {
                    let id = [0x40 + random(0x100), 0xE6 + random(10), 0x1C5 + random(11)]
                        [random(3) as usize];
                    let mask = if port(id).is_some() { 15 } else { random(16) };
                    let value = random(1 << 31) ^ random(2) << 31;
                    Write { id, mask, value }
                })
                .collect();
            let mut read = State::default();
            read.read(&pica::packed(&writes).unwrap()).unwrap();
            let trace = Trace::follow(State::default(), &writes).unwrap();
            assert!(trace.after == read);
        }
    }
}
