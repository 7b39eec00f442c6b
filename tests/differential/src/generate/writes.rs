//! Writes to be packed, and the space for their list.

use super::words;
use crate::memory::Memory;
use crate::model::{allowed, faults::NONE, shortest_list};
use crate::random::Random;

const MOST_WRITES: usize = 4096;

#[derive(Default)]
struct Writes {
    ids: Vec<u32>,
    masks: Vec<u32>,
    values: Vec<u32>,
}

impl Writes {
    fn push(&mut self, id: u32, mask: u32, value: u32) {
        self.ids.push(id);
        self.masks.push(mask);
        self.values.push(value);
    }

    fn insert(&mut self, index: usize, id: u32, mask: u32, value: u32) {
        self.ids.insert(index, id);
        self.masks.insert(index, mask);
        self.values.insert(index, value);
    }

    fn truncate(&mut self, count: usize) {
        self.ids.truncate(count);
        self.masks.truncate(count);
        self.values.truncate(count);
    }
}

fn run_length(random: &mut Random) -> u32 {
    match random.below(40) {
        0..=29 => random.between(1, 5),
        30..=37 => random.between(1, 12),
        38 => random.between(253, 259),
        _ => random.between(509, 515),
    }
}

/// Where a run starts: often at or right after the last write, so that a
/// write could belong to either of two runs.
fn run_start(random: &mut Random, writes: &Writes, length: u32) -> (u32, u32) {
    let last = writes.ids.len().checked_sub(1);
    if let (Some(last), true) = (last, random.chance(2, 3)) {
        let mask = if random.chance(7, 8) {
            writes.masks[last]
        } else {
            words::mask(random)
        };
        return (writes.ids[last] + random.below(2), mask);
    }
    if length > 100 {
        return (random.below(0x40), 0xF);
    }
    (words::id(random), words::mask(random))
}

/// Adds writes of equal or rising ids, as far as they are allowed.
fn push_run(random: &mut Random, writes: &mut Writes) {
    let length = run_length(random);
    let (mut id, mut mask) = run_start(random, writes, length);
    if allowed::<NONE>(id, mask) == Err(5) {
        mask = 0xF;
    }
    let step = random.below(2);
    for _ in 0..length {
        if allowed::<NONE>(id, mask).is_err() {
            break;
        }
        writes.push(id, mask, words::value(random));
        id += step;
    }
}

/// An id for a write with mask 0, most often that of a write beside it or one
/// that would go on with it.
fn idle_id(random: &mut Random, writes: &Writes, index: usize) -> u32 {
    let beside = [index.checked_sub(1), Some(index)];
    let beside = beside.into_iter().flatten();
    let beside: Vec<u32> = beside
        .filter_map(|index| writes.ids.get(index))
        .copied()
        .collect();
    loop {
        let id = match random.below(4) {
            0 | 1 if !beside.is_empty() => random.pick(&beside),
            2 if !beside.is_empty() => random.pick(&beside) + 1,
            _ => words::id(random),
        };
        if allowed::<NONE>(id, 0).is_ok() {
            return id;
        }
    }
}

/// Puts writes with mask 0 in a row, before the one at an index.
fn insert_idle(random: &mut Random, writes: &mut Writes, index: usize, count: u32) {
    for _ in 0..count {
        let id = idle_id(random, writes, index);
        writes.insert(index, id, 0, words::value(random));
    }
}

/// Gives some writes mask 0, as far as that is allowed.
fn make_idle(random: &mut Random, writes: &mut Writes, part: u32, whole: u32) {
    for (&id, mask) in writes.ids.iter().zip(&mut writes.masks) {
        if allowed::<NONE>(id, 0).is_ok() && random.chance(part, whole) {
            *mask = 0;
        }
    }
}

/// Writes with mask 0 at any place of a run: first, last, between, many, all.
fn add_idle(random: &mut Random, writes: &mut Writes) {
    let end = writes.ids.len();
    match random.below(10) {
        0 => make_idle(random, writes, 1, 1),
        1 => make_idle(random, writes, 1, 8),
        2 => make_idle(random, writes, 1, 2),
        3 => {
            let count = random.between(1, 3);
            insert_idle(random, writes, 0, count);
        }
        4 => {
            let count = random.between(1, 3);
            insert_idle(random, writes, end, count);
        }
        5 if end < 100 => {
            for index in (0..=end).rev() {
                let count = random.below(3);
                insert_idle(random, writes, index, count);
            }
        }
        _ => {
            for _ in 0..random.between(1, 3) {
                let index = random.below(writes.ids.len() as u32 + 1) as usize;
                let count = random.pick(&[1, 1, 1, 2, 30]);
                insert_idle(random, writes, index, count);
            }
        }
    }
}

/// Makes the write at an index one that isn't allowed.
fn spoil(random: &mut Random, writes: &mut Writes) {
    if writes.ids.is_empty() {
        return;
    }
    let index = random.below(writes.ids.len() as u32) as usize;
    match random.below(7) {
        0 => writes.masks[index] = words::large_mask(random),
        1 => writes.ids[index] = random.pick(&[0x300, 0x301, 0xFFFF, 0x1_0041, 0xFFFF_FFFF]),
        2 => writes.ids[index] = random.pick(&words::JUMPS),
        3 => {
            writes.ids[index] = words::port_data(random);
            writes.masks[index] = random.below(15);
        }
        4 => {
            writes.ids[index] = random.word();
            writes.masks[index] = words::large_mask(random);
        }
        5 => {
            let data = words::port_data(random);
            writes.ids[index] = random.pick(&[0x300, 0xFFFF_FFFF, 0x23C, 0x23D, data]);
            writes.masks[index] = 0;
        }
        _ => {
            writes.ids[index] = words::id(random);
            writes.masks[index] = words::mask(random);
        }
    }
}

fn writes(random: &mut Random) -> Writes {
    let mut writes = Writes::default();
    if random.chance(1, 300) {
        let count = MOST_WRITES + random.pick(&[0, 0, 0, 1, 2, 100]);
        while writes.ids.len() < count {
            push_run(random, &mut writes);
        }
        if random.chance(1, 2) {
            add_idle(random, &mut writes);
        }
        writes.truncate(count);
    } else {
        for _ in 0..random.below(8) {
            push_run(random, &mut writes);
        }
        if random.chance(1, 2) {
            add_idle(random, &mut writes);
        }
    }
    if random.chance(1, 5) {
        for _ in 0..random.between(1, 2) {
            spoil(random, &mut writes);
        }
    }
    let long = writes.ids.len() > MOST_WRITES;
    if random.chance(1, if long { 4 } else { 40 }) {
        differ(random, &mut writes);
    }
    writes
}

/// Makes one or two of the lengths differ.
fn differ(random: &mut Random, writes: &mut Writes) {
    for _ in 0..random.between(1, 2) {
        let part = match random.below(3) {
            0 => &mut writes.ids,
            1 => &mut writes.masks,
            _ => &mut writes.values,
        };
        match random.below(3) {
            0 => part.push(0),
            1 => drop(part.pop()),
            _ => part.clear(),
        }
    }
}

/// The space's length, most often near what is needed.
fn space_length(random: &mut Random, writes: &Writes) -> usize {
    let Writes { ids, masks, values } = writes;
    let alike = ids.len() == masks.len() && ids.len() == values.len();
    let good = |(&id, &mask): (&u32, &u32)| mask <= 15 && allowed::<NONE>(id, mask).is_ok();
    let most = 2 * ids.len() + 2;
    if !alike || ids.len() > MOST_WRITES || !ids.iter().zip(masks).all(good) {
        return random.pick(&[0, most, most / 2]);
    }
    let needed = shortest_list(ids, masks, values);
    match random.below(16) {
        0..=4 => needed,
        5 | 6 => needed + 1,
        7 | 8 => needed.saturating_sub(1),
        9 | 10 => needed.saturating_sub(2),
        11 => random.below(needed as u32 + 1) as usize,
        12 => random.pick(&[0, 1, ids.len()]),
        13 => needed + random.below(64) as usize,
        _ => most,
    }
}

pub fn lend_writes(random: &mut Random, memory: &mut Memory) -> Vec<usize> {
    let writes = writes(random);
    let mut space = vec![0; space_length(random, &writes)];
    random.fill(&mut space);
    let buffers = [&writes.ids, &writes.masks, &writes.values, &space];
    memory.lend(random, &buffers.map(|buffer| buffer.as_slice()));
    buffers.map(|buffer| buffer.len()).to_vec()
}
