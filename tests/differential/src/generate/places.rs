//! A list whose writes are asked for, and the places for them.

use super::lists;
use crate::memory::Memory;
use crate::model::count_writes;
use crate::random::Random;

/// Places for writes, most often near what is needed. A list that is refused
/// has room for more writes than it can have, or for none.
fn room(random: &mut Random, list: &[u32]) -> usize {
    let Some(needed) = count_writes(list) else {
        return random.pick(&[0, 1, 4, list.len(), list.len() + 3]);
    };
    match random.below(16) {
        0..=4 => needed,
        5..=7 => needed + 1,
        8 => needed.saturating_sub(1),
        9 => needed.saturating_sub(2),
        10 => random.below(needed as u32 + 1) as usize,
        11 => 0,
        12 => needed + random.below(64) as usize,
        _ => list.len(),
    }
}

/// The three lengths; one or two of them differ now and then, more often where
/// the list is too long, since the order of these two refusals shows only there.
fn lengths(random: &mut Random, list: &[u32]) -> [usize; 3] {
    let mut lengths = [room(random, list); 3];
    if !random.chance(1, if list.len() > 65_000 { 2 } else { 30 }) {
        return lengths;
    }
    for _ in 0..random.between(1, 2) {
        let which = random.below(3) as usize;
        lengths[which] = match random.below(4) {
            0 => 0,
            1 => lengths[which].saturating_sub(1),
            2 => lengths[which] + 1,
            _ => lengths[which] + random.below(16) as usize,
        };
    }
    lengths
}

/// The list, then ids, masks and values, with garbage in all places.
pub fn lend_list_and_places(random: &mut Random, memory: &mut Memory) -> Vec<usize> {
    let list = lists::list(random);
    let places = lengths(random, &list).map(|length| {
        let mut words = vec![0; length];
        random.fill(&mut words);
        words
    });
    let [ids, masks, values] = &places;
    let buffers = [&list, ids, masks, values];
    memory.lend(random, &buffers.map(|buffer| buffer.as_slice()));
    buffers.map(|buffer| buffer.len()).to_vec()
}
