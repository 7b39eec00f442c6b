//! Lists, and the places where they are cut into parts.

use super::lists;
use crate::model::firsts;
use crate::random::Random;

/// A list that is cut into more parts than this is looked at for too long.
const MOST_SINGLE_WORDS: usize = 24;

pub fn list(random: &mut Random) -> Vec<u32> {
    match random.below(512) {
        0 => lists::long_list_with_fault(random),
        1..=31 => lists::cut_after_fault(random),
        32..=63 => lists::port_run(random),
        _ => lists::short_list(random),
    }
}

/// Places in a command: before its header, after it, among its extra
/// parameters, before its last word, which may be padding, and its end.
fn in_command(random: &mut Random, first: usize, end: usize) -> usize {
    match random.below(6) {
        0 | 1 => first + 1,
        2 => first + 2,
        3 => end - 1,
        4 => end,
        _ => first + random.below((end - first) as u32) as usize,
    }
}

fn in_some_commands(random: &mut Random, list: &[u32]) -> Vec<usize> {
    let mut ends = firsts(list);
    let firsts = ends.clone();
    ends.push(list.len());
    (0..random.between(1, 4))
        .filter_map(|_| {
            let command = random.below(firsts.len().max(1) as u32) as usize;
            let first = *firsts.get(command)?;
            Some(in_command(random, first, ends[command + 1]))
        })
        .collect()
}

/// About the largest length, where the list is that long.
fn at_the_limit(random: &mut Random, list: &[u32]) -> Vec<usize> {
    let near = [1, 2, 65_532, 65_534, 65_535, 65_536, 65_537, 65_538];
    let mut cuts: Vec<usize> = (0..random.below(4)).map(|_| random.pick(&near)).collect();
    for _ in 0..random.below(3) {
        cuts.push(random.below(list.len() as u32 + 1) as usize);
    }
    cuts
}

fn anywhere(random: &mut Random, list: &[u32]) -> Vec<usize> {
    (0..random.between(1, 5))
        .map(|_| random.below(list.len() as u32 + 1) as usize)
        .collect()
}

/// Single words, from somewhere on.
fn single_words(random: &mut Random, list: &[u32]) -> Vec<usize> {
    let from = match list.len().checked_sub(MOST_SINGLE_WORDS) {
        None => 0,
        Some(more) => random.below(more as u32 + 1) as usize,
    };
    (from..=list.len()).take(MOST_SINGLE_WORDS).collect()
}

/// Ascending places, of which several may be the same: parts without words.
fn places(random: &mut Random, list: &[u32]) -> Vec<usize> {
    let mut places = match random.below(24) {
        _ if list.len() > 65_000 => at_the_limit(random, list),
        0 => single_words(random, list),
        1..=3 => Vec::new(),
        4..=13 => in_some_commands(random, list),
        _ => anywhere(random, list),
    };
    if random.chance(1, 4) {
        let within = random.below(list.len() as u32 + 1) as usize;
        let place = random.pick(&[0, list.len(), within]);
        places.extend((0..random.between(1, 3)).map(|_| place));
    }
    places.retain(|&place| place <= list.len());
    places.sort_unstable();
    places
}

/// The parts of a list. An empty one may come in no part at all.
pub fn parts(random: &mut Random, list: &[u32]) -> Vec<Vec<u32>> {
    let mut parts = Vec::new();
    let mut start = 0;
    for place in places(random, list) {
        parts.push(list[start..place].to_vec());
        start = place;
    }
    if start < list.len() || random.chance(1, 2) {
        parts.push(list[start..].to_vec());
    }
    // Closed too early: what has come is often of illegal length.
    if random.chance(1, 16) {
        parts.pop();
    }
    parts
}
