//! Planted faults of packing: writes with mask 0, and the pair that fills a list.
//! Without a fault such writes are dropped, and a list whose words are no
//! multiple of 4 gets one pair, parameter 0 and header 0.

use super::commands::Write;
use super::faults::*;
use super::lengths::filled;
use super::packing::{command_words, commands, longest, shortest, Given, Plan};

/// Each stretch between writes with mask 0 is packed for itself.
pub fn parted(given: &Given) -> (usize, Vec<usize>) {
    let writes = given.writes();
    let stretches = writes.split(|write| write.mask == 0);
    let lists = stretches.map(commands::<NONE>);
    lists.fold((0, Vec::new()), |(words, mut all), (more, commands)| {
        all.extend(commands);
        (words + more, all)
    })
}

/// Of all lists that are shortest when they are filled, the one whose first
/// command carries the most writes, then its second.
pub fn most_among_filled(writes: &[Write]) -> (usize, Vec<usize>) {
    let (words, _) = shortest::<NONE>(writes);
    let limit = filled(words[0]);
    let mut used = 0;
    let mut commands = Vec::new();
    let mut first = 0;
    while first < writes.len() {
        let fits = |&tried: &usize| used + command_words(tried) + words[first + tried] <= limit;
        let tried = (1..=longest::<NONE>(&writes[first..])).rev().find(fits);
        let carried = tried.expect("a shortest list fits");
        used += command_words(carried);
        commands.push(carried);
        first += carried;
    }
    (used, commands)
}

/// The words of the list with its filling, where a fault fills it wrongly.
pub fn words<const F: u32>(given: &Given, before: usize) -> Option<usize> {
    let uneven = !before.is_multiple_of(4);
    match F {
        PACK_NO_PAIR => Some(before),
        PACK_ALWAYS_PAIR => Some(before + 2),
        PACK_TWO_PAIRS if uneven => Some(before + 4),
        PACK_LENGTHS_BY_8 => Some(before.next_multiple_of(8)),
        PACK_EMPTY_FILLED if before == 0 && !given.ids.is_empty() => Some(4),
        _ => None,
    }
}

/// What a fault makes of the words that were written.
pub fn misfill<const F: u32>(plan: &Plan, space: &mut [u32]) {
    if plan.before == plan.words {
        return;
    }
    match F {
        PACK_PAIR_MASK => space[plan.before + 1] = 0xF_0000,
        PACK_PAIR_FIRST => space[..plan.words].rotate_right(2),
        _ => {}
    }
}

/// An index without the dropped writes before it.
pub fn kept_before(given: &Given, index: usize) -> u32 {
    let kept = given.masks[..index].iter().filter(|mask| **mask != 0);
    kept.count() as u32
}
