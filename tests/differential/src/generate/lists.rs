//! Lists of commands, good and bad.

use super::commands::{bad_command, good_command, idle_command, Command};
use super::filling::finish;
use super::restated::{restate_some, Foreseen};
use crate::memory::Memory;
use crate::random::Random;

const LONGEST_LIST: usize = 65_536;

fn push_good(random: &mut Random, list: &mut Vec<u32>, most: u32) {
    for _ in 0..random.below(most + 1) {
        good_command(random).push(random, list);
    }
}

fn push_idle(random: &mut Random, list: &mut Vec<u32>, most: u32) {
    for _ in 0..random.below(most + 1) {
        idle_command(random).push(random, list);
    }
}

/// Adds a command and cuts it: most often an even number of its words is left, as
/// in a list of legal length.
fn cut(random: &mut Random, list: &mut Vec<u32>) {
    let start = list.len();
    let mut command = if random.chance(1, 4) {
        bad_command(random)
    } else {
        good_command(random)
    };
    command.extra = command.extra.max(1);
    command.push(random, list);
    let words = (list.len() - start) as u32;
    let left = match random.below(8) {
        0 => random.between(1, words - 1),
        1 => 1,
        2..=4 => words - 2,
        _ => 2 * random.between(1, words / 2 - 1),
    };
    list.truncate(start + left as usize);
}

fn garbage(random: &mut Random) -> Vec<u32> {
    let mut list = vec![0; random.below(40) as usize];
    random.fill(&mut list);
    if random.chance(1, 2) {
        // Headers whose ids and counts are small get further than pure garbage.
        for word in list.iter_mut().skip(1).step_by(2) {
            *word &= 0x803F_02FF;
        }
    }
    list
}

/// A list of about the largest length.
fn long_list(random: &mut Random) -> Vec<u32> {
    let mut list = Vec::with_capacity(LONGEST_LIST + 8);
    if random.chance(1, 3) {
        good_command(random).push(random, &mut list);
    }
    fill(random, &mut list);
    list
}

/// Goes on with good commands up to about the largest length.
fn fill(random: &mut Random, list: &mut Vec<u32>) {
    let about = [-4, -2, -1, 0, 0, 0, 1, 1, 2, 2, 4];
    let words = LONGEST_LIST.saturating_add_signed(random.pick(&about));
    while list.len() + 1 < words {
        let mut command = good_command(random);
        command.consecutive = false;
        let room = (words - list.len()) as u32 & !1;
        command.extra = (room - 2).min(random.between(200, 255));
        command.push(random, list);
    }
    if list.len() < words {
        list.push(random.word());
    }
}

/// A list of about the largest length, perhaps with a fault early, and now and
/// then far longer.
pub fn long_list_with_fault(random: &mut Random) -> Vec<u32> {
    let mut list = Vec::new();
    push_good(random, &mut list, 2);
    if random.chance(1, 2) {
        bad_command(random).push(random, &mut list);
    }
    fill(random, &mut list);
    if random.chance(1, 8) {
        list.extend_from_within(..random.between(1, 65_535) as usize);
    }
    list
}

/// A list whose last command has a write at fault and lacks words.
pub fn cut_after_fault(random: &mut Random) -> Vec<u32> {
    let mut list = Vec::new();
    push_good(random, &mut list, 3);
    let start = list.len();
    let mut command = bad_command(random);
    command.extra = command.extra.max(1);
    command.push(random, &mut list);
    let most = (list.len() - start - 1) as u32;
    let least = (command.allowed_writes() + 2).min(most);
    list.truncate(start + random.between(least, most) as usize);
    finish(random, &mut list);
    list
}

/// A run of data for one of the ports, perhaps after a write to its index.
pub fn port_run(random: &mut Random) -> Vec<u32> {
    let mut list = Vec::new();
    push_good(random, &mut list, 1);
    let (index, data) = random.pick(&[(0xE6, 0xE8), (0x1C5, 0x1C8)]);
    if random.chance(1, 2) {
        let set = Command {
            id: index,
            mask: 0xF,
            extra: 0,
            consecutive: false,
        };
        set.push(random, &mut list);
    }
    let run = Command {
        id: data + random.below(8),
        mask: 0xF,
        extra: random.between(1, 255),
        consecutive: false,
    };
    run.push(random, &mut list);
    push_good(random, &mut list, 1);
    finish(random, &mut list);
    list
}

pub fn list(random: &mut Random) -> Vec<u32> {
    if random.chance(1, 800) {
        return long_list(random);
    }
    short_list(random)
}

pub fn short_list(random: &mut Random) -> Vec<u32> {
    let mut list = Vec::new();
    match random.below(32) {
        0..=19 => {
            push_good(random, &mut list, 5);
            good_command(random).push(random, &mut list);
        }
        20..=26 => {
            push_good(random, &mut list, 3);
            bad_command(random).push(random, &mut list);
            if random.chance(1, 3) {
                push_good(random, &mut list, 2);
            }
        }
        27..=29 => {
            push_good(random, &mut list, 3);
            cut(random, &mut list);
        }
        30 if random.chance(1, 2) => list = garbage(random),
        30 => push_idle(random, &mut list, 4),
        _ => push_good(random, &mut list, 1),
    }
    finish(random, &mut list);
    list
}

/// The list, and the word for the differences with garbage in it.
pub fn lend_list(random: &mut Random, memory: &mut Memory) -> Vec<usize> {
    let mut list = list(random);
    restate_some(random, &mut list, &mut Foreseen::of(memory));
    let differences = [random.word()];
    memory.lend(random, &[&list, &differences]);
    vec![list.len(), 1]
}
