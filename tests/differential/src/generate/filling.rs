//! Commands with mask 0 among those of a list, and its length: most often a
//! multiple of 4, filled by nothing, by the pair 0 0 or by other such commands.

use super::commands::{idle_command, Command};
use crate::model::{faults::NONE, firsts, header};
use crate::random::Random;

/// Where another command can stand in a list: before each one, and at the end
/// where the last one's words are all there.
fn borders(list: &[u32]) -> Vec<usize> {
    let mut borders = firsts(list);
    let end = borders.last().map_or(0, |&first| {
        let extra = header::<NONE>(list[first + 1]).extra as usize;
        first + 2 + extra.next_multiple_of(2)
    });
    if end == list.len() {
        borders.push(end);
    }
    borders
}

/// One of the borders: often the first or the last one.
fn border(random: &mut Random, list: &[u32]) -> usize {
    let borders = borders(list);
    match (random.below(4), &borders[..]) {
        (_, []) => 0,
        (0, [first, ..]) => *first,
        (1, [.., last]) => *last,
        _ => random.pick(&borders),
    }
}

fn insert(random: &mut Random, list: &mut Vec<u32>, words: Vec<u32>) {
    let at = border(random, list);
    list.splice(at..at, words);
}

fn words_of(random: &mut Random, command: Command) -> Vec<u32> {
    let mut words = Vec::new();
    command.push(random, &mut words);
    words
}

/// A filling of two words more than a multiple of 4: the pair, or another command
/// with mask 0.
fn odd_pairs(random: &mut Random) -> Vec<u32> {
    if random.chance(1, 2) {
        return vec![0, 0];
    }
    let mut command = idle_command(random);
    if random.chance(1, 2) {
        command.extra = 0;
    }
    // 0, 3, 4, 7, 8 .. extra parameters.
    command.extra = (command.extra + 1) / 4 * 4 - u32::from(command.extra % 4 == 3);
    words_of(random, command)
}

/// Puts some commands with mask 0 before, between and after the others.
fn scatter(random: &mut Random, list: &mut Vec<u32>) {
    for _ in 0..random.pick(&[1, 1, 2, 3]) {
        let words = match random.below(4) {
            0 => vec![0, 0],
            _ => {
                let mut command = idle_command(random);
                if random.chance(1, 2) {
                    command.extra = command.extra.min(random.below(4));
                }
                words_of(random, command)
            }
        };
        insert(random, list, words);
    }
}

fn make_legal(random: &mut Random, list: &mut Vec<u32>) {
    if list.len() % 2 == 1 {
        if random.chance(1, 2) {
            list.push(random.word());
        } else {
            list.pop();
        }
    }
    if list.len() % 4 == 2 {
        let words = odd_pairs(random);
        insert(random, list, words);
    }
}

/// Two words too many, or some words more or less.
fn make_illegal(random: &mut Random, list: &mut Vec<u32>) {
    make_legal(random, list);
    match random.below(6) {
        0 => list.truncate(list.len().saturating_sub(random.between(1, 3) as usize)),
        1 => (0..random.between(1, 3)).for_each(|_| list.push(random.word())),
        _ => {
            let words = odd_pairs(random);
            insert(random, list, words);
        }
    }
}

/// Gives a list commands with mask 0, or none, and its length.
pub fn finish(random: &mut Random, list: &mut Vec<u32>) {
    if random.chance(1, 3) {
        scatter(random, list);
    }
    match random.below(16) {
        0 => {}
        1 | 2 => make_illegal(random, list),
        _ => make_legal(random, list),
    }
}

#[cfg(test)]
mod tests {
    use super::*;

    #[test]
    fn odd_pairs_are_two_words_beside_a_multiple_of_4() {
        let mut random = Random::new(1, 0);
        for _ in 0..10_000 {
            let words = odd_pairs(&mut random);
            assert_eq!(
                (words.len() % 4, borders(&words)),
                (2, vec![0, words.len()])
            );
        }
    }
}
