//! Planted faults of lists that arrive in pieces: differences counted wrongly.
//! Without a fault they are counted as the joined list is read.

use super::commands::{carrying, expand, Write};
use super::faults::*;
use super::misjoined::since_cut;
use super::misjudged::{count, made, of_mask_0, on_the_state_before};
use super::pieces::{take, Fed, State};
use super::reading::apply_all;

/// The words with which the expansion's writes come, in order: a command's first
/// parameter comes with its header.
fn words_of_writes(fed: &Fed) -> Vec<usize> {
    let commands = carrying(&fed.joined).into_iter();
    let words = commands.map(|(first, header)| first + 1..=first + 1 + header.extra as usize);
    words.flatten().collect()
}

/// The differences among the writes that came with some words.
fn made_within(fed: &Fed, made: &[bool], from: usize, to: usize) -> u32 {
    let words = words_of_writes(fed).into_iter();
    let within = made
        .iter()
        .zip(words)
        .map(|(made, word)| *made && (from..to).contains(&word));
    count(&within.collect::<Vec<_>>())
}

/// The differences, where a cut in a write's command is looked at: whether the
/// write made one, whether it is the first of its part, and whether there was a
/// cut before it.
fn made_by_cuts(fed: &Fed, made: &[bool], judged: fn(bool, bool, bool) -> bool) -> u32 {
    let judged = made
        .iter()
        .zip(since_cut(fed))
        .map(|(made, (before, cut))| judged(*made, before == 0, cut));
    count(&judged.collect::<Vec<_>>())
}

/// The differences of the commands that have come, which another opening drops.
pub fn so_far(fed: &Fed, live: &State) -> u32 {
    let mut writes = Vec::new();
    // Of a list that goes on, the last command may lack words.
    expand::<NONE>(&fed.joined, &mut writes).ok();
    count(&made::<NONE>(
        live.each_ref().map(|buffer| &**buffer),
        &writes,
    ))
}

/// The spare state's words, with the live state's values in what counts.
fn spare_opened(live: &State, spare: &State) -> [Vec<u32>; 3] {
    let mut opened = spare.each_ref().map(|buffer| buffer.to_vec());
    take(
        NONE,
        &mut opened.each_mut().map(|buffer| &mut buffer[..]),
        live,
    );
    opened
}

/// The words that a state has differently after some writes.
fn words_taken(before: [&[u32]; 3], writes: &[Write]) -> u32 {
    let mut after = before.map(<[u32]>::to_vec);
    let [cells, fog, light] = &mut after;
    apply_all::<NONE>(cells, fog, light, writes);
    let pairs = before.iter().zip(&after);
    let differ =
        pairs.map(|(before, after)| before.iter().zip(after).filter(|(a, b)| a != b).count());
    differ.sum::<usize>() as u32
}

/// The differences that a fault counts, where one is planted.
pub fn count_wrongly(
    fault: u32,
    live: &State,
    spare: &State,
    fed: &Fed,
    writes: &[Write],
) -> Option<u32> {
    let before = live.each_ref().map(|buffer| &**buffer);
    let right = || made::<NONE>(before, writes);
    let end = fed.joined.len();
    match fault {
        PIECES_DIFFERENCES_GO_ON | PIECES_DIFFERENCES_REOPENED => {
            Some(fed.counted + count(&right()))
        }
        PIECES_DIFFERENCES_LAST_PART => {
            let last = fed.parts.last().copied().unwrap_or(0);
            Some(made_within(fed, &right(), last, end))
        }
        PIECES_DIFFERENCES_FIRST_PART => {
            let first = fed.parts.get(1).copied().unwrap_or(end);
            Some(made_within(fed, &right(), 0, first))
        }
        PIECES_DIFFERENCES_CUT_LOST => {
            Some(made_by_cuts(fed, &right(), |made, _, cut| made && !cut))
        }
        PIECES_DIFFERENCES_CUT_TOLD => Some(made_by_cuts(fed, &right(), |made, first, cut| {
            made || first && cut
        })),
        PIECES_DIFFERENCES_SPARE => {
            let opened = spare_opened(live, spare);
            let opened = opened.each_ref().map(|buffer| &buffer[..]);
            Some(count(&made::<DIFFERENCE_UNHELD_BITS>(opened, writes)))
        }
        PIECES_DIFFERENCES_LIVE => Some(on_the_state_before(before, writes)),
        PIECES_DIFFERENCES_TAKEN => Some(words_taken(before, writes)),
        PIECES_DIFFERENCES_ARE_WRITES => Some(writes.len() as u32),
        PIECES_DIFFERENCES_REFUSED => Some(count(&right())),
        PIECES_DIFFERENCES_MASK_0 => Some(count(&right()) + of_mask_0(&fed.joined)),
        _ => None,
    }
}
