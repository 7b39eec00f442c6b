//! Sessions: a reader is opened, fed the parts of a list and closed, perhaps
//! with calls of wrong lengths between, and with words that someone else wrote.

use super::restated::{restate_some, Foreseen};
use super::{cuts, wrong_lengths};
use crate::memory::{Memory, STATE_LENGTHS};
use crate::model::{HELD, READER};
use crate::random::Random;

#[derive(Clone, Copy, Debug, PartialEq, Eq)]
pub enum Call {
    Open,
    /// The number of the part.
    Feed(usize),
    Close,
}

#[derive(Clone, Copy, Debug)]
pub enum Place {
    Live(usize),
    Spare(usize),
    Reader(usize),
}

/// One call of a session, with the words that someone else writes before it.
#[derive(Clone, Debug)]
pub struct Step {
    pub call: Call,
    pub live: [usize; 3],
    pub spare: [usize; 3],
    pub strays: Vec<(Place, u32)>,
    /// What stands where a close puts the differences.
    pub differences: u32,
}

impl Step {
    pub fn new(call: Call) -> Step {
        Step {
            call,
            live: STATE_LENGTHS,
            spare: STATE_LENGTHS,
            strays: Vec::new(),
            differences: 0,
        }
    }
}

/// The calls for one list after another. Mostly only the first one opens: a
/// close leaves the reader fresh.
fn steps(random: &mut Random, parts: &mut Vec<Vec<u32>>, live: &mut Foreseen) -> Vec<Step> {
    let mut steps = Vec::new();
    let mut open = random.chance(15, 16);
    for _ in 0..random.pick(&[1, 1, 1, 2]) {
        if open {
            steps.push(Step::new(Call::Open));
        }
        let mut list = cuts::list(random);
        restate_some(random, &mut list, live);
        for part in cuts::parts(random, &list) {
            parts.push(part);
            steps.push(Step::new(Call::Feed(parts.len() - 1)));
            if random.chance(1, 100) {
                steps.push(Step::new(Call::Open));
            }
        }
        steps.push(Step::new(Call::Close));
        open = random.chance(1, 8);
    }
    steps
}

/// Puts calls with wrong lengths before the same ones with right ones, most
/// often before the opening and the close.
fn add_wrong_lengths(random: &mut Random, steps: &mut Vec<Step>) {
    for _ in 0..random.between(1, 2) {
        let last = steps.len() - 1;
        let any = random.below(steps.len() as u32) as usize;
        let number = random.pick(&[0, any, last]);
        let mut wrong = Step::new(steps[number].call);
        match (wrong.call, random.below(5)) {
            (Call::Feed(_), _) | (_, 0 | 1) => wrong_lengths(random, &mut wrong.spare),
            (_, 2 | 3) => wrong_lengths(random, &mut wrong.live),
            _ => {
                wrong_lengths(random, &mut wrong.live);
                wrong_lengths(random, &mut wrong.spare);
            }
        }
        steps.insert(number, wrong);
    }
}

/// A word for a reader: like one that a reader may hold, or garbage.
fn reader_word(random: &mut Random) -> u32 {
    match random.below(8) {
        0 => 0,
        1 => random.below(8),
        2 => random.below(300),
        3 => random.between(65_534, 65_539),
        4 => random.below(65_537),
        5 => random.pick(&[0xE6, 0x1C5, 0xE8, 0x1CF, 0x23C, 0x2FF, 0x300, 0xFFFF]),
        6 => random.pick(&[0xFFFF_FFFF, 0x8000_0000, 0x7FFF_FFFF]),
        _ => random.word(),
    }
}

/// Words that someone else writes: to the reader, or to held cells of a state.
fn strays(random: &mut Random) -> Vec<(Place, u32)> {
    let which = random.below(8);
    if which < 2 {
        return (0..READER)
            .map(|at| (Place::Reader(at), reader_word(random)))
            .collect();
    }
    (0..random.between(1, 3))
        .map(|_| {
            let cell = random.pick(&HELD).0 as usize;
            match which {
                2 => (Place::Live(cell), random.word()),
                3 => (Place::Spare(cell), random.word()),
                _ => {
                    let at = random.below(READER as u32) as usize;
                    (Place::Reader(at), reader_word(random))
                }
            }
        })
        .collect()
}

/// Garbage in the whole spare state, another for each session.
fn garble(random: &mut Random, spare: &mut [u32]) {
    let word = random.word();
    for (number, place) in spare.iter_mut().enumerate() {
        *place = place.rotate_left(11) ^ word.wrapping_mul(number as u32 * 2 + 1);
    }
}

/// Lays out the reader and the parts; gives the calls and the lengths.
pub fn lend_session(random: &mut Random, memory: &mut Memory) -> (Vec<Step>, Vec<usize>) {
    garble(random, &mut memory.spare);
    let zeros = random.chance(1, 4);
    let reader = [0; READER].map(|_| if zeros { 0 } else { reader_word(random) });
    let mut parts = Vec::new();
    let mut steps = steps(random, &mut parts, &mut Foreseen::of(memory));
    if random.chance(1, 8) {
        let number = random.below(steps.len() as u32) as usize;
        steps[number].strays = strays(random);
    }
    // At the close of a long list the order of two refusals shows.
    let long = parts.iter().map(Vec::len).sum::<usize>() > 65_000;
    if random.chance(1, if long { 2 } else { 5 }) {
        add_wrong_lengths(random, &mut steps);
    }
    for step in &mut steps {
        step.differences = random.word();
    }
    // Each call has its own word there.
    let differences = [0];
    let mut buffers = vec![&reader[..], &differences];
    buffers.extend(parts.iter().map(Vec::as_slice));
    memory.lend(random, &buffers);
    let lengths = buffers.iter().map(|buffer| buffer.len()).collect();
    (steps, lengths)
}
