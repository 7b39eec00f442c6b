//! A model of the machine, written from its scope document in that document's
//! order: plain rather than fast. Every function takes the planted fault's
//! number as a constant; 0 plants none.

mod combiner;
mod commands;
mod decoded;
#[cfg(test)]
mod examples;
mod expansion;
pub mod faults;
#[cfg(test)]
mod filled_examples;
mod fragment;
mod held;
mod lengths;
mod miscounted;
mod misjoined;
mod misjudged;
mod mispacked;
mod names;
mod packing;
mod pieces;
#[cfg(test)]
mod pieces_examples;
mod ports;
mod reading;
#[cfg(test)]
mod search;

pub use commands::{allowed, firsts, header, Write};
pub use decoded::{decode, FIELD_COUNT};
pub use expansion::{commands_refused, count_writes, mask_0_commands, writes};
pub use fragment::fragment;
pub use held::{held_bits, mask_bits, HELD};
pub use packing::{pack, shortest_list};
pub use pieces::{close, feed, open, take, Fed, Reader, READER};
pub use reading::{apply, read, write};

pub const CELLS: usize = 768;
pub const FOG_ENTRIES: usize = 128;
pub const LIGHT_ENTRIES: usize = 6144;

/// What a call gives back when it doesn't answer.
#[derive(Clone, Copy, Debug, PartialEq, Eq)]
pub struct Refusal {
    pub number: u32,
    pub place: u32,
}

fn refuse<T>(number: u32, place: u32) -> Result<T, Refusal> {
    Err(Refusal { number, place })
}

/// The 64-bit number of a call: refusal number high, answer or place low.
fn given_back(result: Result<u32, Refusal>) -> u64 {
    match result {
        Ok(answer) => u64::from(answer),
        Err(refusal) => u64::from(refusal.number) << 32 | u64::from(refusal.place),
    }
}

fn state_lengths(cells: &[u32], fog: &[u32], light: &[u32]) -> Result<(), Refusal> {
    if cells.len() == CELLS && fog.len() == FOG_ENTRIES && light.len() == LIGHT_ENTRIES {
        Ok(())
    } else {
        refuse(6, 0)
    }
}

/// The bits `low` to `high`, both included, as an unsigned number.
fn bits(word: u32, low: u32, high: u32) -> u32 {
    let width = high - low + 1;
    ((u64::from(word) >> low) & ((1 << width) - 1)) as u32
}
