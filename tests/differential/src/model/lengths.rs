//! The length of a list, which is tested before any of its commands.

use super::faults::*;
use super::{refuse, Refusal};

const LONGEST_LIST: usize = 65_536;

/// Sixteen bytes.
const WORDS: usize = 4;

/// 1, then 15.
pub fn list_length<const F: u32>(list: &[u32]) -> Result<(), Refusal> {
    if F == ORDER_15_1 {
        by_sixteen_bytes::<F>(list)?;
    }
    not_too_long::<F>(list)?;
    match F {
        EVEN_LENGTHS | ORDER_15_LAST => Ok(()),
        _ => by_sixteen_bytes::<F>(list),
    }
}

pub fn not_too_long<const F: u32>(list: &[u32]) -> Result<(), Refusal> {
    let longest = match F {
        LIST_65535 => LONGEST_LIST - 1,
        LIST_65537 => LONGEST_LIST + 1,
        _ => LONGEST_LIST,
    };
    if list.len() > longest {
        return refuse(1, 0);
    }
    Ok(())
}

pub fn by_sixteen_bytes<const F: u32>(list: &[u32]) -> Result<(), Refusal> {
    let words = if F == LENGTHS_BY_16 { 16 } else { WORDS };
    if list.len().is_multiple_of(words) {
        return Ok(());
    }
    let place = if F == PLACE_15 { list.len() } else { 0 };
    refuse(15, place as u32)
}

/// The words of a list when it is filled up to a multiple of 4.
pub fn filled(words: usize) -> usize {
    words.next_multiple_of(WORDS)
}
