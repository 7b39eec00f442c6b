//! Planted faults of lists that arrive in pieces: what goes wrong where a list
//! was cut. Without a fault the parts are joined, and nothing else is done.

use std::borrow::Cow;

use super::commands::{carrying, expand, firsts, header, words_needed, Write};
use super::faults::*;
use super::lengths::{by_sixteen_bytes, list_length, not_too_long};
use super::pieces::Fed;
use super::{ports, Refusal};

impl Fed {
    /// Whether a part that has words before it begins at this word.
    fn cut_at(&self, word: usize) -> bool {
        word > 0 && self.parts.contains(&word)
    }

    fn part(&self, number: usize) -> &[u32] {
        let end = self.parts.get(number + 1).copied();
        &self.joined[self.parts[number]..end.unwrap_or(self.joined.len())]
    }
}

/// The joined list.
pub fn list(fault: u32, fed: &Fed) -> Cow<'_, [u32]> {
    match fault {
        PIECES_FIRST_LOST => Cow::Owned(first_lost(fed)),
        PIECES_PADDING_LOST => Cow::Owned(padding_lost(fed)),
        PIECES_MASK_0_CUT_UNCHECKED => Cow::Owned(mask_0_not_rising(fed)),
        _ => Cow::Borrowed(&fed.joined),
    }
}

/// A first parameter is 0 where the header comes with the next part.
fn first_lost(fed: &Fed) -> Vec<u32> {
    let mut list = fed.joined.clone();
    for first in firsts(&fed.joined) {
        if fed.cut_at(first + 1) {
            list[first] = 0;
        }
    }
    list
}

/// The first padding word that begins a part is taken for a command's word.
fn padding_lost(fed: &Fed) -> Vec<u32> {
    let mut list = fed.joined.clone();
    let padding = firsts(&fed.joined).into_iter().find_map(|first| {
        let extra = header::<NONE>(fed.joined[first + 1]).extra;
        let padding = first + 2 + extra as usize;
        (extra % 2 == 1 && fed.cut_at(padding)).then_some(padding)
    });
    if let Some(padding) = padding.filter(|&padding| padding < list.len()) {
        list.insert(padding, 0);
    }
    list
}

/// Of a command with mask 0 that was cut, only the first id is looked at.
fn mask_0_not_rising(fed: &Fed) -> Vec<u32> {
    let mut list = fed.joined.clone();
    for (first, words) in mask_0_commands(fed) {
        if (first + 2..first + words).any(|word| fed.cut_at(word)) {
            list[first + 1] &= !(1 << 31);
        }
    }
    list
}

/// The commands with mask 0: their first words, and their words without padding.
fn mask_0_commands(fed: &Fed) -> Vec<(usize, usize)> {
    let commands = firsts(&fed.joined).into_iter();
    let headers = commands.map(|first| (first, header::<NONE>(fed.joined[first + 1])));
    let with_mask_0 = headers.filter(|(_, header)| header.mask == 0);
    with_mask_0
        .map(|(first, header)| (first, 2 + header.extra as usize))
        .collect()
}

/// The writes with mask 0 that come after a cut in their command.
pub fn mask_0_after_cut(fed: &Fed) -> u32 {
    let after = |(first, words): (usize, usize)| {
        let cut = (first + 2..first + words).find(|&word| fed.cut_at(word));
        cut.map_or(0, |cut| (first + words - cut) as u32)
    };
    mask_0_commands(fed).into_iter().map(after).sum()
}

/// Refuses a list by its length; some faults look at its parts or its writes.
pub fn limit(fault: u32, fed: &Fed) -> Result<(), Refusal> {
    let list = &fed.joined;
    let mut parts = (0..fed.parts.len()).map(|part| fed.part(part));
    match fault {
        PIECES_LIMIT_ON_PART => {
            parts.try_for_each(not_too_long::<NONE>)?;
            by_sixteen_bytes::<NONE>(list)
        }
        PIECES_LIMIT_UP_TO_FAULT => test_writes(list).and_then(|()| list_length::<NONE>(list)),
        PIECES_PARTS_ALONE => {
            list_length::<NONE>(list)?;
            test_parts(fed)
        }
        PIECES_LIMIT_PLACE => {
            let placed = |refusal| Refusal {
                place: 65_536,
                ..refusal
            };
            not_too_long::<NONE>(list).map_err(placed)?;
            by_sixteen_bytes::<NONE>(list)
        }
        PIECES_ORDER_15_1 => list_length::<ORDER_15_1>(list),
        PIECES_EVEN_LENGTHS | PIECES_ORDER_15_LAST => list_length::<EVEN_LENGTHS>(list),
        PIECES_PLACE_15 => list_length::<PLACE_15>(list),
        PIECES_15_OF_PARTS => {
            list_length::<NONE>(list)?;
            parts.try_for_each(by_sixteen_bytes::<NONE>)
        }
        _ => list_length::<NONE>(list),
    }
}

/// Refuses the first write at fault, and no missing words.
pub fn test_writes(list: &[u32]) -> Result<(), Refusal> {
    match expand::<NONE>(list, &mut Vec::new()) {
        Err(refusal) if refusal.number > 2 => Err(refusal),
        _ => Ok(()),
    }
}

/// Each part as a list of its own.
fn test_parts(fed: &Fed) -> Result<(), Refusal> {
    for (number, start) in fed.parts.iter().enumerate() {
        expand::<NONE>(fed.part(number), &mut Vec::new()).map_err(|refusal| Refusal {
            place: refusal.place + *start as u32,
            ..refusal
        })?;
    }
    Ok(())
}

/// A command's refusal, with its place.
pub fn placed(fault: u32, fed: &Fed, refusal: Refusal) -> Refusal {
    if fault != PIECES_PLACE_IN_PART {
        return refusal;
    }
    let before = |start: &&usize| **start <= refusal.place as usize;
    let start = fed.parts.iter().rev().find(before).copied().unwrap_or(0);
    Refusal {
        place: refusal.place - start as u32,
        ..refusal
    }
}

/// Whether a part that comes next is not looked at.
pub fn left_out(fault: u32, fed: &Fed) -> bool {
    match fault {
        PIECES_EMPTY_ENDS => (0..fed.parts.len()).any(|part| fed.part(part).is_empty()),
        PIECES_COUNT_STOPS => test_writes(&fed.joined).is_err(),
        _ => false,
    }
}

/// For each write, in order: the parameters of its command before it, as far as
/// they came with its part, and whether some came with an earlier one.
pub fn since_cut(fed: &Fed) -> Vec<(u32, bool)> {
    let mut since = Vec::new();
    for (first, header) in carrying(&fed.joined) {
        let mut before = (0, false);
        for parameter in 0..=header.extra {
            let word = first + (parameter + 1) as usize;
            if parameter > 0 && fed.cut_at(word) {
                before = (0, true);
            }
            since.push(before);
            before.0 += 1;
        }
    }
    since
}

/// Ids of a consecutive command begin again with each part.
pub fn rise_anew(fed: &Fed, writes: &mut [Write]) {
    let mut first = 0;
    for (write, (before, cut)) in writes.iter_mut().zip(since_cut(fed)) {
        match (before, cut) {
            (0, false) => first = write.id,
            (_, true) if write.id > first => write.id = first + before,
            _ => {}
        }
    }
}

/// A run of port data ends with its part.
pub fn port_run_ends(fed: &Fed, writes: &mut Vec<Write>) {
    let mut since = since_cut(fed).into_iter();
    writes.retain(|write| {
        let cut = since.next().is_some_and(|(_, cut)| cut);
        !(cut && ports::is_data::<NONE>(write.id))
    });
}

/// The writes of the commands that end in the last part.
pub fn writes_of_last_part(fed: &Fed) -> u32 {
    let last = fed.parts.last().copied().unwrap_or(0);
    let commands = carrying(&fed.joined).into_iter();
    let extras = commands.map(|(first, header)| (first, header.extra));
    let ends_there = |(first, extra): &(usize, u32)| first + words_needed::<NONE>(*extra) > last;
    extras.filter(ends_there).map(|(_, extra)| extra + 1).sum()
}
