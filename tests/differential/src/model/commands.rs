//! Commands: taking a header apart, and expanding a list into writes.

use super::faults::*;
use super::{bits, ports, refuse, Refusal};

const LAST_ID: u32 = 0x2FF;

pub struct Header {
    pub id: u32,
    pub mask: u32,
    pub extra: u32,
    pub consecutive: bool,
}

#[derive(Clone, Copy, Debug, PartialEq, Eq, Hash)]
pub struct Write {
    pub id: u32,
    pub mask: u32,
    pub value: u32,
}

pub fn header<const F: u32>(word: u32) -> Header {
    Header {
        id: bits(word, 0, if F == ID_12_BITS { 11 } else { 15 }),
        mask: bits(word, 16, 19),
        extra: bits(word, 20, if F == COUNT_7_BITS { 26 } else { 27 }),
        consecutive: bits(word, 31, 31) == 1,
    }
}

pub fn words_needed<const F: u32>(extra: u32) -> usize {
    let words = 2 + extra as usize;
    if F == PADDING_FORGOTTEN {
        words
    } else {
        words + words % 2
    }
}

/// The number of the refusal if a write isn't allowed.
pub fn allowed<const F: u32>(id: u32, mask: u32) -> Result<(), u32> {
    if id > LAST_ID {
        return Err(3);
    }
    if id == 0x23C || (id == 0x23D && F != JUMP_23D_ALLOWED) {
        return Err(if F == JUMP_NUMBER_3 { 3 } else { 4 });
    }
    if F == JUMP_23B && id == 0x23B {
        return Err(4);
    }
    let excused = F == PORT_MASK_IGNORED || (F == PORT_MASK_0_ACCEPTED && mask == 0);
    if ports::is_data::<F>(id) && mask != 0xF && !excused {
        return Err(5);
    }
    Ok(())
}

/// The first words of a list's commands, as far as their headers are there.
pub fn firsts(list: &[u32]) -> Vec<usize> {
    let mut firsts = Vec::new();
    let mut first = 0;
    while first + 1 < list.len() {
        firsts.push(first);
        first += words_needed::<NONE>(header::<NONE>(list[first + 1]).extra);
    }
    firsts
}

/// The commands whose writes belong to the list's expansion, each by its first
/// word and its header, as far as their headers are there: a command with mask 0
/// has none.
pub fn carrying(list: &[u32]) -> Vec<(usize, Header)> {
    let commands = firsts(list).into_iter();
    let headers = commands.map(|first| (first, header::<NONE>(list[first + 1])));
    headers.filter(|(_, header)| header.mask != 0).collect()
}

/// Pushes the expansion of the list: the writes of its commands, up to the first
/// fault.
pub fn expand<const F: u32>(list: &[u32], writes: &mut Vec<Write>) -> Result<u32, Refusal> {
    let mut first = 0;
    let mut commands = 0;
    while first < list.len() {
        let left = &list[first..];
        let place = if F == PLACE_IS_COMMAND_NUMBER {
            commands
        } else {
            first as u32
        };
        if left.len() < 2 {
            return refuse(2, place);
        }
        if F == PAIR_ENDS && left[..2] == [0, 0] {
            break;
        }
        let header = header::<F>(left[1]);
        let needed = words_needed::<F>(header.extra);
        let missing = needed > left.len();
        if missing && F != ORDER_2_LAST {
            return refuse(2, place);
        }
        if F == UNUSED_BITS_REFUSED && bits(left[1], 28, 30) == 7 {
            return refuse(2, place);
        }
        if F == PADDING_REFUSED && header.extra % 2 == 1 && left[needed - 1] != 0 {
            return refuse(2, place);
        }
        expand_command::<F>(left, &header, place, writes)?;
        if missing {
            return refuse(2, place);
        }
        first += needed;
        commands += 1;
    }
    Ok(commands)
}

/// Whether a write of a command is left unchecked: a fault.
fn unchecked<const F: u32>(header: &Header, parameter: u32) -> bool {
    match F {
        MASK_0_UNCHECKED => header.mask == 0,
        MASK_0_FIRST_CHECKED => header.mask == 0 && parameter > 0,
        _ => false,
    }
}

/// Every write is checked; one with mask 0 belongs to no expansion.
fn expand_command<const F: u32>(
    words: &[u32],
    header: &Header,
    place: u32,
    writes: &mut Vec<Write>,
) -> Result<(), Refusal> {
    for parameter in 0..=header.extra {
        // The header stands between the first parameter and the extra ones.
        let word = if parameter == 0 { 0 } else { parameter + 1 };
        let Some(&value) = words.get(word as usize) else {
            break;
        };
        let mut id = header.id;
        if header.consecutive && F != IDS_NOT_RISING {
            id += parameter;
        }
        if F == ID_WRAPS && header.id <= LAST_ID {
            id %= LAST_ID + 1;
        }
        let mask = header.mask;
        match allowed::<F>(id, mask) {
            Err(number) if !unchecked::<F>(header, parameter) => {
                let within = if F == PLACE_IS_WRITE { word } else { 0 };
                return refuse(number, place + within);
            }
            _ => {}
        }
        let mask = match mask {
            0 if F == MASK_0_AS_F => 0xF,
            _ => mask,
        };
        if mask != 0 || F == MASK_0_COUNTED {
            writes.push(Write { id, mask, value });
        }
    }
    Ok(())
}
