//! Planted faults in telling whether writes made a difference. Without a fault
//! a cell is compared with what it was, and a list's writes are counted as they
//! are applied.

use super::commands::{carrying, expand, Write};
use super::faults::*;
use super::ports::is_data;
use super::reading::{apply, apply_all};

/// A cell before and after a write to it.
pub struct Touched {
    pub write: Write,
    /// The bits that the id holds, and those of the mask's bytes.
    pub held: u32,
    pub written: u32,
    pub before: u32,
    pub after: u32,
}

impl Touched {
    /// Whether the cell differs afterwards.
    pub fn differs<const F: u32>(&self) -> bool {
        let changed = self.before ^ self.after;
        let asked = self.before ^ self.write.value;
        let told = match F {
            DIFFERENCE_EQUAL_BITS => self.held & self.written,
            DIFFERENCE_EVERY_BYTE if !self.every_byte(changed) => 0,
            DIFFERENCE_LOWEST_BYTE => changed & lowest_byte(self.held & self.written),
            DIFFERENCE_OTHER_BYTES => asked & self.held,
            DIFFERENCE_UNHELD_BITS if self.held != 0 => asked & self.written,
            DIFFERENCE_UNHELD_ID if self.held == 0 => asked & self.written,
            DIFFERENCE_MASK_0 if self.write.mask == 0 => asked & self.held,
            DIFFERENCE_INDEX if matches!(self.write.id, 0xE6 | 0x1C5) => self.held & self.written,
            _ => changed,
        };
        told != 0
    }

    /// Whether each byte that can change has changed.
    fn every_byte(&self, changed: u32) -> bool {
        let bytes = (0..4).map(|byte| 0xFF << (8 * byte));
        let mut open = bytes.filter(|byte| byte & self.held & self.written != 0);
        open.all(|byte| byte & changed != 0)
    }
}

/// The lowest byte that has any of the bits.
fn lowest_byte(bits: u32) -> u32 {
    0xFFu32
        .checked_shl(bits.trailing_zeros() / 8 * 8)
        .unwrap_or(0)
}

/// Whether what port data touches differs afterwards: its entry, where its table
/// has a name, or its index.
pub fn data_differs<const F: u32>(named: bool, entry: bool, index: bool) -> bool {
    match F {
        DIFFERENCE_ENTRY_ONLY => entry,
        DIFFERENCE_UNNAMED => named,
        _ => entry || index,
    }
}

/// Whether each of the writes makes a difference, on a copy of the state.
pub fn made<const F: u32>(before: [&[u32]; 3], writes: &[Write]) -> Vec<bool> {
    let [mut cells, mut fog, mut light] = before.map(<[u32]>::to_vec);
    let made = |write: &Write| apply::<F>(&mut cells, &mut fog, &mut light, *write);
    writes.iter().map(made).collect()
}

pub fn count(made: &[bool]) -> u32 {
    made.iter().filter(|made| **made).count() as u32
}

/// The differences of a list that a fault counts, where one is planted.
pub fn count_wrongly<const F: u32>(
    before: [&[u32]; 3],
    list: &[u32],
    writes: &[Write],
) -> Option<u32> {
    match F {
        DIFFERENCES_BEFORE_LIST => Some(on_the_state_before(before, writes)),
        DIFFERENCES_AFTER_LIST => Some(by_the_state_after(before, writes)),
        DIFFERENCES_LAST_WRITE => Some(of_last_writes(before, list, writes)),
        DIFFERENCES_COMMANDS => Some(of_commands(before, list, writes)),
        DIFFERENCES_ARE_WRITES => Some(writes.len() as u32),
        DIFFERENCES_DATA_TWICE => Some(with_data_twice(before, writes)),
        DIFFERENCES_DATA_RUN => Some(with_runs_once(before, writes)),
        DIFFERENCES_REFUSED => Some(count(&made::<NONE>(before, writes))),
        DIFFERENCES_MASK_0 => Some(count(&made::<NONE>(before, writes)) + of_mask_0(list)),
        _ => None,
    }
}

/// Each write alone.
pub fn on_the_state_before(before: [&[u32]; 3], writes: &[Write]) -> u32 {
    let alone = writes
        .iter()
        .map(|write| made::<NONE>(before, &[*write])[0]);
    count(&alone.collect::<Vec<_>>())
}

/// The writes to cells that differ in the end.
fn by_the_state_after(before: [&[u32]; 3], writes: &[Write]) -> u32 {
    let [mut cells, mut fog, mut light] = before.map(<[u32]>::to_vec);
    apply_all::<NONE>(&mut cells, &mut fog, &mut light, writes);
    let differs = |write: &Write| {
        let id = write.id as usize;
        is_data::<NONE>(write.id) || cells[id] != before[0][id]
    };
    count(&writes.iter().map(differs).collect::<Vec<_>>())
}

/// The writes with mask 0, which belong to no expansion.
pub fn of_mask_0(list: &[u32]) -> u32 {
    let mut writes = Vec::new();
    // Of a list that is refused, those before its first fault.
    expand::<MASK_0_COUNTED>(list, &mut writes).ok();
    writes.retain(|write| write.mask == 0);
    writes.len() as u32
}

/// The writes of each command that has any in the expansion, as far as there are
/// writes.
fn by_commands<'a>(list: &[u32], writes: &'a [Write]) -> Vec<&'a [Write]> {
    let mut rest = writes;
    let commands = carrying(list).into_iter().map(|(_, header)| {
        let size = header.extra as usize + 1;
        let (command, after) = rest.split_at(size.min(rest.len()));
        rest = after;
        command
    });
    commands.collect()
}

/// Of a command to one register, only its last write.
fn of_last_writes(before: [&[u32]; 3], list: &[u32], writes: &[Write]) -> u32 {
    let last = |command: &'_ [Write]| match command {
        [first, second, ..] if first.id == second.id && !is_data::<NONE>(first.id) => {
            command[command.len() - 1..].to_vec()
        }
        _ => command.to_vec(),
    };
    let commands = by_commands(list, writes).into_iter();
    count(&made::<NONE>(
        before,
        &commands.flat_map(last).collect::<Vec<_>>(),
    ))
}

/// The commands that make a difference.
fn of_commands(before: [&[u32]; 3], list: &[u32], writes: &[Write]) -> u32 {
    let [mut cells, mut fog, mut light] = before.map(<[u32]>::to_vec);
    let made = by_commands(list, writes)
        .into_iter()
        .map(|command| apply_all::<NONE>(&mut cells, &mut fog, &mut light, command) > 0);
    count(&made.collect::<Vec<_>>())
}

/// Port data once for its index, and once more where its entry changes.
fn with_data_twice(before: [&[u32]; 3], writes: &[Write]) -> u32 {
    let data = writes.iter().filter(|write| is_data::<NONE>(write.id));
    data.count() as u32 + count(&made::<DIFFERENCE_ENTRY_ONLY>(before, writes))
}

/// Port data only where the write before it is none.
fn with_runs_once(before: [&[u32]; 3], writes: &[Write]) -> u32 {
    let mut in_run = false;
    let made = made::<NONE>(before, writes).into_iter().zip(writes);
    let once = made.map(|(made, write)| {
        let data = is_data::<NONE>(write.id);
        made && !(std::mem::replace(&mut in_run, data) && data)
    });
    count(&once.collect::<Vec<_>>())
}
