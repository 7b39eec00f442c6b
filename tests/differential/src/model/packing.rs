//! Packing writes into a shortest list of legal length.

use super::commands::{allowed, Write};
use super::faults::*;
use super::lengths::filled;
use super::mispacked;
use super::{given_back, refuse, Refusal};

const MOST_WRITES: usize = 4096;
const MOST_CARRIED: usize = 256;

/// What is given, as it is given.
#[derive(Clone, Copy)]
pub struct Given<'a> {
    pub ids: &'a [u32],
    pub masks: &'a [u32],
    pub values: &'a [u32],
}

impl Given<'_> {
    pub fn writes(&self) -> Vec<Write> {
        let ids_and_masks = self.ids.iter().zip(self.masks);
        let all = ids_and_masks.zip(self.values);
        all.map(|((&id, &mask), &value)| Write { id, mask, value })
            .collect()
    }

    /// The writes that are packed: those with mask 0 are dropped.
    pub fn kept<const F: u32>(&self) -> Vec<Write> {
        let mut kept = self.writes();
        let last = kept.len().saturating_sub(1);
        let mut index = 0..;
        kept.retain(|write| {
            let at_end = index.next() == Some(last);
            let packed = match F {
                PACK_MASK_0_PACKED => true,
                PACK_MASK_0_LAST_PACKED => at_end,
                _ => false,
            };
            write.mask != 0 || packed
        });
        kept
    }
}

/// How one command carries writes that follow one another.
#[derive(Clone, Copy, PartialEq)]
enum Step {
    Equal,
    Rising,
}

/// Whether a command of this step may carry a write right after another.
fn follows<const F: u32>(step: Step, before: Write, write: Write) -> bool {
    let rise = if step == Step::Rising { 1 } else { 0 };
    let one_mask = write.mask == before.mask || F == MASKS_MIXED;
    one_mask && write.id == before.id.wrapping_add(rise)
}

/// The most writes that one command of this step can carry from the first on.
fn run<const F: u32>(writes: &[Write], step: Step) -> usize {
    let most = if F == CARRIES_255 { 255 } else { MOST_CARRIED };
    let goes_on = |pair: &&[Write]| follows::<F>(step, pair[0], pair[1]);
    let more = writes.windows(2).take(most - 1).take_while(goes_on);
    1 + more.count()
}

/// The most writes that one command can carry from the first on.
pub fn longest<const F: u32>(writes: &[Write]) -> usize {
    let equal = run::<F>(writes, Step::Equal);
    equal.max(run::<F>(writes, Step::Rising))
}

/// Words of a command that carries `carried` writes, its padding word among them.
pub fn command_words(carried: usize) -> usize {
    let words = 1 + carried;
    words + words % 2
}

/// For each write the length of the shortest list for the writes from it on, and
/// how many of them the first command of such a list carries, at most.
pub fn shortest<const F: u32>(writes: &[Write]) -> (Vec<usize>, Vec<usize>) {
    let count = writes.len();
    let mut words = vec![0; count + 1];
    let mut carried = vec![0; count];
    for first in (0..count).rev() {
        // Neighbours are equal or rising, never both, so a shorter command
        // carries a part of the longer run.
        words[first] = usize::MAX;
        for tried in 1..=longest::<F>(&writes[first..]) {
            let needed = command_words(tried) + words[first + tried];
            let better = match F {
                TIE_FEWEST => needed < words[first],
                LONGEST_FIRST => true,
                _ => needed <= words[first],
            };
            if better {
                words[first] = needed;
                carried[first] = tried;
            }
        }
    }
    (words, carried)
}

/// How many writes each command carries: shortest in all, and among the
/// shortest the most writes in the first command, then in the second. The list
/// is not filled yet; its words come first.
pub fn commands<const F: u32>(writes: &[Write]) -> (usize, Vec<usize>) {
    let (words, carried) = shortest::<F>(writes);
    let mut commands = Vec::new();
    let mut first = 0;
    while first < carried.len() {
        commands.push(carried[first]);
        first += carried[first];
    }
    (words[0], commands)
}

fn header<const F: u32>(writes: &[Write]) -> u32 {
    let rising = match writes {
        [_] => F == LONE_BIT_31,
        _ => writes[1].id != writes[0].id,
    };
    let extra = writes.len() as u32 - 1;
    writes[0].id | writes[0].mask << 16 | extra << 20 | u32::from(rising) << 31
}

fn lay_out<const F: u32>(mut writes: &[Write], commands: &[usize], mut space: &mut [u32]) {
    for &carried in commands {
        let (command, rest) = space.split_at_mut(command_words(carried));
        let (first, extra) = (writes[0], &writes[1..carried]);
        if carried % 2 == 0 && F != PADDING_KEPT {
            command[1 + carried] = 0;
        }
        command[0] = first.value;
        command[1] = header::<F>(&writes[..carried]);
        for (word, write) in command[2..].iter_mut().zip(extra) {
            *word = write.value;
        }
        writes = &writes[carried..];
        space = rest;
    }
}

/// The list as it is written: how long, how its writes are carried, and how long
/// it is before it is filled.
pub struct Plan {
    pub commands: Vec<usize>,
    pub before: usize,
    pub words: usize,
}

fn plan<const F: u32>(given: &Given, kept: &[Write]) -> Plan {
    let (before, commands) = match F {
        PACK_MASK_0_PARTS => mispacked::parted(given),
        PACK_TIE_FILLED => mispacked::most_among_filled(kept),
        _ => commands::<F>(kept),
    };
    Plan {
        commands,
        before,
        words: mispacked::words::<F>(given, before).unwrap_or(filled(before)),
    }
}

/// Writes the list, and the pair after it.
fn write_list<const F: u32>(kept: &[Write], plan: &Plan, space: &mut [u32]) {
    let (list, rest) = space.split_at_mut(plan.before);
    lay_out::<F>(kept, &plan.commands, list);
    if F != PACK_PAIR_KEPT {
        rest[..plan.words - plan.before].fill(0);
    }
    mispacked::misfill::<F>(plan, space);
}

fn test_writes<const F: u32>(given: &Given) -> Result<(), Refusal> {
    if F == MASK_9_FIRST {
        if let Some(index) = given.masks.iter().position(|&mask| mask > 15) {
            return refuse(9, index as u32);
        }
    }
    for (index, (&id, &mask)) in given.ids.iter().zip(given.masks).enumerate() {
        let place = match F {
            PACK_PLACE => 0,
            PACK_PLACE_OF_KEPT => mispacked::kept_before(given, index),
            _ => index as u32,
        };
        if mask > 15 && !(F == PACK_ORDER_3_9 && id > 0x2FF) {
            return refuse(9, place);
        }
        if let Err(number) = allowed::<F>(id, mask) {
            if mask != 0 || F != PACK_MASK_0_UNCHECKED {
                return refuse(number, place);
            }
        }
    }
    Ok(())
}

fn test_lengths<const F: u32>(given: &Given) -> Result<(), Refusal> {
    let Given { ids, masks, values } = *given;
    let most = if F == PACK_4095 {
        MOST_WRITES - 1
    } else {
        MOST_WRITES
    };
    let count = match F {
        PACK_8_OF_KEPT => given.kept::<F>().len(),
        _ => ids.len(),
    };
    if F == ORDER_8_7 && count > most {
        return refuse(8, 0);
    }
    if ids.len() != masks.len() || ids.len() != values.len() {
        return refuse(7, 0);
    }
    // Every write that is given counts, mask 0 too.
    if count > most {
        return refuse(8, 0);
    }
    Ok(())
}

/// The length of the shortest list for writes that are all allowed, filled.
pub fn shortest_list(ids: &[u32], masks: &[u32], values: &[u32]) -> usize {
    let given = Given { ids, masks, values };
    plan::<NONE>(&given, &given.kept::<NONE>()).words
}

fn pack_writes<const F: u32>(given: &Given, space: &mut [u32]) -> Result<u32, Refusal> {
    test_lengths::<F>(given)?;
    let kept = given.kept::<F>();
    if F == ORDER_10_WRITES {
        let words = plan::<F>(given, &kept).words;
        if space.len() < words {
            return refuse(10, words as u32);
        }
    }
    test_writes::<F>(given)?;
    let mut plan = plan::<F>(given, &kept);
    if F == PACK_ROOM_UNFILLED && (plan.before..plan.words).contains(&space.len()) {
        plan.words = plan.before;
    }
    let room = match F {
        ROOM_ONE_OFF => space.len() > plan.words,
        _ => space.len() >= plan.words,
    };
    if !room {
        if F == PARTIAL_LIST && !space.is_empty() {
            space[0] = kept[0].value;
        }
        let place = match F {
            ROOM_PLACE => space.len(),
            PACK_10_UNFILLED => plan.before,
            _ => plan.words,
        };
        return refuse(10, place as u32);
    }
    write_list::<F>(&kept, &plan, space);
    if F == SPACE_CLEARED {
        space[plan.words..].fill(0);
    }
    Ok(plan.words as u32)
}

pub fn pack<const F: u32>(ids: &[u32], masks: &[u32], values: &[u32], space: &mut [u32]) -> u64 {
    given_back(pack_writes::<F>(&Given { ids, masks, values }, space))
}
