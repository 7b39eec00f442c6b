//! The writes of a list, put into three buffers.

use super::commands::{carrying, expand, firsts, header, words_needed, Header, Write};
use super::faults::*;
use super::lengths::{by_sixteen_bytes, list_length, not_too_long};
use super::misjudged::of_mask_0;
use super::{given_back, refuse, Refusal};

/// Where the writes go.
struct Places<'a> {
    ids: &'a mut [u32],
    masks: &'a mut [u32],
    values: &'a mut [u32],
}

impl Places<'_> {
    fn room(&self) -> usize {
        self.ids.len()
    }

    fn test_lengths<const F: u32>(&self) -> Result<(), Refusal> {
        let values_alike = self.ids.len() == self.values.len() || F == WRITES_VALUES_UNTESTED;
        if self.ids.len() == self.masks.len() && values_alike {
            Ok(())
        } else {
            refuse(7, 0)
        }
    }

    /// Puts the writes from the front, as far as there are places.
    fn put(&mut self, writes: &[Write]) {
        for (place, write) in self.ids.iter_mut().zip(writes) {
            *place = write.id;
        }
        for (place, write) in self.masks.iter_mut().zip(writes) {
            *place = write.mask;
        }
        for (place, write) in self.values.iter_mut().zip(writes) {
            *place = write.value;
        }
    }

    /// Clears up to `count` places from one on: a fault.
    fn clear(&mut self, first: usize, count: usize) {
        for buffer in [&mut *self.ids, &mut *self.masks, &mut *self.values] {
            let past = buffer.iter_mut().skip(first).take(count);
            past.for_each(|place| *place = 0);
        }
    }
}

/// The write of a command's parameter; the header stands between the first and
/// the extra ones.
fn write_of<const F: u32>(words: &[u32], header: &Header, parameter: u32) -> Write {
    let word = match F {
        WRITES_HEADER_AS_VALUE => parameter,
        _ => parameter + parameter.min(1),
    };
    let rise = match F {
        WRITES_FIRST_ID => 0,
        WRITES_RISE_ONE_LATE => parameter.saturating_sub(1),
        _ => parameter,
    };
    Write {
        id: header.id + if header.consecutive { rise } else { 0 },
        mask: header.mask,
        value: words[word as usize],
    }
}

/// The expansion of a list that isn't refused: one write for each parameter of
/// each command, but for those with mask 0.
fn expansion<const F: u32>(list: &[u32]) -> Vec<Write> {
    let mut writes = Vec::new();
    let mut first = 0;
    while first < list.len() {
        let words = &list[first..];
        let mut header = header::<F>(words[1]);
        let needed = words_needed::<F>(header.extra);
        let mut parameters = header.extra + 1;
        if F == WRITES_PADDING_PUT {
            parameters = words_needed::<F>(header.extra) as u32 - 1;
        }
        if F == WRITES_MASK_OF_NEXT && needed < words.len() {
            header.mask = words[needed + 1] >> 16 & 15;
        }
        for parameter in 0..parameters {
            writes.push(write_of::<F>(words, &header, parameter));
        }
        first += needed;
    }
    writes.retain(|write| write.mask != 0 || F == WRITES_MASK_0_LISTED);
    writes
}

/// How many writes the expansion of a list has, if it isn't refused.
pub fn count_writes(list: &[u32]) -> Option<usize> {
    let mut judged = Vec::new();
    list_length::<NONE>(list).ok()?;
    expand::<NONE>(list, &mut judged).ok()?;
    Some(judged.len())
}

/// How many commands of a list have mask 0, and how many there are.
pub fn mask_0_commands(list: &[u32]) -> (usize, usize) {
    let commands = firsts(list).len();
    (commands - carrying(list).len(), commands)
}

/// Whether a list would be refused by its commands, whatever its length is.
pub fn commands_refused(list: &[u32]) -> bool {
    expand::<NONE>(list, &mut Vec::new()).is_err()
}

/// The reader's test of the length; a fault in it is planted in the writes alone.
fn test_length<const F: u32>(list: &[u32]) -> Result<(), Refusal> {
    match F {
        WRITES_ORDER_15_1 => list_length::<ORDER_15_1>(list),
        WRITES_EVEN_LENGTHS => list_length::<EVEN_LENGTHS>(list),
        WRITES_ORDER_15_LAST | WRITES_ORDER_22_15 => not_too_long::<F>(list),
        WRITES_PLACE_15 => list_length::<PLACE_15>(list),
        _ => list_length::<F>(list),
    }
}

/// The refusals of the list, in the reader's order.
fn judge<const F: u32>(list: &[u32], places: &mut Places) -> Result<u32, Refusal> {
    test_length::<F>(list)?;
    let mut judged = Vec::new();
    let result = match F {
        WRITES_MASK_0_UNCHECKED => expand::<MASK_0_UNCHECKED>(list, &mut judged),
        _ => expand::<F>(list, &mut judged),
    };
    if F == WRITES_ORDER_15_LAST && result.is_ok() {
        by_sixteen_bytes::<F>(list)?;
    }
    if F == WRITES_ORDER_22_LIST && judged.len() > places.room() {
        return refuse(22, judged.len() as u32);
    }
    if F == WRITES_BEFORE_REFUSAL && result.is_err() && judged.len() <= places.room() {
        places.put(&judged);
    }
    result
}

fn put_writes<const F: u32>(list: &[u32], places: &mut Places) -> Result<u32, Refusal> {
    match F {
        WRITES_ORDER_1_7 => not_too_long::<F>(list)?,
        WRITES_ORDER_15_7 => by_sixteen_bytes::<F>(list)?,
        _ => {}
    }
    places.test_lengths::<F>()?;
    let commands = judge::<F>(list, places)?;
    let writes = expansion::<F>(list);
    if F == WRITES_AT_MOST_4096 && writes.len() > 4096 {
        return refuse(8, 0);
    }
    let mut needed = writes.len();
    if F == WRITES_MASK_0_ROOM {
        needed += of_mask_0(list) as usize;
    }
    let exact_refused = F == WRITES_ROOM_ONE_OFF && needed == places.room();
    if needed > places.room() || exact_refused {
        if F == WRITES_PARTIAL {
            places.put(&writes);
        }
        return refuse(22, place_of::<F>(places.room(), needed));
    }
    if F == WRITES_ORDER_22_15 {
        by_sixteen_bytes::<F>(list)?;
    }
    places.put(&writes);
    match F {
        WRITES_CLEARED => places.clear(writes.len(), usize::MAX),
        WRITES_NEXT_TOUCHED => places.clear(writes.len(), 1),
        _ => {}
    }
    Ok(match F {
        WRITES_ANSWER_COMMANDS => commands,
        WRITES_MASK_0_ANSWERED => writes.len() as u32 + of_mask_0(list),
        _ => writes.len() as u32,
    })
}

/// The places needed.
fn place_of<const F: u32>(room: usize, writes: usize) -> u32 {
    match F {
        WRITES_PLACE_IS_ROOM => room as u32,
        WRITES_PLACE_ONE_OFF => writes as u32 - 1,
        WRITES_PLACE_IS_LACK => (writes - room) as u32,
        _ => writes as u32,
    }
}

pub fn writes<const F: u32>(
    list: &[u32],
    ids: &mut [u32],
    masks: &mut [u32],
    values: &mut [u32],
) -> u64 {
    let mut places = Places { ids, masks, values };
    given_back(put_writes::<F>(list, &mut places))
}
