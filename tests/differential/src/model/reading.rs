//! The calls that change a state: reading a list, and one write alone.

use super::commands::{allowed, expand, Write};
use super::faults::*;
use super::lengths::{by_sixteen_bytes, list_length, not_too_long};
use super::{given_back, held, misjudged, ports, refuse, state_lengths, Refusal};

/// Applies one allowed write. Gives whether it made a difference: whether the
/// cell, entry or index that it touches differs afterwards.
pub fn apply<const F: u32>(
    cells: &mut [u32],
    fog: &mut [u32],
    light: &mut [u32],
    write: Write,
) -> bool {
    if ports::is_data::<F>(write.id) {
        if F == DATA_CELL {
            cells[write.id as usize] = write.value;
        }
        if F == PORT_MASK_0_ACCEPTED && write.mask == 0 {
            return false;
        }
    }
    if ports::is_fog_data::<F>(write.id) {
        ports::write_fog::<F>(cells, fog, write.value)
    } else if ports::is_light_data::<F>(write.id) {
        ports::write_light::<F>(cells, light, write.value)
    } else {
        held::write_held::<F>(cells, write)
    }
}

/// Applies writes in their order. Gives how many of them made a difference,
/// each judged on the state left by those before it.
pub fn apply_all<const F: u32>(
    cells: &mut [u32],
    fog: &mut [u32],
    light: &mut [u32],
    writes: &[Write],
) -> u32 {
    let mut made = 0;
    for write in writes {
        made += u32::from(apply::<F>(cells, fog, light, *write));
    }
    made
}

/// Answers the writes of the list's expansion, and gives how many of them made a
/// difference.
pub fn read<const F: u32>(
    cells: &mut [u32],
    fog: &mut [u32],
    light: &mut [u32],
    list: &[u32],
    differences: &mut [u32; 1],
) -> u64 {
    let mut writes = Vec::new();
    let mut result = read_writes::<F>(cells, fog, light, list, &mut writes);
    let wrong = misjudged::count_wrongly::<F>([cells, fog, light], list, &writes);
    let mut made = 0;
    // Only a list that is read to its end changes the state.
    if result.is_ok() || F == APPLIES_BEFORE_REFUSAL {
        made = apply_all::<F>(cells, fog, light, &writes);
    }
    made = wrong.unwrap_or(made);
    if F == DIFFERENCES_SWAPPED && result.is_ok() {
        result = Ok(std::mem::replace(&mut made, writes.len() as u32));
    }
    // A refused list gives neither number.
    let given = match F {
        DIFFERENCES_NONE_KEPT => result.is_ok() && made > 0,
        DIFFERENCES_REFUSED => result.is_ok() || !writes.is_empty(),
        DIFFERENCES_REFUSED_0 => true,
        _ => result.is_ok(),
    };
    if given {
        let before = if F == DIFFERENCES_ADDED {
            differences[0]
        } else {
            0
        };
        differences[0] = before.wrapping_add(made);
    }
    given_back(result)
}

fn read_writes<const F: u32>(
    cells: &[u32],
    fog: &[u32],
    light: &[u32],
    list: &[u32],
    writes: &mut Vec<Write>,
) -> Result<u32, Refusal> {
    match F {
        ORDER_1_6 => not_too_long::<F>(list)?,
        ORDER_15_6 => by_sixteen_bytes::<F>(list)?,
        _ => {}
    }
    state_lengths(cells, fog, light)?;
    list_length::<F>(list)?;
    let commands = expand::<F>(list, writes)?;
    if F == ORDER_15_LAST {
        by_sixteen_bytes::<F>(list)?;
    }
    Ok(match F {
        ANSWER_COMMANDS => commands,
        _ => writes.len() as u32,
    })
}

/// Answers 1 where the write made a difference, else 0.
pub fn write<const F: u32>(
    cells: &mut [u32],
    fog: &mut [u32],
    light: &mut [u32],
    id: u32,
    mask: u32,
    value: u32,
) -> u64 {
    let id = if F == ALONE_ID_16_BITS {
        id & 0xFFFF
    } else {
        id
    };
    let mask = if F == ALONE_MASK_4_BITS {
        mask & 15
    } else {
        mask
    };
    let tested = state_lengths(cells, fog, light).and_then(|()| test_alone::<F>(id, mask));
    let made = tested.map(|()| apply::<F>(cells, fog, light, Write { id, mask, value }));
    given_back(made.map(|made| u32::from(made && F != ALONE_NO_DIFFERENCE)))
}

fn test_alone<const F: u32>(id: u32, mask: u32) -> Result<(), Refusal> {
    if mask > 15 && !(F == ALONE_ORDER_3_9 && id > 0x2FF) {
        return refuse(9, 0);
    }
    match allowed::<F>(id, mask) {
        Err(number) => refuse(number, 0),
        Ok(()) => Ok(()),
    }
}
