//! One fragment's result.

use super::bits;
use super::combiner::{colour, combiner, Colour};
use super::faults::*;
use super::{given_back, names, refuse, state_lengths, Refusal};

const ALPHA_FAILURE: u32 = 0;
const STENCIL_FAILURE: u32 = 1;
const DEPTH_FAILURE: u32 = 2;
const PASS: u32 = 3;

/// What is stored, before and after.
#[derive(Clone, Copy)]
struct Stored {
    colour: u32,
    stencil: u32,
    depth: u32,
}

fn is_unbuilt<const F: u32>(id: u32, cell: u32) -> bool {
    let flag = |bit| bits(cell, bit, bit) == 1;
    match id {
        0xE0 => bits(cell, 0, 2) != 0,
        0x100 => {
            let nothing = flag(25) && F != BIT_25_BUILT;
            bits(cell, 0, 1) != 0 || flag(8) || flag(24) || nothing
        }
        _ => bits(cell, 0, 1) != 2 || (bits(cell, 16, 18) != 0 && F != FORMAT_BUILT),
    }
}

fn unbuilt<const F: u32>(cells: &[u32]) -> Result<(), Refusal> {
    let mut ids = [0xE0, 0x100, 0x117];
    if F == UNBUILT_PLACE {
        ids.reverse();
    }
    for id in ids {
        if is_unbuilt::<F>(id, cells[id as usize]) {
            return refuse(14, id);
        }
    }
    Ok(())
}

fn depths<const F: u32>(cells: &[u32], incoming: u32, stored: u32) -> Result<(), Refusal> {
    if F == DEPTH_ONLY_TESTED && bits(cells[0x107], 0, 0) == 0 {
        return Ok(());
    }
    let largest = if bits(cells[0x116], 0, 1) == 0 && F != DEPTH_0_LARGEST {
        65_535
    } else {
        16_777_215
    };
    if F == DEPTH_ORDER && stored > largest {
        return refuse(12, 1);
    }
    if incoming > largest {
        return refuse(12, 0);
    }
    if stored > largest {
        return refuse(12, 1);
    }
    Ok(())
}

fn compare<const F: u32>(code: u32, left: u32, right: u32) -> bool {
    match code {
        0 => false,
        1 => true,
        2 => left == right,
        3 => left != right,
        4 => left < right,
        5 if F == COMPARE_SWAPPED => left >= right,
        5 => left <= right,
        6 => left > right,
        _ if F == COMPARE_SWAPPED => left <= right,
        _ => left >= right,
    }
}

fn alpha_passes<const F: u32>(cells: &[u32], alpha: u32) -> bool {
    let cell = cells[0x104];
    let (code, reference) = (bits(cell, 4, 6), bits(cell, 8, 15));
    if bits(cell, 0, 0) == 0 {
        true
    } else if F == ALPHA_SIDES {
        compare::<F>(code, reference, alpha)
    } else {
        compare::<F>(code, alpha, reference)
    }
}

fn stencil_enabled<const F: u32>(cells: &[u32]) -> bool {
    let format = bits(cells[0x116], 0, 1);
    bits(cells[0x105], 0, 0) == 1 && (format == 3 || F == STENCIL_ANY_FORMAT)
}

fn stencil_passes<const F: u32>(cells: &[u32], stored: u32) -> bool {
    if !stencil_enabled::<F>(cells) {
        return true;
    }
    let cell = cells[0x105];
    let (code, mask) = (bits(cell, 4, 6), bits(cell, 24, 31));
    let mut reference = bits(cell, 16, 23) & mask;
    let mut stored = if F == STENCIL_MASK_ONE_SIDE {
        stored
    } else {
        stored & mask
    };
    if F == STENCIL_REFERENCE_SIGNED {
        // Turning the sign bit over orders unsigned numbers as signed ones.
        (reference, stored) = (reference ^ 0x80, stored ^ 0x80);
    }
    if F == STENCIL_SIDES {
        compare::<F>(code, stored, reference)
    } else {
        compare::<F>(code, reference, stored)
    }
}

fn depth_passes<const F: u32>(cells: &[u32], incoming: u32, stored: u32) -> bool {
    let cell = cells[0x107];
    bits(cell, 0, 0) == 0 || compare::<F>(bits(cell, 4, 6), incoming, stored)
}

fn stencil_operation<const F: u32>(code: u32, stored: u32, reference: u32) -> u32 {
    match code {
        0 => stored,
        1 => 0,
        2 => reference,
        3 if F == INCREMENT_WRAPS => (stored + 1) % 256,
        3 => (stored + 1).min(255),
        4 if F == DECREMENT_WRAPS => (stored + 255) % 256,
        4 => stored.saturating_sub(1),
        5 => 255 - stored,
        6 => (stored + 1) % 256,
        _ if F == DECREMENT_7_STOPS => stored.saturating_sub(1),
        _ => (stored + 255) % 256,
    }
}

fn changed_stencil<const F: u32>(cells: &[u32], stored: u32, verdict: u32) -> u32 {
    let allow = bits(cells[0x115], 0, 0) == 1 || F == ALLOW_STENCIL_IGNORED;
    if !stencil_enabled::<F>(cells) || !allow {
        return stored;
    }
    let low = match verdict {
        STENCIL_FAILURE | ALPHA_FAILURE => 0,
        DEPTH_FAILURE if F == DEPTH_FAIL_OPERATION => 0,
        DEPTH_FAILURE => 4,
        _ => 8,
    };
    let mut reference = bits(cells[0x105], 16, 23);
    if F == REPLACE_MASKED {
        reference &= bits(cells[0x105], 24, 31);
    }
    let changed = stencil_operation::<F>(bits(cells[0x106], low, low + 2), stored, reference);
    let mask = if F == BUFFER_MASK_IGNORED {
        0xFF
    } else {
        bits(cells[0x105], 8, 15)
    };
    stored & !mask | changed & mask
}

/// OpenGL's meaning of the names in 003's list.
fn logic_operation<const F: u32>(code: u32, source: u32, stored: u32) -> u32 {
    let code = match code {
        2 if F == LOGIC_SWAPPED => 0xD,
        0xD if F == LOGIC_SWAPPED => 2,
        0xE if F == LOGIC_OR_SWAPPED => 0xF,
        0xF if F == LOGIC_OR_SWAPPED => 0xE,
        _ => code,
    };
    match code {
        0x0 => 0,
        0x1 => source & stored,
        0x2 => source & !stored,
        0x3 => source,
        0x4 => !0,
        0x5 => !source,
        0x6 => stored,
        0x7 => !stored,
        0x8 => !(source & stored),
        0x9 => source | stored,
        0xA => !(source | stored),
        0xB => source ^ stored,
        0xC => !(source ^ stored),
        0xD => !source & stored,
        0xE => source | !stored,
        _ => !source | stored,
    }
}

fn changed_colour<const F: u32>(cells: &[u32], result: Colour, stored: u32) -> u32 {
    let writing = bits(cells[0x113], 0, 3);
    if writing == 0 || (F == WRITING_ONLY_F && writing != 0xF) {
        return stored;
    }
    if F == READING_READ && bits(cells[0x112], 0, 3) == 0 {
        return stored;
    }
    let code = bits(cells[0x102], 0, 3);
    let before = colour(stored);
    let mut after = 0;
    for channel in 0..4 {
        let old = before[channel] as u32;
        let enable = 8 + channel as u32;
        let new = if bits(cells[0x107], enable, enable) == 1 || F == COLOUR_MASK_IGNORED {
            logic_operation::<F>(code, result[channel] as u32, old) & 0xFF
        } else {
            old
        };
        after |= new << (8 * channel);
    }
    after
}

fn changed_depth<const F: u32>(cells: &[u32], incoming: u32, stored: u32) -> u32 {
    let tested = bits(cells[0x107], 0, 0) == 1 || F == DEPTH_UNTESTED;
    let enabled = bits(cells[0x107], 12, 12) == 1;
    let allowed = bits(cells[0x115], 1, 1) == 1 || F == ALLOW_DEPTH_IGNORED;
    if tested && enabled && allowed {
        incoming
    } else {
        stored
    }
}

fn verdict<const F: u32>(cells: &[u32], result: Colour, incoming: u32, stored: Stored) -> u32 {
    if !alpha_passes::<F>(cells, result[3] as u32) {
        ALPHA_FAILURE
    } else if !stencil_passes::<F>(cells, stored.stencil) {
        STENCIL_FAILURE
    } else if !depth_passes::<F>(cells, incoming, stored.depth) {
        DEPTH_FAILURE
    } else {
        PASS
    }
}

fn result<const F: u32>(cells: &[u32], given: &[u32; 11]) -> (u32, Stored) {
    let mut colours = [[0; 4]; 7];
    for (of, word) in colours.iter_mut().zip(given) {
        *of = colour(*word);
    }
    let incoming = given[7];
    let mut stored = Stored {
        colour: given[8],
        stencil: given[9] & 0xFF,
        depth: given[10],
    };
    let combined = combiner::<F>(cells, &colours);
    let verdict = verdict::<F>(cells, combined, incoming, stored);
    if verdict != ALPHA_FAILURE || F == ALPHA_FAILURE_STENCIL {
        stored.stencil = changed_stencil::<F>(cells, stored.stencil, verdict);
    }
    if verdict == PASS {
        stored.colour = changed_colour::<F>(cells, combined, stored.colour);
    }
    if verdict == PASS || (F == DEPTH_WRITTEN_ON_FAILURE && verdict == DEPTH_FAILURE) {
        stored.depth = changed_depth::<F>(cells, incoming, stored.depth);
    }
    if F == STENCIL_HIGH_BITS {
        stored.stencil |= given[9] & !0xFF;
    }
    (verdict, stored)
}

fn test<const F: u32>(
    cells: &[u32],
    fog: &[u32],
    light: &[u32],
    given: &[u32; 11],
) -> Result<(), Refusal> {
    state_lengths(cells, fog, light)?;
    if F == ORDER_14_13 {
        unbuilt::<F>(cells)?;
    }
    names::test::<F>(cells)?;
    if F == ORDER_12_14 {
        depths::<F>(cells, given[7], given[10])?;
    }
    unbuilt::<F>(cells)?;
    depths::<F>(cells, given[7], given[10])
}

pub fn fragment<const F: u32>(
    cells: &[u32],
    fog: &[u32],
    light: &[u32],
    given: &[u32; 11],
    stored: &mut [u32; 3],
) -> u64 {
    given_back(test::<F>(cells, fog, light, given).map(|()| {
        let (verdict, then) = result::<F>(cells, given);
        *stored = [then.colour, then.stencil, then.depth];
        verdict
    }))
}
