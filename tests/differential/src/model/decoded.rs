//! Decoded state: the fields of 000 to 003 for the held ids.

use super::faults::*;
use super::{bits, given_back, names, state_lengths, Refusal};

/// The lowest and the highest bit of each field of a register.
type Ranges = &'static [(u32, u32)];

const FLOAT: Ranges = &[(0, 23)];
const LONG_FLOAT: Ranges = &[(0, 31)];
const FLAG: Ranges = &[(0, 0)];
const CODE_2: Ranges = &[(0, 1)];
const CODE_4: Ranges = &[(0, 3)];
const POSITION: Ranges = &[(0, 9), (16, 25)];
const COLOUR: Ranges = &[(0, 7), (8, 15), (16, 23), (24, 31)];
const FOG_COLOUR: Ranges = &[(0, 7), (8, 15), (16, 23)];
const SOURCE: Ranges = &[(0, 3), (4, 7), (8, 11), (16, 19), (20, 23), (24, 27)];
const OPERAND: Ranges = &[(0, 3), (4, 7), (8, 11), (12, 14), (16, 18), (20, 22)];
const COMBINER: Ranges = &[(0, 3), (16, 19)];
const SCALE: Ranges = &[(0, 1), (16, 17)];
const UPDATE_BUFFER: Ranges = &[
    (0, 2),
    (3, 3),
    (8, 8),
    (9, 9),
    (10, 10),
    (11, 11),
    (12, 12),
    (13, 13),
    (14, 14),
    (15, 15),
    (16, 16),
    (24, 25),
];
const FOG_INDEX: Ranges = &[(0, 6)];
const COLOUR_OPERATION: Ranges = &[(0, 1), (8, 8), (24, 24), (25, 25)];
const BLEND: Ranges = &[(0, 2), (8, 10), (16, 19), (20, 23), (24, 27), (28, 31)];
const ALPHA_TEST: Ranges = &[(0, 0), (4, 6), (8, 15)];
const STENCIL_TEST: Ranges = &[(0, 0), (4, 6), (8, 15), (16, 23), (24, 31)];
const STENCIL_OPERATION: Ranges = &[(0, 2), (4, 6), (8, 10)];
const DEPTH_MASK: Ranges = &[(0, 0), (4, 6), (8, 8), (9, 9), (10, 10), (11, 11), (12, 12)];
const ALLOW_DEPTH: Ranges = &[(0, 0), (1, 1)];
const COLOUR_FORMAT: Ranges = &[(0, 1), (16, 18)];
const LIGHT_INDEX: Ranges = &[(0, 7), (8, 12)];

pub const REGISTERS: [(u32, Ranges); 66] = [
    (0x40, CODE_2),
    (0x41, FLOAT),
    (0x42, LONG_FLOAT),
    (0x43, FLOAT),
    (0x44, LONG_FLOAT),
    (0x47, FLAG),
    (0x48, FLOAT),
    (0x49, FLOAT),
    (0x4A, FLOAT),
    (0x4B, FLOAT),
    (0x4D, FLOAT),
    (0x4E, FLOAT),
    (0x65, CODE_2),
    (0x66, POSITION),
    (0x67, POSITION),
    (0x68, POSITION),
    (0x6D, FLAG),
    (0xC0, SOURCE),
    (0xC1, OPERAND),
    (0xC2, COMBINER),
    (0xC3, COLOUR),
    (0xC4, SCALE),
    (0xC8, SOURCE),
    (0xC9, OPERAND),
    (0xCA, COMBINER),
    (0xCB, COLOUR),
    (0xCC, SCALE),
    (0xD0, SOURCE),
    (0xD1, OPERAND),
    (0xD2, COMBINER),
    (0xD3, COLOUR),
    (0xD4, SCALE),
    (0xD8, SOURCE),
    (0xD9, OPERAND),
    (0xDA, COMBINER),
    (0xDB, COLOUR),
    (0xDC, SCALE),
    (0xE0, UPDATE_BUFFER),
    (0xE1, FOG_COLOUR),
    (0xE6, FOG_INDEX),
    (0xF0, SOURCE),
    (0xF1, OPERAND),
    (0xF2, COMBINER),
    (0xF3, COLOUR),
    (0xF4, SCALE),
    (0xF8, SOURCE),
    (0xF9, OPERAND),
    (0xFA, COMBINER),
    (0xFB, COLOUR),
    (0xFC, SCALE),
    (0xFD, COLOUR),
    (0x100, COLOUR_OPERATION),
    (0x101, BLEND),
    (0x102, CODE_4),
    (0x103, COLOUR),
    (0x104, ALPHA_TEST),
    (0x105, STENCIL_TEST),
    (0x106, STENCIL_OPERATION),
    (0x107, DEPTH_MASK),
    (0x112, CODE_4),
    (0x113, CODE_4),
    (0x114, ALLOW_DEPTH),
    (0x115, ALLOW_DEPTH),
    (0x116, CODE_2),
    (0x117, COLOUR_FORMAT),
    (0x1C5, LIGHT_INDEX),
];

pub const FIELD_COUNT: usize = 204;

fn signed(raw: u32, width: u32) -> u32 {
    let sign = 1 << (width - 1);
    (raw as i32 - if raw >= sign { 2 * sign as i32 } else { 0 }) as u32
}

fn field<const F: u32>(id: u32, cell: u32, low: u32, high: u32) -> u32 {
    let raw = bits(cell, low, high);
    match id {
        0x68 if F != VIEWPORT_UNSIGNED => signed(raw, 10),
        0x66 if F == SCISSOR_SIGNED => signed(raw, 10),
        0x105 if F == REFERENCE_SIGNED && low == 16 => signed(raw, 8),
        0x1C5 if F == UNHELD_READ && low == 8 => bits(cell, 8, 15),
        _ => raw,
    }
}

fn fill<const F: u32>(cells: &[u32], fields: &mut [u32; FIELD_COUNT]) {
    let mut registers = REGISTERS;
    if F == FIELDS_STAGES_TOGETHER {
        registers[37..50].rotate_left(3);
    }
    let mut next = 0;
    for (id, ranges) in registers {
        for &(low, high) in ranges {
            fields[next] = field::<F>(id, cells[id as usize], low, high);
            next += 1;
        }
    }
}

pub fn decode<const F: u32>(
    cells: &[u32],
    fog: &[u32],
    light: &[u32],
    fields: &mut [u32; FIELD_COUNT],
) -> u64 {
    let tested = test::<F>(cells, fog, light);
    let early =
        F == FIELDS_BEFORE_REFUSAL && matches!(tested, Err(refusal) if refusal.number == 13);
    if tested.is_ok() || early {
        fill::<F>(cells, fields);
    }
    given_back(tested)
}

fn test<const F: u32>(cells: &[u32], fog: &[u32], light: &[u32]) -> Result<u32, Refusal> {
    if F == DECODE_LIGHT_LENGTH {
        state_lengths(cells, fog, &[0; super::LIGHT_ENTRIES])?;
    } else {
        state_lengths(cells, fog, light)?;
    }
    names::test::<F>(cells)?;
    Ok(0)
}

#[cfg(test)]
mod tests {
    use super::*;
    use crate::model::HELD;

    /// The two tables were copied from different documents.
    #[test]
    fn fields_are_the_held_bits() {
        for ((id, held), (of, ranges)) in HELD.into_iter().zip(REGISTERS) {
            assert_eq!(id, of);
            let mut union = 0;
            for &(low, high) in ranges {
                union |= bits(!0, low, high) << low;
            }
            assert_eq!(held, union, "{id:X}");
        }
        let count: usize = REGISTERS.iter().map(|(_, ranges)| ranges.len()).sum();
        assert_eq!(count, FIELD_COUNT);
    }
}
