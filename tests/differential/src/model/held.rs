//! The held registers and the masked write to one of them.

use super::commands::Write;
use super::faults::*;
use super::misjudged::Touched;

const FLOAT: u32 = 0xFF_FFFF;
const ALL: u32 = 0xFFFF_FFFF;
const SOURCE: u32 = 0xFFF_0FFF;
const OPERAND: u32 = 0x77_7FFF;
const COMBINER: u32 = 0xF_000F;
const SCALE: u32 = 0x3_0003;

/// The ids, ascending, each with the bits that it holds.
pub const HELD: [(u32, u32); 66] = [
    (0x40, 3),
    (0x41, FLOAT),
    (0x42, ALL),
    (0x43, FLOAT),
    (0x44, ALL),
    (0x47, 1),
    (0x48, FLOAT),
    (0x49, FLOAT),
    (0x4A, FLOAT),
    (0x4B, FLOAT),
    (0x4D, FLOAT),
    (0x4E, FLOAT),
    (0x65, 3),
    (0x66, 0x3FF_03FF),
    (0x67, 0x3FF_03FF),
    (0x68, 0x3FF_03FF),
    (0x6D, 1),
    (0xC0, SOURCE),
    (0xC1, OPERAND),
    (0xC2, COMBINER),
    (0xC3, ALL),
    (0xC4, SCALE),
    (0xC8, SOURCE),
    (0xC9, OPERAND),
    (0xCA, COMBINER),
    (0xCB, ALL),
    (0xCC, SCALE),
    (0xD0, SOURCE),
    (0xD1, OPERAND),
    (0xD2, COMBINER),
    (0xD3, ALL),
    (0xD4, SCALE),
    (0xD8, SOURCE),
    (0xD9, OPERAND),
    (0xDA, COMBINER),
    (0xDB, ALL),
    (0xDC, SCALE),
    (0xE0, 0x301_FF0F),
    (0xE1, FLOAT),
    (0xE6, 0x7F),
    (0xF0, SOURCE),
    (0xF1, OPERAND),
    (0xF2, COMBINER),
    (0xF3, ALL),
    (0xF4, SCALE),
    (0xF8, SOURCE),
    (0xF9, OPERAND),
    (0xFA, COMBINER),
    (0xFB, ALL),
    (0xFC, SCALE),
    (0xFD, ALL),
    (0x100, 0x300_0103),
    (0x101, 0xFFFF_0707),
    (0x102, 0xF),
    (0x103, ALL),
    (0x104, 0xFF71),
    (0x105, 0xFFFF_FF71),
    (0x106, 0x777),
    (0x107, 0x1F71),
    (0x112, 0xF),
    (0x113, 0xF),
    (0x114, 3),
    (0x115, 3),
    (0x116, 3),
    (0x117, 0x7_0003),
    (0x1C5, 0x1FFF),
];

/// The bits that an id holds; none for an id that isn't in the table.
pub fn held_bits<const F: u32>(id: u32) -> u32 {
    let mut held = 0;
    for (row, bits) in HELD {
        if row == id {
            held = bits;
        }
    }
    match F {
        HELD_E0_NARROW if id == 0xE0 => held & !8,
        HELD_117_WIDE if id == 0x117 => held | 4,
        HELD_1C5_WIDE if id == 0x1C5 => held | 0x2000,
        HELD_OPERAND_NARROW if held == OPERAND => 0x11_1333,
        UNHELD_ID_STORED if held == 0 => ALL,
        _ => held,
    }
}

/// The bits of the bytes whose mask bit is 1.
pub fn mask_bits<const F: u32>(mask: u32) -> u32 {
    let mut bits = 0;
    for byte in 0..4 {
        if mask >> byte & 1 == 1 {
            let place = if F == BYTE_MASK_REVERSED {
                3 - byte
            } else {
                byte
            };
            bits |= 0xFF << (8 * place);
        }
    }
    bits
}

/// Gives whether the cell differs afterwards.
pub fn write_held<const F: u32>(cells: &mut [u32], write: Write) -> bool {
    let written = mask_bits::<F>(write.mask);
    let held = held_bits::<F>(write.id);
    let replaced = written & held;
    let cleared = if F == UNHELD_CLEARED && held != 0 {
        written
    } else {
        replaced
    };
    let cell = &mut cells[write.id as usize];
    let before = *cell;
    *cell = before & !cleared | write.value & replaced;
    let touched = Touched {
        write,
        held,
        written,
        before,
        after: *cell,
    };
    touched.differs::<F>()
}
