//! The two table ports: fog and light.

use super::bits;
use super::faults::*;
use super::misjudged::data_differs;

const FOG_INDEX: usize = 0xE6;
const LIGHT_INDEX: usize = 0x1C5;
const ENTRY: u32 = 0xFF_FFFF;

pub fn is_fog_data<const F: u32>(id: u32) -> bool {
    (0xE8..=if F == FOG_LAST_EE { 0xEE } else { 0xEF }).contains(&id)
}

pub fn is_light_data<const F: u32>(id: u32) -> bool {
    (0x1C8..=if F == LIGHT_LAST_1D0 { 0x1D0 } else { 0x1CF }).contains(&id)
}

pub fn is_data<const F: u32>(id: u32) -> bool {
    is_fog_data::<F>(id) || is_light_data::<F>(id)
}

/// Gives whether the entry differs afterwards.
fn set_entry<const F: u32>(entry: &mut u32, value: u32) -> bool {
    let before = *entry;
    let kept = if F == ENTRY_HIGH_BYTE { 0 } else { !ENTRY };
    *entry = before & kept | value & ENTRY;
    *entry != before
}

/// Gives whether the entry or the index differs afterwards.
pub fn write_fog<const F: u32>(cells: &mut [u32], fog: &mut [u32], value: u32) -> bool {
    let cell = cells[FOG_INDEX];
    let index = bits(cell, 0, 6);
    let first = u32::from(F == FOG_INDEX_FIRST);
    let entry = set_entry::<F>(&mut fog[((index + first) % 128) as usize], value);
    let next = match F {
        FOG_INDEX_STOPS if index == 127 => 127,
        FOG_INDEX_8_BITS => (bits(cell, 0, 7) + 1) & 0xFF,
        _ if index == 127 => 0,
        _ => index + 1,
    };
    let kept = match F {
        FOG_INDEX_OTHERS => 0,
        FOG_INDEX_8_BITS => !0xFF,
        _ => !0x7F,
    };
    cells[FOG_INDEX] = cell & kept | next;
    data_differs::<F>(true, entry, cells[FOG_INDEX] != cell)
}

/// 000 names no tables 2, 7 and 18h up.
fn is_named<const F: u32>(table: u32) -> bool {
    match table {
        2 | 7 => F == UNNAMED_WRITTEN,
        _ => table < 0x18,
    }
}

/// Gives whether the entry, where there is one, or the index differs afterwards.
pub fn write_light<const F: u32>(cells: &mut [u32], light: &mut [u32], value: u32) -> bool {
    let cell = cells[LIGHT_INDEX];
    let index = bits(cell, 0, 7);
    let table = bits(cell, 8, if F == LIGHT_TABLE_4_BITS { 11 } else { 12 });
    let named = is_named::<F>(table);
    let mut entry = false;
    if named {
        let place = if F == LIGHT_ENTRY_ORDER {
            index * 24 + table
        } else {
            table * 256 + index
        };
        entry = set_entry::<F>(&mut light[place as usize], value);
    } else if F == UNNAMED_NOT_STEPPED {
        return false;
    }
    let next = if index == 255 { 0 } else { index + 1 };
    cells[LIGHT_INDEX] = match F {
        LIGHT_CARRY => cell & !0x1FFF | cell.wrapping_add(1) & 0x1FFF,
        LIGHT_INDEX_OTHERS => cell & 0x1F00 | next,
        _ => cell & !0xFF | next,
    };
    data_differs::<F>(named, entry, cells[LIGHT_INDEX] != cell)
}
