//! The library under test, through its C functions.

use crate::machine::{Lent, Machine};
use crate::model::{Reader, FIELD_COUNT};

extern "C" {
    fn pica_read(
        cells: *mut u32,
        cells_length: usize,
        fog: *mut u32,
        fog_length: usize,
        light: *mut u32,
        light_length: usize,
        list: *const u32,
        list_length: usize,
        differences: *mut u32,
    ) -> u64;
    fn pica_write(
        cells: *mut u32,
        cells_length: usize,
        fog: *mut u32,
        fog_length: usize,
        light: *mut u32,
        light_length: usize,
        id: u32,
        mask: u32,
        value: u32,
    ) -> u64;
    fn pica_writes(
        list: *const u32,
        list_length: usize,
        ids: *mut u32,
        ids_length: usize,
        masks: *mut u32,
        masks_length: usize,
        values: *mut u32,
        values_length: usize,
    ) -> u64;
    fn pica_pack(
        ids: *const u32,
        ids_length: usize,
        masks: *const u32,
        masks_length: usize,
        values: *const u32,
        values_length: usize,
        space: *mut u32,
        space_length: usize,
    ) -> u64;
    fn pica_decode(
        cells: *const u32,
        cells_length: usize,
        fog: *const u32,
        fog_length: usize,
        light: *const u32,
        light_length: usize,
        fields: *mut u32,
    ) -> u64;
    fn pica_fragment(
        cells: *const u32,
        cells_length: usize,
        fog: *const u32,
        fog_length: usize,
        light: *const u32,
        light_length: usize,
        given: *const u32,
        stored: *mut u32,
    ) -> u64;
    fn pica_open(
        live_cells: *const u32,
        live_cells_length: usize,
        live_fog: *const u32,
        live_fog_length: usize,
        live_light: *const u32,
        live_light_length: usize,
        spare_cells: *mut u32,
        spare_cells_length: usize,
        spare_fog: *mut u32,
        spare_fog_length: usize,
        spare_light: *mut u32,
        spare_light_length: usize,
        reader: *mut u32,
    ) -> u64;
    fn pica_feed(
        spare_cells: *mut u32,
        spare_cells_length: usize,
        spare_fog: *mut u32,
        spare_fog_length: usize,
        spare_light: *mut u32,
        spare_light_length: usize,
        reader: *mut u32,
        part: *const u32,
        part_length: usize,
    ) -> u64;
    fn pica_close(
        live_cells: *mut u32,
        live_cells_length: usize,
        live_fog: *mut u32,
        live_fog_length: usize,
        live_light: *mut u32,
        live_light_length: usize,
        spare_cells: *mut u32,
        spare_cells_length: usize,
        spare_fog: *mut u32,
        spare_fog_length: usize,
        spare_light: *mut u32,
        spare_light_length: usize,
        reader: *mut u32,
        differences: *mut u32,
    ) -> u64;
}

// SAFETY, for every call below: each pointer and its length come from one
// slice or array that outlives the call, and no two of them overlap.

/// Where a buffer begins; null for an empty one, which the header allows: a
/// library that looks there doesn't come back.
fn start(buffer: &mut [u32]) -> *mut u32 {
    if buffer.is_empty() {
        return std::ptr::null_mut();
    }
    buffer.as_mut_ptr()
}

fn read([cells, fog, light]: Lent, list: &mut [u32], differences: &mut [u32; 1]) -> u64 {
    unsafe {
        pica_read(
            start(cells),
            cells.len(),
            start(fog),
            fog.len(),
            start(light),
            light.len(),
            start(list),
            list.len(),
            differences.as_mut_ptr(),
        )
    }
}

fn write([cells, fog, light]: Lent, [id, mask, value]: [u32; 3]) -> u64 {
    unsafe {
        pica_write(
            start(cells),
            cells.len(),
            start(fog),
            fog.len(),
            start(light),
            light.len(),
            id,
            mask,
            value,
        )
    }
}

fn writes(list: &mut [u32], [ids, masks, values]: Lent) -> u64 {
    unsafe {
        pica_writes(
            start(list),
            list.len(),
            start(ids),
            ids.len(),
            start(masks),
            masks.len(),
            start(values),
            values.len(),
        )
    }
}

fn pack([ids, masks, values]: Lent, space: &mut [u32]) -> u64 {
    unsafe {
        pica_pack(
            start(ids),
            ids.len(),
            start(masks),
            masks.len(),
            start(values),
            values.len(),
            start(space),
            space.len(),
        )
    }
}

fn decode([cells, fog, light]: Lent, fields: &mut [u32; FIELD_COUNT]) -> u64 {
    unsafe {
        pica_decode(
            start(cells),
            cells.len(),
            start(fog),
            fog.len(),
            start(light),
            light.len(),
            fields.as_mut_ptr(),
        )
    }
}

fn fragment([cells, fog, light]: Lent, given: &mut [u32; 11], stored: &mut [u32; 3]) -> u64 {
    unsafe {
        pica_fragment(
            start(cells),
            cells.len(),
            start(fog),
            fog.len(),
            start(light),
            light.len(),
            given.as_mut_ptr(),
            stored.as_mut_ptr(),
        )
    }
}

fn open(live: Lent, spare: Lent, reader: Reader) -> u64 {
    let [cells, fog, light] = live;
    let [spare_cells, spare_fog, spare_light] = spare;
    unsafe {
        pica_open(
            start(cells),
            cells.len(),
            start(fog),
            fog.len(),
            start(light),
            light.len(),
            start(spare_cells),
            spare_cells.len(),
            start(spare_fog),
            spare_fog.len(),
            start(spare_light),
            spare_light.len(),
            reader.words.as_mut_ptr(),
        )
    }
}

fn feed([cells, fog, light]: Lent, reader: Reader, part: &mut [u32]) -> u64 {
    unsafe {
        pica_feed(
            start(cells),
            cells.len(),
            start(fog),
            fog.len(),
            start(light),
            light.len(),
            reader.words.as_mut_ptr(),
            start(part),
            part.len(),
        )
    }
}

fn close(live: Lent, spare: Lent, reader: Reader, differences: &mut [u32; 1]) -> u64 {
    let [cells, fog, light] = live;
    let [spare_cells, spare_fog, spare_light] = spare;
    unsafe {
        pica_close(
            start(cells),
            cells.len(),
            start(fog),
            fog.len(),
            start(light),
            light.len(),
            start(spare_cells),
            spare_cells.len(),
            start(spare_fog),
            spare_fog.len(),
            start(spare_light),
            spare_light.len(),
            reader.words.as_mut_ptr(),
            differences.as_mut_ptr(),
        )
    }
}

pub const LIBRARY: Machine = Machine {
    read,
    write,
    writes,
    pack,
    decode,
    fragment,
    open,
    feed,
    close,
};
