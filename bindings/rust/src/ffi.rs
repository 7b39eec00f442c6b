//! The nine C functions, and the only `unsafe` code of the crate.
//!
//! The C functions ask of their caller that each pointer is aligned, that its length is true, and that a buffer that is written
//! to overlaps no other. Below, every buffer is a Rust reference, which is aligned and has its true length. A buffer that is
//! written to is a `&mut`, which nothing overlaps; what overlaps among shared references is only read. The functions keep no
//! pointer after they return.

#![allow(unsafe_code)]

use crate::fragment::{GIVEN_LENGTH, STORED_LENGTH};
use crate::pieces::READER_LENGTH;
use crate::{Counts, Refusal, CELLS_LENGTH, FIELDS_LENGTH, FOG_LENGTH, LIGHT_LENGTH};

mod c {
    extern "C" {
        pub fn pica_read(
            cells: *mut u32,
            cells_length: usize,
            fog: *mut u32,
            fog_length: usize,
            light: *mut u32,
            light_length: usize,
            list: *const u32,
            list_length: usize,
            differences: *mut u32,
        ) -> u64;
        pub fn pica_open(
            cells: *const u32,
            cells_length: usize,
            fog: *const u32,
            fog_length: usize,
            light: *const u32,
            light_length: usize,
            spare_cells: *mut u32,
            spare_cells_length: usize,
            spare_fog: *mut u32,
            spare_fog_length: usize,
            spare_light: *mut u32,
            spare_light_length: usize,
            reader: *mut u32,
        ) -> u64;
        pub fn pica_feed(
            spare_cells: *mut u32,
            spare_cells_length: usize,
            spare_fog: *mut u32,
            spare_fog_length: usize,
            spare_light: *mut u32,
            spare_light_length: usize,
            reader: *mut u32,
            part: *const u32,
            part_length: usize,
        ) -> u64;
        pub fn pica_close(
            cells: *mut u32,
            cells_length: usize,
            fog: *mut u32,
            fog_length: usize,
            light: *mut u32,
            light_length: usize,
            spare_cells: *mut u32,
            spare_cells_length: usize,
            spare_fog: *mut u32,
            spare_fog_length: usize,
            spare_light: *mut u32,
            spare_light_length: usize,
            reader: *mut u32,
            differences: *mut u32,
        ) -> u64;
        pub fn pica_write(
            cells: *mut u32,
            cells_length: usize,
            fog: *mut u32,
            fog_length: usize,
            light: *mut u32,
            light_length: usize,
            id: u32,
            mask: u32,
            value: u32,
        ) -> u64;
        pub fn pica_writes(
            list: *const u32,
            list_length: usize,
            ids: *mut u32,
            ids_length: usize,
            masks: *mut u32,
            masks_length: usize,
            values: *mut u32,
            values_length: usize,
        ) -> u64;
        pub fn pica_pack(
            ids: *const u32,
            ids_length: usize,
            masks: *const u32,
            masks_length: usize,
            values: *const u32,
            values_length: usize,
            space: *mut u32,
            space_length: usize,
        ) -> u64;
        pub fn pica_decode(
            cells: *const u32,
            cells_length: usize,
            fog: *const u32,
            fog_length: usize,
            light: *const u32,
            light_length: usize,
            fields: *mut u32,
        ) -> u64;
        pub fn pica_fragment(
            cells: *const u32,
            cells_length: usize,
            fog: *const u32,
            fog_length: usize,
            light: *const u32,
            light_length: usize,
            given: *const u32,
            stored: *mut u32,
        ) -> u64;
    }
}

/// The high half of an answer is the refusal's number, 0 for none; the low half the answer or the place.
fn apart(answer: u64) -> Result<u32, Refusal> {
    let (number, low) = ((answer >> 32) as u32, answer as u32);
    if number == 0 {
        Ok(low)
    } else {
        Err(Refusal { number, place: low })
    }
}

pub fn read(
    cells: &mut [u32; CELLS_LENGTH],
    fog: &mut [u32; FOG_LENGTH],
    light: &mut [u32; LIGHT_LENGTH],
    list: &[u32],
) -> Result<Counts, Refusal> {
    let mut differences = [0];
    // SAFETY: three distinct `&mut` arrays and a shared slice, each passed with its own length; `differences` is exactly the one word
    // that is written.
    let writes = apart(unsafe {
        c::pica_read(
            cells.as_mut_ptr(),
            cells.len(),
            fog.as_mut_ptr(),
            fog.len(),
            light.as_mut_ptr(),
            light.len(),
            list.as_ptr(),
            list.len(),
            differences.as_mut_ptr(),
        )
    })?;
    Ok(Counts::new(writes, differences))
}

pub fn open(
    cells: &[u32; CELLS_LENGTH],
    fog: &[u32; FOG_LENGTH],
    light: &[u32; LIGHT_LENGTH],
    spare_cells: &mut [u32; CELLS_LENGTH],
    spare_fog: &mut [u32; FOG_LENGTH],
    spare_light: &mut [u32; LIGHT_LENGTH],
    reader: &mut [u32; READER_LENGTH],
) -> Result<u32, Refusal> {
    // SAFETY: three shared arrays that are only read, and three distinct `&mut` arrays, each passed with its own length; `reader`
    // is a `&mut` array of exactly the words that are written.
    apart(unsafe {
        c::pica_open(
            cells.as_ptr(),
            cells.len(),
            fog.as_ptr(),
            fog.len(),
            light.as_ptr(),
            light.len(),
            spare_cells.as_mut_ptr(),
            spare_cells.len(),
            spare_fog.as_mut_ptr(),
            spare_fog.len(),
            spare_light.as_mut_ptr(),
            spare_light.len(),
            reader.as_mut_ptr(),
        )
    })
}

pub fn feed(
    spare_cells: &mut [u32; CELLS_LENGTH],
    spare_fog: &mut [u32; FOG_LENGTH],
    spare_light: &mut [u32; LIGHT_LENGTH],
    reader: &mut [u32; READER_LENGTH],
    part: &[u32],
) -> Result<u32, Refusal> {
    // SAFETY: three distinct `&mut` arrays and a shared slice, each passed with its own length; `reader` is a `&mut` array of
    // exactly the words that are read and written.
    apart(unsafe {
        c::pica_feed(
            spare_cells.as_mut_ptr(),
            spare_cells.len(),
            spare_fog.as_mut_ptr(),
            spare_fog.len(),
            spare_light.as_mut_ptr(),
            spare_light.len(),
            reader.as_mut_ptr(),
            part.as_ptr(),
            part.len(),
        )
    })
}

pub fn close(
    cells: &mut [u32; CELLS_LENGTH],
    fog: &mut [u32; FOG_LENGTH],
    light: &mut [u32; LIGHT_LENGTH],
    spare_cells: &mut [u32; CELLS_LENGTH],
    spare_fog: &mut [u32; FOG_LENGTH],
    spare_light: &mut [u32; LIGHT_LENGTH],
    reader: &mut [u32; READER_LENGTH],
) -> Result<Counts, Refusal> {
    let mut differences = [0];
    // SAFETY: six distinct `&mut` arrays, each passed with its own length; `reader` is a `&mut` array of exactly the words that are
    // read and written, and `differences` exactly the one word that is written.
    let writes = apart(unsafe {
        c::pica_close(
            cells.as_mut_ptr(),
            cells.len(),
            fog.as_mut_ptr(),
            fog.len(),
            light.as_mut_ptr(),
            light.len(),
            spare_cells.as_mut_ptr(),
            spare_cells.len(),
            spare_fog.as_mut_ptr(),
            spare_fog.len(),
            spare_light.as_mut_ptr(),
            spare_light.len(),
            reader.as_mut_ptr(),
            differences.as_mut_ptr(),
        )
    })?;
    Ok(Counts::new(writes, differences))
}

pub fn write(
    cells: &mut [u32; CELLS_LENGTH],
    fog: &mut [u32; FOG_LENGTH],
    light: &mut [u32; LIGHT_LENGTH],
    id: u32,
    mask: u32,
    value: u32,
) -> Result<u32, Refusal> {
    // SAFETY: three distinct `&mut` arrays, each passed with its own length; any id, mask and value is allowed.
    apart(unsafe {
        c::pica_write(
            cells.as_mut_ptr(),
            cells.len(),
            fog.as_mut_ptr(),
            fog.len(),
            light.as_mut_ptr(),
            light.len(),
            id,
            mask,
            value,
        )
    })
}

pub fn writes(
    list: &[u32],
    ids: &mut [u32],
    masks: &mut [u32],
    values: &mut [u32],
) -> Result<u32, Refusal> {
    // SAFETY: a shared slice that is only read, and three `&mut` slices, which overlap neither it nor each other, each passed with
    // its own length.
    apart(unsafe {
        c::pica_writes(
            list.as_ptr(),
            list.len(),
            ids.as_mut_ptr(),
            ids.len(),
            masks.as_mut_ptr(),
            masks.len(),
            values.as_mut_ptr(),
            values.len(),
        )
    })
}

pub fn pack(ids: &[u32], masks: &[u32], values: &[u32], space: &mut [u32]) -> Result<u32, Refusal> {
    // SAFETY: three shared slices that are only read, and a `&mut` slice that none of them overlaps, each passed with its own
    // length.
    apart(unsafe {
        c::pica_pack(
            ids.as_ptr(),
            ids.len(),
            masks.as_ptr(),
            masks.len(),
            values.as_ptr(),
            values.len(),
            space.as_mut_ptr(),
            space.len(),
        )
    })
}

pub fn decode(
    cells: &[u32; CELLS_LENGTH],
    fog: &[u32; FOG_LENGTH],
    light: &[u32; LIGHT_LENGTH],
    fields: &mut [u32; FIELDS_LENGTH],
) -> Result<u32, Refusal> {
    // SAFETY: three shared arrays that are only read, with their own lengths; `fields` is a `&mut` array of exactly the words
    // that are written.
    apart(unsafe {
        c::pica_decode(
            cells.as_ptr(),
            cells.len(),
            fog.as_ptr(),
            fog.len(),
            light.as_ptr(),
            light.len(),
            fields.as_mut_ptr(),
        )
    })
}

pub fn fragment(
    cells: &[u32; CELLS_LENGTH],
    fog: &[u32; FOG_LENGTH],
    light: &[u32; LIGHT_LENGTH],
    given: &[u32; GIVEN_LENGTH],
    stored: &mut [u32; STORED_LENGTH],
) -> Result<u32, Refusal> {
    // SAFETY: four shared arrays that are only read; `given` and the `&mut` array `stored` have exactly the words that are read
    // and written.
    apart(unsafe {
        c::pica_fragment(
            cells.as_ptr(),
            cells.len(),
            fog.as_ptr(),
            fog.len(),
            light.as_ptr(),
            light.len(),
            given.as_ptr(),
            stored.as_mut_ptr(),
        )
    })
}
