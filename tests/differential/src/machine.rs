//! The nine calls, of the library or of a model, behind one form.

use crate::model::{self, faults::NONE, Reader};

/// Three lent buffers: a state's cells, fog entries and light entries, or a
/// run's ids, masks and values.
pub type Lent<'a> = [&'a mut [u32]; 3];

/// Buffers that a call only reads are lent mutably here as well: a library
/// that wrote to them would otherwise break what the compiler takes for
/// granted, and the comparison could miss it.
#[derive(Clone, Copy)]
pub struct Machine {
    pub read: fn(Lent, &mut [u32], &mut [u32; 1]) -> u64,
    pub write: fn(Lent, [u32; 3]) -> u64,
    pub writes: fn(&mut [u32], Lent) -> u64,
    pub pack: fn(Lent, &mut [u32]) -> u64,
    pub decode: fn(Lent, &mut [u32; model::FIELD_COUNT]) -> u64,
    pub fragment: fn(Lent, &mut [u32; 11], &mut [u32; 3]) -> u64,
    pub open: fn(Lent, Lent, Reader) -> u64,
    pub feed: fn(Lent, Reader, &mut [u32]) -> u64,
    pub close: fn(Lent, Lent, Reader, &mut [u32; 1]) -> u64,
}

impl Machine {
    pub fn model<const F: u32>() -> Machine {
        Machine {
            read: |[cells, fog, light], list, differences| {
                model::read::<F>(cells, fog, light, list, differences)
            },
            write: |[cells, fog, light], [id, mask, value]| {
                model::write::<F>(cells, fog, light, id, mask, value)
            },
            writes: |list, [ids, masks, values]| model::writes::<F>(list, ids, masks, values),
            pack: |[ids, masks, values], space| model::pack::<F>(ids, masks, values, space),
            decode: |[cells, fog, light], fields| model::decode::<F>(cells, fog, light, fields),
            fragment: |[cells, fog, light], given, stored| {
                model::fragment::<F>(cells, fog, light, given, stored)
            },
            open: |live, spare, reader| model::open(NONE, live, spare, reader),
            feed: |spare, reader, part| model::feed(NONE, spare, reader, part),
            close: |live, spare, reader, differences| {
                model::close(NONE, live, spare, reader, differences)
            },
        }
    }

    /// The model with a fault in reading a list alone.
    pub fn in_reading<const F: u32>() -> Machine {
        Machine {
            read: |[cells, fog, light], list, differences| {
                model::read::<F>(cells, fog, light, list, differences)
            },
            ..Machine::model::<NONE>()
        }
    }

    /// The model with a fault in lists that arrive in pieces.
    pub fn in_pieces<const F: u32>() -> Machine {
        Machine {
            open: |live, spare, reader| model::open(F, live, spare, reader),
            feed: |spare, reader, part| model::feed(F, spare, reader, part),
            close: |live, spare, reader, differences| {
                model::close(F, live, spare, reader, differences)
            },
            ..Machine::model::<NONE>()
        }
    }
}
