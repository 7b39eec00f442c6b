//! Packing writes into the shortest list.

use alloc::{vec, vec::Vec};

use crate::{ffi, Refusal};

/// The most writes that a run may have, to be packed.
pub const RUN_LENGTH_MOST: usize = 4_096;

/// One register write: the bytes of `value` whose bit in `mask` is 1 go to register `id`. Bit 0 of the mask stands for the
/// lowest byte. The default's mask is 0, so that it sets no byte, and is dropped where it is packed.
#[derive(Clone, Copy, Debug, Default, PartialEq, Eq, Hash)]
pub struct Write {
    /// The register.
    pub id: u32,
    /// The bytes, 0 to 15.
    pub mask: u32,
    /// The value.
    pub value: u32,
}

/// Packs a run of writes into the shortest list that says it, at the start of `space`, and gives the number of its words, a multiple
/// of 4. `space` past the list keeps its contents.
///
/// Writes with mask 0 are dropped; those before and after one may share a command. Among the shortest rows of commands for what is left
/// it is the one whose first command carries the most writes, then its second, and so on; where its words are no multiple of 4, one
/// pair 0 0, parameter 0 and header 0, stands behind it. An empty run, and one of mask 0 throughout, has the empty list. The list is
/// never longer than two words a write plus two.
///
/// # Errors
///
/// In this order: 7; 8; for each write in turn 9, 3, 4 or 5, with its index in the run as given; 10, with the words needed, the pair
/// included. `space` is then as it was. For 8, and for the write at fault, writes with mask 0 count like all others.
///
/// ```
/// use pica::{pack, Refusal};
///
/// let (ids, masks, values) = ([0x41, 0x41, 0x42, 0x43], [15; 4], [1, 2, 3, 4]);
/// let mut space = [0xDEAD_BEEF; 9];
/// let refusal = pack(&ids, &masks, &values, &mut space[..7]).unwrap_err();
/// assert_eq!(refusal, Refusal { number: Refusal::NO_ROOM, place: 8 });
///
/// let words = pack(&ids, &masks, &values, &mut space)?;
/// assert_eq!(space[..words], [1, 0x000F_0041, 2, 0x802F_0041, 3, 4, 0, 0]); // six words, and the pair
/// assert_eq!(space[words..], [0xDEAD_BEEF]);
///
/// // 42 with mask 0 is dropped, and the two writes to 41 share a command
/// let words = pack(&[0x41, 0x42, 0x41], &[15, 0, 15], &[1, 2, 3], &mut space)?;
/// assert_eq!(space[..words], [1, 0x001F_0041, 3, 0]);
/// # Ok::<(), Refusal>(())
/// ```
pub fn pack(
    ids: &[u32],
    masks: &[u32],
    values: &[u32],
    space: &mut [u32],
) -> Result<usize, Refusal> {
    ffi::pack(ids, masks, values, space).map(|words| words as usize)
}

/// Packs a run of writes like [`pack`], into a list of its own.
///
/// # Errors
///
/// Those of [`pack`], but for 7 and 10, which cannot come.
///
/// ```
/// use pica::{packed, Write};
///
/// let rising = [0x41, 0x42, 0x43].map(|id| Write { id, mask: 15, value: id });
/// assert_eq!(packed(&rising)?, [0x41, 0x802F_0041, 0x42, 0x43]);
/// # Ok::<(), pica::Refusal>(())
/// ```
pub fn packed(writes: &[Write]) -> Result<Vec<u32>, Refusal> {
    let ids: Vec<u32> = writes.iter().map(|w| w.id).collect();
    let masks: Vec<u32> = writes.iter().map(|w| w.mask).collect();
    let values: Vec<u32> = writes.iter().map(|w| w.value).collect();
    // a list is never longer than two words a write plus two, and a longer run is refused before any space is needed
    let mut space = vec![0; 2 * writes.len().min(RUN_LENGTH_MOST) + 2];
    let words = pack(&ids, &masks, &values, &mut space)?;
    space.truncate(words);
    Ok(space)
}
