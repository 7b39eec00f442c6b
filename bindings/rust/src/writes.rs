//! The writes of a list.

use alloc::{vec, vec::Vec};

use crate::{ffi, Refusal, Write, LIST_LENGTH_MOST};

/// Puts the writes of a list of command words, in their order, at the start of three buffers, and gives their number: write `k`
/// sets the bytes `masks[k]` of register `ids[k]` to those of `values[k]`. Writes with mask 0 are left out. The buffers past the
/// writes keep their contents. The writes are what [`pack`](crate::pack) takes.
///
/// No list has more writes than words, so that buffers as long as the list are long enough.
///
/// # Errors
///
/// In this order: 7; 1; 15; for each command in turn 2 where its words are not all there, or 3, 4 or 5 by its first write at fault,
/// with mask 0 too, with the index of the command's first word; 22, with the places needed. The buffers are then as they were.
///
/// ```
/// use pica::{writes, Refusal};
///
/// let list = [0xAAAA_AAAA, 0x802F_011C, 0xBBBB_BBBB, 0xCCCC_CCCC];
/// let (mut ids, mut masks, mut values) = ([0; 4], [0; 4], [9; 4]);
/// assert_eq!(writes(&list, &mut ids, &mut masks, &mut values)?, 3);
/// assert_eq!(ids[..3], [0x11C, 0x11D, 0x11E]);
/// assert_eq!(masks[..3], [15; 3]);
/// assert_eq!(values, [0xAAAA_AAAA, 0xBBBB_BBBB, 0xCCCC_CCCC, 9]);
///
/// let refusal = writes(&list, &mut [], &mut [], &mut []).unwrap_err();
/// assert_eq!(refusal, Refusal { number: Refusal::TOO_FEW_PLACES, place: 3 });
/// # Ok::<(), Refusal>(())
/// ```
pub fn writes(
    list: &[u32],
    ids: &mut [u32],
    masks: &mut [u32],
    values: &mut [u32],
) -> Result<usize, Refusal> {
    ffi::writes(list, ids, masks, values).map(|count| count as usize)
}

/// Gives the writes of a list like [`writes`], as a run of its own.
///
/// # Errors
///
/// Those of [`writes`], but for 7 and 22, which cannot come.
///
/// ```
/// use pica::{packed, writes_of};
///
/// // two commands where one will do, and between them one of mask 0, and the pair that fills the list
/// let list = [1, 0x000F_0041, 9, 0x0000_0107, 2, 0x000F_0042, 0, 0];
/// let run = writes_of(&list)?;
/// assert_eq!(run.len(), 2);
/// assert_eq!((run[1].id, run[1].mask, run[1].value), (0x42, 15, 2));
/// assert_eq!(packed(&run)?, [1, 0x801F_0041, 2, 0]);
/// # Ok::<(), pica::Refusal>(())
/// ```
pub fn writes_of(list: &[u32]) -> Result<Vec<Write>, Refusal> {
    // each write has a word of its own beside the headers, and a longer list is refused before any place is needed
    let places = list.len().min(LIST_LENGTH_MOST);
    let mut ids = vec![0; places];
    let mut masks = vec![0; places];
    let mut values = vec![0; places];
    let count = writes(list, &mut ids, &mut masks, &mut values)?;
    let parts = ids.into_iter().zip(masks).zip(values);
    let write = |((id, mask), value)| Write { id, mask, value };
    Ok(parts.take(count).map(write).collect())
}
