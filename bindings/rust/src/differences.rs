//! What a write did, and what the writes of a list did: whether something differs afterwards, and how often.
//!
//! Neither type is `#[must_use]`, as other answers are: a list is mostly read, and a write mostly made, for what it leaves in the state.

/// What a single write did; [`State::write`](crate::State::write) gives it.
///
/// A write makes a difference where the cell, entry or index that it touches differs afterwards:
///
/// - a write to a held register, one whose [`held_bits`](crate::names::held_bits) are not 0, where a held bit in the bytes of its mask
///   was another before. So the same value again makes none, nor does mask 0, nor a mask of bytes in which the register holds no bit;
/// - a write to port data, E8h-EFh or 1C8h-1CFh, always: the port's index moves, though the entry may have held that value, and
///   though the index may name a light table that keeps nothing;
/// - a write to any other register never: nothing is held of it.
///
/// ```
/// use pica::State;
///
/// let mut state = State::default();
/// assert!(state.write(0x107, 15, 0x1F71)?.made_a_difference);
/// assert!(!state.write(0x107, 15, 0x1F71)?.made_a_difference); // equal bits
/// assert!(!state.write(0x107, 1, 0xFF71)?.made_a_difference); // equal in the byte that the mask names
/// assert!(!state.write(0x107, 12, u32::MAX)?.made_a_difference); // 107 holds no bit of these two bytes
/// assert!(!state.write(0x11C, 15, 7)?.made_a_difference); // 11C isn't held
///
/// // port data: the first fog entry, which holds 0 already, and the fog index moves
/// assert!(state.write(0xE8, 15, 0)?.made_a_difference);
/// assert_eq!(state.cells()[0xE6], 1);
/// # Ok::<(), pica::Refusal>(())
/// ```
#[derive(Clone, Copy, Debug, PartialEq, Eq, Hash)]
pub struct Written {
    /// Whether the cell, entry or index that the write touches differs afterwards.
    pub made_a_difference: bool,
}

/// What is counted of an accepted list; [`State::read`](crate::State::read) and [`Pieces::close`](crate::Pieces::close) give it.
///
/// Each write is judged on the state that the ones before it left. Neither count has writes with mask 0.
///
/// ```
/// use pica::{Counts, State};
///
/// let mut state = State::default();
/// let list = [1, 0x802F_0041, 2, 3]; // 41, 42 and 43
/// assert_eq!(state.read(&list)?, Counts { writes: 3, differences: 3 });
/// assert_eq!(state.read(&list)?, Counts { writes: 3, differences: 0 }); // the same again
///
/// // 41 gets another value, and then what it had: the state is as it was, but each of the two made a difference
/// let there_and_back = [9, 0x001F_0041, 1, 0];
/// assert_eq!(state.read(&there_and_back)?, Counts { writes: 2, differences: 2 });
///
/// // port data counts each time, since its index moves
/// let fog = [0x11, 0x001F_00E8, 0x22, 0];
/// assert_eq!(state.read(&fog)?.differences, 2);
/// assert_eq!(state.read(&fog)?.differences, 2);
/// # Ok::<(), pica::Refusal>(())
/// ```
#[derive(Clone, Copy, Debug, Default, PartialEq, Eq, Hash)]
pub struct Counts {
    /// How many writes the list has, those with mask 0 left out.
    pub writes: usize,
    /// How many of them made a difference, as [`Written`] says it of one. Where it is 0 the state is as it was before the list.
    pub differences: usize,
}

impl Counts {
    /// From what the C functions answer, and what they store besides.
    pub(crate) fn new(writes: u32, [differences]: [u32; 1]) -> Self {
        Self {
            writes: writes as usize,
            differences: differences as usize,
        }
    }
}
