//! A list that arrives in pieces.

use crate::{ffi, Counts, Refusal, State};

/// The length of the reader's words, which are all that is kept of the parts.
pub(crate) const READER_LENGTH: usize = 12;

/// A list that arrives in pieces, opened by [`State::open`]. It borrows the live and the spare state, so that nobody else writes to
/// them while the list is open.
///
/// After a close, whatever its verdict, both states agree in the bits that count and the reader is as freshly opened: the next
/// list can be fed at once. A `Pieces` that is dropped without a close leaves the live state as it was, and in the spare what the
/// parts wrote; the next opening sets that right.
///
/// ```
/// use pica::{Counts, Refusal, State};
///
/// let (mut live, mut spare) = (State::default(), State::default());
/// let mut pieces = live.open(&mut spare);
/// pieces.feed(&[1]);
/// pieces.feed(&[0x000F_0041, 2, 0x000F_023C]); // sets 41, and then would jump
/// let jump = Refusal { number: Refusal::JUMP_REGISTER, place: 2 }; // the place counts from the list's start
/// assert_eq!(pieces.close(), Err(jump));
/// assert_eq!(pieces.live().cells()[0x41], 0);
///
/// // the next list, without another opening
/// pieces.feed(&[7, 0x000F_0041]);
/// pieces.feed(&[0, 0]); // the words of all parts together are a multiple of 4
/// assert_eq!(pieces.close(), Ok(Counts { writes: 1, differences: 1 }));
/// assert_eq!(live.cells()[0x41], 7);
/// ```
///
/// What is borrowed can't be written to:
///
/// ```compile_fail,E0499
/// # use pica::State;
/// let (mut live, mut spare) = (State::default(), State::default());
/// let mut pieces = live.open(&mut spare);
/// live.write(0x41, 15, 7).unwrap();
/// pieces.close().unwrap();
/// ```
#[derive(Debug)]
#[must_use]
pub struct Pieces<'a> {
    live: &'a mut State,
    spare: &'a mut State,
    reader: [u32; READER_LENGTH],
}

impl<'a> Pieces<'a> {
    pub(crate) fn new(live: &'a mut State, spare: &'a mut State) -> Self {
        let mut reader = [0; READER_LENGTH];
        sized(ffi::open(
            &live.cells,
            &live.fog,
            &live.light,
            &mut spare.cells,
            &mut spare.fog,
            &mut spare.light,
            &mut reader,
        ));
        Self {
            live,
            spare,
            reader,
        }
    }

    /// Feeds the next part of the list, of any length, 0 too, and gives how many words have come since the opening or the last close.
    /// Past 65,536, where the close will refuse 1, that stays at 65,537. What is wrong with the list is told by the close alone: only the
    /// words of all parts together must be a multiple of 4.
    ///
    /// ```
    /// # use pica::State;
    /// let (mut live, mut spare) = (State::default(), State::default());
    /// let mut pieces = live.open(&mut spare);
    /// assert_eq!(pieces.feed(&[]), 0);
    /// assert_eq!(pieces.feed(&[0; 65_536]), 65_536);
    /// assert_eq!(pieces.feed(&[0; 9]), 65_537);
    /// ```
    pub fn feed(&mut self, part: &[u32]) -> usize {
        let spare = &mut *self.spare;
        sized(ffi::feed(
            &mut spare.cells,
            &mut spare.fog,
            &mut spare.light,
            &mut self.reader,
            part,
        )) as usize
    }

    /// Closes the list, and gives the number of its writes and how many of them made a difference. The live state is then what the list
    /// leaves. Verdict, place, counts and live state are those of [`State::read`] on the parts joined, wherever they were cut.
    ///
    /// # Errors
    ///
    /// Those of [`State::read`], with places from the list's start. The live state is then as it was, and the spare one takes its
    /// values in the bits that count.
    pub fn close(&mut self) -> Result<Counts, Refusal> {
        let (live, spare) = (&mut *self.live, &mut *self.spare);
        ffi::close(
            &mut live.cells,
            &mut live.fog,
            &mut live.light,
            &mut spare.cells,
            &mut spare.fog,
            &mut spare.light,
            &mut self.reader,
        )
    }

    /// The live state, to be looked at between lists: what the lists so far left.
    pub fn live(&self) -> &State {
        self.live
    }
}

/// Opening and feeding refuse nothing but a buffer of the wrong length.
fn sized(answer: Result<u32, Refusal>) -> u32 {
    answer.unwrap_or_else(|_| unreachable!("a state's buffers have their lengths by type"))
}

#[cfg(test)]
mod tests {
    #[test]
    fn the_reader_has_the_headers_length() {
        let header = include_str!("../../../include/pica.h");
        let define = alloc::format!("\n#define PICA_READER {}\n", super::READER_LENGTH);
        assert_eq!(header.matches(&define).count(), 1);
    }
}
