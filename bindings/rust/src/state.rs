//! A state: the register file and the two tables.

use alloc::{boxed::Box, vec::Vec};
use core::fmt;

use crate::{
    ffi, flat, fragment, Counts, Given, Outcome, Pieces, Refusal, Settings, Stored, Written,
};

/// The length of a state's register cells: cell `i` is register `i`.
pub const CELLS_LENGTH: usize = 768;
/// The length of its fog entries.
pub const FOG_LENGTH: usize = 128;
/// The length of its light entries: entry `k` of table `t` is at `256 * t + k`.
pub const LIGHT_LENGTH: usize = 6_144;
/// The most words that a list may have, to be read.
pub const LIST_LENGTH_MOST: usize = 65_536;

/// The register file, the fog table and the light tables. Its default is all zeros.
///
/// Of a cell only the bits that the register holds count, and of an entry only the low 24. All other bits are never read by a
/// call and never changed.
#[derive(Clone, PartialEq, Eq)]
#[must_use]
pub struct State {
    pub(crate) cells: Box<[u32; CELLS_LENGTH]>,
    pub(crate) fog: Box<[u32; FOG_LENGTH]>,
    pub(crate) light: Box<[u32; LIGHT_LENGTH]>,
}

impl State {
    /// A state from its three buffers.
    ///
    /// # Errors
    ///
    /// 6 where a buffer has the wrong length.
    ///
    /// ```
    /// use pica::{Refusal, State};
    ///
    /// assert!(State::from_parts(vec![0; 768], vec![0; 128], vec![0; 6144]).is_ok());
    /// let refusal = State::from_parts(vec![0; 768], vec![0; 127], vec![0; 6144]).unwrap_err();
    /// assert_eq!(refusal.number, Refusal::BUFFER_LENGTH);
    /// ```
    pub fn from_parts(cells: Vec<u32>, fog: Vec<u32>, light: Vec<u32>) -> Result<Self, Refusal> {
        Ok(Self {
            cells: sized(cells)?,
            fog: sized(fog)?,
            light: sized(light)?,
        })
    }

    /// The register cells.
    #[must_use]
    pub fn cells(&self) -> &[u32; CELLS_LENGTH] {
        &self.cells
    }

    /// The register cells, to be changed.
    #[must_use]
    pub fn cells_mut(&mut self) -> &mut [u32; CELLS_LENGTH] {
        &mut self.cells
    }

    /// The fog entries.
    #[must_use]
    pub fn fog(&self) -> &[u32; FOG_LENGTH] {
        &self.fog
    }

    /// The fog entries, to be changed.
    #[must_use]
    pub fn fog_mut(&mut self) -> &mut [u32; FOG_LENGTH] {
        &mut self.fog
    }

    /// The light entries.
    #[must_use]
    pub fn light(&self) -> &[u32; LIGHT_LENGTH] {
        &self.light
    }

    /// The light entries, to be changed.
    #[must_use]
    pub fn light_mut(&mut self) -> &mut [u32; LIGHT_LENGTH] {
        &mut self.light
    }

    /// Reads a list of command words into the state, and gives the number of its writes and how many of them made a difference;
    /// [`Written`] says which ones do. Writes with mask 0 are left out.
    ///
    /// # Errors
    ///
    /// 1; 15; then for each command in turn 2 where its words are not all there, or 3, 4 or 5 by its first write at fault, with mask 0
    /// too, with the index of the command's first word. The state is then as it was.
    ///
    /// ```
    /// use pica::{Refusal, State};
    ///
    /// let mut state = State::default();
    /// // registers 41, 42 and 43: ids rise, so that the second and third parameter go to the next ones
    /// let read = state.read(&[1, 0x802F_0041, 2, 3])?;
    /// assert_eq!((read.writes, read.differences), (3, 3));
    /// assert_eq!(state.cells()[0x41..0x44], [1, 2, 3]);
    ///
    /// // the same to one register needs no padding either, but it is cut short here
    /// let refusal = state.read(&[9, 0x000F_0041, 1, 0x002F_0041]).unwrap_err();
    /// assert_eq!(refusal, Refusal { number: Refusal::WORDS_MISSING, place: 2 });
    /// assert_eq!(state.cells()[0x41], 1);
    ///
    /// // a list that lacks its last pair; with 0 0 its length is legal
    /// let refusal = state.read(&[9, 0x000F_0041]).unwrap_err();
    /// assert_eq!(refusal, Refusal { number: Refusal::ILLEGAL_LENGTH, place: 0 });
    /// assert_eq!(state.read(&[9, 0x000F_0041, 0, 0])?.writes, 1);
    /// # Ok::<(), Refusal>(())
    /// ```
    pub fn read(&mut self, list: &[u32]) -> Result<Counts, Refusal> {
        ffi::read(&mut self.cells, &mut self.fog, &mut self.light, list)
    }

    /// Opens a list that arrives in pieces: its parts are fed to the [`Pieces`], which is then closed. The writes go to the spare
    /// state, which first takes this one's values in the bits that count; this state is as it was until the close. Both are borrowed
    /// while the list is open, so that nobody else writes to them.
    ///
    /// ```
    /// use pica::State;
    ///
    /// // what a capture probe hands over: cut between a first parameter and its header, once nothing at all, and before a padding word
    /// let parts: [&[u32]; 4] = [&[0, 0x000F_00E6, 0x11], &[], &[0x001F_00E8, 0x22], &[0, 7, 0x000F_0041]];
    /// let (mut live, mut spare) = (State::default(), State::default());
    /// let mut pieces = live.open(&mut spare);
    /// let come = parts.map(|part| pieces.feed(part));
    /// assert_eq!(come, [3, 3, 5, 8]);
    /// let read = pieces.close()?; // as `read` of the joined list
    /// assert_eq!((read.writes, read.differences), (4, 3)); // the fog index was 0 already
    /// assert_eq!(live.fog()[..2], [0x11, 0x22]);
    /// # Ok::<(), pica::Refusal>(())
    /// ```
    pub fn open<'a>(&'a mut self, spare: &'a mut State) -> Pieces<'a> {
        Pieces::new(self, spare)
    }

    /// Applies a single write, and tells whether it made a difference; [`Written`] says when it does. Bit 0 of the mask stands for the
    /// lowest byte of the value.
    ///
    /// # Errors
    ///
    /// In this order: 9, 3, 4, 5. The state is then as it was.
    ///
    /// ```
    /// use pica::{Refusal, State};
    ///
    /// let mut state = State::default();
    /// assert!(state.write(0x107, 2, 0x1F71)?.made_a_difference);
    /// assert_eq!(state.cells()[0x107], 0x1F00);
    /// assert!(!state.write(0x107, 2, 0x1F71)?.made_a_difference); // that was there already
    /// assert_eq!(state.write(0x107, 16, 0).unwrap_err().number, Refusal::MASK_ABOVE_15);
    /// # Ok::<(), Refusal>(())
    /// ```
    pub fn write(&mut self, id: u32, mask: u32, value: u32) -> Result<Written, Refusal> {
        let answer = ffi::write(
            &mut self.cells,
            &mut self.fog,
            &mut self.light,
            id,
            mask,
            value,
        )?;
        Ok(Written {
            made_a_difference: answer == 1,
        })
    }

    /// Decodes the state into its 204 fields.
    ///
    /// # Errors
    ///
    /// 13 where a register holds a code without a name, with the lowest id of such a register.
    ///
    /// ```
    /// use pica::{Refusal, State};
    ///
    /// let mut state = State::default();
    /// state.write(0x68, 15, 0x01FF_0200)?;
    /// let xy = state.decode()?.rasteriser.viewport.xy;
    /// assert_eq!((xy.x, xy.y), (-512, 511));
    ///
    /// state.write(0x116, 15, 1)?; // no depth format has this code
    /// let refusal = state.decode().unwrap_err();
    /// assert_eq!(refusal, Refusal { number: Refusal::CODE_WITHOUT_NAME, place: 0x116 });
    /// # Ok::<(), Refusal>(())
    /// ```
    pub fn decode(&self) -> Result<Settings, Refusal> {
        let mut words = [0; flat::FIELDS_LENGTH];
        ffi::decode(&self.cells, &self.fog, &self.light, &mut words)?;
        Ok(Settings::from_flat(&words))
    }

    /// What a fragment leaves: its colours are given, its depth is incoming, and stored is what the framebuffer had for its
    /// pixel.
    ///
    /// # Errors
    ///
    /// In this order: 13 and 14, with the lowest id; 12, at 0 for the incoming depth, at 1 for the stored one.
    ///
    /// ```
    /// use pica::{Colour, Given, Refusal, State, Stored, Verdict};
    ///
    /// let mut state = State::default();
    /// state.write(0xC2, 15, 0x0001_0001)?; // stage 0: modulate, RGB and alpha
    /// for stage in [0xC8, 0xD0, 0xD8, 0xF0, 0xF8] {
    ///     state.write(stage, 15, 0x000F_000F)?; // the others hand on what they see as Previous
    /// }
    /// state.write(0x102, 15, 3)?; // logic operation: copy
    /// state.write(0x107, 15, 0x0F00)?; // all four channels, no depth test
    /// state.write(0x113, 15, 15)?; // colour may be written
    /// state.write(0x117, 15, 2)?; // four bytes a pixel
    ///
    /// let given = Given { primary: Colour { red: 128, green: 255, blue: 0, alpha: 255 }, ..Given::default() };
    /// let outcome = state.fragment(&given, 0, Stored::default())?;
    /// assert_eq!(outcome.verdict, Verdict::Pass);
    /// assert_eq!(outcome.stored.colour, Colour { red: 64, green: 255, blue: 0, alpha: 255 });
    ///
    /// let refusal = state.fragment(&given, 65_536, Stored::default()).unwrap_err();
    /// assert_eq!(refusal, Refusal { number: Refusal::DEPTH_ABOVE_LARGEST, place: 0 });
    /// # Ok::<(), Refusal>(())
    /// ```
    pub fn fragment(
        &self,
        given: &Given,
        incoming: u32,
        stored: Stored,
    ) -> Result<Outcome, Refusal> {
        let words = fragment::words_of(given, incoming, stored);
        let mut after = [0; fragment::STORED_LENGTH];
        let verdict = ffi::fragment(&self.cells, &self.fog, &self.light, &words, &mut after)?;
        Ok(fragment::outcome_of(verdict, after))
    }
}

/// A buffer of exactly the right length.
fn sized<const N: usize>(words: Vec<u32>) -> Result<Box<[u32; N]>, Refusal> {
    words.into_boxed_slice().try_into().map_err(|_| Refusal {
        number: Refusal::BUFFER_LENGTH,
        place: 0,
    })
}

impl Default for State {
    fn default() -> Self {
        Self {
            cells: Box::new([0; CELLS_LENGTH]),
            fog: Box::new([0; FOG_LENGTH]),
            light: Box::new([0; LIGHT_LENGTH]),
        }
    }
}

/// Short: seven thousand words help nobody, so only how many are not zero is shown.
impl fmt::Debug for State {
    fn fmt(&self, f: &mut fmt::Formatter<'_>) -> fmt::Result {
        let set = |words: &[u32]| words.iter().filter(|&&word| word != 0).count();
        write!(
            f,
            "State {{ cells: {} of {CELLS_LENGTH} set, fog: {} of {FOG_LENGTH}, light: {} of {LIGHT_LENGTH} }}",
            set(&*self.cells),
            set(&*self.fog),
            set(&*self.light)
        )
    }
}
