//! Refusals: a number and a place.

use core::{error::Error, fmt};

use crate::names;

/// Why a call was refused: a number, and a place whose meaning depends on the number. A place that means nothing is 0.
///
/// ```
/// use pica::{Refusal, State};
///
/// let refusal = State::default().read(&[1, 0x000F_0041, 0, 0x000F_023C]).unwrap_err();
/// assert_eq!(refusal.number, Refusal::JUMP_REGISTER);
/// assert_eq!(refusal.place, 2); // the command at fault begins with word 2
/// assert!(refusal.to_string().starts_with("refusal 4: id 23Ch or 23Dh"));
/// ```
#[derive(Clone, Copy, Debug, PartialEq, Eq, Hash)]
#[must_use]
pub struct Refusal {
    /// The number: one of this type's constants.
    pub number: u32,
    /// Where it is.
    pub place: u32,
}

impl Refusal {
    /// A list over 65,536 words.
    pub const LIST_TOO_LONG: u32 = 1;
    /// A command needs more words than are left, a lone word included; at its first word.
    pub const WORDS_MISSING: u32 = 2;
    /// An id above 2FFh; in a list at the first word of its command, in a run at the write's index.
    pub const ID_ABOVE_2FF: u32 = 3;
    /// Id 23Ch or 23Dh; in a list at the first word of its command, in a run at the write's index.
    pub const JUMP_REGISTER: u32 = 4;
    /// Port data with a mask other than Fh; in a list at the first word of its command, in a run at the write's index.
    pub const PORT_MASK: u32 = 5;
    /// A state buffer of the wrong length.
    pub const BUFFER_LENGTH: u32 = 6;
    /// Ids, masks and values differ in length.
    pub const LENGTHS_DIFFER: u32 = 7;
    /// Over 4,096 writes.
    pub const TOO_MANY_WRITES: u32 = 8;
    /// A mask above 15; in a run at the write's index.
    pub const MASK_ABOVE_15: u32 = 9;
    /// The space is shorter than the shortest list; the place is the words needed.
    pub const NO_ROOM: u32 = 10;
    /// A depth above the format's largest; the place is 0 for the incoming depth and 1 for the stored one.
    pub const DEPTH_ABOVE_LARGEST: u32 = 12;
    /// A code without a name; the place is the lowest id of a register that holds one.
    pub const CODE_WITHOUT_NAME: u32 = 13;
    /// Not built; the place is the lowest id of a register that asks for it.
    pub const NOT_BUILT: u32 = 14;
    /// A list whose words are no multiple of 4.
    pub const ILLEGAL_LENGTH: u32 = 15;
    /// The buffers have fewer places than the list has writes; the place is the places needed.
    pub const TOO_FEW_PLACES: u32 = 22;

    /// What was wrong, without the place.
    #[must_use]
    pub fn reason(&self) -> &'static str {
        names::refusal_reason(self.number).unwrap_or("no number of the table")
    }
}

impl fmt::Display for Refusal {
    fn fmt(&self, f: &mut fmt::Formatter<'_>) -> fmt::Result {
        write!(f, "refusal {}: {}", self.number, self.reason())?;
        let place = self.place;
        match self.number {
            Self::WORDS_MISSING => write!(f, ", the command whose first word is word {place}"),
            // the number alone doesn't tell which of the calls was made
            Self::ID_ABOVE_2FF | Self::JUMP_REGISTER | Self::PORT_MASK => {
                write!(f, ", at {place}: the first word of its command in a list, or the index of the write in a run")
            }
            Self::MASK_ABOVE_15 => write!(f, ", write {place}"),
            Self::NO_ROOM => write!(f, ", {place} words needed"),
            Self::TOO_FEW_PLACES => write!(f, ", {place} places needed"),
            Self::DEPTH_ABOVE_LARGEST if place == 0 => f.write_str(", incoming"),
            Self::DEPTH_ABOVE_LARGEST => f.write_str(", stored"),
            Self::CODE_WITHOUT_NAME | Self::NOT_BUILT => write!(f, ", register {place:03X}h"),
            _ => Ok(()),
        }
    }
}

impl Error for Refusal {}
