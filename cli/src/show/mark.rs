//! What a list does to a field or to a table's entry, as a mark, and which marks are shown.

use std::fmt::{self, Display, Formatter};

#[derive(Clone, Copy, PartialEq, Eq)]
pub enum Mark {
    Changed,
    /// Written, and as it was.
    Same,
    Untouched,
}

impl Mark {
    pub fn of(is_changed: bool, is_written: bool) -> Self {
        match (is_changed, is_written) {
            (true, _) => Self::Changed, // an index may change without a write to it
            (false, true) => Self::Same,
            (false, false) => Self::Untouched,
        }
    }
}

impl Display for Mark {
    fn fmt(&self, f: &mut Formatter<'_>) -> fmt::Result {
        f.write_str(match self {
            Self::Changed => "*",
            Self::Same => "=",
            Self::Untouched => " ",
        })
    }
}

/// What is shown.
#[derive(Clone, Copy)]
pub struct View {
    /// What the list leaves alone too.
    pub all: bool,
    /// Only what the list changes.
    pub changes: bool,
    /// Table entries one by one.
    pub entries: bool,
}

impl View {
    /// Whether a field is shown, or a table's entry.
    pub fn shows(self, mark: Mark) -> bool {
        match mark {
            Mark::Changed => true,
            Mark::Same => !self.changes,
            Mark::Untouched => self.all,
        }
    }
}
