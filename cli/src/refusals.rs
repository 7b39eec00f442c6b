//! What a refusal means and what to do about it: the crate's table of names.

use pica::names::{refusal_advice, refusal_text};

/// What it means.
pub fn meaning(number: u32) -> &'static str {
    refusal_text(number).unwrap_or("a refusal without a text")
}

/// What to do about it.
pub fn advice(number: u32) -> &'static str {
    refusal_advice(number).unwrap_or("look the number up in include/pica.h")
}
