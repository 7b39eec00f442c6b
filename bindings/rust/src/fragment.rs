//! What a fragment is given and what it leaves.

use crate::Colour;

/// The lengths of what the C function is given for a fragment and of what it stores, in words.
pub(crate) const GIVEN_LENGTH: usize = 11;
pub(crate) const STORED_LENGTH: usize = 3;

/// The seven colours that a fragment comes with.
#[derive(Clone, Copy, Debug, Default, PartialEq, Eq, Hash)]
pub struct Given {
    /// The primary colour.
    pub primary: Colour,
    /// The fragment's primary colour, from lighting.
    pub fragment_primary: Colour,
    /// The fragment's secondary colour, from lighting.
    pub fragment_secondary: Colour,
    /// Texture 0.
    pub texture0: Colour,
    /// Texture 1.
    pub texture1: Colour,
    /// Texture 2.
    pub texture2: Colour,
    /// Texture 3.
    pub texture3: Colour,
}

/// What the framebuffer stores for one pixel.
#[derive(Clone, Copy, Debug, Default, PartialEq, Eq, Hash)]
pub struct Stored {
    /// The colour.
    pub colour: Colour,
    /// The stencil, which is passed through where the depth format has none.
    pub stencil: u8,
    /// The depth: at most 65,535 for depth format 0, at most 16,777,215 for any other.
    pub depth: u32,
}

/// What became of a fragment.
#[derive(Clone, Copy, Debug, PartialEq, Eq, Hash)]
#[must_use]
pub enum Verdict {
    /// The alpha test failed, and nothing changed.
    AlphaFailure,
    /// The stencil test failed.
    StencilFailure,
    /// The depth test failed.
    DepthFailure,
    /// All tests passed.
    Pass,
}

/// What one fragment leaves.
#[derive(Clone, Copy, Debug, PartialEq, Eq, Hash)]
#[must_use]
pub struct Outcome {
    /// What became of it.
    pub verdict: Verdict,
    /// What is then stored.
    pub stored: Stored,
}

/// The order of the C function: the seven colours, then the incoming depth, then what is stored.
pub(crate) fn words_of(given: &Given, incoming: u32, stored: Stored) -> [u32; GIVEN_LENGTH] {
    [
        given.primary.word(),
        given.fragment_primary.word(),
        given.fragment_secondary.word(),
        given.texture0.word(),
        given.texture1.word(),
        given.texture2.word(),
        given.texture3.word(),
        incoming,
        stored.colour.word(),
        stored.stencil.into(),
        stored.depth,
    ]
}

pub(crate) fn outcome_of(verdict: u32, stored: [u32; STORED_LENGTH]) -> Outcome {
    Outcome {
        verdict: match verdict {
            0 => Verdict::AlphaFailure,
            1 => Verdict::StencilFailure,
            2 => Verdict::DepthFailure,
            3 => Verdict::Pass,
            _ => unreachable!("the library promises a verdict of 0 to 3"),
        },
        stored: Stored {
            colour: Colour::from_word(stored[0]),
            // a byte by the library's promise
            stencil: stored[1] as u8,
            depth: stored[2],
        },
    }
}
