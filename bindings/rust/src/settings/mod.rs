//! The decoded state as nested records. A field of eight bits is a `u8`, any other a `u32`, and the two signed fields are `i32`.

mod framebuffer;
mod rasteriser;
mod stages;

pub use framebuffer::*;
pub use rasteriser::*;
pub use stages::*;

/// Four bytes: a colour register, or a fragment's colour.
#[derive(Clone, Copy, Debug, Default, PartialEq, Eq, Hash)]
pub struct Colour {
    /// Red.
    pub red: u8,
    /// Green.
    pub green: u8,
    /// Blue.
    pub blue: u8,
    /// Alpha.
    pub alpha: u8,
}

impl Colour {
    /// Red in the low byte, then green, blue and alpha.
    pub(crate) fn word(self) -> u32 {
        u32::from_le_bytes([self.red, self.green, self.blue, self.alpha])
    }

    pub(crate) fn from_word(word: u32) -> Self {
        let [red, green, blue, alpha] = word.to_le_bytes();
        Self {
            red,
            green,
            blue,
            alpha,
        }
    }
}

/// Register 1C5: the light entry that is written next.
#[derive(Clone, Copy, Debug, Default, PartialEq, Eq, Hash)]
pub struct LightPort {
    /// Bits 0-7: its index in the table.
    pub index: u8,
    /// Bits 8-12: the table.
    pub table: u32,
}

/// The whole decoded state: 204 fields, in groups. Each is the unsigned number that its bits hold, only the two of register
/// 68 are signed.
#[derive(Clone, Copy, Debug, Default, PartialEq, Eq, Hash)]
#[must_use]
pub struct Settings {
    /// 40-44, 47-4B, 4D, 4E, 65-68, 6D.
    pub rasteriser: Rasteriser,
    /// C0-C4, C8-CC, D0-D4, D8-DC, F0-F4, F8-FC.
    pub stages: Stages,
    /// E0, E1, E6, FD.
    pub buffer_fog: BufferFog,
    /// 100-107, 112-117.
    pub framebuffer: Framebuffer,
    /// 1C5.
    pub light_port: LightPort,
}
