//! The combiner's six stages, its buffer, and fog.

use super::Colour;

/// A stage's register 0: which colours it takes.
#[derive(Clone, Copy, Debug, Default, PartialEq, Eq, Hash)]
pub struct Source {
    /// The source of RGB operand 0.
    pub rgb0: u32,
    /// The source of RGB operand 1.
    pub rgb1: u32,
    /// The source of RGB operand 2.
    pub rgb2: u32,
    /// The source of alpha operand 0.
    pub alpha0: u32,
    /// The source of alpha operand 1.
    pub alpha1: u32,
    /// The source of alpha operand 2.
    pub alpha2: u32,
}

/// A stage's register 1: which part of each source it takes.
#[derive(Clone, Copy, Debug, Default, PartialEq, Eq, Hash)]
pub struct Operand {
    /// The part of RGB operand 0.
    pub rgb0: u32,
    /// The part of RGB operand 1.
    pub rgb1: u32,
    /// The part of RGB operand 2.
    pub rgb2: u32,
    /// The part of alpha operand 0.
    pub alpha0: u32,
    /// The part of alpha operand 1.
    pub alpha1: u32,
    /// The part of alpha operand 2.
    pub alpha2: u32,
}

/// A stage's register 2: the combine modes.
#[derive(Clone, Copy, Debug, Default, PartialEq, Eq, Hash)]
pub struct Combiner {
    /// The mode for RGB.
    pub rgb: u32,
    /// The mode for alpha.
    pub alpha: u32,
}

/// A stage's register 4: codes 0, 1, 2 for 1, 2, 4 times.
#[derive(Clone, Copy, Debug, Default, PartialEq, Eq, Hash)]
pub struct Scale {
    /// The scale of RGB.
    pub rgb: u32,
    /// The scale of alpha.
    pub alpha: u32,
}

/// One stage of the combiner: five registers from C0, C8, D0, D8, F0 or F8.
#[derive(Clone, Copy, Debug, Default, PartialEq, Eq, Hash)]
pub struct Stage {
    /// The sources.
    pub source: Source,
    /// The parts of the sources.
    pub operand: Operand,
    /// The modes.
    pub combiner: Combiner,
    /// The stage's constant colour.
    pub colour: Colour,
    /// The scales.
    pub scale: Scale,
}

/// The six stages.
#[derive(Clone, Copy, Debug, Default, PartialEq, Eq, Hash)]
pub struct Stages {
    /// C0-C4.
    pub stage0: Stage,
    /// C8-CC.
    pub stage1: Stage,
    /// D0-D4.
    pub stage2: Stage,
    /// D8-DC.
    pub stage3: Stage,
    /// F0-F4.
    pub stage4: Stage,
    /// F8-FC.
    pub stage5: Stage,
}

/// Register E0: the fog mode, and what stages 2 to 5 see as Previous buffer. Where the bit of stage k is 1, stage k+1 sees as
/// buffer what stage k saw as Previous, else the buffer that stage k saw.
#[derive(Clone, Copy, Debug, Default, PartialEq, Eq, Hash)]
pub struct UpdateBuffer {
    /// Bits 0-2: the fog mode.
    pub fog_mode: u32,
    /// Bit 3: the source of the density.
    pub density_source: u32,
    /// Bit 8: stage 1's, for RGB.
    pub rgb1: u32,
    /// Bit 9: stage 2's, for RGB.
    pub rgb2: u32,
    /// Bit 10: stage 3's, for RGB.
    pub rgb3: u32,
    /// Bit 11: stage 4's, for RGB.
    pub rgb4: u32,
    /// Bit 12: stage 1's, for alpha.
    pub alpha1: u32,
    /// Bit 13: stage 2's, for alpha.
    pub alpha2: u32,
    /// Bit 14: stage 3's, for alpha.
    pub alpha3: u32,
    /// Bit 15: stage 4's, for alpha.
    pub alpha4: u32,
    /// Bit 16: 1 where depth is flipped for fog.
    pub z_flip: u32,
    /// Bits 24-25: unknown.
    pub unknown: u32,
}

/// Register E1.
#[derive(Clone, Copy, Debug, Default, PartialEq, Eq, Hash)]
pub struct FogColour {
    /// Bits 0-7.
    pub red: u8,
    /// Bits 8-15.
    pub green: u8,
    /// Bits 16-23.
    pub blue: u8,
}

/// Registers E0, E1, E6 and FD.
#[derive(Clone, Copy, Debug, Default, PartialEq, Eq, Hash)]
pub struct BufferFog {
    /// E0.
    pub update: UpdateBuffer,
    /// E1.
    pub fog_colour: FogColour,
    /// E6: the fog entry that is written next.
    pub fog_index: u32,
    /// FD: what stages 0 and 1 see as Previous buffer.
    pub buffer_colour: Colour,
}
