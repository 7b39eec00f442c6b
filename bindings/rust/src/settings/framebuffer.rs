//! Blending, the tests, and the buffers.

use super::Colour;

/// Register 100.
#[derive(Clone, Copy, Debug, Default, PartialEq, Eq, Hash)]
pub struct ColourOperation {
    /// Bits 0-1: the fragment mode.
    pub mode: u32,
    /// Bit 8: 0 for a logic operation, 1 for blending.
    pub blend: u32,
    /// Bit 24: 1 where only every second line is drawn.
    pub second_lines: u32,
    /// Bit 25: 1 where nothing is drawn.
    pub nothing: u32,
}

/// Register 101.
#[derive(Clone, Copy, Debug, Default, PartialEq, Eq, Hash)]
pub struct BlendFunction {
    /// Bits 0-2: the equation for RGB.
    pub rgb_equation: u32,
    /// Bits 8-10: the equation for alpha.
    pub alpha_equation: u32,
    /// Bits 16-19: the function of the source RGB.
    pub rgb_source: u32,
    /// Bits 20-23: the function of the destination RGB.
    pub rgb_destination: u32,
    /// Bits 24-27: the function of the source alpha.
    pub alpha_source: u32,
    /// Bits 28-31: the function of the destination alpha.
    pub alpha_destination: u32,
}

/// Registers 100-103.
#[derive(Clone, Copy, Debug, Default, PartialEq, Eq, Hash)]
pub struct Blending {
    /// 100.
    pub operation: ColourOperation,
    /// 101.
    pub function: BlendFunction,
    /// 102: the logic operation.
    pub logic_op: u32,
    /// 103: the blend colour.
    pub colour: Colour,
}

/// Register 104.
#[derive(Clone, Copy, Debug, Default, PartialEq, Eq, Hash)]
pub struct AlphaTest {
    /// Bit 0: 1 where the test is made.
    pub enable: u32,
    /// Bits 4-6: the comparison.
    pub function: u32,
    /// Bits 8-15: what alpha is compared with.
    pub reference: u8,
}

/// Register 105.
#[derive(Clone, Copy, Debug, Default, PartialEq, Eq, Hash)]
pub struct StencilTest {
    /// Bit 0: 1 where the test is made, if the depth format has a stencil.
    pub enable: u32,
    /// Bits 4-6: the comparison.
    pub function: u32,
    /// Bits 8-15: the bits that may change.
    pub buffer_mask: u8,
    /// Bits 16-23: what the stored stencil is compared with.
    pub reference: u8,
    /// Bits 24-31: the bits that are compared.
    pub mask: u8,
}

/// Register 106: the stencil operations.
#[derive(Clone, Copy, Debug, Default, PartialEq, Eq, Hash)]
pub struct StencilOp {
    /// Bits 0-2: where the stencil test fails.
    pub fail: u32,
    /// Bits 4-6: where the depth test fails.
    pub z_fail: u32,
    /// Bits 8-10: where all tests pass.
    pub z_pass: u32,
}

/// Register 107: the depth test, and what is written.
#[derive(Clone, Copy, Debug, Default, PartialEq, Eq, Hash)]
pub struct DepthColourMask {
    /// Bit 0: 1 where the test is made.
    pub enable: u32,
    /// Bits 4-6: the comparison.
    pub function: u32,
    /// Bit 8: 1 where red may be written.
    pub red: u32,
    /// Bit 9: 1 where green may be written.
    pub green: u32,
    /// Bit 10: 1 where blue may be written.
    pub blue: u32,
    /// Bit 11: 1 where alpha may be written.
    pub alpha: u32,
    /// Bit 12: 1 where depth may be written.
    pub depth: u32,
}

/// Registers 104-107.
#[derive(Clone, Copy, Debug, Default, PartialEq, Eq, Hash)]
pub struct Tests {
    /// 104.
    pub alpha: AlphaTest,
    /// 105.
    pub stencil: StencilTest,
    /// 106.
    pub stencil_op: StencilOp,
    /// 107.
    pub depth: DepthColourMask,
}

/// Register 114 or 115.
#[derive(Clone, Copy, Debug, Default, PartialEq, Eq, Hash)]
pub struct DepthAllowed {
    /// Bit 0: 1 where the stencil is allowed.
    pub stencil: u32,
    /// Bit 1: 1 where depth is allowed.
    pub depth: u32,
}

/// Register 117.
#[derive(Clone, Copy, Debug, Default, PartialEq, Eq, Hash)]
pub struct ColourFormat {
    /// Bits 0-1: the size of a pixel.
    pub size: u32,
    /// Bits 16-18: the format.
    pub format: u32,
}

/// Registers 112-117.
#[derive(Clone, Copy, Debug, Default, PartialEq, Eq, Hash)]
pub struct Buffers {
    /// 112: 0 where no colour is read.
    pub colour_reading: u32,
    /// 113: 0 where no colour is written.
    pub colour_writing: u32,
    /// 114: what may be read.
    pub depth_reading: DepthAllowed,
    /// 115: what may be written.
    pub depth_writing: DepthAllowed,
    /// 116: the depth format.
    pub depth_format: u32,
    /// 117.
    pub colour_format: ColourFormat,
}

/// Registers 100-107 and 112-117.
#[derive(Clone, Copy, Debug, Default, PartialEq, Eq, Hash)]
pub struct Framebuffer {
    /// 100-103.
    pub blending: Blending,
    /// 104-107.
    pub tests: Tests,
    /// 112-117.
    pub buffers: Buffers,
}
