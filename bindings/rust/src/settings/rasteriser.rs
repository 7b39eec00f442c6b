//! What shapes a triangle before it is coloured.

/// Register 68: signed, -512..511.
#[derive(Clone, Copy, Debug, Default, PartialEq, Eq, Hash)]
pub struct Offset {
    /// Bits 0-9.
    pub x: i32,
    /// Bits 16-25.
    pub y: i32,
}

/// Registers 41-44 and 68.
#[derive(Clone, Copy, Debug, Default, PartialEq, Eq, Hash)]
pub struct Viewport {
    /// 41: half the width, a 24-bit float.
    pub width: u32,
    /// 42: its inverse, a float.
    pub invw: u32,
    /// 43: half the height, a 24-bit float.
    pub height: u32,
    /// 44: its inverse, a float.
    pub invh: u32,
    /// 68: the position.
    pub xy: Offset,
}

/// Registers 47-4B: the clipping plane.
#[derive(Clone, Copy, Debug, Default, PartialEq, Eq, Hash)]
pub struct Clip {
    /// 47: 1 where there is one.
    pub enable: u32,
    /// 48: its number 0, a 24-bit float.
    pub data0: u32,
    /// 49: its number 1, a 24-bit float.
    pub data1: u32,
    /// 4A: its number 2, a 24-bit float.
    pub data2: u32,
    /// 4B: its number 3, a 24-bit float.
    pub data3: u32,
}

/// Registers 4D, 4E and 6D: how depth is scaled.
#[derive(Clone, Copy, Debug, Default, PartialEq, Eq, Hash)]
pub struct Depthmap {
    /// 4D: a 24-bit float.
    pub scale: u32,
    /// 4E: a 24-bit float.
    pub offset: u32,
    /// 6D: 1 where it is on.
    pub enable: u32,
}

/// Register 66 or 67.
#[derive(Clone, Copy, Debug, Default, PartialEq, Eq, Hash)]
pub struct Position {
    /// Bits 0-9.
    pub x: u32,
    /// Bits 16-25.
    pub y: u32,
}

/// Registers 65-67: the scissor test.
#[derive(Clone, Copy, Debug, Default, PartialEq, Eq, Hash)]
pub struct Scissor {
    /// 65: the mode.
    pub mode: u32,
    /// 66: the first corner.
    pub pos: Position,
    /// 67: the last corner.
    pub dim: Position,
}

/// Registers 40-44, 47-4B, 4D, 4E, 65-68 and 6D.
#[derive(Clone, Copy, Debug, Default, PartialEq, Eq, Hash)]
pub struct Rasteriser {
    /// 40: which faces are dropped.
    pub culling: u32,
    /// 41-44, 68.
    pub viewport: Viewport,
    /// 47-4B.
    pub clip: Clip,
    /// 4D, 4E, 6D.
    pub depthmap: Depthmap,
    /// 65-67.
    pub scissor: Scissor,
}
