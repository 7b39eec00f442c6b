//! Codes without a name.

use super::faults::*;
use super::{bits, refuse, Refusal};

/// The first id of stages 0 to 5.
pub const STAGES: [u32; 6] = [0xC0, 0xC8, 0xD0, 0xD8, 0xF0, 0xF8];

fn source_nameless<const F: u32>(cell: u32) -> bool {
    let rgb = [0, 4, 8];
    let alpha = if F == ALPHA_SOURCE_UNTESTED {
        rgb
    } else {
        [16, 20, 24]
    };
    let last = if F == SOURCE_C_NAMED { 0xB } else { 0xC };
    rgb.into_iter()
        .chain(alpha)
        .any(|low| (7..=last).contains(&bits(cell, low, low + 3)))
}

fn operand_nameless<const F: u32>(cell: u32) -> bool {
    [0, 4, 8].into_iter().any(|low| {
        let code = bits(cell, low, low + 3);
        let named = matches!(code, 0..=5 | 8 | 9 | 0xC | 0xD);
        !(named || (F == OPERAND_6_NAMED && code == 6))
    })
}

fn combiner_nameless<const F: u32>(cell: u32) -> bool {
    let rgb = bits(cell, 0, 3);
    let alpha = bits(cell, 16, 19);
    if rgb > 9 {
        return true;
    }
    match alpha {
        6 if F == ALPHA_6_NAMED => false,
        6 | 7 => rgb != 7,
        10.. => !(F == ALPHA_A_EXCUSED && rgb == 7),
        _ => false,
    }
}

fn scale_nameless<const F: u32>(cell: u32) -> bool {
    bits(cell, 0, 1) == 3 || (bits(cell, 16, 17) == 3 && F != ALPHA_SCALE_UNTESTED)
}

fn fog_nameless<const F: u32>(cell: u32) -> bool {
    match bits(cell, 0, 2) {
        0 | 7 => false,
        5 => F == FOG_5_NAMELESS,
        _ => true,
    }
}

fn blend_nameless<const F: u32>(cell: u32) -> bool {
    let functions: &[u32] = if F == BLEND_RGB_ONLY {
        &[16, 20]
    } else {
        &[16, 20, 24, 28]
    };
    functions.iter().any(|&low| bits(cell, low, low + 3) == 0xF)
}

fn colour_format_nameless<const F: u32>(cell: u32) -> bool {
    let size = match bits(cell, 0, 1) {
        1 => F != SIZE_1_NAMED,
        3 => true,
        _ => false,
    };
    let format = match bits(cell, 16, 18) {
        5 => F != FORMAT_5_NAMED,
        1 | 6 | 7 => true,
        _ => false,
    };
    size || format
}

fn nameless<const F: u32>(id: u32, cell: u32) -> bool {
    for stage in STAGES {
        match id.wrapping_sub(stage) {
            0 => return source_nameless::<F>(cell),
            1 => return operand_nameless::<F>(cell),
            2 => return combiner_nameless::<F>(cell),
            4 => return scale_nameless::<F>(cell),
            _ => {}
        }
    }
    match id {
        0x65 if F == SCISSOR_2_NAMELESS => bits(cell, 0, 1) == 2,
        0xE0 => fog_nameless::<F>(cell),
        0x100 => bits(cell, 0, 1) == 2,
        0x101 => blend_nameless::<F>(cell),
        0x116 => bits(cell, 0, 1) == 1,
        0x117 => colour_format_nameless::<F>(cell),
        _ => false,
    }
}

/// Refuses with the lowest id that has a code without a name.
pub fn test<const F: u32>(cells: &[u32]) -> Result<(), Refusal> {
    if F == LOWEST_STAGES_FIRST {
        for id in (0..0xE0).chain(0xE1..0xFE) {
            if nameless::<F>(id, cells[id as usize]) {
                return refuse(13, id);
            }
        }
    }
    for id in 0x40..0x118 {
        if nameless::<F>(id, cells[id as usize]) {
            return refuse(13, id);
        }
    }
    Ok(())
}
