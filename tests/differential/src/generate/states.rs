//! States for decoding and for fragments, and the ports' indices.

use crate::model::HELD;
use crate::random::Random;

const STAGES: [usize; 6] = [0xC0, 0xC8, 0xD0, 0xD8, 0xF0, 0xF8];
const SOURCES: [u32; 10] = [0, 1, 2, 3, 4, 5, 6, 0xD, 0xE, 0xF];
const RGB_OPERANDS: [u32; 10] = [0, 1, 2, 3, 4, 5, 8, 9, 0xC, 0xD];
const INTERESTING_BYTES: [u32; 8] = [0, 1, 2, 127, 128, 253, 254, 255];

/// Sets some bits of a word and leaves the others.
fn set(word: &mut u32, low: u32, width: u32, value: u32) {
    let bits = (((1u64 << width) - 1) as u32) << low;
    *word = *word & !bits | value << low & bits;
}

fn byte(random: &mut Random) -> u32 {
    if random.chance(1, 2) {
        random.pick(&INTERESTING_BYTES)
    } else {
        random.below(256)
    }
}

fn colour(random: &mut Random) -> u32 {
    (0..4).fold(0, |word, _| word << 8 | byte(random))
}

/// Now and then sets the two indices near where they go round, over tables
/// with and without a name.
pub fn set_indices(random: &mut Random, cells: &mut [u32]) {
    if random.chance(1, 3) {
        let index = random.pick(&[0, 1, 125, 126, 127]);
        set(&mut cells[0xE6], 0, 7, index);
    }
    if random.chance(1, 3) {
        let index = random.pick(&[0, 1, 127, 128, 254, 255]);
        let table = random.pick(&[0, 1, 2, 3, 6, 7, 8, 0xF, 0x10, 0x17, 0x18, 0x1F]);
        set(&mut cells[0x1C5], 0, 8, index);
        set(&mut cells[0x1C5], 8, 5, table);
    }
}

fn source(random: &mut Random) -> u32 {
    if random.chance(1, 2) {
        random.pick(&[0xD, 0xF, 0xF])
    } else {
        random.pick(&SOURCES)
    }
}

/// A stage that hands on what it sees, so that other stages show in the end.
fn set_passing(cells: &mut [u32], first: usize) {
    set(&mut cells[first], 0, 28, 0xFFF_0FFF);
    set(&mut cells[first + 1], 0, 24, 0);
    set(&mut cells[first + 2], 0, 20, 0);
    set(&mut cells[first + 4], 0, 18, 0);
}

fn set_stage(random: &mut Random, cells: &mut [u32], first: usize) {
    for low in [0, 4, 8] {
        let (rgb, alpha) = (source(random), source(random));
        set(&mut cells[first], low, 4, rgb);
        set(&mut cells[first], low + 16, 4, alpha);
        let operand = random.pick(&RGB_OPERANDS);
        set(&mut cells[first + 1], low, 4, operand);
        set(&mut cells[first + 1], low + 12, 3, random.below(8));
    }
    let rgb = random.below(10);
    let alpha = match random.below(10) {
        6 | 7 if rgb != 7 => random.pick(&[0, 1, 2, 3, 4, 5, 8, 9]),
        mode => mode,
    };
    set(&mut cells[first + 2], 0, 4, rgb);
    set(&mut cells[first + 2], 16, 4, alpha);
    cells[first + 3] = colour(random);
    set(&mut cells[first + 4], 0, 2, random.pick(&[0, 0, 1, 2]));
    set(&mut cells[first + 4], 16, 2, random.pick(&[0, 0, 1, 2]));
}

/// Garbage in every held cell, then names for all codes that need one.
fn set_named(random: &mut Random, cells: &mut [u32]) {
    for (id, _) in HELD {
        cells[id as usize] = random.word();
    }
    for first in STAGES {
        set_stage(random, cells, first);
        if random.chance(1, 2) {
            set_passing(cells, first);
        }
    }
    set(&mut cells[0xE0], 0, 3, random.pick(&[0, 5, 7]));
    set(&mut cells[0x100], 0, 2, random.pick(&[0, 1, 3]));
    for low in [16, 20, 24, 28] {
        set(&mut cells[0x101], low, 4, random.below(15));
    }
    set(&mut cells[0x116], 0, 2, random.pick(&[0, 2, 3]));
    set(&mut cells[0x117], 0, 2, random.pick(&[0, 2]));
    set(&mut cells[0x117], 16, 3, random.pick(&[0, 2, 3, 4]));
}

fn plant_nameless_in_stage(random: &mut Random, cells: &mut [u32]) {
    let first = random.pick(&STAGES);
    match random.below(6) {
        0 => {
            let low = random.pick(&[0, 4, 8, 16, 20, 24]);
            set(&mut cells[first], low, 4, random.between(7, 0xC));
        }
        1 => {
            let low = random.pick(&[0, 4, 8]);
            let code = random.pick(&[6, 7, 0xA, 0xB, 0xE, 0xF]);
            set(&mut cells[first + 1], low, 4, code);
        }
        2 => set(&mut cells[first + 2], 0, 4, random.between(10, 15)),
        3 => {
            set(&mut cells[first + 2], 16, 4, random.between(10, 15));
            if random.chance(1, 2) {
                set(&mut cells[first + 2], 0, 4, 7);
            }
        }
        4 => {
            set(&mut cells[first + 2], 16, 4, random.between(6, 7));
            set(&mut cells[first + 2], 0, 4, random.pick(&[0, 5, 6, 7, 8]));
        }
        _ => set(&mut cells[first + 4], random.pick(&[0, 16]), 2, 3),
    }
}

fn plant_nameless(random: &mut Random, cells: &mut [u32]) {
    match random.below(10) {
        0 => set(&mut cells[0xE0], 0, 3, random.pick(&[1, 2, 3, 4, 6])),
        1 => set(&mut cells[0x100], 0, 2, 2),
        2 => set(&mut cells[0x101], random.pick(&[16, 20, 24, 28]), 4, 0xF),
        3 => set(&mut cells[0x116], 0, 2, 1),
        4 => set(&mut cells[0x117], 0, 2, random.pick(&[1, 3])),
        5 => set(&mut cells[0x117], 16, 3, random.pick(&[1, 5, 6, 7])),
        _ => plant_nameless_in_stage(random, cells),
    }
}

fn plant_some_nameless(random: &mut Random, cells: &mut [u32]) {
    for _ in 0..random.pick(&[1, 1, 2, 3]) {
        plant_nameless(random, cells);
    }
}

pub fn set_decodable(random: &mut Random, cells: &mut [u32]) {
    match random.below(16) {
        // As earlier cases left it.
        0 => {}
        1..=10 => set_named(random, cells),
        _ => {
            set_named(random, cells);
            plant_some_nameless(random, cells);
        }
    }
}

/// Takes away what isn't built.
fn set_built(random: &mut Random, cells: &mut [u32]) {
    set(&mut cells[0xE0], 0, 3, 0);
    for (low, width) in [(0, 2), (8, 1), (24, 2)] {
        set(&mut cells[0x100], low, width, 0);
    }
    set(&mut cells[0x116], 0, 2, random.pick(&[0, 2, 3, 3, 3]));
    set(&mut cells[0x117], 0, 2, 2);
    set(&mut cells[0x117], 16, 3, 0);
}

/// Tests and masks that let enough through to show the result.
fn set_open(random: &mut Random, cells: &mut [u32]) {
    if random.chance(1, 2) {
        set(&mut cells[0x102], 0, 4, 3);
    }
    if random.chance(1, 2) {
        set(&mut cells[0x107], 8, 4, 0xF);
    }
    for id in [0x112, 0x113] {
        if random.chance(1, 2) {
            set(&mut cells[id], 0, 4, random.pick(&[0, 1, 0xF]));
        }
    }
    set(&mut cells[0x104], 8, 8, byte(random));
    for low in [8, 16, 24] {
        set(&mut cells[0x105], low, 8, byte(random));
    }
    for id in [0x104, 0x105, 0x107] {
        if random.chance(1, 3) {
            set(&mut cells[id], 4, 3, 1);
        }
    }
}

pub fn set_drawable(random: &mut Random, cells: &mut [u32]) {
    set_named(random, cells);
    set_built(random, cells);
    set_open(random, cells);
    match random.below(12) {
        0 => plant_some_nameless(random, cells),
        1 => plant_unbuilt(random, cells),
        2 if random.chance(1, 3) => {
            plant_unbuilt(random, cells);
            plant_some_nameless(random, cells);
        }
        _ => {}
    }
}

fn plant_unbuilt(random: &mut Random, cells: &mut [u32]) {
    for _ in 0..random.pick(&[1, 1, 2]) {
        match random.below(7) {
            0 => set(&mut cells[0xE0], 0, 3, random.pick(&[5, 7])),
            1 => set(&mut cells[0x100], 0, 2, random.pick(&[1, 3])),
            2 => set(&mut cells[0x100], 8, 1, 1),
            3 => set(&mut cells[0x100], 24, 1, 1),
            4 => set(&mut cells[0x100], 25, 1, 1),
            5 => set(&mut cells[0x117], 0, 2, 0),
            _ => set(&mut cells[0x117], 16, 3, random.pick(&[2, 3, 4])),
        }
    }
}

/// A depth, often at a border and now and then above the largest.
fn depth(random: &mut Random, largest: u32) -> u32 {
    match random.below(24) {
        0 => largest + 1,
        1 if random.chance(1, 4) => random.word(),
        2..=7 => random.pick(&[0, 1, largest - 1, largest]),
        _ => random.below(largest + 1),
    }
}

/// What a fragment is given, to suit the state: near the borders of its tests.
pub fn given(random: &mut Random, cells: &[u32]) -> [u32; 11] {
    let mut given = [0; 11];
    for word in &mut given[..7] {
        *word = colour(random);
    }
    let largest = if cells[0x116] & 3 == 0 {
        0xFFFF
    } else {
        0xFF_FFFF
    };
    given[7] = depth(random, largest);
    given[8] = random.word();
    // Only the low byte counts; garbage stands above it.
    given[9] = random.word();
    let stencil = match random.below(4) {
        0 => random.pick(&[0, 255]),
        1 => byte(random),
        _ => (cells[0x105] >> 16).wrapping_add(random.pick(&[0, 1, 255])) & 0xFF,
    };
    set(&mut given[9], 0, 8, stencil);
    given[10] = match random.below(8) {
        0 => given[7],
        1 => given[7].saturating_add(1),
        2 => given[7].saturating_sub(1),
        _ => depth(random, largest),
    };
    given
}
