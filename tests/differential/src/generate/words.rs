//! Ids, masks and values of writes.

use crate::model::HELD;
use crate::random::Random;

pub const JUMPS: [u32; 2] = [0x23C, 0x23D];

/// An id that fits a header's 16 bits, weighted to what the machine holds and
/// to the borders of its ranges.
pub fn id(random: &mut Random) -> u32 {
    match random.below(32) {
        0..=13 => random.pick(&HELD).0,
        14..=17 => random.between(0xE5, 0xF0),
        18..=21 => random.between(0x1C4, 0x1D0),
        22 => 0xE6,
        23 => 0x1C5,
        24 | 25 => random.between(0x2F8, 0x301),
        26 | 27 => random.between(0x239, 0x23F),
        28 => random.between(0x3E, 0x70),
        29 => random.between(0xBE, 0x119),
        30 => random.below(0x300),
        _ => random.below(0x10000),
    }
}

/// Often F, and now and then 0.
pub fn mask(random: &mut Random) -> u32 {
    match random.below(10) {
        0..=3 => 0xF,
        4 => 0,
        _ => random.below(16),
    }
}

pub fn value(random: &mut Random) -> u32 {
    match random.below(8) {
        0 => random.below(256),
        1 => random.pick(&[0, 0xFFFF_FFFF, 0x7F, 0xFF, 0x1FFF, 0xFF_FFFF]),
        _ => random.word(),
    }
}

pub fn port_data(random: &mut Random) -> u32 {
    let first = random.pick(&[0xE8, 0x1C8]);
    first + random.below(8)
}

/// Id, mask and value; both numbers may have more bits than a header's.
pub fn single_write(random: &mut Random) -> [u32; 3] {
    let mut id = id(random);
    let mut mask = mask(random);
    if random.chance(1, 16) {
        id = match random.below(4) {
            0 => id | 0x1_0000 << random.below(16),
            1 => id | 0x1000,
            2 => random.pick(&[0x300, 0xFFFF, 0x1_0000, 0xFFFF_FFFF]),
            _ => random.word(),
        };
    }
    if random.chance(1, 12) {
        mask = large_mask(random);
    }
    [id, mask, value(random)]
}

/// A mask above 15.
pub fn large_mask(random: &mut Random) -> u32 {
    match random.below(4) {
        0 => 16,
        1 => 0x1F,
        2 => 0x10 << random.below(28),
        _ => random.word() | 0x10,
    }
}
