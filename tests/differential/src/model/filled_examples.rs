//! Lists of legal and of illegal length, writes with mask 0 and packing: the
//! documents' examples and others worked out by hand, run on the model.

use super::examples::{listed, refusal, State};
use super::faults::NONE;
use super::*;

#[test]
fn sixteen_bytes() {
    let mut state = State::zero();
    // Also where the commands are at fault, or lack words.
    let list = [1, 0x000F_023C, 3, 0x000F_0040, 1, 0x0FFF_0041];
    for words in [1, 2, 3, 5, 6] {
        assert_eq!(state.read(&list[..words]), (refusal(15, 0), 9));
        assert_eq!(listed(&list[..words], [0; 3]).0, refusal(15, 0));
    }
    assert_eq!(state.read(&list[2..]), (refusal(2, 2), 9));
    // Pairs of zeros are commands without a write in the expansion.
    let zeros = vec![0; 65_540];
    for (words, answer) in [
        (65_532, (0, 0)),
        (65_534, (refusal(15, 0), 9)),
        (65_535, (refusal(15, 0), 9)),
        (65_536, (0, 0)),
        (65_537, (refusal(1, 0), 9)),
        (65_538, (refusal(1, 0), 9)),
        (65_540, (refusal(1, 0), 9)),
    ] {
        assert_eq!(state.read(&zeros[..words]), answer);
        assert_eq!(listed(&zeros[..words], [0; 3]).0, answer.0);
    }
    state.light.pop();
    assert_eq!(state.read(&list[..2]), (refusal(6, 0), 9));
}

#[test]
fn commands_with_mask_0() {
    let mut state = State::zero();
    // Before, between and after the others; rising, long, with padding.
    let list = [
        vec![7, 0x8020_0040, 7, 7],
        vec![3, 0x000F_0040, 7, 0x0010_0041, 7, 7],
        vec![5, 0x801F_0041, 6, 7, 0, 0],
    ]
    .concat();
    assert_eq!(state.read(&list), (3, 3));
    assert_eq!(state.read(&list), (3, 0));
    assert_eq!(state.cells[0x40..0x43], [3, 5, 6]);
    let places = vec![vec![0x40, 0x41, 0x42], vec![15; 3], vec![3, 5, 6]];
    assert_eq!(listed(&list, [3; 3]), (3, places.try_into().unwrap()));
    assert_eq!(listed(&list, [2; 3]).0, refusal(22, 3));
    // They are checked all the same.
    for (header, number) in [
        (0x0000_0300, 3),
        (0x8010_02FF, 3),
        (0x0000_023D, 4),
        (0x8010_023B, 4),
        (0x0000_00EF, 5),
        (0x8010_01C7, 5),
    ] {
        let list = [3, 0x000F_0040, 0, 0, 1, header, 2, 3];
        assert_eq!(state.read(&list), (refusal(number, 4), 9));
        assert_eq!(listed(&list, [3; 3]).0, refusal(number, 4));
    }
    // A single one makes no difference.
    assert_eq!(state.write(0x40, 0, 1), 0);
    assert_eq!(state.write(0xE8, 0, 1), refusal(5, 0));
}

/// The list of writes with these ids and masks and values from 1 on, in two words
/// a write and two more.
fn packed_with(ids: &[u32], masks: &[u32]) -> Vec<u32> {
    let values: Vec<u32> = (1..=ids.len() as u32).collect();
    let mut space = vec![9; 2 * ids.len() + 2];
    let words = pack::<NONE>(ids, masks, &values, &mut space);
    space.truncate(words as usize);
    space
}

fn packed(ids: &[u32]) -> Vec<u32> {
    packed_with(ids, &vec![0xF; ids.len()])
}

#[test]
fn packing() {
    let list = [1, 0x000F_0041, 2, 0x802F_0041, 3, 4, 0, 0];
    assert_eq!(packed(&[0x41, 0x41, 0x42, 0x43]), list);
    let list = [1, 0x001F_0041, 2, 0, 3, 0x000F_0042, 0, 0];
    assert_eq!(packed(&[0x41, 0x41, 0x42]), list);
    assert_eq!(packed(&[0x41, 0x42]), [1, 0x801F_0041, 2, 0]);
    assert_eq!(packed(&[0x41; 256]).len(), 260);
    assert_eq!(packed(&[0x41; 257]).len(), 260);
    assert!(packed(&[]).is_empty());
}

#[test]
fn packing_drops_mask_0() {
    // 41, 42 and 43 go together; the dropped writes don't part them.
    let ids = [0x50, 0x41, 0x41, 0x42, 0x50, 0x43, 0x44];
    let list = [2, 0x802F_0041, 4, 6];
    assert_eq!(packed_with(&ids, &[0, 15, 0, 15, 0, 15, 0]), list);
    assert!(packed_with(&ids, &[0; 7]).is_empty());
    // The index is the one in the run as it is given.
    let refused = |ids: &[u32], masks: &[u32]| {
        let values = vec![1; ids.len()];
        pack::<NONE>(ids, masks, &values, &mut [])
    };
    assert_eq!(refused(&ids, &[0, 15, 0, 15, 0, 16, 0]), refusal(9, 5));
    assert_eq!(refused(&[0x41, 0x41, 0x23C], &[0, 0, 15]), refusal(4, 2));
    assert_eq!(refused(&[0x41, 0x41, 0xE8], &[0, 15, 0]), refusal(5, 2));
    // 8 counts every write, and 10 has the pair.
    assert_eq!(refused(&[0x41; 4097], &[0; 4097]), refusal(8, 0));
    assert_eq!(refused(&[0x41; 4096], &[0; 4096]), 0);
    assert_eq!(refused(&[0x41], &[15]), refusal(10, 4));
}
