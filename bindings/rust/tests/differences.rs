//! Whether a write made a difference, and how many of a list's writes did: by hand for each kind of register, and at random against
//! the state before and after.

use pica::names::held_bits;
use pica::{packed, writes_of, Counts, State, Write, CELLS_LENGTH};

/// A state with something in every buffer, beside the bits that count too.
fn marked() -> State {
    let mut state = State::default();
    state.cells_mut().fill(0x5A5A_5A5A);
    state.fog_mut().fill(0xA5A5_A5A5);
    state.light_mut().fill(0x1234_5678);
    state
}

fn write(id: u32, mask: u32, value: u32) -> Write {
    Write { id, mask, value }
}

fn counted(writes: usize, differences: usize) -> Counts {
    Counts {
        writes,
        differences,
    }
}

/// Applies a write, and tells whether it made a difference.
fn differs(state: &mut State, w: Write) -> bool {
    let written = state.write(w.id, w.mask, w.value);
    written
        .unwrap_or_else(|why| panic!("{w:?}: {why}"))
        .made_a_difference
}

fn is_port_data(id: u32) -> bool {
    matches!(id, 0xE8..=0xEF | 0x1C8..=0x1CF)
}

/// The ids that a write may go to.
fn ids() -> impl Iterator<Item = u32> {
    (0..CELLS_LENGTH as u32).filter(|id| !matches!(id, 0x23C | 0x23D))
}

/// The bits of the bytes that a mask names.
fn spread(mask: u32) -> u32 {
    (0..4).map(|k| (mask >> k & 1) * (0xFF << (8 * k))).sum()
}

/// Every register under every mask: turning a bit makes a difference where it is held and its byte is named, and only the first time.
#[test]
fn of_each_bit_of_each_register() {
    let mut state = marked();
    for id in ids().filter(|&id| !is_port_data(id)) {
        let cell = state.cells()[id as usize];
        for mask in 0..16 {
            let counts = held_bits(id) & spread(mask);
            assert!(!differs(&mut state, write(id, mask, cell)), "{id:03X}");
            for bit in (0..32).map(|k| 1 << k) {
                let turned = write(id, mask, cell ^ bit);
                let made = differs(&mut state, turned);
                assert_eq!(made, counts & bit != 0, "{turned:X?}");
                assert_eq!(state.cells()[id as usize], cell ^ counts & bit);
                assert!(!differs(&mut state, turned), "{turned:X?} again");
                assert_eq!(differs(&mut state, write(id, mask, cell)), made);
            }
        }
    }
    assert_eq!(state, marked());
}

#[test]
fn of_values_that_are_equal_in_part() {
    let mut state = State::default();
    // 107 holds 1F71 of two bytes
    assert!(differs(&mut state, write(0x107, 15, 0x1F71)));
    assert!(!differs(&mut state, write(0x107, 15, 0xFFFF_FFFF)));
    assert!(!differs(&mut state, write(0x107, 1, 0x0071)));
    assert!(!differs(&mut state, write(0x107, 12, 0)));
    assert!(!differs(&mut state, write(0x107, 0, 0)));
    assert!(differs(&mut state, write(0x107, 2, 0x0071)));
    assert_eq!(state.cells()[0x107], 0x71);
}

/// Port data always: with a value that the entry holds, into tables that keep nothing, wherever the index stands.
#[test]
fn of_port_data() {
    let mut state = marked();
    for id in 0xE8..=0xEF {
        for _ in 0..128 {
            let index = state.cells()[0xE6] as usize % 128;
            let value = state.fog()[index];
            assert!(differs(&mut state, write(id, 15, value)));
            assert_eq!(state.fog()[index], value);
        }
    }
    for table in 0..32 {
        let index = write(0x1C5, 15, table << 8 | 0xFE);
        for id in 0x1C8..=0x1CF {
            differs(&mut state, index);
            for _ in 0..3 {
                assert!(differs(&mut state, write(id, 15, 0x34_5678)));
            }
            assert!(!differs(&mut state, write(0x1C5, 15, table << 8 | 1)));
        }
    }
    assert_eq!(state, {
        let mut same = marked();
        same.cells_mut()[0x1C5] = state.cells()[0x1C5];
        same
    });
}

/// An index is a register like any other: with its own value it makes no difference.
#[test]
fn of_an_index() {
    let mut state = State::default();
    assert!(!differs(&mut state, write(0xE6, 15, 0x80)));
    assert!(differs(&mut state, write(0xE6, 15, 0x7F)));
    assert!(differs(&mut state, write(0xE8, 15, 0)));
    assert!(!differs(&mut state, write(0xE6, 15, 0)));
    assert!(differs(&mut state, write(0x1C5, 2, 0x1800)));
    assert!(!differs(&mut state, write(0x1C5, 1, 0x1800)));
}

/// Each write is judged on the state left by those before it.
#[test]
fn of_lists() {
    let cases: [(&[u32], Counts); 6] = [
        (&[], counted(0, 0)),
        (&[1, 0x003F_0041, 1, 0, 0, 0, 0, 0], counted(4, 2)),
        (&[0, 0x801F_0041, 0, 0], counted(2, 0)),
        // of mask 0, and so no writes
        (&[0; 8], counted(0, 0)),
        // E6 and E7, then the fog entries 0 and 1: all of them hold 0 already, but the index moves
        (&[0, 0x803F_00E6, 0, 0, 0, 0, 0, 0], counted(4, 2)),
        // 11C isn't held
        (&[1, 0x000F_0041, 1, 0x000F_011C], counted(2, 1)),
    ];
    for (list, counts) in cases {
        assert_eq!(State::default().read(list), Ok(counts), "{list:X?}");
    }
}

/// A list makes no difference again, where it neither has port data nor sets a bit to 0 and to 1.
#[test]
fn of_a_list_that_is_read_again() {
    let again = |list: &[u32]| {
        let mut state = State::default();
        [(); 3].map(|()| state.read(list).unwrap().differences)
    };
    let once = [1, 0x802F_0041, 2, 3, 0xFF, 0x0001_0107, 0, 0];
    assert_eq!(again(&once), [4, 0, 0]);
    assert_eq!(again(&[5, 0x001F_0041, 6, 0]), [2, 2, 2]);
    assert_eq!(again(&[5, 0x001F_0041, 0, 0]), [2, 2, 2]);
    assert_eq!(again(&[0x40, 0x000F_00E6, 5, 0x000F_00E8]), [2, 2, 2]);
    assert_eq!(again(&[5, 0x000F_00E8, 6, 0x000F_0041]), [2, 1, 1]);
}

/// A list's count is the sum over its writes, and each of these differs just where the state does; by pieces it is the same.
#[test]
fn at_random() {
    let mut seed = 1_u64;
    let mut random = |below: u32| {
        seed = seed.wrapping_mul(6_364_136_223_846_793_005).wrapping_add(1);
        (seed >> 33) as u32 % below
    };
    let mut dropped = 0;
    for round in 0..200 {
        let start = if round % 2 == 0 {
            State::default()
        } else {
            marked()
        };
        let run: Vec<Write> = (0..100)
            .map(|_| {
                let id = [
                    0x40 + random(4),
                    0x100 + random(8),
                    0xE6 + random(10),
                    0x1C5 + random(11),
                    random(0x23C),
                ][random(5) as usize];
                let mask = if is_port_data(id) { 15 } else { random(16) };
                write(id, mask, random(3) * 0x0101_0101)
            })
            .collect();
        let list = packed(&run).unwrap();
        let kept: Vec<Write> = run.iter().copied().filter(|w| w.mask != 0).collect();
        assert_eq!(writes_of(&list).unwrap(), kept);

        let (mut one_by_one, mut differences) = (start.clone(), 0);
        for &w in &run {
            let before = one_by_one.clone();
            let differs = differs(&mut one_by_one, w);
            assert_eq!(differs, one_by_one != before, "{w:X?}");
            differences += usize::from(differs);
        }
        assert!(0 < differences && differences < kept.len());
        dropped += run.len() - kept.len();

        let counts = counted(kept.len(), differences);
        let mut read = start.clone();
        assert_eq!(read.read(&list), Ok(counts));
        assert_eq!(read, one_by_one);

        let (mut live, mut spare) = (start, State::default());
        let mut pieces = live.open(&mut spare);
        for part in list.chunks(1 + random(20) as usize) {
            pieces.feed(part);
        }
        assert_eq!(pieces.close(), Ok(counts));
        assert_eq!(live, read);
    }
    // some had mask 0, and are in no count
    assert!(dropped > 0);
}
