//! Lists in pieces: by every cutting the answer and the state are those of reading the joined list.

use std::{fs, path::Path};

use pica::{Counts, Refusal, State, LIST_LENGTH_MOST};

/// A state with something in every buffer, beside the bits that count too.
fn marked() -> State {
    let mut state = State::default();
    state.cells_mut().fill(0x5A5A_5A5A);
    state.fog_mut().fill(0xA5A5_A5A5);
    state.light_mut().fill(0x1234_5678);
    state
}

/// Feeds the parts to a marked state, and holds what comes of it against reading them joined.
fn assert_read(parts: &[&[u32]]) {
    let list = parts.concat();
    let (mut read, mut live, mut spare) = (marked(), marked(), State::default());
    let expected = read.read(&list);
    let mut pieces = live.open(&mut spare);
    let mut come = 0;
    for part in parts {
        come += part.len();
        assert_eq!(pieces.feed(part), come.min(LIST_LENGTH_MOST + 1));
    }
    assert_eq!(pieces.close(), expected, "{} parts", parts.len());
    assert_eq!(live, read);
}

/// Short lists, of every verdict but 1.
const LISTS: [&[u32]; 16] = [
    &[],
    &[2, 0x000F_0040, 1, 0x801F_0041, 2, 0, 7, 0x0003_0107],
    &[0x7F, 0x000F_00E6, 1, 0x002F_00E8, 2, 3, 9, 0x000F_0041],
    &[5, 0x000F_0041, 6, 0x005F_0041, 7, 8, 9, 10],
    &[5, 0x000F_0041, 6, 0x801F_02FF, 7, 0, 8, 0x000F_0042],
    &[5, 0x000F_0041, 6, 0x801F_023B, 7, 0, 8, 0x000F_0042],
    &[5, 0x000F_0041, 6, 0x8027_00E7, 7, 8, 9, 0x000F_0042],
    // its second write is at fault, and its words are not all there: 2
    &[5, 0x000F_0041, 6, 0x805F_023B, 7, 8, 9, 10],
    // mask 0, between writes and behind them: no writes of the list
    &[5, 0x000F_0041, 6, 0x8010_01C5, 7, 0, 8, 0x000F_0042],
    &[5, 0x801F_0041, 6, 0, 9, 0x0000_0107, 0, 0],
    // mask 0, and its second write is at fault
    &[5, 0x000F_0041, 6, 0x8010_023B, 7, 0, 8, 0x000F_0042],
    // words that are no multiple of 4, before any other fault
    &[5],
    &[5, 0x000F_0041],
    &[5, 0x000F_0041, 6],
    &[0, 0x000F_023C, 6, 0x000F_0300, 7],
    &[0, 0x000F_023C, 6, 0x8027_00E7, 7, 8],
];

#[test]
fn every_cutting_of_short_lists() {
    for list in LISTS {
        for cuts in 0..1 << list.len().saturating_sub(1) {
            let mut parts = Vec::new();
            let mut from = 0;
            for at in 1..list.len() {
                if cuts >> (at - 1) & 1 == 1 {
                    parts.push(&list[from..at]);
                    from = at;
                }
            }
            parts.push(&list[from..]);
            assert_read(&parts);
        }
    }
}

#[test]
fn empty_parts_count_for_nothing() {
    for list in LISTS {
        let empty: &[u32] = &[];
        let parts: Vec<&[u32]> = list
            .chunks(1)
            .flat_map(|word| [empty, word, empty])
            .collect();
        assert_read(&parts);
    }
}

#[test]
fn captures_by_parts_of_one_length() {
    let folder = Path::new(env!("CARGO_MANIFEST_DIR")).join("../../examples/captures");
    for entry in fs::read_dir(folder).unwrap() {
        let bytes = fs::read(entry.unwrap().path()).unwrap();
        let word = |four: &[u8]| u32::from_le_bytes([four[0], four[1], four[2], four[3]]);
        let list: Vec<u32> = bytes.chunks_exact(4).map(word).collect();
        for length in [1, 2, 3, 7, 64, 4_096, list.len()] {
            assert_read(&list.chunks(length).collect::<Vec<_>>());
        }
    }
}

fn refused(number: u32, place: u32) -> Result<Counts, Refusal> {
    Err(Refusal { number, place })
}

fn counted(writes: usize, differences: usize) -> Result<Counts, Refusal> {
    Ok(Counts {
        writes,
        differences,
    })
}

/// The next list, without another opening: it sets 41.
fn assert_next_list(pieces: &mut pica::Pieces, value: u32) {
    assert_eq!(pieces.feed(&[value]), 1);
    assert_eq!(pieces.feed(&[0x000F_0041, 0, 0]), 4);
    assert_eq!(pieces.close(), counted(1, 1));
    assert_eq!(pieces.live().cells()[0x41] & 0xFF_FFFF, value);
}

#[test]
fn a_refusal_leaves_the_live_state_and_the_next_list_can_be_fed() {
    for (list, number, place) in [
        (LISTS[3], 2, 2),
        (LISTS[4], 3, 2),
        (LISTS[5], 4, 2),
        (LISTS[6], 5, 2),
        (LISTS[10], 4, 2),
        (LISTS[12], 15, 0),
        (LISTS[15], 15, 0),
    ] {
        let (mut live, mut spare) = (marked(), State::default());
        let mut pieces = live.open(&mut spare);
        pieces.feed(list);
        assert_eq!(pieces.close(), refused(number, place));
        assert_eq!(*pieces.live(), marked());
        // what the refused list wrote is gone from the spare, which the empty list's close hands to the live state
        assert_eq!(pieces.close(), counted(0, 0));
        assert_eq!(*pieces.live(), marked());
        assert_next_list(&mut pieces, 9);
    }
}

#[test]
fn one_list_after_another() {
    let (mut live, mut spare, mut read) = (marked(), State::default(), marked());
    let mut pieces = live.open(&mut spare);
    for list in LISTS {
        for part in list.chunks(3) {
            pieces.feed(part);
        }
        assert_eq!(pieces.close(), read.read(list));
        assert_eq!(*pieces.live(), read);
    }
}

#[test]
fn the_limit_is_on_the_joined_length() {
    let jump = [0, 0x000F_023C];
    let (mut live, mut spare) = (marked(), marked());
    let mut pieces = live.open(&mut spare);
    assert_eq!(pieces.feed(&vec![0; LIST_LENGTH_MOST - 2]), 65_534);
    assert_eq!(pieces.feed(&[9, 0x000F_0041]), 65_536);
    assert_eq!(pieces.close(), counted(1, 1)); // zeros are of mask 0
                                               // a fault that came early is told as long as the list isn't too long, and not beyond
    pieces.feed(&jump);
    assert_eq!(pieces.feed(&vec![0; LIST_LENGTH_MOST - 2]), 65_536);
    assert_eq!(pieces.close(), refused(4, 0));
    pieces.feed(&jump);
    pieces.feed(&vec![0; LIST_LENGTH_MOST - 2]);
    assert_eq!(pieces.feed(&[0]), 65_537);
    assert_eq!(pieces.feed(&[0; 5]), 65_537);
    assert_eq!(pieces.feed(&[]), 65_537);
    assert_eq!(pieces.close(), refused(1, 0));
    assert_next_list(&mut pieces, 3);
}

/// 15 is told by the words of all parts, after 1 and before any command.
#[test]
fn a_joined_length_that_is_no_multiple_of_4() {
    let (mut live, mut spare) = (marked(), marked());
    let mut pieces = live.open(&mut spare);
    for (length, close) in [
        (65_532, counted(1, 1)),
        (65_533, refused(15, 0)),
        (65_534, refused(15, 0)),
        (65_535, refused(15, 0)),
        (65_536, counted(1, 1)),
        (65_537, refused(1, 0)),
        (65_538, refused(1, 0)),
        (65_540, refused(1, 0)),
    ] {
        let value = length as u32;
        assert_eq!(pieces.feed(&[value, 0x000F_0041]), 2);
        pieces.feed(&vec![0; length - 2]);
        assert_eq!(pieces.close(), close, "{length} words");
        if close.is_ok() {
            assert_eq!(pieces.live().cells()[0x41] & 0xFF_FFFF, value);
        }
    }
    // what was refused has left nothing
    assert_eq!(pieces.close(), counted(0, 0));
    assert_eq!(live.cells()[0x41] & 0xFF_FFFF, 65_536);
}

#[test]
fn dropped_without_a_close() {
    let (mut live, mut spare) = (marked(), marked());
    let _ = live.open(&mut spare).feed(&[9, 0x000F_0041]);
    assert_eq!(live, marked());
    assert_ne!(spare, marked());
    assert_eq!(live.open(&mut spare).close(), counted(0, 0));
    assert_eq!(live, marked());
}

/// What doesn't count of the spare state never changes, nor is it taken.
#[test]
fn bits_that_do_not_count_stay() {
    let (mut live, mut spare) = (State::default(), marked());
    let mut pieces = live.open(&mut spare);
    pieces.feed(LISTS[2]);
    assert_eq!(pieces.close(), counted(5, 5));
    let mut read = State::default();
    read.read(LISTS[2]).unwrap();
    assert_eq!(live, read);
    assert_eq!(
        (spare.cells()[0], spare.cells()[0x40]),
        (0x5A5A_5A5A, 0x5A5A_5A58)
    );
    assert_eq!(
        (spare.fog()[127], spare.fog()[9]),
        (0xA500_0001, 0xA500_0000)
    );
    assert_eq!(spare.light()[9], 0x1200_0000);
}
