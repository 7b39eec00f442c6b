//! Whether a session tells what no call may do.

use super::*;
use crate::generate::{fresh_state, next_case, Kind};
use crate::machine::Lent;
use crate::model::{CELLS, FOG_ENTRIES, HELD, LIGHT_ENTRIES, READER};
use crate::random::Random;

/// A session with parts, and its memory.
fn session() -> (Case, Memory) {
    let mut random = Random::new(1, 0);
    let mut memory = Memory::new();
    fresh_state(&mut random, &mut memory);
    loop {
        let case = next_case(&mut random, &mut memory);
        if case.kind == Kind::Pieces && case.lent.len() > FIRST_PART + 1 {
            return (case, memory);
        }
    }
}

fn copy_of(memory: &Memory) -> Memory {
    Memory {
        state: memory.state.clone(),
        spare: memory.spare.clone(),
        lent: memory.lent.clone(),
    }
}

#[test]
fn every_word_is_watched() {
    let (case, mut left) = session();
    let right = copy_of(&left);
    let close = Step::new(Call::Close);
    assert_eq!(word_text(&case, &close, &left, &right), None);
    let lengths = [left.state.len(), left.spare.len(), left.lent.len()];
    for (which, length) in lengths.into_iter().enumerate() {
        for position in 0..length {
            let stray = |memory: &mut Memory| {
                let buffers = [&mut memory.state, &mut memory.spare, &mut memory.lent];
                buffers.into_iter().nth(which).expect("one of three")[position] ^= 1;
            };
            stray(&mut left);
            assert!(word_text(&case, &close, &left, &right).is_some());
            stray(&mut left);
        }
    }
}

/// The bits of a spare state's word that a feed may change.
fn open_bits(position: usize) -> u32 {
    let [fog, light] = [CELLS + 2 * GUARD, CELLS + FOG_ENTRIES + 3 * GUARD];
    if (fog..fog + FOG_ENTRIES).contains(&position)
        || (light..light + LIGHT_ENTRIES).contains(&position)
    {
        return 0xFF_FFFF;
    }
    let held = HELD.iter().find(|(id, _)| *id as usize + GUARD == position);
    held.map_or(0, |(_, bits)| *bits)
}

#[test]
fn a_feed_may_change_held_bits_alone() {
    let (case, mut left) = session();
    let mut right = copy_of(&left);
    let feed = Step::new(Call::Feed(0));
    for position in 0..left.spare.len() {
        let open = open_bits(position);
        for (bits, told) in [(open, false), (!open, open != !0)] {
            left.spare[position] ^= bits;
            adopt(&mut left, &mut right, &case);
            assert_eq!(word_text(&case, &feed, &left, &right).is_some(), told);
            right.spare[position] = left.spare[position];
        }
    }
}

/// A library that answers a feed and refuses each list, as it may where
/// the reader's words came from nowhere.
fn refusing() -> Machine {
    Machine {
        feed: |_, reader, part| answers(reader, part.len() as u32),
        close: |live, spare, reader, _| closed(live, spare, reader, 3),
        ..Machine::model::<NONE>()
    }
}

fn answers(reader: Reader, come: u32) -> u64 {
    reader.words[0] = come;
    u64::from(come)
}

fn closed(from: Lent, mut to: Lent, reader: Reader, number: u64) -> u64 {
    take(NONE, &mut to, &from);
    *reader.words = [0; READER];
    number << 32
}

type Feed = fn(Lent, Reader, &mut [u32]) -> u64;
type Close = fn(Lent, Lent, Reader, &mut [u32; 1]) -> u64;

/// Whether a session that nobody opened shows no difference.
fn passes(library: &Machine) -> bool {
    let (mut case, mut right) = session();
    case.steps = vec![
        Step::new(Call::Feed(0)),
        Step::new(Call::Feed(1)),
        Step::new(Call::Close),
    ];
    let mut left = copy_of(&right);
    let machines = [library, &Machine::model::<NONE>()];
    run(machines, &case, [&mut left, &mut right]).is_ok()
}

#[test]
fn what_no_feed_may_do_is_told() {
    assert!(passes(&refusing()));
    let feeds: [Feed; 7] = [
        |_, reader, _| answers(reader, 65_538),
        |_, reader, _| answers(reader, 5) - 1,
        |_, _, _| 1 << 32,
        |_, _, _| 6 << 32,
        |[cells, ..], reader, _| {
            cells[0x3F] ^= 1;
            answers(reader, 4)
        },
        |[cells, ..], reader, _| {
            cells[0xE6] ^= 0x80;
            answers(reader, 4)
        },
        |[_, fog, _], reader, _| {
            fog[127] ^= 1 << 24;
            answers(reader, 4)
        },
    ];
    for feed in feeds {
        assert!(!passes(&Machine { feed, ..refusing() }));
    }
}

#[test]
fn what_no_close_may_do_is_told() {
    let accepting: Close = |live, spare, reader, differences| {
        differences[0] = 5;
        closed(spare, live, reader, 0)
    };
    let close = accepting;
    assert!(passes(&Machine {
        close,
        ..refusing()
    }));
    let by_length: Close = |live, spare, reader, _| closed(live, spare, reader, 15);
    let close = by_length;
    assert!(passes(&Machine {
        close,
        ..refusing()
    }));
    let closes: [Close; 10] = [
        |live, spare, reader, _| closed(live, spare, reader, 15) | 4,
        |live, spare, reader, _| closed(live, spare, reader, 16),
        |live, spare, reader, _| closed(live, spare, reader, 6),
        |live, spare, reader, _| closed(live, spare, reader, 7),
        // The wrong state takes the other's values, or none does.
        |live, spare, reader, _| closed(live, spare, reader, 0),
        |live, spare, reader, _| closed(spare, live, reader, 2),
        |_, _, reader, _| {
            *reader.words = [0; READER];
            2 << 32
        },
        // The reader isn't fresh.
        |live, mut spare, _, _| {
            take(NONE, &mut spare, &live);
            2 << 32
        },
        // The live state changes beside what it holds.
        |[cells, fog, light], spare, reader, _| {
            light[6143] ^= 1 << 31;
            closed(spare, [cells, fog, light], reader, 0)
        },
        // A refusal gives differences.
        |live, spare, reader, differences| {
            differences[0] ^= 1;
            closed(live, spare, reader, 3)
        },
    ];
    for close in closes {
        assert!(!passes(&Machine {
            close,
            ..refusing()
        }));
    }
}
