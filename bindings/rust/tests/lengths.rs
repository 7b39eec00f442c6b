//! The sixteen-byte rule: a list's words are a multiple of 4, or it is refused with 15, after 1 and before any command; and the packer
//! fills its lists.

use pica::{pack, packed, writes_of, Counts, Refusal, State, Write, RUN_LENGTH_MOST};

const MARK: u32 = 0xDEAD_BEEF;

fn refused(number: u32, place: u32) -> Refusal {
    Refusal { number, place }
}

/// A state with something in every buffer.
fn marked() -> State {
    let mut state = State::default();
    state.cells_mut().fill(0x5A5A_5A5A);
    state.fog_mut().fill(0xA5A5_A5A5);
    state.light_mut().fill(0x1234_5678);
    state
}

/// The answer of all three calls that judge a list: reading it, at once and in pieces, and giving its writes. A refusal leaves the state.
fn judged(list: &[u32]) -> Result<Counts, Refusal> {
    let (mut read, mut live, mut spare) = (marked(), marked(), State::default());
    let answer = read.read(list);
    let mut pieces = live.open(&mut spare);
    for part in list.chunks(1 + list.len() / 3) {
        pieces.feed(part);
    }
    assert_eq!(pieces.close(), answer, "{} words", list.len());
    assert_eq!(live, read);
    assert_eq!(
        writes_of(list).map(|run| run.len()),
        answer.map(|counts| counts.writes)
    );
    if answer.is_err() {
        assert_eq!(read, marked());
    }
    answer
}

/// Lists of one command, of many and of jumps: 15 by the length alone, else what their commands say.
#[test]
fn every_short_length() {
    for length in 0..64_usize {
        // one command of all words, or as many of two words as go
        let mut whole = vec![0; length];
        if length > 1 {
            whole[1] = 0x000F_0041 | (length as u32 - 2) << 20;
        }
        let pairs: Vec<u32> = [0x0F, 0x000F_0041].repeat(32)[..length].to_vec();
        let jumps: Vec<u32> = [0, 0x000F_023C].repeat(32)[..length].to_vec();
        if length % 4 != 0 {
            for list in [&whole, &pairs, &jumps] {
                assert_eq!(judged(list), Err(refused(15, 0)), "{length} words");
            }
            continue;
        }
        let writes = |list: &[u32]| judged(list).unwrap().writes;
        assert_eq!(writes(&whole), length.saturating_sub(1));
        assert_eq!(writes(&pairs), length / 2);
        if length > 0 {
            assert_eq!(judged(&jumps), Err(refused(4, 0)));
        }
    }
}

/// A pair 0 0 behind words that are even in number makes the length legal, and adds nothing.
#[test]
fn a_pair_fills_a_list() {
    for pairs in 0..8 {
        let list = [0x0F, 0x000F_0041].repeat(2 * pairs + 1);
        assert_eq!(judged(&list), Err(refused(15, 0)));
        let filled = [&list[..], &[0, 0]].concat();
        let counts = Counts {
            writes: 2 * pairs + 1,
            differences: 1,
        };
        assert_eq!(judged(&filled), Ok(counts));
        // further commands of mask 0 behind it add nothing either
        let twice = [&filled[..], &[0; 4]].concat();
        assert_eq!(judged(&twice), Ok(counts));
    }
}

#[test]
fn around_the_greatest_length() {
    for (length, number) in [
        (65_532, 4),
        (65_533, 15),
        (65_534, 15),
        (65_535, 15),
        (65_536, 4),
        (65_537, 1),
        (65_538, 1),
        (65_539, 1),
        (65_540, 1),
    ] {
        // behind the first command everything is at fault
        let mut list = [0, 0x000F_023C].repeat(32_770);
        list.truncate(length);
        assert_eq!(judged(&list), Err(refused(number, 0)), "{length} words");
    }
}

/// Runs that need every number of words before they are filled: each has a list of legal length, at most one pair longer, and just as
/// much room is enough.
#[test]
fn packed_lists_are_filled() {
    let lone = |k: u32| Write {
        id: 0x40 + 2 * (k % 2),
        mask: 15,
        value: k,
    };
    for writes in 0..70 {
        // ids that neither stay nor rise by one: two words each
        let run: Vec<Write> = (0..writes).map(lone).collect();
        assert_filled(&run, 2 * run.len());
        // one id: a header, the parameters, and a padding word where they are even in number
        let equal: Vec<Write> = run.iter().map(|w| Write { id: 0x41, ..*w }).collect();
        let words = if writes == 0 {
            0
        } else {
            run.len() / 2 * 2 + 2
        };
        assert_filled(&equal, words);
    }
}

/// The list for the run: these words, and a pair where they are no multiple of 4.
fn assert_filled(run: &[Write], words: usize) {
    let needed = words.next_multiple_of(4);
    let list = packed(run).unwrap();
    assert_eq!(list.len(), needed);
    assert!(needed <= 2 * run.len() + 2);
    if needed > words {
        assert_eq!(list[words..], [0, 0]);
    }
    assert_eq!(writes_of(&list).unwrap(), run);

    let part = |of: fn(&Write) -> u32| -> Vec<u32> { run.iter().map(of).collect() };
    let (ids, masks, values) = (part(|w| w.id), part(|w| w.mask), part(|w| w.value));
    for room in 0..needed + 3 {
        let mut space = vec![MARK; room];
        let answer = pack(&ids, &masks, &values, &mut space);
        if room < needed {
            assert_eq!(answer, Err(refused(10, needed as u32)));
            assert_eq!(space, vec![MARK; room]);
        } else {
            assert_eq!(answer, Ok(needed));
            assert_eq!(space[..needed], list);
            assert_eq!(space[needed..], vec![MARK; room - needed]);
        }
    }
}

/// The longest lists: two words a write, and the pair where the writes are odd in number.
#[test]
fn the_bound() {
    for (writes, words) in [
        (1, 4),
        (3, 8),
        (RUN_LENGTH_MOST - 1, 2 * RUN_LENGTH_MOST),
        (RUN_LENGTH_MOST, 2 * RUN_LENGTH_MOST),
    ] {
        let write = |k| Write {
            id: 0x40 + k % 2 * 2,
            mask: 15,
            value: k,
        };
        let run: Vec<Write> = (0..writes as u32).map(write).collect();
        let list = packed(&run).unwrap();
        assert_eq!(list.len(), words);
        assert_eq!(writes_of(&list).unwrap(), run);
    }
}

/// What is advised for 8: the lists of a run's parts, joined, are a list that says the run, with at most four words more a seam.
#[test]
fn lists_of_parts_are_joined() {
    let mut seed = 1_u64;
    let mut random = |below: u32| {
        seed = seed.wrapping_mul(6_364_136_223_846_793_005).wrapping_add(1);
        (seed >> 33) as u32 % below
    };
    let mut is_met = false;
    for _ in 0..20_000 {
        let run: Vec<Write> = (0..2 + random(9))
            .map(|value| Write {
                id: 0x41 + random(3),
                mask: 15 - random(2),
                value,
            })
            .collect();
        let shortest = packed(&run).unwrap().len();
        let length = 1 + random(run.len() as u32) as usize;
        let parts = run.chunks(length);
        let seams = parts.len() - 1;
        let joined: Vec<u32> = parts.flat_map(|part| packed(part).unwrap()).collect();
        assert_eq!(writes_of(&joined).unwrap(), run);
        assert!(shortest <= joined.len() && joined.len() <= shortest + 4 * seams);
        is_met |= seams > 1 && joined.len() == shortest + 4 * seams;
    }
    assert!(is_met);
}
