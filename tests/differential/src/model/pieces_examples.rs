//! Lists in pieces, worked out by hand from the documents, run on the model.

use super::faults::NONE;
use super::*;

const STATE_LENGTHS: [usize; 3] = [CELLS, FOG_ENTRIES, LIGHT_ENTRIES];

/// A reader with the two states that it is lent.
struct Lent {
    live: [Vec<u32>; 3],
    spare: [Vec<u32>; 3],
    words: [u32; READER],
    fed: Fed,
}

impl Lent {
    /// States full of one word each.
    fn new(live: u32, spare: u32) -> Lent {
        Lent {
            live: STATE_LENGTHS.map(|length| vec![live; length]),
            spare: STATE_LENGTHS.map(|length| vec![spare; length]),
            words: [7; READER],
            fed: Fed::default(),
        }
    }

    fn opened() -> Lent {
        let mut lent = Lent::new(0, 0);
        assert_eq!(lent.open(), 0);
        lent
    }

    fn open(&mut self) -> u64 {
        let (words, fed) = (&mut self.words, &mut self.fed);
        let [live, spare] = [&mut self.live, &mut self.spare].map(|state| state.each_mut());
        let reader = Reader { words, fed };
        open(
            NONE,
            live.map(|b| &mut b[..]),
            spare.map(|b| &mut b[..]),
            reader,
        )
    }

    fn feed(&mut self, part: &[u32]) -> u64 {
        let (words, fed) = (&mut self.words, &mut self.fed);
        let spare = self.spare.each_mut().map(|buffer| &mut buffer[..]);
        feed(NONE, spare, Reader { words, fed }, part)
    }

    /// What is answered, and what then stands where the differences go, where 9
    /// stood before.
    fn close(&mut self) -> (u64, u32) {
        let (words, fed) = (&mut self.words, &mut self.fed);
        let [live, spare] = [&mut self.live, &mut self.spare].map(|state| state.each_mut());
        let reader = Reader { words, fed };
        let mut differences = [9];
        let answer = close(
            NONE,
            live.map(|b| &mut b[..]),
            spare.map(|b| &mut b[..]),
            reader,
            &mut differences,
        );
        (answer, differences[0])
    }
}

fn refusal(number: u64, place: u64) -> u64 {
    number << 32 | place
}

#[test]
fn every_cutting_in_three() {
    // Fog entries 127 and 0; a padding word; 107 by a byte; mask 0 for 107 and 108.
    let list = [
        5,
        0x001F_00E8,
        6,
        9,
        0x1F71,
        0x0001_0107,
        7,
        0x8020_0107,
        7,
        7,
        0,
        0,
    ];
    for first in 0..=list.len() {
        for second in first..=list.len() {
            let mut lent = Lent::opened();
            lent.live[0][0xE6] = 127;
            assert_eq!(lent.open(), 0);
            assert_eq!(lent.feed(&list[..first]), first as u64);
            assert_eq!(lent.feed(&list[first..second]), second as u64);
            assert_eq!(lent.feed(&list[second..]), 12);
            assert_eq!(lent.words[0], 12);
            assert_eq!(lent.close(), (3, 3));
            let [cells, fog, _] = &lent.live;
            assert_eq!(
                (fog[127], fog[0], cells[0xE6], cells[0x107]),
                (5, 6, 1, 0x71)
            );
            assert_eq!((lent.words, lent.live), ([0; READER], lent.spare));
        }
    }
}

#[test]
fn opening_takes_held_bits_and_entries() {
    let mut lent = Lent::new(0xFFFF_FFFF, 0);
    assert_eq!(lent.open(), 0);
    let [cells, fog, light] = &lent.spare;
    assert_eq!(
        (cells[0x107], cells[0x1C5], cells[0x3F], cells[0xE8]),
        (0x1F71, 0x1FFF, 0, 0)
    );
    // The entries of table 2 as well, which has no name.
    assert_eq!(
        (fog[0], light[0x200], light[6143]),
        (0xFF_FFFF, 0xFF_FFFF, 0xFF_FFFF)
    );
    assert_eq!(lent.words, [0; READER]);
    assert_eq!(lent.live[0], [0xFFFF_FFFF; CELLS]);
}

#[test]
fn verdicts_with_places_from_the_start() {
    // A good command and a pair stand before each.
    let lists: [(&[u32], u64); 8] = [
        (&[1, 0x802F_02FE, 2, 3], refusal(3, 4)),
        (&[1, 0x801F_023B, 2, 3], refusal(4, 4)),
        (&[1, 0x000E_00E8, 0, 0], refusal(5, 4)),
        (&[1, 0x002F_0041, 2, 3, 1, 0x001F_0041, 0, 0], 6),
        // Words are missing, and 23C was seen.
        (&[1, 0x803F_023B, 2, 3], refusal(2, 4)),
        // The command before the one that lacks words is at fault.
        (&[1, 0x000F_023C, 1, 0x001F_0041], refusal(4, 4)),
        // Mask 0 is checked too.
        (&[1, 0x8010_01C7, 0, 0], refusal(5, 4)),
        (&[1, 0x0000_0300, 0, 0], refusal(3, 4)),
    ];
    let mut lent = Lent::opened();
    for (list, verdict) in lists {
        let start = [0, 0x000F_0040, 7, 0x0000_0040];
        assert_eq!(lent.feed(&start), 4);
        for (word, come) in list.iter().zip(5..) {
            assert_eq!(lent.feed(&[*word]), come);
        }
        let (answer, differences) = lent.close();
        assert_eq!(answer, verdict);
        assert_eq!(differences, if verdict < 1 << 32 { 5 } else { 9 });
        assert_eq!((lent.words, lent.live[0][0x40]), ([0; READER], 0));
    }
    // Without opening again.
    assert_eq!(lent.feed(&[3, 0x000F_0040, 0, 0]), 4);
    assert_eq!(lent.close(), (1, 1));
    assert_eq!((lent.live[0][0x40], lent.spare[0][0x40]), (3, 3));
    assert_eq!(lent.close(), (0, 0));
}

#[test]
fn sixteen_bytes_at_the_close() {
    // Good commands, a jump, and one that lacks words.
    let list = [3, 0x000F_0040, 0, 0, 1, 0x000F_023C, 2, 0x00FF_0040];
    let mut lent = Lent::opened();
    for words in [1, 2, 3, 5, 6, 7] {
        for part in list[..words].chunks(3) {
            lent.feed(part);
        }
        assert_eq!(lent.words[0], words as u32);
        assert_eq!(lent.close(), (refusal(15, 0), 9));
        assert_eq!((lent.words, lent.spare[0][0x40]), ([0; READER], 0));
    }
    assert_eq!(lent.feed(&list), 8);
    assert_eq!(lent.close(), (refusal(4, 4), 9));
    assert_eq!(lent.feed(&list[..4]), 4);
    assert_eq!(lent.close(), (1, 1));
    let zeros = vec![0; 65_538];
    for (words, answer) in [
        (65_534, (refusal(15, 0), 9)),
        (65_536, (0, 0)),
        (65_537, (refusal(1, 0), 9)),
        (65_538, (refusal(1, 0), 9)),
    ] {
        for part in zeros[..words].chunks(40_000) {
            lent.feed(part);
        }
        assert_eq!(lent.close(), answer);
    }
}

#[test]
fn differences_wherever_it_is_cut() {
    // 41 is 1, 1, 2, 2, 1; 107 is written with what it holds, and a word more.
    // Between them 41 and 42 are written with mask 0.
    let list = [
        1,
        0x004F_0041,
        1,
        2,
        2,
        1,
        4,
        0x8020_0041,
        4,
        4,
        0x1F71,
        0x801F_0107,
        5,
        0,
        0,
        0,
    ];
    for cut in 0..=list.len() {
        // Both states are full of other bits.
        let mut lent = Lent::new(0xFFFF_FFFF, 0xAAAA_AAAA);
        assert_eq!(lent.open(), 0);
        for made in [3, 2, 2] {
            assert_eq!(lent.feed(&list[..cut]), cut as u64);
            assert_eq!(lent.feed(&list[cut..]), 16);
            assert_eq!(lent.close(), (7, made));
        }
    }
}

#[test]
fn the_limit_is_the_joined_lists() {
    let good = [0, 0x000F_0000].repeat(32_768);
    let mut lent = Lent::opened();
    assert_eq!(lent.feed(&good), 65_536);
    assert_eq!(lent.close(), (32_768, 0));
    // 1 beats the fault at the start and the command that lacks words.
    for start in [0x000F_0000, 0x000F_023C, 0x0FFF_0000] {
        assert_eq!(lent.feed(&[0, start]), 2);
        assert_eq!(lent.feed(&good[2..]), 65_536);
        assert_eq!(lent.feed(&[0]), 65_537);
        assert_eq!(lent.feed(&good), 65_537);
        assert_eq!(lent.close(), (refusal(1, 0), 9));
    }
}

#[test]
fn a_wrong_length_changes_nothing() {
    for which in 0..3 {
        let mut lent = Lent::opened();
        assert_eq!(lent.feed(&[3]), 1);
        lent.spare[which].pop();
        let words = lent.words;
        let before = [lent.live.clone(), lent.spare.clone()];
        for answer in [lent.open(), lent.feed(&[0x000F_0040])] {
            assert_eq!(answer, refusal(6, 0));
        }
        assert_eq!(lent.close(), (refusal(6, 0), 9));
        assert_eq!(
            ([&lent.live, &lent.spare], lent.words),
            (before.each_ref(), words)
        );
        lent.spare[which].push(0);
        let entry = lent.live[which].pop().unwrap();
        assert_eq!(lent.open(), refusal(6, 0));
        assert_eq!(lent.close(), (refusal(6, 0), 9));
        // A feed isn't lent the live state.
        assert_eq!(lent.feed(&[0x000F_0040, 0, 0]), 4);
        lent.live[which].push(entry);
        assert_eq!(lent.close(), (1, 1));
        assert_eq!(lent.live[0][0x40], 3);
    }
}
