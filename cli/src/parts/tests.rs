//! Cuts, bounds and fillings. The shortest lengths are by hand, or by a search over every way to say a run.

use super::*;

fn run_of(writes: &[Write]) -> Run {
    Run::new(writes).expect("allowed writes")
}

/// Writes of mask F, and of value 0, so that a last parameter looks like filling.
fn writes(ids: impl IntoIterator<Item = u32>) -> Vec<Write> {
    let write = |id| Write {
        id,
        mask: 15,
        value: 0,
    };
    ids.into_iter().map(write).collect()
}

fn run(ids: impl IntoIterator<Item = u32>) -> Run {
    run_of(&writes(ids))
}

/// Each id so many times, and then the next: a command may go on from any write to the one after it.
fn steps(length: u32, times: u32) -> Vec<Write> {
    writes((0..length).map(|k| 0x40 + k / times))
}

fn ends(run: &Run) -> Vec<usize> {
    let parts = run.parts(RUN_LENGTH_MOST);
    parts.iter().map(|part| part.end).collect()
}

/// The bounds, whatever list says the run; the packed list is within them, and says it.
fn bounds(run: &Run) -> (u64, u64) {
    let Ok(Shortest { least, most }) = run.shortest(u64::MAX) else {
        panic!("allowed writes are packed");
    };
    let (list, over) = run.packed().unwrap();
    assert_eq!((list.len() as u64, over), (most, most - least));
    if list.len() <= pica::LIST_LENGTH_MOST {
        let said = Columns::of(pica::writes_of(&list).unwrap().iter());
        assert!((said.ids, said.masks, said.values) == parts_of(run));
    }
    (least, most)
}

fn parts_of(run: &Run) -> (Vec<u32>, Vec<u32>, Vec<u32>) {
    let Columns { ids, masks, values } = &run.kept;
    (ids.clone(), masks.clone(), values.clone())
}

/// The fewest words that say a run of mask F, by a search from its end: each command carries up to 256 writes, to one id or to rising
/// ones, in a first parameter, a header, the others and a padding word where these are odd in number. Then the list is filled.
fn searched(writes: &[Write]) -> u64 {
    let mut fewest = vec![0; writes.len() + 1];
    for start in (0..writes.len()).rev() {
        let carried = |rise: u32| {
            let pairs = writes[start..].windows(2).take(255);
            1 + pairs
                .take_while(|pair| pair[1].id == pair[0].id + rise)
                .count()
        };
        let sizes = 1..=carried(0).max(carried(1));
        let words = sizes.map(|size| (size as u64 + 1).next_multiple_of(2) + fewest[start + size]);
        fewest[start] = words.min().expect("one write at least");
    }
    fewest[0].next_multiple_of(4)
}

#[test]
fn a_short_run_is_one_part_and_exact() {
    assert_eq!(ends(&run([])), [0]);
    assert_eq!(bounds(&run([])), (0, 0));
    assert_eq!(bounds(&run([0x41])), (4, 4)); // two words, and a pair
    assert_eq!(bounds(&run([0x41, 0x41, 0x42])), (8, 8)); // six words, and a pair
    assert_eq!(bounds(&run([0x41, 0x42, 0x43])), (4, 4));
    assert_eq!(ends(&run([0x41; 4096])), [4096]);
}

#[test]
fn a_long_run_is_cut_where_no_command_goes_across() {
    // 2, 2, 2, 4, 4, 4 and so on: a command carries three, so that every third place is a seam that costs nothing
    let threes = |length: u32| run((0..length).map(|k| if k / 3 % 2 == 0 { 2 } else { 4 }));
    assert_eq!(ends(&threes(4098)), [4095, 4098]);
    assert_eq!(bounds(&threes(4098)), (1366 * 4, 1366 * 4));
    // a part more costs nothing
    assert_eq!(ends(&threes(8192)), [4095, 8190, 8192]);
    // far from the limit too: 4,000 writes to 2, and then 4,000 to 4
    let two = run((0..8000).map(|k| if k < 4000 { 2 } else { 4 }));
    assert_eq!(ends(&two), [4000, 8000]);
    let (least, most) = bounds(&two);
    assert_eq!(least, most);
}

/// Two parts, of 8,192 or 8,190 words and of 8 or 6, which say all kinds of lengths modulo 4 together: the list is filled once, and
/// where each part has an odd pair it needs none.
#[test]
fn a_list_of_parts_is_filled_once() {
    for (apart, lone, words) in [
        (4096, 2, 8200),
        (4096, 1, 8200),
        (4095, 2, 8200),
        (4095, 1, 8196),
    ] {
        // to 2 and 4 in turn, two words each; then two to 6 in four words, and again some in two each
        let first = (0..apart).map(|k| if k % 2 == 0 { 2 } else { 4 });
        let second = [6, 6].into_iter().chain([8, 10].into_iter().take(lone));
        let long = writes(first.chain(second));
        let run = run_of(&long);
        assert_eq!(ends(&run)[0], apart);
        assert_eq!(bounds(&run), (words, words));
        assert_eq!(searched(&long), words);
    }
}

/// A last parameter 0 with its padding word is no pair, and a pair is one behind it too.
#[test]
fn only_the_pair_is_taken_off() {
    for (list, words) in [
        (&[][..], 0),
        (&[0, 0x000F_0041, 0, 0], 2),
        (&[0, 0x001F_0041, 0, 0], 4),
        (&[0, 0x000F_0041, 0, 0x001F_0043, 0, 0, 0, 0], 6),
        (&[0, 0x802F_0041, 0, 0], 4),
        (&[0, 0x804F_0041, 0, 0, 0, 0, 0, 0], 6),
    ] {
        assert_eq!(before_filling(list), words, "{list:X?}");
    }
}

/// One id all along. Cut after 4,080 writes, 16 commands of 255 take 256 words each, as they do in one list, and the last 18 writes
/// take 20; cut after 4,096, the first part takes 18 words more and the second 4, which is at most two words too many.
#[test]
fn of_two_ways_to_cut_the_better_bounds_count() {
    assert_eq!(bounds(&run([0x41; 4098])), (16 * 256 + 20, 16 * 256 + 20));
    // each id thirteen times: here the second way is the shorter
    let thirteen = steps(4099, 13);
    assert_eq!(bounds(&run_of(&thirteen)), (4416, 4416));
    assert_eq!(searched(&thirteen), 4416);
    // as many as a list can say, which has them in 256 commands of 256 words: the first way gives the upper bound, the second the lower
    let longest = run([0x41; 65_280]);
    assert_eq!(bounds(&longest), (65_536, 65_536));
}

/// Each id eleven times: before filling either way takes two words too many, which are four when it is filled, and the bounds stay
/// apart, unless the list that says the run is as short as the lower one.
#[test]
fn where_the_cuts_may_cost_there_are_bounds() {
    let eleven = steps(4102, 11);
    let run = run_of(&eleven);
    assert_eq!(bounds(&run), (4476, 4480));
    assert_eq!(searched(&eleven), 4476);
    let (least, most) = (4476, 4476);
    assert_eq!(run.shortest(4476), Ok(Shortest { least, most }));
    // two words too many are none where filling takes them anyway
    let other = steps(4100, 11);
    assert_eq!(bounds(&run_of(&other)), (4476, 4476));
    assert_eq!(searched(&other), 4476);
}

/// What the search finds is always within the bounds.
#[test]
fn the_shortest_is_within_the_bounds() {
    for times in 1..16 {
        for length in [4097, 4098, 4103, 4108] {
            let long = steps(length.min(times * 0x1F0), times);
            let (least, most) = bounds(&run_of(&long));
            let words = searched(&long);
            assert!(least <= words && words <= most, "{length} by {times}");
        }
    }
}

fn dropped(id: u32) -> Write {
    Write {
        id,
        mask: 0,
        value: u32::MAX,
    }
}

/// Before, between and behind the writes, in a command's midst, at a seam, at the limit: the list is that of the run without them.
#[test]
fn writes_with_mask_0_part_nothing_and_count_for_no_cut() {
    for length in [3, 4095, 4096, 4099] {
        let plain = steps(length, 11);
        let bare = run_of(&plain);
        for every in [1, 2, 3, 11, 4096] {
            let mut mixed = vec![dropped(0x2FF)];
            for stretch in plain.chunks(every) {
                mixed.extend(stretch);
                mixed.extend([dropped(0x41), dropped(0)]);
            }
            let run = run_of(&mixed);
            assert_eq!(ends(&run), ends(&bare), "{length}, {every}");
            assert_eq!(bounds(&run), bounds(&bare));
            assert!(run.packed() == bare.packed());
        }
    }
    for length in [1, 4096, 4097, 9000] {
        let nothing = run_of(&vec![dropped(0x41); length]);
        assert_eq!(nothing.packed(), Ok((Vec::new(), 0)));
        assert_eq!(bounds(&nothing), (0, 0));
    }
}

#[test]
fn a_refused_write_is_named_in_the_run_as_given() {
    for (at, id, mask, number) in [
        (0, 0x23C, 15, Refusal::JUMP_REGISTER),
        (4095, 0x300, 0, Refusal::ID_ABOVE_2FF),
        (4096, 0x23D, 0, Refusal::JUMP_REGISTER),
        (4500, 0xE8, 0, Refusal::PORT_MASK),
        (8192, 0x1C8, 7, Refusal::PORT_MASK),
        (8999, 0x41, 16, Refusal::MASK_ABOVE_15),
    ] {
        for between in [writes([0x41])[0], dropped(0x41)] {
            let mut bad = vec![between; 9000];
            bad[at] = Write { id, mask, value: 0 };
            // a later fault isn't told
            bad.push(dropped(0x23C));
            let place = at as u32;
            let refusal = Run::new(&bad).err();
            assert_eq!(refusal, Some(Refusal { number, place }));
        }
    }
}
