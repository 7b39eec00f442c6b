//! The writes of a list through the crate's face: the scope paper's examples, each refusal and their order, and that a refused
//! call changes nothing.

use pica::{packed, writes, writes_of, Counts, Refusal, State, Write, LIST_LENGTH_MOST};

const MARK: u32 = 0xDEAD_BEEF;

fn refused(number: u32, place: u32) -> Refusal {
    Refusal { number, place }
}

fn write(id: u32, mask: u32, value: u32) -> Write {
    Write { id, mask, value }
}

/// The answer for marked buffers of these lengths, and what they hold then.
fn put(list: &[u32], lengths: [usize; 3]) -> (Result<usize, Refusal>, [Vec<u32>; 3]) {
    let [mut ids, mut masks, mut values] = lengths.map(|length| vec![MARK; length]);
    let answer = writes(list, &mut ids, &mut masks, &mut values);
    (answer, [ids, masks, values])
}

fn assert_refused(list: &[u32], lengths: [usize; 3], number: u32, place: u32) {
    let (answer, left) = put(list, lengths);
    assert_eq!(answer, Err(refused(number, place)));
    assert_eq!(left, lengths.map(|length| vec![MARK; length]));
}

#[test]
fn of_rising_and_of_equal_ids() {
    let rising = [0xAAAA_AAAA, 0x802F_011C, 0xBBBB_BBBB, 0xCCCC_CCCC];
    let three = [
        write(0x11C, 15, 0xAAAA_AAAA),
        write(0x11D, 15, 0xBBBB_BBBB),
        write(0x11E, 15, 0xCCCC_CCCC),
    ];
    assert_eq!(writes_of(&rising).unwrap(), three);
    // the padding word, any of them, is no write; nor does the next command's mask reach back
    let equal = [1, 0x7013_0041, 2, MARK, 3, 0x000F_0042, 0, 0];
    let three = [write(0x41, 3, 1), write(0x41, 3, 2), write(0x42, 15, 3)];
    assert_eq!(writes_of(&equal).unwrap(), three);
}

#[test]
fn of_no_words_and_of_zeros() {
    assert_eq!(writes_of(&[]), Ok(vec![]));
    assert_eq!(writes(&[], &mut [], &mut [], &mut []), Ok(0));
    // zeros are commands of mask 0, and no place is needed for them
    assert_eq!(writes_of(&[0; 8]), Ok(vec![]));
    assert_eq!(writes(&[0; 8], &mut [], &mut [], &mut []), Ok(0));
}

#[test]
fn room_to_spare_is_kept_and_exact_room_is_enough() {
    let list = [1, 0x801F_0041, 2, 0];
    for spare in [0, 1, 5] {
        let (answer, [ids, masks, values]) = put(&list, [2 + spare; 3]);
        assert_eq!(answer, Ok(2));
        for (buffer, put) in [(ids, [0x41, 0x42]), (masks, [15; 2]), (values, [1, 2])] {
            assert_eq!(buffer[..2], put);
            assert_eq!(buffer[2..], vec![MARK; spare]);
        }
    }
}

#[test]
fn refusals_of_the_list() {
    let room = [LIST_LENGTH_MOST; 3];
    assert_refused(&vec![0; LIST_LENGTH_MOST + 4], room, 1, 0);
    assert_refused(&[7, 0x000F_0041, 7], room, 15, 0);
    assert_refused(&[7, 0x000F_0041, 1, 0x002F_0041], room, 2, 2);
    for (header, number) in [(0x000F_0300, 3), (0x000F_023C, 4), (0x0007_01C8, 5)] {
        assert_refused(&[7, 0x000F_0041, 0, header], room, number, 2);
    }
    // the first write at fault decides, however deep it is: 1C8 with mask 3 before 23C
    let mut deep = vec![0; 204];
    deep[1] = 0x8C83_01C0;
    assert_refused(&deep, room, 5, 0);
}

#[test]
fn refusals_of_the_buffers() {
    let list = [1, 0x802F_0041, 2, 3];
    for lengths in [[2, 3, 3], [3, 4, 3], [3, 3, 0]] {
        assert_refused(&list, lengths, 7, 0);
    }
    for short in 0..3 {
        assert_refused(&list, [short; 3], 22, 3);
    }
    let text = "refusal 22: fewer places than writes, 3 places needed";
    assert_eq!(put(&list, [0; 3]).0.unwrap_err().to_string(), text);
}

#[test]
fn refusals_in_their_order() {
    let long = vec![0; LIST_LENGTH_MOST + 2];
    let odd = [0, 0x000F_023C];
    let cut = [7, 0x000F_0041, 1, 0x003F_0041];
    let jump = [7, 0x000F_0041, 0, 0x000F_023C];
    for list in [&long[..], &odd, &cut, &jump] {
        assert_refused(list, [1, 0, 0], 7, 0);
    }
    assert_refused(&long, [0; 3], 1, 0);
    assert_refused(&odd, [0; 3], 15, 0);
    assert_refused(&cut, [0; 3], 2, 2);
    assert_refused(&jump, [0; 3], 4, 2);
}

/// The longest list has the most writes: whole commands of 256, and one of the words left.
#[test]
fn the_most_writes() {
    let mut list = vec![0; LIST_LENGTH_MOST];
    let whole = LIST_LENGTH_MOST / 258;
    for command in 0..whole {
        list[258 * command + 1] = 0x0FFF_0041;
    }
    list[258 * whole + 1] = 0x002F_0041;
    let run = writes_of(&list).unwrap();
    assert_eq!(run.len(), 256 * whole + 3);
    assert!(run.iter().all(|w| (w.id, w.mask) == (0x41, 15)));
    assert_refused(&list, [run.len() - 1; 3], 22, run.len() as u32);
}

/// Writes are packed and come back, and are what reading the list applies.
#[test]
fn there_and_back() {
    let run: Vec<Write> = (0..600)
        .map(|k| write(0x40 + k / 3 % 40, [15, 3][(k / 7 % 2) as usize], k))
        .collect();
    let list = packed(&run).unwrap();
    assert_eq!(writes_of(&list).unwrap(), run);
    let (mut read, mut written) = (State::default(), State::default());
    let mut differences = 0;
    for w in &run {
        let one = written.write(w.id, w.mask, w.value).unwrap();
        differences += usize::from(one.made_a_difference);
    }
    let writes = run.len();
    assert_eq!(
        read.read(&list),
        Ok(Counts {
            writes,
            differences
        })
    );
    assert_eq!(read, written);
}
