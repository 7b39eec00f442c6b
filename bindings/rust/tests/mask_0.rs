//! Writes with mask 0: checked as all others, in a list and in a run, but in no count, among no list's writes, and in no packed list.

use pica::{pack, packed, writes, writes_of, Counts, Refusal, State, Write, RUN_LENGTH_MOST};

const MARK: u32 = 0xDEAD_BEEF;

fn refused(number: u32, place: u32) -> Refusal {
    Refusal { number, place }
}

fn write(id: u32, mask: u32, value: u32) -> Write {
    Write { id, mask, value }
}

/// A state with something in every buffer.
fn marked() -> State {
    let mut state = State::default();
    state.cells_mut().fill(0x5A5A_5A5A);
    state.fog_mut().fill(0xA5A5_A5A5);
    state.light_mut().fill(0x1234_5678);
    state
}

/// Reads a list at once and in pieces of one word, and gives the counts and the state left.
fn read(list: &[u32]) -> (Result<Counts, Refusal>, State) {
    let (mut read, mut live, mut spare) = (marked(), marked(), State::default());
    let answer = read.read(list);
    let mut pieces = live.open(&mut spare);
    for word in list.chunks(1) {
        pieces.feed(word);
    }
    assert_eq!(pieces.close(), answer, "{list:X?}");
    assert_eq!(live, read);
    (answer, read)
}

/// Commands of mask 0 with four words: of ids that are held, that are not, an index and those around the ports.
const DEAD: [[u32; 4]; 6] = [
    [0; 4],
    [9, 0x0020_0041, 8, 7],
    [9, 0x8020_011C, 8, 7],
    [MARK, 0x8010_00E6, MARK, MARK],
    [MARK, 0x7020_01C5, MARK, MARK],
    [MARK, 0xF010_02FE, MARK, MARK],
];

/// Commands of writes, four words each.
const LIVE: [[u32; 4]; 3] = [
    [5, 0x802F_0041, 6, 7],
    [5, 0x001F_00E8, 6, MARK],
    [5, 0x0021_0107, 6, 7],
];

/// At every place of a list commands of mask 0 change neither counts nor writes nor the state.
#[test]
fn at_every_place_of_a_list() {
    let plain = LIVE.concat();
    let (counts, state) = read(&plain);
    assert!(counts.is_ok());
    let run = writes_of(&plain).unwrap();
    assert_eq!(run.len(), 8);
    for dead in DEAD {
        for places in 0..16 {
            let mut list = Vec::new();
            for at in 0..=LIVE.len() {
                if places >> at & 1 == 1 {
                    list.extend(dead);
                }
                list.extend(LIVE.get(at).into_iter().flatten());
            }
            assert_eq!(read(&list), (counts, state.clone()), "{list:X?}");
            assert_eq!(writes_of(&list).unwrap(), run);
            // just so many places are enough
            let [mut ids, mut masks, mut values] = [[MARK; 8]; 3];
            let answer = writes(&list, &mut ids, &mut masks, &mut values);
            assert_eq!(answer, Ok(8));
            let short = writes(&list, &mut ids[1..], &mut masks[1..], &mut values[1..]);
            assert_eq!(short, Err(refused(22, 8)));
        }
    }
    // of mask 0 throughout: no writes, and nothing is done
    let none = Counts::default();
    assert_eq!(read(&DEAD.concat()), (Ok(none), marked()));
    assert_eq!(writes_of(&DEAD.concat()), Ok(vec![]));
    assert_eq!(read(&[0; 65_536]), (Ok(none), marked()));
}

/// With mask 0 an id is refused as with any other mask, and port data always.
#[test]
fn at_fault_in_a_list() {
    let cases = [
        (0x0000_0300, 3),
        (0x8020_02FE, 3),
        (0x0000_FFFF, 3),
        (0x0000_023C, 4),
        (0x0000_023D, 4),
        (0x8020_023B, 4),
        (0x0000_00E8, 5),
        (0x8020_00E7, 5),
        (0x0020_01CF, 5),
    ];
    for (header, number) in cases {
        // the command's words, whether it has one parameter or three: behind the one, a pair of mask 0
        let dead = [7, header, 0, 0];
        for (list, place) in [
            ([dead, LIVE[0]].concat(), 0),
            ([LIVE[0], dead].concat(), 4),
            ([LIVE[0], DEAD[3], dead, LIVE[1]].concat(), 8),
        ] {
            let fault = refused(number, place);
            assert_eq!(read(&list), (Err(fault), marked()), "{list:X?}");
            assert_eq!(writes_of(&list), Err(fault));
        }
    }
}

/// At every place of a run that one command carries, and of one that two do, the packer drops them, and they part nothing.
#[test]
fn at_every_place_of_a_run() {
    let runs = [
        [0x41, 0x42, 0x43, 0x44, 0x45].map(|id| write(id, 15, id)),
        [0x41, 0x41, 0x41, 0x41, 0x41].map(|id| write(id, 3, id)),
        [0x41, 0x41, 0x42, 0x43, 0x47].map(|id| write(id, 15, id)),
        [0xE8; 5].map(|id| write(id, 15, id)),
    ];
    let dead = [
        write(0, 0, 0),
        write(0x41, 0, 9),
        write(0x2FF, 0, 9),
        write(0x1C5, 0, MARK),
    ];
    for run in runs {
        let list = packed(&run).unwrap();
        for dead in dead {
            for places in 0..1 << (run.len() + 1) {
                let mut mixed = Vec::new();
                for at in 0..=run.len() {
                    if places >> at & 1 == 1 {
                        mixed.extend([dead; 2]);
                    }
                    mixed.extend(run.get(at));
                }
                assert_eq!(packed(&mixed).unwrap(), list, "{mixed:X?}");
            }
        }
        assert_eq!(writes_of(&list).unwrap(), run);
    }
}

/// 41 to 43 with a write of mask 0 between two of them: one command of four words.
#[test]
fn neighbours_share_a_command() {
    let run = [
        write(0x41, 15, 1),
        write(0x107, 0, 9),
        write(0x42, 15, 2),
        write(0x43, 15, 3),
    ];
    assert_eq!(packed(&run).unwrap(), [1, 0x802F_0041, 2, 3]);
}

/// A run of mask 0 throughout has the empty list, whatever its length and however little room there is.
#[test]
fn throughout_a_run() {
    for length in [0, 1, 2, 3, 128, 129, RUN_LENGTH_MOST] {
        let zeros = vec![0; length];
        assert_eq!(packed(&vec![Write::default(); length]), Ok(vec![]));
        for room in 0..3 {
            let mut space = vec![MARK; room];
            let ids = vec![0x41; length];
            assert_eq!(pack(&ids, &zeros, &zeros, &mut space), Ok(0));
            assert_eq!(space, vec![MARK; room]);
        }
    }
}

/// They count for 8, also where all that is left would be few.
#[test]
fn among_too_many_writes() {
    let mut run = vec![write(0x41, 0, 0); RUN_LENGTH_MOST];
    run[9] = write(0x41, 15, 7);
    assert_eq!(packed(&run).unwrap(), [7, 0x000F_0041, 0, 0]);
    run.push(write(0x41, 0, 0));
    assert_eq!(packed(&run), Err(refused(8, 0)));
    // 8 before what a write is at fault with
    run[0] = write(0x300, 0, 0);
    assert_eq!(packed(&run), Err(refused(8, 0)));
}

/// The index of a refusal is that in the run as given; and a write with mask 0 is at fault as any other.
#[test]
fn at_fault_in_a_run() {
    let bad = [
        (write(0x41, 16, 0), 9),
        (write(0x300, 16, 0), 9),
        (write(0x300, 0, 0), 3),
        (write(u32::MAX, 15, 0), 3),
        (write(0x23C, 0, 0), 4),
        (write(0x23D, 15, 0), 4),
        (write(0xE8, 0, 0), 5),
        (write(0x1CF, 0, 0), 5),
        (write(0x1C8, 7, 0), 5),
    ];
    for (bad, number) in bad {
        for dead in 0..5 {
            for live in 0..3 {
                let mut run = vec![write(0x41, 0, 0); dead];
                run.extend(vec![write(0x41, 15, 0); live]);
                run.extend([write(0x42, 0, 0), bad, write(0x300, 99, 0)]);
                let place = (dead + live + 1) as u32;
                assert_eq!(packed(&run), Err(refused(number, place)));
            }
        }
    }
}

/// 10 comes by what is left, with the pair; never by what was given.
#[test]
fn without_room() {
    // 41 three times, and what parts them is dropped: four words
    let (ids, masks) = ([0x41, 0x42, 0x41, 0x43, 0x41], [15, 0, 15, 0, 15]);
    let mut space = [MARK; 4];
    let short = pack(&ids, &masks, &[1, 2, 3, 4, 5], &mut space[..3]);
    assert_eq!((short, space), (Err(refused(10, 4)), [MARK; 4]));
    let exact = pack(&ids, &masks, &[1, 2, 3, 4, 5], &mut space);
    assert_eq!((exact, space), (Ok(4), [1, 0x002F_0041, 3, 5]));
    // one write is left: two words and the pair
    for room in 0..4 {
        let answer = pack(&[0x41, 0x42], &[15, 0], &[1, 2], &mut space[..room]);
        assert_eq!(answer, Err(refused(10, 4)));
    }
    assert_eq!(pack(&[0x41, 0x42], &[15, 0], &[1, 2], &mut space), Ok(4));
    assert_eq!(space, [1, 0x000F_0041, 0, 0]);
}

/// Runs at random, long ones too: the list is that of what is left, and says it.
#[test]
fn at_random() {
    let mut seed = 1_u64;
    let mut random = |below: u32| {
        seed = seed.wrapping_mul(6_364_136_223_846_793_005).wrapping_add(1);
        (seed >> 33) as u32 % below
    };
    for round in 0..400 {
        let length = if round % 40 == 0 {
            RUN_LENGTH_MOST as u32
        } else {
            random(300)
        };
        let seldom = 1 + random(20);
        let run: Vec<Write> = (0..length)
            .map(|value| {
                let mask = if random(seldom) == 0 { 0 } else { 15 };
                write(0x40 + random(4), mask, value)
            })
            .collect();
        let kept: Vec<Write> = run.iter().copied().filter(|w| w.mask != 0).collect();
        let list = packed(&run).unwrap();
        assert_eq!(list, packed(&kept).unwrap());
        assert_eq!(list.len() % 4, 0);
        assert_eq!(writes_of(&list).unwrap(), kept);
    }
}
