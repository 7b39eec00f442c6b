//! The scope paper's examples, through the crate's face.

use pica::{packed, Colour, Counts, Given, Outcome, Refusal, State, Stored, Verdict, Write};

fn refused(number: u32, place: u32) -> Refusal {
    Refusal { number, place }
}

fn counted(writes: usize, differences: usize) -> Result<Counts, Refusal> {
    Ok(Counts {
        writes,
        differences,
    })
}

/// Writes with mask Fh and the values 1, 2, 3 ..
fn run(ids: &[u32]) -> Vec<Write> {
    let write = |(id, value)| Write {
        id,
        mask: 15,
        value,
    };
    ids.iter().copied().zip(1..).map(write).collect()
}

fn grey(x: u8) -> Colour {
    Colour {
        red: x,
        green: x,
        blue: x,
        alpha: x,
    }
}

/// A state whose fragments pass every test and whose colour is what stage 0 makes of its registers.
fn drawable(source: u32, combiner: u32) -> State {
    let mut state = State::default();
    let mut set = |id, value| {
        state.write(id, 15, value).unwrap();
    };
    set(0xC0, source);
    set(0xC2, combiner);
    for stage in [0xC8, 0xD0, 0xD8, 0xF0, 0xF8] {
        set(stage, 0x000F_000F);
    }
    set(0x102, 3);
    set(0x107, 0x0F00);
    set(0x113, 15);
    set(0x115, 3);
    set(0x116, 3);
    set(0x117, 2);
    state
}

fn drawn(state: &State, given: &Given, stencil: u8) -> Outcome {
    let stored = Stored {
        stencil,
        ..Stored::default()
    };
    state.fragment(given, 0, stored).unwrap()
}

#[test]
fn three_writes_to_registers_that_are_not_held() {
    let mut state = State::default();
    let list = [0xAAAA_AAAA, 0x802F_011C, 0xBBBB_BBBB, 0xCCCC_CCCC];
    assert_eq!(state.read(&list), counted(3, 0));
    assert_eq!(state, State::default());
}

#[test]
fn a_mask_picks_bytes() {
    for (mask, left) in [(1, 0x71), (2, 0x1F00)] {
        let mut state = State::default();
        assert!(state.write(0x107, mask, 0x1F71).unwrap().made_a_difference);
        assert_eq!(state.cells()[0x107], left);
    }
}

#[test]
fn rising_ids_end_at_2ff_and_meet_the_jump_registers() {
    let mut state = State::default();
    assert_eq!(state.read(&[0, 0x801F_02FE, 0, 0]), counted(2, 0));
    assert_eq!(state.read(&[0, 0x802F_02FE, 0, 0]), Err(refused(3, 0)));
    assert_eq!(state.read(&[0, 0x801F_023B, 0, 0]), Err(refused(4, 0)));
}

#[test]
fn the_fog_index_goes_from_127_to_0() {
    let mut state = State::default();
    state.write(0xE6, 15, 127).unwrap();
    assert_eq!(state.read(&[0x11, 0x001F_00E8, 0x22, 0]), counted(2, 2));
    assert_eq!((state.fog()[127], state.fog()[0]), (0x11, 0x22));
    assert_eq!(state.cells()[0xE6], 1);
}

#[test]
fn ten_bit_fields_are_signed() {
    for (bits, number) in [(0x3FF, -1), (0x200, -512), (0x1FF, 511)] {
        let mut state = State::default();
        state.write(0x68, 15, bits | bits << 16).unwrap();
        let xy = state.decode().unwrap().rasteriser.viewport.xy;
        assert_eq!((xy.x, xy.y), (number, number));
    }
}

#[test]
fn stencil_operations_under_the_buffer_mask() {
    let cases = [
        (0xA5, 2, 0x0F, 0xAC),
        (0xFF, 3, 0xFF, 0xFF),
        (0xFF, 6, 0xFF, 0),
    ];
    for (stencil, operation, buffer_mask, left) in cases {
        let mut state = drawable(0, 0);
        // always passes; reference 3C
        state
            .write(0x105, 15, 0xFF3C_0011 | buffer_mask << 8)
            .unwrap();
        state.write(0x106, 15, operation << 8).unwrap();
        let outcome = drawn(&state, &Given::default(), stencil);
        assert_eq!(outcome.verdict, Verdict::Pass);
        assert_eq!(outcome.stored.stencil, left);
    }
}

#[test]
fn modulate_and_dot3() {
    let given = Given {
        primary: grey(128),
        texture0: grey(255),
        ..Given::default()
    };
    let modulated = drawn(&drawable(0, 0x0001_0001), &given, 0);
    assert_eq!(modulated.stored.colour, grey(64));
    // texture 0 is white; 7 puts the dot3 in alpha too
    let dotted = drawn(&drawable(0x0000_0003, 7), &given, 0);
    assert_eq!(dotted.stored.colour, grey(3));
}

#[test]
fn the_shortest_list() {
    assert_eq!(
        packed(&run(&[0x41, 0x41, 0x42, 0x43])).unwrap(),
        [1, 0x000F_0041, 2, 0x802F_0041, 3, 4, 0, 0]
    );
    assert_eq!(
        packed(&run(&[0x41, 0x41, 0x42])).unwrap(),
        [1, 0x001F_0041, 2, 0, 3, 0x000F_0042, 0, 0]
    );
}

#[test]
fn a_command_carries_256_writes() {
    for (writes, words) in [(256, 260), (257, 260), (258, 260), (259, 264)] {
        let equal = run(&vec![0x41; writes]);
        let list = packed(&equal).unwrap();
        assert_eq!(list.len(), words);
        let mut state = State::default();
        assert_eq!(state.read(&list), counted(writes, writes));
        assert_eq!(state.cells()[0x41] as usize, writes);
    }
}

/// "The empty list is well formed"; a run of no writes is packed into it. An empty slice's pointer is not null and leads nowhere.
#[test]
fn the_empty_list() {
    let mut state = State::default();
    assert_eq!(state.read(&[]), counted(0, 0));
    assert_eq!(state, State::default());
    assert_eq!(packed(&[]), Ok(vec![]));
    assert_eq!(pica::pack(&[], &[], &[], &mut []), Ok(0));
    assert_eq!(
        pica::pack(&[0x41], &[15], &[7], &mut []),
        Err(refused(10, 4))
    );
}

/// The default write sets no byte, and is in no list.
#[test]
fn the_default_write() {
    let mut state = State::default();
    state.cells_mut().fill(0x5A5A_5A5A);
    let before = state.clone();
    let Write { id, mask, value } = Write::default();
    assert!(!state.write(id, mask, value).unwrap().made_a_difference);
    assert_eq!(state, before);
    assert_eq!(packed(&[Write::default()]), Ok(vec![]));
}
