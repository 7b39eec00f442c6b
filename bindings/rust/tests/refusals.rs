//! Every refusal through the crate's face: its number, its place, its text, and that nothing has changed.

use pica::{pack, packed, Given, Refusal, State, Stored, Write, LIST_LENGTH_MOST, RUN_LENGTH_MOST};

fn assert_refused<T: std::fmt::Debug>(
    answer: Result<T, Refusal>,
    number: u32,
    place: u32,
    text: &str,
) {
    let refusal = answer.unwrap_err();
    assert_eq!(refusal, Refusal { number, place });
    assert_eq!(refusal.to_string(), format!("refusal {number}: {text}"));
}

/// A state with something in every buffer.
fn marked() -> State {
    let mut state = State::default();
    state.cells_mut().fill(0x5A5A_5A5A);
    state.fog_mut().fill(0xA5A5_A5A5);
    state.light_mut().fill(0x1234_5678);
    state
}

const PLACE: &str = "the first word of its command in a list, or the index of the write in a run";

#[test]
fn of_lists() {
    let mut state = marked();
    let one = [7, 0x000F_0041];
    let after_one = |header: u32| [one, [0, header]].concat();
    assert_refused(
        state.read(&vec![0; LIST_LENGTH_MOST + 1]),
        1,
        0,
        "list over 65,536 words",
    );
    assert_refused(
        state.read(&one),
        15,
        0,
        "list whose words aren't a multiple of 4",
    );
    assert_refused(
        state.read(&after_one(0x001F_0041)),
        2,
        2,
        "a command needs more words than are left, the command whose first word is word 2",
    );
    assert_refused(
        state.read(&after_one(0x000F_0300)),
        3,
        2,
        &format!("id above 2FFh, at 2: {PLACE}"),
    );
    assert_refused(
        state.read(&after_one(0x000F_023D)),
        4,
        2,
        &format!("id 23Ch or 23Dh, at 2: {PLACE}"),
    );
    assert_refused(
        state.read(&after_one(0x0007_01C8)),
        5,
        2,
        &format!("port data, mask not Fh, at 2: {PLACE}"),
    );
    assert_eq!(state, marked());
}

#[test]
fn of_single_writes() {
    let mut state = marked();
    // a mask above 15 is looked for before a faulty id
    assert_refused(state.write(0x300, 16, 0), 9, 0, "mask above 15, write 0");
    for (id, mask, number) in [
        (0x300, 15, 3),
        (u32::MAX, 0, 3),
        (0x23C, 15, 4),
        (0xE8, 0, 5),
    ] {
        let refusal = state.write(id, mask, 0).unwrap_err();
        assert_eq!(refusal, Refusal { number, place: 0 });
    }
    assert_eq!(state, marked());
}

#[test]
fn of_buffers() {
    for (cells, fog, light) in [(767, 128, 6144), (768, 129, 6144), (768, 128, 0)] {
        assert_refused(
            State::from_parts(vec![0; cells], vec![0; fog], vec![0; light]),
            6,
            0,
            "a state buffer of the wrong length",
        );
    }
}

#[test]
fn of_runs() {
    let mut space = [9; 8];
    assert_refused(
        pack(&[1, 2], &[15], &[0, 0], &mut space),
        7,
        0,
        "ids, masks, values differ in length",
    );
    let lone = Write {
        id: 0x41,
        mask: 15,
        value: 0,
    };
    assert_refused(
        packed(&vec![lone; RUN_LENGTH_MOST + 1]),
        8,
        0,
        "over 4,096 writes",
    );
    assert_refused(
        packed(&[lone, Write { mask: 16, ..lone }]),
        9,
        1,
        "mask above 15, write 1",
    );
    assert_refused(
        packed(&[lone, lone, Write { id: 0x23C, ..lone }]),
        4,
        2,
        &format!("id 23Ch or 23Dh, at 2: {PLACE}"),
    );
    assert_refused(
        pack(&[0x41, 0x43], &[15; 2], &[0; 2], &mut space[..3]),
        10,
        4,
        "space shorter than the shortest list, 4 words needed",
    );
    // two words, and the pair that fills the list
    assert_refused(
        pack(&[0x41], &[15], &[0], &mut space[..3]),
        10,
        4,
        "space shorter than the shortest list, 4 words needed",
    );
    assert_eq!(space, [9; 8]);
}

/// A depth above every format's largest.
const DEEP: u32 = 1 << 24;

fn drawn(state: &State, incoming: u32) -> Result<pica::Outcome, Refusal> {
    let stored = Stored {
        depth: DEEP,
        ..Stored::default()
    };
    state.fragment(&Given::default(), incoming, stored)
}

#[test]
fn of_fragments() {
    let mut state = State::default();
    let text = "not built, register 117h";
    assert_refused(drawn(&state, DEEP), 14, 0x117, text);
    state.write(0x117, 15, 2).unwrap();
    state.write(0x116, 15, 2).unwrap();
    let text = "depth above the format's largest, incoming";
    assert_refused(drawn(&state, DEEP), 12, 0, text);
    let text = "depth above the format's largest, stored";
    assert_refused(drawn(&state, DEEP - 1), 12, 1, text);
}

/// A code without a name comes before what is not built, also where its id is the higher one.
#[test]
fn of_codes() {
    let mut state = State::default();
    state.write(0xE0, 15, 5).unwrap();
    assert_eq!(drawn(&state, 0).unwrap_err().place, 0xE0);
    state.write(0xFC, 15, 3).unwrap();
    let text = "code without a name, register 0FCh";
    assert_refused(drawn(&state, DEEP), 13, 0xFC, text);
    assert_refused(state.decode(), 13, 0xFC, text);
}

#[test]
fn debug_is_short() {
    assert_eq!(
        format!("{:?}", marked()),
        "State { cells: 768 of 768 set, fog: 128 of 128, light: 6144 of 6144 }"
    );
}
