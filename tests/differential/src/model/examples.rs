//! The scope document's examples, run on the model.

use super::faults::NONE;
use super::*;

pub struct State {
    pub cells: Vec<u32>,
    pub fog: Vec<u32>,
    pub light: Vec<u32>,
}

impl State {
    pub fn zero() -> State {
        State {
            cells: vec![0; CELLS],
            fog: vec![0; FOG_ENTRIES],
            light: vec![0; LIGHT_ENTRIES],
        }
    }

    /// What is answered, and what then stands where the differences go, where 9
    /// stood before.
    pub fn read(&mut self, list: &[u32]) -> (u64, u32) {
        let (cells, fog, light) = (&mut self.cells, &mut self.fog, &mut self.light);
        let mut differences = [9];
        let answer = read::<NONE>(cells, fog, light, list, &mut differences);
        (answer, differences[0])
    }

    pub fn write(&mut self, id: u32, mask: u32, value: u32) -> u64 {
        let (cells, fog, light) = (&mut self.cells, &mut self.fog, &mut self.light);
        write::<NONE>(cells, fog, light, id, mask, value)
    }

    fn fragment(&self, given: &[u32; 11]) -> (u64, [u32; 3]) {
        let mut stored = [0; 3];
        let verdict = fragment::<NONE>(&self.cells, &self.fog, &self.light, given, &mut stored);
        (verdict, stored)
    }

    /// Every stage after the first hands on what it is given; colour is copied.
    fn drawing() -> State {
        let mut state = State::zero();
        for stage in [0xC8, 0xD0, 0xD8, 0xF0, 0xF8] {
            state.cells[stage] = 0xFFF_0FFF;
        }
        state.cells[0x102] = 3;
        state.cells[0x107] = 0xF00;
        state.cells[0x113] = 0xF;
        state.cells[0x115] = 3;
        state.cells[0x116] = 3;
        state.cells[0x117] = 2;
        state
    }
}

pub fn refusal(number: u64, place: u64) -> u64 {
    number << 32 | place
}

#[test]
fn reading() {
    let mut state = State::zero();
    let list = [0xAAAA_AAAA, 0x802F_011C, 0xBBBB_BBBB, 0xCCCC_CCCC];
    assert_eq!(state.read(&list), (3, 0));
    assert_eq!(state.read(&[1, 0x801F_02FE, 2, 3]), (2, 0));
    assert_eq!(state.read(&[1, 0x802F_02FE, 2, 3]), (refusal(3, 0), 9));
    assert_eq!(state.read(&[1, 0x801F_023B, 2, 3]), (refusal(4, 0), 9));
    assert_eq!(state.read(&[]), (0, 0));
}

#[test]
fn masks() {
    for (mask, left) in [(1, 0x71), (2, 0x1F00)] {
        let mut state = State::zero();
        assert_eq!(state.write(0x107, mask, 0x1F71), 1);
        assert_eq!(state.cells[0x107], left);
    }
}

#[test]
fn fog_port() {
    let mut state = State::zero();
    state.cells[0xE6] = 127;
    assert_eq!(state.read(&[5, 0x001F_00E8, 6, 0]), (2, 2));
    assert_eq!((state.fog[127], state.fog[0], state.cells[0xE6]), (5, 6, 1));
}

/// What single writes answer, one after the other.
fn answers(state: &mut State, writes: &[(u32, u32, u32)]) -> Vec<u64> {
    let answer = |&(id, mask, value): &_| state.write(id, mask, value);
    writes.iter().map(answer).collect()
}

#[test]
fn a_write_that_makes_a_difference() {
    let mut state = State::zero();
    let held = [
        (0x107, 0xF, 0x1F71),
        // Equal bits; equal in the held ones; equal in the mask's byte.
        (0x107, 0xF, 0x1F71),
        (0x107, 0xF, 0xFFFF_FFFF),
        (0x107, 1, 0x71),
        // One byte of two differs, then the other one.
        (0x107, 3, 0x1F70),
        (0x107, 3, 0x1E70),
        // Bytes that hold nothing, mask 0, and an id that isn't held.
        (0x107, 0xC, 0),
        (0x107, 0, 0),
        (0x108, 0xF, 1),
    ];
    assert_eq!(answers(&mut state, &held), [1, 0, 0, 0, 1, 1, 0, 0, 0]);
    // What stands beside the held bits doesn't count, nor in a cell that isn't held.
    state.cells[0x107] |= 0xFFFF_E08E;
    state.cells[0x108] = 5;
    let garbage = [(0x107, 0xF, 0x1E70), (0x108, 0xF, 0), (0x23F, 0xF, 7)];
    assert_eq!(answers(&mut state, &garbage), [0, 0, 0]);
    let ports = [
        // Entry 0 has the value already, and so has entry 1.
        (0xE8, 0xF, 0),
        (0xE8, 0xF, 0xFF00_0000),
        // The index with its own value, and with another one.
        (0xE6, 0xF, 0x82),
        (0xE6, 0xF, 1),
        // Tables 2 and 1Fh have no name.
        (0x1C5, 0xF, 0x200),
        (0x1C8, 0xF, 3),
        (0x1C5, 0xF, 0x1FFF),
        (0x1CF, 0xF, 0),
        (0x1C5, 0xF, 0x1F00),
    ];
    assert_eq!(answers(&mut state, &ports), [1, 1, 0, 1, 1, 1, 1, 1, 0]);
    assert_eq!(state.write(0xE8, 0xE, 1), refusal(5, 0));
}

#[test]
fn differences_of_a_list() {
    let mut state = State::zero();
    // Each write is judged on what those before it left: 1, 1, 2, 1, 1.
    let list = [1, 0x004F_0041, 1, 2, 1, 1, 0, 0];
    assert_eq!(state.read(&list), (5, 3));
    assert_eq!(state.read(&list), (5, 2));
    // Rising ids: 41 holds 1, and 43 no bit of its value.
    let list = [1, 0x803F_0041, 3, 0xFF00_0000, 4, 0, 0, 0];
    assert_eq!(state.read(&list), (4, 2));
    assert_eq!(state.read(&list), (4, 0));
    // Port data counts each time, and a refused list gives nothing.
    let list = [0, 0x001F_01C8, 0, 0, 1, 0x000F_023C, 0, 0];
    assert_eq!(state.read(&list[..4]), (2, 2));
    assert_eq!(state.read(&list), (refusal(4, 4), 9));
    assert_eq!(state.read(&[0, 0x003F_01C8, 0, 0]), (refusal(2, 0), 9));
    state.fog.pop();
    assert_eq!(state.read(&[]), (refusal(6, 0), 9));
}

#[test]
fn viewport() {
    for (raw, value) in [(0x3FF, -1), (0x200, -512), (0x1FF, 511)] {
        let mut state = State::zero();
        state.cells[0x68] = raw;
        let mut fields = [0; FIELD_COUNT];
        assert_eq!(
            decode::<NONE>(&state.cells, &state.fog, &state.light, &mut fields),
            0
        );
        assert_eq!(fields[17] as i32, value);
    }
}

#[test]
fn stencil() {
    let cases = [
        (0xA5, 0x003C_0F11, 0x200, 0xAC),
        (0xFF, 0x0000_FF11, 0x300, 0xFF),
        (0xFF, 0x0000_FF11, 0x600, 0),
    ];
    for (before, test, operation, after) in cases {
        let mut state = State::drawing();
        state.cells[0x105] = test;
        state.cells[0x106] = operation;
        let mut given = [0; 11];
        given[9] = before;
        assert_eq!(state.fragment(&given), (3, [0, after, 0]));
    }
}

#[test]
fn combiner() {
    let mut state = State::drawing();
    // Primary and fragment primary; modulate, then dot3.
    state.cells[0xC0] = 0x010_0010;
    state.cells[0xC2] = 0x1_0001;
    let mut given = [0; 11];
    given[0] = 0x8080_8080;
    given[1] = 0x8080_8080;
    assert_eq!(state.fragment(&given).1[0], 0x4040_4040);
    state.cells[0xC2] = 7;
    given[0] = 0xFFFF_FFFF;
    assert_eq!(state.fragment(&given).1[0], 0x0303_0303);
}

/// What a call leaves of three buffers of these lengths, filled with 9.
pub fn listed(list: &[u32], lengths: [usize; 3]) -> (u64, [Vec<u32>; 3]) {
    let [mut ids, mut masks, mut values] = lengths.map(|length| vec![9; length]);
    let answer = writes::<NONE>(list, &mut ids, &mut masks, &mut values);
    (answer, [ids, masks, values])
}

#[test]
fn the_writes_of_a_list() {
    let list = [0xAAAA_AAAA, 0x802F_011C, 0xBBBB_BBBB, 0xCCCC_CCCC];
    let ids = vec![0x11C, 0x11D, 0x11E, 9];
    let masks = vec![15, 15, 15, 9];
    let values = vec![0xAAAA_AAAA, 0xBBBB_BBBB, 0xCCCC_CCCC, 9];
    assert_eq!(listed(&list, [4; 3]), (3, [ids, masks, values]));
    // equal ids, a padding word, another command with a mask of its own, a filling
    let list = [1, 0x001F_0041, 2, 0xFFFF_FFFF, 3, 0x0003_0042, 9, 0x40];
    let (ids, masks) = (vec![0x41, 0x41, 0x42], vec![15, 15, 3]);
    assert_eq!(listed(&list, [3; 3]), (3, [ids, masks, vec![1, 2, 3]]));
    assert_eq!(listed(&[], [0; 3]).0, 0);
}

#[test]
fn the_writes_of_a_list_refused() {
    let list = [1, 0x000F_0041, 0, 0, 2, 0x000F_023C, 0, 0];
    let long = vec![0; 65_537];
    for (list, lengths, answer) in [
        (&list[..4], [0; 3], refusal(22, 1)),
        (&list[..4], [1, 1, 0], refusal(7, 0)),
        (&list, [0; 3], refusal(4, 4)),
        (&list, [2; 3], refusal(4, 4)),
        (&[1, 0x003F_0041, 2, 3], [0; 3], refusal(2, 0)),
        (&list[..6], [0; 3], refusal(15, 0)),
        (&list[..6], [0, 1, 0], refusal(7, 0)),
        (&long, [0; 3], refusal(1, 0)),
        (&long, [0, 0, 1], refusal(7, 0)),
    ] {
        let left = lengths.map(|length| vec![9; length]);
        assert_eq!(listed(list, lengths), (answer, left));
    }
}
