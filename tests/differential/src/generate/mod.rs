//! Structured cases: most are answered, the rest are refused for a chosen
//! reason, and every choice leans on the borders of the document's rules.

mod commands;
mod cuts;
mod filling;
mod lists;
pub mod pieces;
mod places;
mod restated;
mod states;
mod words;
mod writes;

use crate::memory::{Memory, STATE_LENGTHS};
use crate::model::FIELD_COUNT;
use crate::random::Random;
use pieces::Step;

#[derive(Clone, Copy, Debug, PartialEq, Eq)]
pub enum Kind {
    Read,
    Write,
    Writes,
    Pack,
    Decode,
    Fragment,
    Pieces,
}

pub const KINDS: [(Kind, &str); 7] = [
    (Kind::Read, "read"),
    (Kind::Write, "write"),
    (Kind::Writes, "writes"),
    (Kind::Pack, "pack"),
    (Kind::Decode, "decode"),
    (Kind::Fragment, "fragment"),
    (Kind::Pieces, "sessions of pieces"),
];

/// A call: its kind, the lengths of what it is lent, and its plain arguments; or
/// a session's calls. The words themselves lie in `Memory`.
#[derive(Clone, Debug)]
pub struct Case {
    pub kind: Kind,
    pub state: [usize; 3],
    pub lent: Vec<usize>,
    pub write: [u32; 3],
    pub steps: Vec<Step>,
}

/// Fills the whole state with garbage; cases then change parts of it.
pub fn fresh_state(random: &mut Random, memory: &mut Memory) {
    random.fill(&mut memory.state);
    random.fill(&mut memory.spare);
}

pub fn next_case(random: &mut Random, memory: &mut Memory) -> Case {
    let kind = match random.below(23) {
        _ if random.chance(1, 18) => Kind::Pieces,
        0..=7 => Kind::Read,
        8..=10 => Kind::Write,
        11..=13 => Kind::Pack,
        14..=15 => Kind::Decode,
        16..=18 => Kind::Writes,
        _ => Kind::Fragment,
    };
    let mut case = Case {
        kind,
        state: STATE_LENGTHS,
        lent: Vec::new(),
        write: words::single_write(random),
        steps: Vec::new(),
    };
    case.lent = lend(random, &mut case, memory);
    choose_lengths(random, &mut case);
    case
}

/// Prepares the state and lays out the other buffers; gives their lengths.
fn lend(random: &mut Random, case: &mut Case, memory: &mut Memory) -> Vec<usize> {
    match case.kind {
        Kind::Read => {
            states::set_indices(random, memory.cells());
            lists::lend_list(random, memory)
        }
        Kind::Write => {
            states::set_indices(random, memory.cells());
            case.write[2] = restated::value_alone(random, case.write, memory);
            memory.lend(random, &[]);
            Vec::new()
        }
        Kind::Writes => places::lend_list_and_places(random, memory),
        Kind::Pack => writes::lend_writes(random, memory),
        Kind::Decode => {
            states::set_decodable(random, memory.cells());
            let mut fields = [0; FIELD_COUNT];
            random.fill(&mut fields);
            memory.lend(random, &[&fields]);
            vec![FIELD_COUNT]
        }
        Kind::Fragment => {
            states::set_drawable(random, memory.cells());
            let given = states::given(random, memory.cells());
            let stored = [random.word(), random.word(), random.word()];
            memory.lend(random, &[&given, &stored]);
            vec![11, 3]
        }
        Kind::Pieces => {
            states::set_indices(random, memory.cells());
            let (steps, lengths) = pieces::lend_session(random, memory);
            case.steps = steps;
            lengths
        }
    }
}

/// A long list is lent to a wrong state more often, since the order of its
/// two refusals shows only there. A session's calls have lengths of their own.
fn choose_lengths(random: &mut Random, case: &mut Case) {
    let long = case.kind == Kind::Read && case.lent[0] > 65_000;
    if case.kind != Kind::Pieces && random.chance(1, if long { 3 } else { 40 }) {
        wrong_lengths(random, &mut case.state);
    }
}

fn wrong_lengths(random: &mut Random, lengths: &mut [usize; 3]) {
    let which = random.below(3) as usize;
    match random.below(6) {
        0 => lengths[which] -= 1,
        1 => lengths[which] += 1,
        2 => lengths[which] = 0,
        3 => lengths.swap(which, (which + 1) % 3),
        4 => lengths.rotate_left(1),
        _ => *lengths = [0; 3],
    }
}
