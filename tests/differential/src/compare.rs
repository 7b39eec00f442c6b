//! Runs cases on two machines and compares all that they leave behind.

use crate::generate::{fresh_state, next_case, Case, Kind};
use crate::machine::Machine;
use crate::memory::{locate, parts, Memory};
use crate::model::HELD;
use crate::random::Random;
use crate::sessions;
use crate::tally::{Answer, Tally, Told};

/// Cases that share one garbage state; each block can be run alone.
pub const BLOCK: u64 = 250;

/// The first case at which two machines differ.
pub struct Difference {
    pub case: u64,
    pub text: String,
}

fn call(machine: &Machine, case: &Case, memory: &mut Memory) -> u64 {
    let Memory { state, lent, .. } = memory;
    let state = parts(state, case.state);
    match case.kind {
        Kind::Read => {
            let [list, differences] = parts(lent, [case.lent[0], case.lent[1]]);
            (machine.read)(state, list, differences.try_into().expect("one word"))
        }
        Kind::Write => (machine.write)(state, case.write),
        Kind::Writes => {
            let lengths = [case.lent[0], case.lent[1], case.lent[2], case.lent[3]];
            let [list, ids, masks, values] = parts(lent, lengths);
            (machine.writes)(list, [ids, masks, values])
        }
        Kind::Pack => {
            let lengths = [case.lent[0], case.lent[1], case.lent[2], case.lent[3]];
            let [ids, masks, values, space] = parts(lent, lengths);
            (machine.pack)([ids, masks, values], space)
        }
        Kind::Decode => {
            let [fields] = parts(lent, [case.lent[0]]);
            (machine.decode)(state, fields.try_into().expect("204 fields"))
        }
        Kind::Fragment => {
            let [given, stored] = parts(lent, [case.lent[0], case.lent[1]]);
            let given = given.try_into().expect("11 words given");
            let stored = stored.try_into().expect("3 words stored");
            (machine.fragment)(state, given, stored)
        }
        Kind::Pieces => unreachable!("a session has calls of its own"),
    }
}

fn first_difference(left: &[u32], right: &[u32]) -> Option<usize> {
    if left == right {
        return None;
    }
    left.iter().zip(right).position(|(a, b)| a != b)
}

fn answer_text(answer: u64) -> String {
    match answer >> 32 {
        0 => format!("answer {}", answer as u32),
        number => format!("refused {number} at {:#x}", answer as u32),
    }
}

/// Buffers that lie in one layout, on both sides.
pub struct Buffers<'a> {
    pub names: &'a [&'a str],
    pub lengths: &'a [usize],
    pub library: &'a [u32],
    pub model: &'a [u32],
}

/// The first word that differs, if one does, by its buffer's name.
pub fn first_word(layouts: &[Buffers]) -> Option<String> {
    layouts.iter().find_map(|buffers| {
        let position = first_difference(buffers.library, buffers.model)?;
        let place = locate(buffers.names, buffers.lengths, position);
        let (left, right) = (buffers.library[position], buffers.model[position]);
        Some(format!("{place} library {left:08X} model {right:08X}"))
    })
}

/// Whether two calls answered and left the same; or how they differ.
pub fn same(library: u64, model: u64, word: Option<String>) -> Result<(), String> {
    if library == model && word.is_none() {
        return Ok(());
    }
    Err(format!(
        "library {}, model {}; first differing word: {}",
        answer_text(library),
        answer_text(model),
        word.unwrap_or_else(|| "none".to_string()),
    ))
}

fn word_text(case: &Case, library: &Memory, model: &Memory) -> Option<String> {
    let names: &[&str] = match case.kind {
        Kind::Read => &["list", "differences"],
        Kind::Write => &[],
        Kind::Writes => &["list", "ids", "masks", "values"],
        Kind::Pack => &["ids", "masks", "values", "space"],
        Kind::Decode => &["fields"],
        Kind::Fragment => &["given", "stored"],
        Kind::Pieces => &[],
    };
    first_word(&[
        Buffers {
            names: &["cells", "fog", "light"],
            lengths: &case.state,
            library: &library.state,
            model: &model.state,
        },
        Buffers {
            names,
            lengths: &case.lent,
            library: &library.lent,
            model: &model.lent,
        },
    ])
}

/// What the call was lent, short enough for a line.
fn arguments_text(case: &Case, memory: &mut Memory) -> String {
    let hex = |words: &[u32]| -> String {
        let words: Vec<String> = words.iter().map(|word| format!("{word:08X}")).collect();
        words.join(" ")
    };
    let shown = memory.lent.len().min(80);
    let mut text = format!("state lengths {:?}", case.state);
    match case.kind {
        Kind::Write => text += &format!(", id, mask, value {:X?}", case.write),
        Kind::Read | Kind::Writes | Kind::Pack | Kind::Pieces => {}
        Kind::Decode | Kind::Fragment => {
            let cells = memory.cells();
            let held = HELD.map(|(id, _)| format!("{id:X}={:08X}", cells[id as usize]));
            text += &format!(", held cells {}", held.join(" "));
        }
    }
    let lent = hex(&memory.lent[..shown]);
    text + &format!(
        ", lengths lent {:?}, words lent, with guards: {lent}",
        case.lent
    )
}

/// Two machines, each with its own copy of what is lent.
pub struct Pair<'a> {
    library: &'a Machine,
    model: &'a Machine,
    library_memory: Memory,
    model_memory: Memory,
}

impl<'a> Pair<'a> {
    pub fn new(library: &'a Machine, model: &'a Machine) -> Pair<'a> {
        Pair {
            library,
            model,
            library_memory: Memory::new(),
            model_memory: Memory::new(),
        }
    }

    /// Runs up to `cases` of a block's cases.
    pub fn run_block(
        &mut self,
        seed: u64,
        block: u64,
        cases: u64,
        tally: &mut Tally,
    ) -> Result<(), Difference> {
        let mut random = Random::new(seed, block);
        fresh_state(&mut random, &mut self.model_memory);
        for number in block * BLOCK..block * BLOCK + cases.min(BLOCK) {
            let case = next_case(&mut random, &mut self.model_memory);
            self.library_memory.copy_from(&self.model_memory);
            match self.run_case(&case) {
                Ok(answers) => tally.count(case.kind, &answers),
                Err(difference) => {
                    let arguments = arguments_text(&case, &mut self.model_memory);
                    let text = format!(
                        "case {number}, seed {seed}, {:?}: {difference}; {arguments}",
                        case.kind
                    );
                    return Err(Difference { case: number, text });
                }
            }
        }
        Ok(())
    }

    /// What was answered; or how the two machines differ.
    fn run_case(&mut self, case: &Case) -> Result<Vec<Answer>, String> {
        let memories = [&mut self.library_memory, &mut self.model_memory];
        if case.kind == Kind::Pieces {
            return sessions::run([self.library, self.model], case, memories);
        }
        let [left, right] = memories;
        let library = call(self.library, case, left);
        let given = call(self.model, case, right);
        same(library, given, word_text(case, left, right))?;
        let mut answer = Answer::new(given);
        match case.kind {
            Kind::Read => {
                let [list, differences] = parts(&mut right.lent, [case.lent[0], case.lent[1]]);
                answer.differences = differences[0];
                answer.told = Told::of_list(list, given);
            }
            Kind::Writes => {
                let [list] = parts(&mut right.lent, [case.lent[0]]);
                answer.told = Told::of_list(list, given);
            }
            Kind::Pack => {
                let [_, masks] = parts(&mut right.lent, [case.lent[0], case.lent[1]]);
                answer.told = Told::of_run(masks);
            }
            _ => {}
        }
        Ok(vec![answer])
    }
}

#[cfg(test)]
mod tests {
    use super::*;
    use crate::generate::KINDS;

    /// A store where none may be shows wherever it lands: each word of a
    /// layout, changed alone, is told, and a guard as a guard.
    #[test]
    fn every_word_is_watched() {
        let mut random = Random::new(1, 0);
        let (mut left, mut right) = (Memory::new(), Memory::new());
        fresh_state(&mut random, &mut left);
        let mut met = [false; KINDS.len()];
        // sessions.rs has its own.
        met[Kind::Pieces as usize] = true;
        while met.contains(&false) {
            let case = next_case(&mut random, &mut left);
            if std::mem::replace(&mut met[case.kind as usize], true) {
                continue;
            }
            right.copy_from(&left);
            assert_eq!(word_text(&case, &left, &right), None);
            let mut guards = 0;
            for position in 0..left.state.len() + left.lent.len() {
                let stray = |memory: &mut Memory| match position.checked_sub(memory.state.len()) {
                    None => memory.state[position] ^= 1,
                    Some(position) => memory.lent[position] ^= 1,
                };
                stray(&mut left);
                let told = word_text(&case, &left, &right).expect("the stray store is told");
                guards += usize::from(told.starts_with("guard "));
                stray(&mut left);
            }
            let buffers: usize = case.state.iter().chain(&case.lent).sum();
            assert_eq!(guards, left.state.len() + left.lent.len() - buffers);
        }
    }
}
