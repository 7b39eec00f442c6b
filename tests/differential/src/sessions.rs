//! Runs a session on two machines: after each call the answers and all that it
//! may have changed are compared.

use crate::compare::{first_word, same, Buffers};
use crate::generate::pieces::{Call, Place, Step};
use crate::generate::Case;
use crate::machine::Machine;
use crate::memory::{first_and, parts, Memory, GUARD, STATE_LENGTHS};
use crate::model::{faults::NONE, take, Fed, Reader};
use crate::tally::{Answer, Told};

/// The reader, then the word for the differences, then the parts.
const DIFFERENCES: usize = 1;
const FIRST_PART: usize = 2;

fn call(machine: &Machine, case: &Case, step: &Step, memory: &mut Memory, fed: &mut Fed) -> u64 {
    let Memory { state, spare, lent } = memory;
    let (live, spare) = (parts(state, step.live), parts(spare, step.spare));
    let beside = match step.call {
        Call::Feed(part) => FIRST_PART + part,
        Call::Open | Call::Close => DIFFERENCES,
    };
    let (words, beside) = first_and(lent, &case.lent, beside);
    let words = words.try_into().expect("12 words of a reader");
    let reader = Reader { words, fed };
    match step.call {
        Call::Open => (machine.open)(live, spare, reader),
        Call::Feed(_) => (machine.feed)(spare, reader, beside),
        Call::Close => {
            let differences = beside.try_into().expect("one word");
            (machine.close)(live, spare, reader, differences)
        }
    }
}

fn differences<'a>(case: &Case, memory: &'a mut Memory) -> &'a mut u32 {
    &mut first_and(&mut memory.lent, &case.lent, DIFFERENCES).1[0]
}

fn store(memory: &mut Memory, (place, word): (Place, u32)) {
    match place {
        Place::Live(at) => memory.state[GUARD + at] = word,
        Place::Spare(at) => memory.spare[GUARD + at] = word,
        Place::Reader(at) => memory.lent[GUARD + at] = word,
    }
}

/// What the documents leave open after a feed: the spare state's held bits and
/// entries, and the reader's words but the first. The model takes them over.
fn adopt(library: &mut Memory, model: &mut Memory, case: &Case) {
    let mut taking = parts(&mut model.spare, STATE_LENGTHS);
    take(NONE, &mut taking, &parts(&mut library.spare, STATE_LENGTHS));
    let open = GUARD + 1..GUARD + case.lent[0];
    model.lent[open.clone()].copy_from_slice(&library.lent[open]);
}

/// The first word that differs after a call, if one does. A feed isn't lent the
/// live state, and a close comes after each.
fn word_text(case: &Case, step: &Step, library: &Memory, model: &Memory) -> Option<String> {
    let live = Buffers {
        names: &["live cells", "live fog", "live light"],
        lengths: &step.live,
        library: &library.state,
        model: &model.state,
    };
    let spare = Buffers {
        names: &["spare cells", "spare fog", "spare light"],
        lengths: &step.spare,
        library: &library.spare,
        model: &model.spare,
    };
    let mut names = vec!["part"; case.lent.len()];
    names[0] = "reader";
    names[DIFFERENCES] = "differences";
    let lent = Buffers {
        names: &names,
        lengths: &case.lent,
        library: &library.lent,
        model: &model.lent,
    };
    match step.call {
        Call::Feed(_) => first_word(&[spare, lent]),
        Call::Open | Call::Close => first_word(&[live, spare, lent]),
    }
}

/// The answers to the closes of a session, as far as the model knows them; or
/// how the two machines differ.
pub fn run(
    [library, model]: [&Machine; 2],
    case: &Case,
    [left, right]: [&mut Memory; 2],
) -> Result<Vec<Answer>, String> {
    left.spare.copy_from_slice(&right.spare);
    let mut fed = Fed::default();
    let mut closes = Vec::new();
    for (number, step) in case.steps.iter().enumerate() {
        for stray in &step.strays {
            store(left, *stray);
            store(right, *stray);
            fed.known = false;
        }
        *differences(case, left) = step.differences;
        *differences(case, right) = step.differences;
        let known = fed.known;
        let list = match step.call {
            Call::Close if known => fed.joined.clone(),
            _ => Vec::new(),
        };
        fed.told = call(library, case, step, left, &mut Fed::default());
        fed.told_differences = *differences(case, left);
        let answer = call(model, case, step, right, &mut fed);
        if matches!(step.call, Call::Feed(_)) && answer >> 32 == 0 {
            adopt(left, right, case);
        }
        same(fed.told, answer, word_text(case, step, left, right))
            .map_err(|difference| format!("call {number}, {step:?}: {difference}"))?;
        if step.call == Call::Close && known {
            closes.push(Answer {
                given: answer,
                differences: *differences(case, right),
                told: Told::of_list(&list, answer),
            });
        }
    }
    Ok(closes)
}

#[cfg(test)]
mod tests;
