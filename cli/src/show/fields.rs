//! The held registers and their fields.

use std::io::{self, Write};

use pica::names::{held_bits, register_name, FIELDS};
use pica::{Refusal, State, FIELDS_LENGTH};

use super::mark::{Mark, View};
use super::numbers::{hexadecimal, meaning};
use super::trace::{Trace, Written};
use crate::output::Output;
use crate::text::grouped;

/// The fields of a state. One that doesn't decode has fields too: the bits of its registers, with the refusal.
pub fn of(state: &State) -> ([u32; FIELDS_LENGTH], Option<Refusal>) {
    match state.decode() {
        Ok(settings) => (settings.flat(), None),
        Err(refusal) => {
            let cells = state.cells();
            let word = |k: usize| FIELDS[k].word_in(cells[FIELDS[k].register as usize]);
            (std::array::from_fn(word), Some(refusal))
        }
    }
}

/// A held register of which there is something to show.
pub struct Register {
    pub id: u32,
    written: Written,
    /// What it held, and what it holds.
    held: [u32; 2],
    pub fields: Vec<Shown>,
}

/// A field that is shown.
pub struct Shown {
    /// Its index in the table of fields.
    pub field: usize,
    pub mark: Mark,
    pub before: u32,
    pub after: u32,
}

pub fn registers(trace: &Trace, view: View) -> Vec<Register> {
    let fields: Vec<usize> = (0..FIELDS_LENGTH).collect();
    let (before, after) = (of(&trace.before).0, of(&trace.after).0);
    let groups = fields.chunk_by(|&a, &b| FIELDS[a].register == FIELDS[b].register);
    let register = |group: &[usize]| {
        let id = FIELDS[group[0]].register;
        let written = trace.registers.get(&id).copied().unwrap_or_default();
        let shown = |&field: &usize| {
            let (before, after) = (before[field], after[field]);
            let is_written = FIELDS[field].mask() & written.bits != 0;
            let mark = Mark::of(before != after, is_written);
            view.shows(mark).then_some(Shown {
                field,
                mark,
                before,
                after,
            })
        };
        let held =
            [&trace.before, &trace.after].map(|state| state.cells()[id as usize] & held_bits(id));
        let fields = group.iter().filter_map(shown).collect();
        Register {
            id,
            written,
            held,
            fields,
        }
    };
    let something = |r: &Register| !r.fields.is_empty() || r.sets_nothing() && !view.changes;
    groups.map(register).filter(something).collect()
}

/// Shows the registers, and tells whether there was one.
pub fn show(trace: &Trace, view: View, out: &mut Output) -> io::Result<bool> {
    let registers = registers(trace, view);
    for (k, register) in registers.iter().enumerate() {
        let space = if k == 0 { "\n" } else { "" };
        writeln!(out, "{space}{}", register.line())?;
        for field in &register.fields {
            writeln!(out, "{}", field.line())?;
        }
    }
    Ok(!registers.is_empty())
}

impl Register {
    /// Whether it is written, and in none of the bytes that have held bits.
    fn sets_nothing(&self) -> bool {
        self.written.count > 0 && self.written.bits & held_bits(self.id) == 0
    }

    /// What it holds, and what is out of the ordinary about its writes.
    fn line(&self) -> String {
        let ([was, held], count) = (self.held, self.written.count);
        let writes = grouped(count as u64);
        let remark = match count {
            0 if held != was => String::from("   by uploads"),
            0 => String::from("   not written"),
            _ if self.sets_nothing() => {
                format!("   writes: {writes}, none to a byte with held bits")
            }
            1 => String::new(),
            _ => format!("   writes: {writes}"),
        };
        let (id, name) = (self.id, register_name(self.id).unwrap_or_default());
        format!("{id:03X} {name:<38} {held:08X}{remark}")
    }
}

impl Shown {
    /// Its mark, its name, its number, what that stands for, and what it was.
    fn line(&self) -> String {
        let Self {
            field,
            mark,
            before,
            after,
        } = *self;
        let (name, number) = (FIELDS[field].name, hexadecimal(field, after));
        let text = format!("  {mark} {name:<38} {number:>8}  {}", meaning(field, after));
        if before == after {
            return text;
        }
        let (number, was) = (hexadecimal(field, before), meaning(field, before));
        if number == was {
            return format!("{text:<82} was {number}");
        }
        format!("{text:<82} was {number}, {was}")
    }
}
