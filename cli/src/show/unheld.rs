//! The registers that a list writes and that aren't held: nothing of them is kept, but the last value stands in the list.

use std::io::{self, Write};

use pica::names::{held_bits, register_name};

use super::trace::{port, Trace, Written};
use crate::output::Output;
use crate::text::grouped;

pub fn registers(trace: &Trace) -> impl Iterator<Item = (u32, Written)> + '_ {
    let is_unheld = |id: u32| held_bits(id) == 0 && port(id).is_none();
    let registers = trace.registers.iter();
    registers
        .map(|(&id, &written)| (id, written))
        .filter(move |&(id, _)| is_unheld(id))
}

pub fn show(trace: &Trace, out: &mut Output) -> io::Result<()> {
    for (k, (id, written)) in registers(trace).enumerate() {
        if k == 0 {
            writeln!(out, "\nWritten and not held, with the last value:")?;
        }
        let (name, value) = (register_name(id).unwrap_or_default(), written.last.value);
        let mask = match written.last.mask {
            15 => String::new(),
            mask => format!("   mask {mask:X}"),
        };
        let count = match written.count {
            1 => String::new(),
            count => format!("   writes: {}", grouped(count as u64)),
        };
        writeln!(out, "{id:03X} {name:<38} {value:08X}{mask}{count}")?;
    }
    Ok(())
}
