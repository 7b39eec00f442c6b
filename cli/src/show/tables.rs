//! The entries of the fog and light tables, by ranges.

use std::io::{self, Write};

use pica::names::{Kind, FIELDS};

use super::counted;
use super::mark::{Mark, View};
use super::numbers::{fog_value, light_value, significant};
use super::trace::{Trace, TABLES, TABLE_LENGTH};
use crate::output::Output;

/// Of an entry only these bits count.
const ENTRY_BITS: u32 = 0xFF_FFFF;

/// One table, before and after the list.
pub struct Table<'a> {
    /// 000's name of a light table; the fog table is the only one of its kind.
    pub light: Option<(usize, &'static str)>,
    before: &'a [u32],
    after: &'a [u32],
    /// How often each entry was written.
    writes: &'a [usize],
    value: fn(u32) -> f64,
    /// The bits of an entry that are the difference to the next one. The documents don't say how their sign is to be read.
    difference: fn(u32) -> u32,
}

/// The tables that keep entries.
pub fn tables(trace: &Trace) -> Vec<Table<'_>> {
    let fog = Table {
        light: None,
        before: trace.before.fog(),
        after: trace.after.fog(),
        writes: &trace.fog,
        value: fog_value,
        difference: |entry| entry & 0x1FFF, // 002: bits 0-12
    };
    let lights = (0..TABLES).filter_map(|number| light(trace, number));
    [fog].into_iter().chain(lights).collect()
}

/// Shows the tables, and tells whether there was something to show.
pub fn show(trace: &Trace, view: View, out: &mut Output) -> io::Result<bool> {
    let mut any = false;
    for table in tables(trace) {
        any |= table.show(view, out)?;
    }
    for number in (0..TABLES).filter(|&number| light_name(number).is_none() && !view.changes) {
        any |= nameless(trace, number, out)?;
    }
    Ok(any)
}

/// A light table's entries, by its number.
fn entries(number: usize) -> std::ops::Range<usize> {
    number * TABLE_LENGTH..(number + 1) * TABLE_LENGTH
}

/// A light table with a name: the others keep nothing.
fn light(trace: &Trace, number: usize) -> Option<Table<'_>> {
    Some(Table {
        light: Some((number, light_name(number)?)),
        before: trace.before.light().get(entries(number))?,
        after: trace.after.light().get(entries(number))?,
        writes: trace.light.get(entries(number))?,
        value: light_value,
        difference: |entry| entry >> 12, // 000: bits 12-23
    })
}

/// 000's name of a light table, which is that of the code in the light port.
fn light_name(number: usize) -> Option<&'static str> {
    let mut fields = FIELDS.iter();
    let Kind::Code(codes) = fields.find(|field| field.name == "light_port_table")?.kind else {
        return None;
    };
    let code = codes.iter().find(|code| code.0 as usize == number);
    code.map(|code| code.1)
}

fn nameless(trace: &Trace, number: usize, out: &mut Output) -> io::Result<bool> {
    let writes = trace.light[entries(number)].iter().sum();
    if writes == 0 {
        return Ok(false);
    }
    let writes = counted(writes, "write");
    writeln!(
        out,
        "\nLight table {number:X}, which has no name: {writes}, nothing kept"
    )?;
    Ok(true)
}

impl Table<'_> {
    /// The entries that are shown.
    pub fn shown(&self, view: View) -> Vec<usize> {
        let something = |k: usize| self.mark(k) != Mark::Untouched || self.entry(k) != 0;
        (0..self.after.len())
            .filter(|&k| view.shows(self.mark(k)) && something(k))
            .collect()
    }

    fn show(&self, view: View, out: &mut Output) -> io::Result<bool> {
        let shown = self.shown(view);
        if shown.is_empty() {
            return Ok(false);
        }
        let title = match self.light {
            Some((number, name)) => format!("Light table {number:X}, {name}"),
            None => String::from("Fog table"),
        };
        writeln!(
            out,
            "\n{title}: {}",
            counted(self.writes.iter().sum(), "write")
        )?;
        let follows = |&a: &usize, &b: &usize| b == a + 1 && self.mark(a) == self.mark(b);
        for range in shown.chunk_by(|a, b| !view.entries && follows(a, b)) {
            writeln!(out, "{}", self.range(range[0], range[range.len() - 1]))?;
        }
        Ok(true)
    }

    pub fn entry(&self, k: usize) -> u32 {
        self.after[k] & ENTRY_BITS
    }

    pub fn was(&self, k: usize) -> u32 {
        self.before[k] & ENTRY_BITS
    }

    pub fn mark(&self, k: usize) -> Mark {
        Mark::of(self.was(k) != self.entry(k), self.writes[k] > 0)
    }

    pub fn value(&self, entry: u32) -> String {
        significant((self.value)(entry), 4)
    }

    fn whole(&self, entry: u32) -> String {
        let (value, difference) = (self.value(entry), (self.difference)(entry));
        format!("{entry:06X}, value {value}, difference {difference:X}h")
    }

    /// A range of entries by its ends.
    fn range(&self, first: usize, last: usize) -> String {
        if first == last {
            return self.lone(first);
        }
        let (mark, name) = (self.mark(first), format!("{first}-{last}"));
        let (a, b) = (self.entry(first), self.entry(last));
        let (from, to) = (self.value(a), self.value(b));
        if (first..=last).all(|k| self.entry(k) == a) {
            return format!("  {mark} {name:<9} {a:06X} in all of them, value {from}");
        }
        format!("  {mark} {name:<9} {a:06X} to {b:06X}, value {from} to {to}")
    }

    fn lone(&self, k: usize) -> String {
        let (mark, entry, was) = (self.mark(k), self.entry(k), self.was(k));
        let text = format!("  {mark} {k:<9} {}", self.whole(entry));
        if was == entry {
            return text;
        }
        format!("{text:<58} was {}", self.whole(was))
    }
}
