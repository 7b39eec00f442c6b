//! The same as JSON: one array, an object for each field, table entry and register that isn't held.

use std::io::{self, Write};

use pica::names::{register_name, FIELDS};

use super::mark::{Mark, View};
use super::numbers::{bits, meaning};
use super::trace::{Trace, Written};
use super::{fields, tables, unheld};
use crate::json::{object, Value};
use crate::output::Output;

pub fn show(trace: &Trace, view: View, out: &mut Output) -> io::Result<()> {
    let registers = fields::registers(trace, view);
    let mut objects: Vec<String> = registers
        .iter()
        .flat_map(|r| &r.fields)
        .map(field)
        .collect();
    for table in tables::tables(trace) {
        objects.extend(table.shown(view).into_iter().map(|k| entry(&table, k)));
    }
    if !view.changes {
        objects.extend(unheld::registers(trace).map(register));
    }
    write!(out, "[")?;
    for (k, object) in objects.iter().enumerate() {
        write!(out, "{}\n  {object}", if k == 0 { "" } else { "," })?;
    }
    write!(out, "\n]\n")
}

fn text(text: impl Into<String>) -> Value {
    Value::Text(text.into())
}

fn number(number: impl Into<u64>) -> Value {
    Value::Number(number.into())
}

fn mark_of(mark: Mark) -> Value {
    text(match mark {
        Mark::Changed => "changed",
        Mark::Same => "same",
        Mark::Untouched => "untouched",
    })
}

fn field(shown: &fields::Shown) -> String {
    let (field, id) = (shown.field, FIELDS[shown.field].register);
    object(&[
        ("kind", text("field")),
        ("id", text(format!("{id:03X}"))),
        ("register", text(register_name(id).unwrap_or_default())),
        ("name", text(FIELDS[field].name)),
        ("value", number(bits(field, shown.after))),
        ("meaning", text(meaning(field, shown.after))),
        ("was", number(bits(field, shown.before))),
        ("was_meaning", text(meaning(field, shown.before))),
        ("mark", mark_of(shown.mark)),
    ])
}

fn entry(table: &tables::Table, k: usize) -> String {
    let (kind, name) = table
        .light
        .map_or(("fog", "fog"), |(_, name)| ("light", name));
    object(&[
        ("kind", text(kind)),
        ("name", text(name)),
        ("index", number(k as u64)),
        ("value", number(table.entry(k))),
        ("meaning", text(table.value(table.entry(k)))),
        ("was", number(table.was(k))),
        ("was_meaning", text(table.value(table.was(k)))),
        ("mark", mark_of(table.mark(k))),
    ])
}

fn register((id, written): (u32, Written)) -> String {
    object(&[
        ("kind", text("unheld")),
        ("id", text(format!("{id:03X}"))),
        ("register", text(register_name(id).unwrap_or_default())),
        ("value", number(written.last.value)),
        ("mask", number(written.last.mask)),
        ("writes", number(written.count as u64)),
    ])
}
