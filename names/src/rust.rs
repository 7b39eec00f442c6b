//! The Rust crate's tables of names.

use crate::tables::{Codes, Field, Kind, Refusal, Tables};
use crate::text::{quoted, wrapped};

const HEAD: &str =
    "//! Made by `names/make` from the tables in `names/`: change those, and not this file.

use super::{Field, Kind, RefusalText};
use crate::FIELDS_LENGTH;

type Codes = &'static [(u32, &'static str)];
";

/// A table of codes is a constant of its name.
fn constant(table: &Codes) -> String {
    table.name.replace('-', "_").to_uppercase()
}

fn codes(table: &Codes) -> String {
    let rows = table
        .rows
        .iter()
        .map(|(code, name)| format!("({code:#X}, {})", quoted(name)));
    format!(
        "const {}: Codes = &[\n{}\n];\n",
        constant(table),
        wrapped(rows, 4)
    )
}

fn field(field: &Field, codes: &[Codes]) -> String {
    let kind = match field.kind {
        Kind::Number => "Number".to_string(),
        Kind::Signed => "Signed".into(),
        Kind::Channel => "Channel".into(),
        Kind::Float24 => "Float24".into(),
        Kind::WideFloat => "WideFloat".into(),
        Kind::Code(at) => format!("Code({})", constant(&codes[at])),
    };
    let Field {
        name,
        register,
        low,
        high,
        ..
    } = field;
    format!("    Field {{ name: \"{name}\", register: 0x{register:03X}, low: {low}, high: {high}, kind: Kind::{kind} }},\n")
}

fn refusal(refusal: &Refusal) -> String {
    let Refusal {
        number,
        name,
        reason,
        text,
        advice,
    } = refusal;
    format!(
        "    RefusalText {{\n        number: {number},\n        name: \"{name}\",\n        reason: \"{reason}\",\n        \
         text: \"{text}\",\n        advice: \"{advice}\",\n    }},\n"
    )
}

pub fn tables(tables: &Tables) -> String {
    let codes: String = tables
        .codes
        .iter()
        .map(|t| format!("\n{}", codes(t)))
        .collect();
    let fields: String = tables
        .fields
        .iter()
        .map(|f| field(f, &tables.codes))
        .collect();
    let names = wrapped(tables.registers.iter().map(|r| quoted(&r.name)), 4);
    let held: Vec<String> = tables
        .registers
        .iter()
        .filter(|r| r.held != 0)
        .map(|r| format!("(0x{:03X}, 0x{:08X})", r.id, r.held))
        .collect();
    let (held_length, held) = (held.len(), wrapped(held, 4));
    let refusals: String = tables.refusals.iter().map(refusal).collect();
    format!(
        "{HEAD}{codes}
/// The 204 decoded fields, in the order of [`Settings::flat`](crate::Settings::flat): ids ascending, then lowest bit first.
pub static FIELDS: [Field; FIELDS_LENGTH] = [
{fields}];

/// 004's names by id.
pub static REGISTERS: [&str; {}] = [
{names}
];

/// The held registers, ids ascending: the id and the bits that it holds.
pub static HELD: [(u32, u32); {held_length}] = [
{held}
];

/// The refusals, numbers ascending.
pub static REFUSALS: [RefusalText; {}] = [
{refusals}];
",
        tables.registers.len(),
        tables.refusals.len()
    )
}
