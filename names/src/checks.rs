//! What must be so of the tables: each by itself, one against another, and against the header and the proved held table. Each check
//! gives a line for every fault.

use crate::header;
use crate::tables::{read, Kind, Tables};

/// Whether each item is above the one before.
fn rise<T: PartialOrd>(items: impl IntoIterator<Item = T>) -> bool {
    let items: Vec<T> = items.into_iter().collect();
    items.windows(2).all(|pair| pair[0] < pair[1])
}

/// What a string in C and in Rust can hold as it stands.
fn is_plain(text: &str) -> bool {
    !text.is_empty()
        && text
            .bytes()
            .all(|b| (b' '..=b'~').contains(&b) && b != b'"' && b != b'\\')
}

fn plain(tables: &Tables) -> Vec<String> {
    let mut texts: Vec<&String> = tables.registers.iter().map(|r| &r.name).collect();
    texts.extend(tables.fields.iter().map(|f| &f.name));
    texts.extend(
        tables
            .codes
            .iter()
            .flat_map(|t| t.rows.iter().map(|row| &row.1)),
    );
    texts.extend(
        tables
            .refusals
            .iter()
            .flat_map(|r| [&r.name, &r.reason, &r.text, &r.advice]),
    );
    let odd = texts.into_iter().filter(|text| !is_plain(text));
    odd.map(|text| format!("not plain ASCII, or with a quote or backslash: {text}"))
        .collect()
}

fn registers(tables: &Tables) -> Vec<String> {
    let ids = tables.registers.iter().map(|r| r.id);
    if ids.eq(0..0x300) {
        return Vec::new();
    }
    vec!["registers.txt: the ids aren't 000 to 2FF, each once and in order".into()]
}

/// The fields of a register have exactly its held bits, each bit once.
fn bits(tables: &Tables) -> Vec<String> {
    let mut faults = Vec::new();
    for register in &tables.registers {
        let mut met = 0;
        for field in tables.fields.iter().filter(|f| f.register == register.id) {
            if met & field.mask() != 0 {
                faults.push(format!(
                    "fields.txt: {} has bits of the field before it",
                    field.name
                ));
            }
            met |= field.mask();
        }
        if met != register.held {
            let (id, held) = (register.id, register.held);
            faults.push(format!("fields.txt: the fields of {id:03X} have the bits {met:08X}, and it holds {held:08X}"));
        }
    }
    if !rise(tables.fields.iter().map(|f| (f.register, f.low))) {
        faults.push("fields.txt: ids don't rise, or a register's lowest bits".into());
    }
    faults
}

fn codes(tables: &Tables) -> Vec<String> {
    let mut faults = Vec::new();
    for (at, table) in tables.codes.iter().enumerate() {
        let name = &table.name;
        if !rise(table.rows.iter().map(|row| row.0)) {
            faults.push(format!("codes.txt: the codes of {name} don't rise"));
        }
        let mut users = tables
            .fields
            .iter()
            .filter(|f| f.kind == Kind::Code(at))
            .peekable();
        if users.peek().is_none() {
            faults.push(format!("codes.txt: no field has the codes {name}"));
        }
        let last = table.rows.last().map_or(0, |row| row.0);
        let narrow = users.filter(|f| f.mask() >> f.low < last);
        faults.extend(
            narrow.map(|f| format!("codes.txt: {name} has codes that {} can't hold", f.name)),
        );
    }
    faults
}

fn against_header(tables: &Tables, header: &str) -> Result<Vec<String>, String> {
    let mut faults = Vec::new();
    let (ours, theirs) = (
        tables
            .fields
            .iter()
            .map(|f| f.name.clone())
            .collect::<Vec<_>>(),
        header::fields(header)?,
    );
    if let Some(k) = (0..ours.len().max(theirs.len())).find(|&k| ours.get(k) != theirs.get(k)) {
        let (a, b) = (ours.get(k), theirs.get(k));
        faults.push(format!(
            "field {k} is {a:?} in fields.txt and {b:?} in enum pica_field"
        ));
    }
    let ours: Vec<_> = tables
        .refusals
        .iter()
        .map(|r| (r.number, r.name.clone()))
        .collect();
    let theirs = header::refusals(header)?;
    let strange = |a: &[(u32, String)], b: &[(u32, String)]| {
        a.iter()
            .filter(|r| !b.contains(r))
            .cloned()
            .collect::<Vec<_>>()
    };
    let not_there = strange(&ours, &theirs)
        .into_iter()
        .map(|(n, name)| format!("enum pica_refusal has no {name} = {n}"));
    faults.extend(not_there);
    faults.extend(
        strange(&theirs, &ours)
            .into_iter()
            .map(|(n, name)| format!("refusals.txt has no {n} {name}")),
    );
    if !rise(ours.iter().map(|r| r.0)) {
        faults.push("refusals.txt: the numbers don't rise".into());
    }
    Ok(faults)
}

fn against_held(tables: &Tables, source: &str) -> Result<Vec<String>, String> {
    let ours: Vec<_> = tables
        .registers
        .iter()
        .filter(|r| r.held != 0)
        .map(|r| (r.id, r.held))
        .collect();
    if ours == header::held(source)? {
        return Ok(Vec::new());
    }
    Ok(vec![
        "registers.txt: the held bits aren't those of crates/registers/src/held.rt".into(),
    ])
}

/// Every fault of the tables, and those that keep anything from being checked as an error.
pub fn faults(tables: &Tables) -> Result<Vec<String>, String> {
    let header = read("include/pica.h")?;
    let held = read("crates/registers/src/held.rt")?;
    let mut faults = plain(tables);
    faults.extend(registers(tables));
    faults.extend(bits(tables));
    faults.extend(codes(tables));
    faults.extend(against_header(tables, &header)?);
    faults.extend(against_held(tables, &held)?);
    Ok(faults)
}
