//! The C header of names: its template with the tables put in.

use crate::tables::{read, Codes, Kind, Refusal, Tables};
use crate::text::{quoted, wrapped};

/// A table's codes from 0 up, 0 for one without a name.
fn codes(table: &Codes) -> String {
    let last = table.rows.last().map_or(0, |row| row.0);
    let name = |code| {
        table
            .rows
            .iter()
            .find(|row| row.0 == code)
            .map(|row| quoted(&row.1))
    };
    let names = (0..=last).map(|code| name(code).unwrap_or("0".into()));
    format!(
        "        {{ /* {} */\n{}\n        }},",
        table.name,
        wrapped(names, 12)
    )
}

fn cases(refusals: &[Refusal], text: fn(&Refusal) -> &String) -> String {
    let case = |r: &Refusal| match format!("    case {}: return {};", r.number, quoted(text(r))) {
        line if line.len() <= 140 => line,
        _ => format!(
            "    case {}:\n        return {};",
            r.number,
            quoted(text(r))
        ),
    };
    refusals.iter().map(case).collect::<Vec<_>>().join("\n")
}

pub fn header(tables: &Tables) -> Result<String, String> {
    let fields = || tables.fields.iter();
    let table_of = |kind| if let Kind::Code(at) = kind { at + 1 } else { 0 };
    let most = tables
        .codes
        .iter()
        .flat_map(|t| t.rows.iter().map(|row| row.0 + 1))
        .max()
        .unwrap_or(1);
    let none = "        {0}, /* no codes */".to_string();
    let code_rows: Vec<String> = [none]
        .into_iter()
        .chain(tables.codes.iter().map(codes))
        .collect();
    let marks = [
        ("@FIELDS_LENGTH@", tables.fields.len().to_string()),
        (
            "@FIELD_NAMES@",
            wrapped(fields().map(|f| quoted(&f.name)), 8),
        ),
        (
            "@FIELD_REGISTERS@",
            wrapped(fields().map(|f| format!("0x{:03X}", f.register)), 8),
        ),
        (
            "@FIELD_CODES@",
            wrapped(fields().map(|f| table_of(f.kind).to_string()), 8),
        ),
        ("@CODE_TABLES@", (tables.codes.len() + 1).to_string()),
        ("@CODES_MOST@", most.to_string()),
        ("@CODES@", code_rows.join("\n")),
        ("@REGISTERS_LENGTH@", tables.registers.len().to_string()),
        (
            "@REGISTERS@",
            wrapped(tables.registers.iter().map(|r| quoted(&r.name)), 8),
        ),
        ("@REFUSAL_NAMES@", cases(&tables.refusals, |r| &r.name)),
        ("@REFUSAL_TEXTS@", cases(&tables.refusals, |r| &r.text)),
        ("@REFUSAL_ADVICE@", cases(&tables.refusals, |r| &r.advice)),
    ];
    let template = read("names/pica_names.h.in")?;
    Ok(marks
        .iter()
        .fold(template, |text, (mark, made)| text.replace(mark, made)))
}
