//! All names of the tables, a line each: what `test.c` prints from the C header.

use std::fmt::Write;

use crate::tables::{Kind, Tables};

/// Numbers past the last are asked for too, and `-` stands for no name.
const REFUSALS_ASKED: u32 = 40;

pub fn list(tables: &Tables) -> String {
    let mut out = String::new();
    let mut line = |text: String| writeln!(out, "{text}").expect("a string takes every line");
    for (k, field) in tables.fields.iter().enumerate() {
        line(format!(
            "field {k}: {}, register {:03X}",
            field.name, field.register
        ));
        let codes = if let Kind::Code(at) = field.kind {
            &tables.codes[at].rows[..]
        } else {
            &[]
        };
        for (code, name) in codes {
            line(format!("    {code}: {name}"));
        }
    }
    for register in &tables.registers {
        line(format!("register {:03X}: {}", register.id, register.name));
    }
    for number in 0..REFUSALS_ASKED {
        match tables.refusals.iter().find(|r| r.number == number) {
            Some(r) => line(format!(
                "refusal {number}: {}: {}: {}",
                r.name, r.text, r.advice
            )),
            None => line(format!("refusal {number}: -: -: -")),
        }
    }
    out
}
