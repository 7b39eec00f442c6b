//! The four text tables, as rows.

use std::fs;

pub struct Register {
    pub id: u32,
    pub held: u32,
    pub name: String,
}

#[derive(Clone, Copy, PartialEq, Eq)]
pub enum Kind {
    Number,
    Signed,
    Channel,
    Float24,
    WideFloat,
    /// The index of its table of codes.
    Code(usize),
}

pub struct Field {
    pub name: String,
    pub register: u32,
    pub low: u32,
    pub high: u32,
    pub kind: Kind,
}

impl Field {
    pub fn mask(&self) -> u32 {
        u32::MAX >> (31 - (self.high - self.low)) << self.low
    }
}

pub struct Codes {
    pub name: String,
    pub rows: Vec<(u32, String)>,
}

pub struct Refusal {
    pub number: u32,
    pub name: String,
    pub reason: String,
    pub text: String,
    pub advice: String,
}

pub struct Tables {
    pub registers: Vec<Register>,
    pub fields: Vec<Field>,
    pub codes: Vec<Codes>,
    pub refusals: Vec<Refusal>,
}

/// A line of a table that has a row, with where it is.
struct Line<'a> {
    at: String,
    text: &'a str,
}

impl Line<'_> {
    fn wrong(&self, why: &str) -> String {
        format!("{}: {why}: {}", self.at, self.text)
    }

    fn is_indented(&self) -> bool {
        self.text.starts_with(' ')
    }

    /// The first word, and the rest of the line.
    fn pair(&self) -> Result<(&str, &str), String> {
        let (first, rest) = self
            .text
            .trim()
            .split_once(' ')
            .ok_or_else(|| self.wrong("two words are expected"))?;
        Ok((first, rest.trim()))
    }

    fn number(&self, text: &str, radix: u32) -> Result<u32, String> {
        u32::from_str_radix(text, radix).map_err(|_| self.wrong(&format!("{text} is no number")))
    }
}

pub fn read(path: &str) -> Result<String, String> {
    fs::read_to_string(path).map_err(|why| format!("{path}: {why}"))
}

/// The lines of a table without comments and blank ones.
fn lines<'a>(path: &str, text: &'a str) -> Vec<Line<'a>> {
    let numbered = text.lines().enumerate();
    let rows = numbered.filter(|(_, line)| !line.trim().is_empty() && !line.starts_with('#'));
    rows.map(|(k, text)| Line {
        at: format!("{path}:{}", k + 1),
        text,
    })
    .collect()
}

fn registers(path: &str) -> Result<Vec<Register>, String> {
    let row = |line: &Line| {
        let [id, held, name] = words(line)?;
        let held = if held == "-" {
            0
        } else {
            line.number(held, 16)?
        };
        Ok(Register {
            id: line.number(id, 16)?,
            held,
            name: name.into(),
        })
    };
    lines(path, &read(path)?).iter().map(row).collect()
}

fn words<'a, const N: usize>(line: &Line<'a>) -> Result<[&'a str; N], String> {
    let words: Vec<&str> = line.text.split_whitespace().collect();
    words
        .try_into()
        .map_err(|_| line.wrong(&format!("{N} words are expected")))
}

fn codes(path: &str) -> Result<Vec<Codes>, String> {
    let mut tables: Vec<Codes> = Vec::new();
    for line in lines(path, &read(path)?) {
        if !line.is_indented() {
            tables.push(Codes {
                name: line.text.trim().into(),
                rows: Vec::new(),
            });
            continue;
        }
        let (code, name) = line.pair()?;
        let code = line.number(code, 16)?;
        let table = tables
            .last_mut()
            .ok_or_else(|| line.wrong("a code stands before the first table"))?;
        table.rows.push((code, name.into()));
    }
    Ok(tables)
}

fn fields(path: &str, codes: &[Codes]) -> Result<Vec<Field>, String> {
    let row = |line: &Line| {
        let [name, register, bits, kind] = words(line)?;
        let (low, high) = bits.split_once('-').unwrap_or((bits, bits));
        let (low, high) = (line.number(low, 10)?, line.number(high, 10)?);
        if low > high || high > 31 {
            return Err(line.wrong("no range of bits"));
        }
        let kind = match kind {
            "number" => Kind::Number,
            "signed" => Kind::Signed,
            "channel" => Kind::Channel,
            "float1.7.16" => Kind::Float24,
            "float1.7.24" => Kind::WideFloat,
            table => {
                let at = codes.iter().position(|t| t.name == table);
                Kind::Code(at.ok_or_else(|| line.wrong("codes.txt has no such table"))?)
            }
        };
        Ok(Field {
            name: name.into(),
            register: line.number(register, 16)?,
            low,
            high,
            kind,
        })
    };
    lines(path, &read(path)?).iter().map(row).collect()
}

fn refusals(path: &str) -> Result<Vec<Refusal>, String> {
    let text = read(path)?;
    let all = lines(path, &text);
    let row = |four: &[Line]| {
        let [head, rest @ ..] = four else {
            return Err(format!("{path} has no rows"));
        };
        let (number, name) = head.pair()?;
        let text = |key: &str, line: Option<&Line>| match line {
            Some(line) if line.is_indented() && line.pair()?.0 == key => {
                Ok(line.pair()?.1.to_string())
            }
            _ => Err(head.wrong(&format!("the line of its {key} is missing"))),
        };
        Ok(Refusal {
            number: head.number(number, 10)?,
            name: name.into(),
            reason: text("reason", rest.first())?,
            text: text("text", rest.get(1))?,
            advice: text("advice", rest.get(2))?,
        })
    };
    all.chunks(4).map(row).collect()
}

/// The tables of `names/`, below the repository's root, which is the folder that this runs in.
pub fn load() -> Result<Tables, String> {
    let codes = codes("names/codes.txt")?;
    Ok(Tables {
        registers: registers("names/registers.txt")?,
        fields: fields("names/fields.txt", &codes)?,
        refusals: refusals("names/refusals.txt")?,
        codes,
    })
}
