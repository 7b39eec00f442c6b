//! A field's number and what it stands for, as text.

use pica::names::{code_name, Kind, FIELDS};

/// The field's bits: a signed one's too.
pub fn bits(field: usize, word: u32) -> u32 {
    word & FIELDS[field].mask() >> FIELDS[field].low
}

pub fn hexadecimal(field: usize, word: u32) -> String {
    format!("{:X}", bits(field, word))
}

/// The code's name, the float's value, or the number in decimal.
pub fn meaning(field: usize, word: u32) -> String {
    match FIELDS[field].kind {
        Kind::Code(_) => String::from(code_name(field, word).unwrap_or("no name")),
        Kind::Signed => (word as i32).to_string(),
        // as many digits as tell any two floats apart
        kind @ Kind::Float24 => float(kind.float(word), 7),
        kind @ Kind::WideFloat => float(kind.float(word), 9),
        _ => word.to_string(),
    }
}

fn float(number: Option<f64>, digits: usize) -> String {
    number.map_or_else(
        || String::from("no plain number"),
        |number| significant(number, digits),
    )
}

/// A number with so many significant digits at most: 120, 0.005, 1.5e-12.
pub fn significant(number: f64, digits: usize) -> String {
    let scientific = format!("{:.*e}", digits - 1, number);
    let (mantissa, exponent) = scientific.split_once('e').unwrap_or((&scientific, "0"));
    match exponent.parse::<i32>() {
        Ok(exponent @ -5..=8) => {
            let decimals = (digits as i32 - 1 - exponent).max(0);
            trimmed(&format!("{number:.*}", decimals as usize)).to_owned()
        }
        _ => format!("{}e{exponent}", trimmed(mantissa)),
    }
}

/// Without zeros at the end of its decimals.
fn trimmed(number: &str) -> &str {
    if number.contains('.') {
        number.trim_end_matches('0').trim_end_matches('.')
    } else {
        number
    }
}

/// The value of a fog entry: 002, bits 13-23, fixed0.0.11.
pub fn fog_value(entry: u32) -> f64 {
    f64::from(entry >> 13 & 0x7FF) / 2048.0
}

/// The value of a light entry: 000, bits 0-11, fixed0.0.12.
pub fn light_value(entry: u32) -> f64 {
    f64::from(entry & 0xFFF) / 4096.0
}

#[cfg(test)]
mod tests {
    use super::*;

    #[test]
    fn digits_that_count() {
        let cases = [
            (0.0, "0"),
            (120.0, "120"),
            (-1.0, "-1"),
            (0.005, "0.005"),
            (2.0 / 240.0, "0.008333333"),
            (123_456_789.0, "123456789"),
            (1.5e-12, "1.5e-12"),
            (1e19, "1e19"),
        ];
        for (number, text) in cases {
            assert_eq!(significant(number, 7), text);
        }
    }

    #[test]
    fn table_values() {
        assert_eq!(fog_value(0xFF_FFF0), 2047.0 / 2048.0);
        assert_eq!(light_value(0x01_0800), 0.5);
    }
}
