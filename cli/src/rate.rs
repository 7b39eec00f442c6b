//! A rate in words a second, and how long so many words take at it. All in whole numbers, so that the digits printed are exact.

use std::ffi::OsStr;
use std::fmt;

use crate::text::grouped;

/// Words a second: `number` over ten to the power of `decimals`.
#[derive(Clone, Copy, Debug, PartialEq, Eq)]
pub struct Rate {
    number: u128,
    decimals: u32,
}

/// As many digits before and after the point as leave room for every product below.
const DIGITS_MOST: (usize, usize) = (15, 9);

impl Rate {
    /// A rate from text such as `1000000` or `0.5`; else what is wrong with it.
    pub fn parse(text: &OsStr) -> Result<Self, &'static str> {
        let text = text.to_str().unwrap_or_default();
        let (whole, part) = text.split_once('.').unwrap_or((text, ""));
        let digits = format!("{whole}{part}");
        if digits.is_empty() || !digits.bytes().all(|letter| letter.is_ascii_digit()) {
            return Err("is no number: give digits alone, as 1000000 or 0.5");
        }
        if whole.len() > DIGITS_MOST.0 || part.len() > DIGITS_MOST.1 {
            return Err("has too many digits: give at most 15 before the point and 9 after it");
        }
        match digits.parse() {
            Ok(number) if number > 0 => Ok(Self {
                number,
                decimals: part.len() as u32,
            }),
            _ => Err("is nothing: give a rate above 0, as 1000000 or 0.5"),
        }
    }

    /// The time for so many words in ten to the power of minus `decimals` seconds, rounded half up.
    fn time(self, words: u64, decimals: u32) -> u128 {
        let product = u128::from(words) * 10u128.pow(self.decimals + decimals);
        (2 * product + self.number) / (2 * self.number)
    }

    /// Hours, minutes and seconds; below a minute with thousandths of a second.
    pub fn hours(self, words: u64) -> String {
        let thousandths = self.time(words, 3);
        if thousandths == 0 && words > 0 {
            return String::from("under 0 h 00 min 00.001 s");
        }
        if thousandths < 60_000 {
            return format!(
                "0 h 00 min {:02}.{:03} s",
                thousandths / 1000,
                thousandths % 1000
            );
        }
        let seconds = self.time(words, 0);
        let (hours, minutes) = (seconds / 3600, seconds / 60 % 60);
        format!(
            "{} h {minutes:02} min {:02} s",
            grouped(hours),
            seconds % 60
        )
    }

    /// Seconds with six decimals.
    pub fn seconds(self, words: u64) -> String {
        let millionths = self.time(words, 6);
        format!("{}.{:06}", millionths / 1_000_000, millionths % 1_000_000)
    }
}

/// As it was given, digits in groups.
impl fmt::Display for Rate {
    fn fmt(&self, f: &mut fmt::Formatter<'_>) -> fmt::Result {
        let unit = 10u128.pow(self.decimals);
        f.write_str(&grouped(self.number / unit))?;
        match self.decimals as usize {
            0 => Ok(()),
            width => write!(f, ".{:0width$}", self.number % unit),
        }
    }
}

#[cfg(test)]
mod tests {
    use super::*;

    fn rate(text: &str) -> Rate {
        Rate::parse(OsStr::new(text)).unwrap()
    }

    #[test]
    fn rates_are_numbers_above_0() {
        for bad in [
            "",
            "0",
            "0.0",
            "-1",
            "1,000",
            "1e6",
            "fast",
            ".",
            "+1",
            "1.2.3",
            " 1",
            "1234567890123456",
            "0.0000000001",
        ] {
            assert!(Rate::parse(OsStr::new(bad)).is_err(), "{bad}");
        }
        assert_eq!(
            rate("2.50"),
            Rate {
                number: 250,
                decimals: 2
            }
        );
        assert_eq!(
            rate(".5"),
            Rate {
                number: 5,
                decimals: 1
            }
        );
        assert_eq!(rate("5."), rate("5"));
        assert_eq!(
            ["1000000", "0.05", "1234.50"].map(|text| rate(text).to_string()),
            ["1,000,000", "0.05", "1,234.50"]
        );
    }

    #[test]
    fn times_are_exact() {
        assert_eq!(rate("1").hours(43_387), "12 h 03 min 07 s");
        assert_eq!(rate("0.5").hours(30), "0 h 01 min 00 s");
        assert_eq!(rate("1000").hours(480), "0 h 00 min 00.480 s");
        assert_eq!(rate("3").hours(1), "0 h 00 min 00.333 s");
        assert_eq!(rate("3").hours(2), "0 h 00 min 00.667 s");
        assert_eq!(rate("2000").hours(119_999), "0 h 01 min 00 s"); // 59.9995 s
        assert_eq!(rate("1000000").hours(1), "under 0 h 00 min 00.001 s");
        assert_eq!(rate("1").hours(0), "0 h 00 min 00.000 s");
        assert_eq!(rate("3").seconds(1), "0.333333");
        assert_eq!(rate("1").seconds(7), "7.000000");
        assert_eq!(
            rate("0.000000001").hours(u64::MAX),
            "5,124,095,576,030,431,004,166,666 h 40 min 00 s"
        );
        assert_eq!(rate("999999999999999").seconds(u64::MAX), "18446.744074");
    }
}
