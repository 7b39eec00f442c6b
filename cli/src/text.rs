//! Numbers and names as people read them.

/// Digits in groups of three: 65,536.
pub fn grouped(number: impl Into<u128>) -> String {
    let digits = number.into().to_string();
    let mut text = String::new();
    for (k, digit) in digits.chars().enumerate() {
        if k > 0 && (digits.len() - k) % 3 == 0 {
            text.push(',');
        }
        text.push(digit);
    }
    text
}

/// A part of a whole in per cent, with one decimal, rounded half up; of nothing it is 0.
pub fn percent(part: u64, whole: u64) -> String {
    let (part, whole) = (u128::from(part), u128::from(whole.max(1)));
    let tenths = (part * 2000 + whole) / (2 * whole);
    format!("{}.{}", tenths / 10, tenths % 10)
}

/// A name of at most so many letters: a longer one loses some in the middle, and more of its start than of its end, where names of
/// captures differ.
pub fn shortened(name: &str, most: usize) -> String {
    let letters: Vec<char> = name.chars().collect();
    if letters.len() <= most {
        return name.to_owned();
    }
    let kept = most.saturating_sub(2);
    let (start, end) = (kept / 3, kept - kept / 3);
    let (head, tail) = (&letters[..start], &letters[letters.len() - end..]);
    head.iter().chain(&['.', '.']).chain(tail).collect()
}

/// Control characters escaped, and those that turn the direction of writing or break a line: a name with a line's end in it can't pass
/// for two, nor can one steer a terminal, nor turn what stands after it.
pub fn on_one_line(text: &str) -> String {
    let mut line = String::with_capacity(text.len());
    for letter in text.chars() {
        let turns = matches!(letter, '\u{200E}' | '\u{200F}' | '\u{2028}'..='\u{202E}' | '\u{2066}'..='\u{2069}' | '\u{FEFF}');
        if turns || letter.is_control() {
            line.extend(letter.escape_default());
        } else {
            line.push(letter);
        }
    }
    line
}

#[cfg(test)]
mod tests {
    use super::*;

    #[test]
    fn numbers_are_grouped_and_rounded() {
        assert_eq!(
            [0u64, 999, 1000, 65_536, 1_234_567].map(grouped),
            ["0", "999", "1,000", "65,536", "1,234,567"]
        );
        assert_eq!(percent(6, 480), "1.3"); // 1.25 rounds up
        assert_eq!(percent(1, 3), "33.3");
        assert_eq!(percent(2, 3), "66.7");
        assert_eq!(
            (percent(0, 0), percent(5, 5)),
            (String::from("0.0"), String::from("100.0"))
        );
        assert_eq!(percent(u64::MAX, u64::MAX), "100.0");
    }

    #[test]
    fn no_letter_steers() {
        assert_eq!(
            on_one_line("a\n\u{1b}[1m\u{202E}b\u{2028}"),
            "a\\n\\u{1b}[1m\\u{202e}b\\u{2028}"
        );
        assert_eq!(
            on_one_line("Gr\u{f6}\u{df}e u\u{308} \u{753b}"),
            "Gr\u{f6}\u{df}e u\u{308} \u{753b}"
        );
    }

    #[test]
    fn names_are_shortened_in_the_middle() {
        assert_eq!(shortened("frame.bin", 9), "frame.bin");
        assert_eq!(shortened("captures/frame-0001.bin", 14), "capt..0001.bin");
        assert_eq!(shortened("ééééé", 4), "..éé");
    }
}
