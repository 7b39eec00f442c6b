//! The names beside a picture's bars.

use crate::text::{on_one_line, shortened};

/// The room for a name, in hundredths of a letter's size, and as many letters of the usual width as that holds.
const ROOM: usize = LETTERS_MOST * USUAL;
const LETTERS_MOST: usize = 34;
const USUAL: usize = 56;

/// How much of the start of every name is the same folder: that tells nothing beside the bars.
pub fn common_folder(names: &[&str]) -> usize {
    let Some((first, rest)) = names.split_first() else {
        return 0;
    };
    let pairs = |name: &'_ str| -> usize {
        let both = name.bytes().zip(first.bytes());
        both.take_while(|(a, b)| a == b).count()
    };
    let same = rest.iter().map(|name| pairs(name)).min();
    let start = &first.as_bytes()[..same.unwrap_or(first.len())];
    let slash = start.iter().rposition(|&byte| byte == b'/');
    slash.map_or(0, |slash| slash + 1)
}

/// How wide a letter is at most, about, in the common fonts without serifs.
fn wide(letter: char) -> usize {
    match letter {
        'm' | 'w' | 'M' => 86,
        'W' | '@' | '%' => 100,
        '\u{300}'.. => 2 * USUAL,
        letter if letter.is_uppercase() => 74,
        _ => USUAL,
    }
}

/// A name that fits, with what is remarkable.
pub fn label(name: &str, remark: Option<&str>) -> String {
    let name = on_one_line(name);
    let remark = remark.and_then(|remark| remark.split(':').next());
    let end = remark.map_or_else(String::new, |remark| format!(" ({remark})"));
    let width = |text: &str| text.chars().map(wide).sum::<usize>();
    let fits = |text: &String| width(text) + width(&end) <= ROOM;
    let mut shorter = (1..=LETTERS_MOST).rev().map(|most| shortened(&name, most));
    shorter.find(fits).unwrap_or_default() + &end
}

#[cfg(test)]
mod tests {
    use super::*;

    #[test]
    fn names_fit() {
        assert_eq!(label("a.bin", None), "a.bin");
        assert_eq!(
            label("a.bin", Some("sets nothing: every word is 0")),
            "a.bin (sets nothing)"
        );
        assert_eq!(label(&"x".repeat(99), None).len(), LETTERS_MOST);
        assert_eq!(
            label(&"x".repeat(99), Some("empty")).len(),
            LETTERS_MOST - 1
        );
        assert_eq!(label(&"W".repeat(99), None).len(), 19);
        assert_eq!(
            label("FRAME_CAPTURE_BATTLE_0001.BIN", None),
            "FRAME_CA..RE_BATTLE_0001.BIN"
        );
        assert_eq!(label(&"\u{753b}".repeat(99), None).chars().count(), 18);
    }

    #[test]
    fn the_common_folder_is_left_out() {
        assert_eq!(common_folder(&[]), 0);
        assert_eq!(common_folder(&["a/b/c"]), 4);
        assert_eq!(common_folder(&["a/b/c", "a/bd"]), 2);
        assert_eq!(common_folder(&["a/\u{e9}", "a/\u{e8}"]), 2);
        assert_eq!(common_folder(&["a", "b/a"]), 0);
    }
}
