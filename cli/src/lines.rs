//! Lines of writes, from a CSV.

use std::io::{self, BufRead, BufReader, Read, Take};

use pica::{Write, LIST_LENGTH_MOST};

use crate::input::Reason;
use crate::text::{grouped, on_one_line, shortened};
use crate::writes::HEADER;

/// A write, and its line's number from 1.
#[derive(Clone, Copy, Debug, PartialEq, Eq)]
pub struct Numbered {
    pub write: Write,
    pub line: u64,
}

/// No line is longer, but for comments, of which the rest is passed over: so little is kept of any input.
const LINE_MOST: u64 = 1024;

/// Nothing is read past so many bytes: more than the writes of any list take, in lines that are all as long as may be.
const BYTES_MOST: u64 = LIST_LENGTH_MOST as u64 * (LINE_MOST + 1);

/// How many writes a list has of these: those with mask 0 belong to none.
pub fn kept(writes: &[Numbered]) -> usize {
    writes.iter().filter(|numbered| is_kept(numbered)).count()
}

fn is_kept(numbered: &Numbered) -> bool {
    numbered.write.mask != 0
}

/// The writes of a CSV, or what is wrong with it. Nothing is read past so many writes as no list says.
pub fn read(file: impl Read) -> Result<Vec<Numbered>, String> {
    let mut file = BufReader::new(file.take(BYTES_MOST + 1));
    let (mut writes, mut kept) = (Vec::new(), 0);
    let (mut bytes, mut is_first) = (Vec::new(), true);
    for line in 1.. {
        bytes.clear();
        let length = next(&mut file, &mut bytes).map_err(unreadable)?;
        if length == 0 || is_too_much(&file) || kept == LIST_LENGTH_MOST {
            break;
        }
        let told = |what: String| format!("line {}: {what}", grouped(line));
        let text = String::from_utf8_lossy(&bytes);
        // some programs begin a file with a mark of the byte order
        let text = if line == 1 {
            text.trim_start_matches('\u{FEFF}')
        } else {
            &text
        }
        .trim();
        if text.starts_with('#') {
            rest(&mut file, &mut bytes).map_err(unreadable)?;
        } else if is_cut(&bytes) {
            return Err(told(too_long(text)));
        } else if !text.is_empty() && (!std::mem::take(&mut is_first) || !is_header(text)) {
            let write = write(text).map_err(told)?;
            let numbered = Numbered { write, line };
            kept += usize::from(is_kept(&numbered));
            writes.push(numbered);
        }
    }
    if is_too_much(&file) {
        return Err(String::from(
            "over 64 MB, which the writes of no list take: leave out comments, empty lines and writes with mask 0",
        ));
    }
    if is_first {
        return Err(format!(
            "there is no write in it, nor the line {HEADER}, which alone says that there is none"
        ));
    }
    Ok(writes)
}

fn is_too_much(file: &BufReader<Take<impl Read>>) -> bool {
    file.get_ref().limit() == 0
}

fn unreadable(error: io::Error) -> String {
    let Reason { why, advice } = error.into();
    format!("unreadable: {why}; {advice}")
}

/// A line with its end, or the start of a long one.
fn next(file: &mut impl BufRead, bytes: &mut Vec<u8>) -> io::Result<usize> {
    file.take(LINE_MOST + 1).read_until(b'\n', bytes)
}

/// Whether this is the start of a long line: to go on with its rest would take one line for two.
fn is_cut(bytes: &[u8]) -> bool {
    bytes.len() as u64 > LINE_MOST && bytes.last() != Some(&b'\n')
}

/// Passes over what is left of a line.
fn rest(file: &mut impl BufRead, bytes: &mut Vec<u8>) -> io::Result<()> {
    while bytes.last() != Some(&b'\n') {
        bytes.clear();
        if next(file, bytes)? == 0 {
            break;
        }
    }
    Ok(())
}

fn is_header(text: &str) -> bool {
    fields(text).join(",").eq_ignore_ascii_case(HEADER)
}

/// Fields without the spaces and the quotes around them.
fn fields(text: &str) -> Vec<&str> {
    text.split(',')
        .map(|field| unquoted(field.trim()))
        .collect()
}

fn unquoted(field: &str) -> &str {
    field
        .strip_prefix('"')
        .and_then(|field| field.strip_suffix('"'))
        .map_or(field, str::trim)
}

fn write(text: &str) -> Result<Write, String> {
    let [id, mask, value] = fields(text)[..] else {
        return Err(expected(text));
    };
    let number = |field| {
        number(field)
            .ok_or_else(|| expected(text))?
            .ok_or_else(|| too_large(field))
    };
    Ok(Write {
        id: number(id)?,
        mask: number(mask)?,
        value: number(value)?,
    })
}

/// A number in hexadecimal, with 0x before it or h after it if need be: none where it isn't one, and none within where it has more
/// than 32 bits.
fn number(field: &str) -> Option<Option<u32>> {
    let prefixed = field
        .strip_prefix("0x")
        .or_else(|| field.strip_prefix("0X"));
    let digits = prefixed
        .or_else(|| field.strip_suffix(['h', 'H']))
        .unwrap_or(field);
    if digits.is_empty() || !digits.bytes().all(|digit| digit.is_ascii_hexdigit()) {
        return None;
    }
    Some(u32::from_str_radix(digits, 16).ok())
}

fn expected(text: &str) -> String {
    let found = shortened(&on_one_line(text), 60);
    format!("expected id,mask,value in hexadecimal, as 041,F,00000001, and found `{found}`")
}

fn too_long(text: &str) -> String {
    let start = shortened(&on_one_line(text), 40);
    format!("over 1,024 bytes, and a line is one write, as 041,F,00000001; found `{start}`")
}

fn too_large(field: &str) -> String {
    format!(
        "{} is above FFFFFFFF: a number has at most eight digits",
        shortened(field, 40)
    )
}

#[cfg(test)]
mod tests {
    use super::*;

    fn writes(text: &str) -> Result<Vec<(u64, [u32; 3])>, String> {
        let plain = |numbered: &Numbered| {
            (
                numbered.line,
                [numbered.write.id, numbered.write.mask, numbered.write.value],
            )
        };
        read(text.as_bytes()).map(|writes| writes.iter().map(plain).collect())
    }

    #[test]
    fn lines_are_read_as_people_write_them() {
        let text = "\u{FEFF}ID, Mask ,value\r\n\r\n# to 41\n041,F,00000001\r\n 0x42 , 3h,\"ffffffff\" \n  #x\n2ff,10,0000000000000007";
        let found = [
            (4, [0x41, 15, 1]),
            (5, [0x42, 3, 0xFFFF_FFFF]),
            (7, [0x2FF, 16, 7]),
        ];
        assert_eq!(writes(text), Ok(found.to_vec()));
        assert_eq!(writes("id,mask,value\n"), Ok(Vec::new()));
    }

    #[test]
    fn bad_lines_are_told_by_number() {
        for bad in [
            "41,F",
            "41,F,1,2",
            "41,,1",
            "g,F,1",
            "41,F,-1",
            "41,F,0x",
            "41,F,0x1h",
            "\0",
            "id,mask,value",
        ] {
            let told = writes(&format!("41,F,1\n#\n{bad}\n41,F,1\n")).unwrap_err();
            assert!(
                told.starts_with("line 3: expected id,mask,value"),
                "{bad:?}: {told}"
            );
        }
        assert!(writes("41,F,100000000")
            .unwrap_err()
            .starts_with("line 1: 100000000 is above FFFFFFFF"));
        assert!(writes("").unwrap_err().contains("there is no write"));
        assert!(writes("# nothing\n\n")
            .unwrap_err()
            .contains("there is no write"));
    }

    #[test]
    fn long_lines_are_bad_and_long_comments_are_passed_over() {
        let long = "1".repeat(3 * LINE_MOST as usize);
        assert_eq!(
            writes(&format!("#{long}\n41,F,1")),
            Ok(vec![(2, [0x41, 15, 1])])
        );
        assert!(writes(&long)
            .unwrap_err()
            .starts_with("line 1: over 1,024 bytes"));
        // an endless line is read no further
        assert!(read(io::repeat(b'1')).unwrap_err().starts_with("line 1: "));
        // nor are endless comments and empty lines
        for endless in [b'#', b'\n'] {
            assert!(read(io::repeat(endless)).unwrap_err().contains("64 MB"));
        }
    }

    /// What is past the start of a long line is no line of its own, nor is it lost.
    #[test]
    fn a_long_line_is_never_two_nor_none() {
        let (most, spaces) = (LINE_MOST as usize, " ".repeat(LINE_MOST as usize));
        for long in [
            format!("41,F,1{spaces}\n42,F,2"),
            format!("41,F,1{spaces}42,F,2"),
            format!("{spaces}41,F,1"),
            format!("41,F,{}42,F,2", "0".repeat(most - 5)),
        ] {
            let told = writes(&format!("43,F,3\n{long}\n")).unwrap_err();
            assert!(told.starts_with("line 2: over 1,024 bytes"), "{told}");
        }
        let longest = format!("{:most$}\r\n42,F,2", "41,F,1", most = most - 1);
        let found = [(1, [0x41, 15, 1]), (2, [0x42, 15, 2])];
        assert_eq!(writes(&longest), Ok(found.to_vec()));
        assert_eq!(
            writes(&format!("{:most$}", "41,F,1")),
            Ok(found[..1].to_vec())
        );
    }
}
