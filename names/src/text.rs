//! Rows of items as text.

/// The most characters of a line that is made.
const WIDTH: usize = 132;

/// Items with commas, as many on a line as there is room for, each line indented.
pub fn wrapped(items: impl IntoIterator<Item = String>, indent: usize) -> String {
    let mut lines: Vec<String> = Vec::new();
    for item in items {
        match lines.last_mut() {
            Some(line) if line.len() + item.len() + 2 <= WIDTH => {
                line.push(' ');
                line.push_str(&item);
            }
            _ => lines.push(format!("{:indent$}{item}", "")),
        }
        if let Some(line) = lines.last_mut() {
            line.push(',');
        }
    }
    lines.join("\n")
}

pub fn quoted(text: &str) -> String {
    format!("\"{text}\"")
}
