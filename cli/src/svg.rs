//! The few shapes that a picture is made of, as SVG.

use std::fmt::Write;

/// A picture that is drawn from top to bottom.
pub struct Picture {
    body: String,
}

/// How a text is set.
#[derive(Clone, Copy)]
pub struct Style {
    size: u32,
    /// `start`, `middle` or `end`: which of the text is at its place.
    anchor: &'static str,
    is_bold: bool,
}

pub const fn style(size: u32, anchor: &'static str, is_bold: bool) -> Style {
    Style {
        size,
        anchor,
        is_bold,
    }
}

const INK: &str = "#1a1a1a";

impl Picture {
    pub fn new() -> Self {
        Self {
            body: String::new(),
        }
    }

    pub fn rectangle(&mut self, (x, y): (f64, f64), (width, height): (f64, f64), fill: &str) {
        let rectangle = format!("<rect x=\"{x:.1}\" y=\"{y:.1}\" width=\"{width:.2}\" height=\"{height:.1}\" fill=\"{fill}\"/>");
        self.put(&rectangle);
    }

    pub fn line(&mut self, (x1, y1): (f64, f64), (x2, y2): (f64, f64), stroke: &str) {
        let line = format!("<line x1=\"{x1:.1}\" y1=\"{y1:.1}\" x2=\"{x2:.1}\" y2=\"{y2:.1}\" stroke=\"{stroke}\"/>");
        self.put(&line);
    }

    pub fn text(&mut self, (x, y): (f64, f64), style: Style, text: &str) {
        let Style {
            size,
            anchor,
            is_bold,
        } = style;
        let weight = if is_bold { " font-weight=\"bold\"" } else { "" };
        let anchor = if anchor == "start" {
            String::new()
        } else {
            format!(" text-anchor=\"{anchor}\"")
        };
        let text = escaped(text);
        self.put(&format!("<text x=\"{x:.1}\" y=\"{y:.1}\" font-size=\"{size}\"{anchor}{weight} fill=\"{INK}\">{text}</text>"));
    }

    fn put(&mut self, element: &str) {
        self.body.push_str("  ");
        self.body.push_str(element);
        self.body.push('\n');
    }

    /// The whole file, on white, with a title and a description for those who can't see it.
    pub fn finish(self, (width, height): (f64, f64), title: &str, description: &str) -> String {
        let mut file = String::from("<?xml version=\"1.0\" encoding=\"UTF-8\"?>\n");
        let size = format!(
            "width=\"{width:.0}\" height=\"{height:.0}\" viewBox=\"0 0 {width:.0} {height:.0}\""
        );
        let font = "font-family=\"Helvetica, Arial, 'Liberation Sans', 'DejaVu Sans', sans-serif\"";
        let _ = writeln!(
            file,
            "<svg xmlns=\"http://www.w3.org/2000/svg\" {size} role=\"img\" {font}>"
        );
        let _ = writeln!(
            file,
            "  <title>{}</title>\n  <desc>{}</desc>",
            escaped(title),
            escaped(description)
        );
        let _ = writeln!(
            file,
            "  <rect width=\"100%\" height=\"100%\" fill=\"#ffffff\"/>"
        );
        file + &self.body + "</svg>\n"
    }
}

/// Text within XML, which has no place for some characters at all, escaped or not.
fn escaped(text: &str) -> String {
    let mut safe = String::with_capacity(text.len());
    for letter in text.chars() {
        match letter {
            '&' => safe.push_str("&amp;"),
            '<' => safe.push_str("&lt;"),
            '>' => safe.push_str("&gt;"),
            '"' => safe.push_str("&quot;"),
            '\u{FFFE}' | '\u{FFFF}' => safe.push('\u{FFFD}'),
            letter if letter.is_control() => safe.push('\u{FFFD}'),
            letter => safe.push(letter),
        }
    }
    safe
}

#[cfg(test)]
mod tests {
    #[test]
    fn text_is_escaped() {
        assert_eq!(
            super::escaped("a<b>&\"c\" \n\u{1b}\u{FFFF}é"),
            "a&lt;b&gt;&amp;&quot;c&quot; \u{FFFD}\u{FFFD}\u{FFFD}é"
        );
    }
}
