//! Rows of comma-separated values as RFC 4180 has them: lines end in CR LF, and a field with a comma, a quote or a line's end in it
//! is quoted.

/// A row, with its line's end.
pub fn row<T: AsRef<str>>(fields: &[T]) -> String {
    let fields: Vec<String> = fields.iter().map(|text| field(text.as_ref())).collect();
    fields.join(",") + "\r\n"
}

/// A path that a spreadsheet doesn't take for a formula: with ./ before it, it names the same file.
pub fn path(name: &str) -> String {
    let is_formula = name != "-" && name.starts_with(['=', '+', '-', '@', '\t', '\r']);
    format!("{}{name}", if is_formula { "./" } else { "" })
}

fn field(text: &str) -> String {
    if text.contains(['"', ',', '\r', '\n']) {
        format!("\"{}\"", text.replace('"', "\"\""))
    } else {
        text.to_owned()
    }
}

#[cfg(test)]
mod tests {
    #[test]
    fn paths_are_no_formulas() {
        let names = ["=1+1", "-x", "@a", "+", "-", "a=b", "./=x"];
        let paths = ["./=1+1", "./-x", "./@a", "./+", "-", "a=b", "./=x"];
        assert_eq!(names.map(super::path), paths);
    }

    #[test]
    fn fields_are_quoted_where_they_must_be() {
        assert_eq!(super::row(&["a", "", "b c"]), "a,,b c\r\n");
        assert_eq!(
            super::row(&["a,b", "say \"x\"", "1\n2"]),
            "\"a,b\",\"say \"\"x\"\"\",\"1\n2\"\r\n"
        );
    }
}
