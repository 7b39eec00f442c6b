//! JSON text, as far as it is printed here: strings, numbers, null.

/// A value of an object.
pub enum Value {
    Text(String),
    Number(u64),
    Null,
}

impl<T: Into<u64>> From<Option<T>> for Value {
    fn from(number: Option<T>) -> Self {
        number.map_or(Self::Null, |number| Self::Number(number.into()))
    }
}

/// An object on one line, its names in the order given.
pub fn object(fields: &[(&str, Value)]) -> String {
    let pairs: Vec<String> = fields
        .iter()
        .map(|(name, value)| format!("{}: {}", string(name), text(value)))
        .collect();
    format!("{{{}}}", pairs.join(", "))
}

fn text(value: &Value) -> String {
    match value {
        Value::Text(text) => string(text),
        Value::Number(number) => number.to_string(),
        Value::Null => String::from("null"),
    }
}

/// A string in quotes. Control characters are escaped by number; all else stands as it is.
fn string(text: &str) -> String {
    let mut quoted = String::from("\"");
    for letter in text.chars() {
        match letter {
            '"' | '\\' => quoted.extend(['\\', letter]),
            letter if letter.is_control() => {
                quoted.push_str(&format!("\\u{:04x}", u32::from(letter)))
            }
            letter => quoted.push(letter),
        }
    }
    quoted.push('"');
    quoted
}

#[cfg(test)]
mod tests {
    use super::*;

    #[test]
    fn strings_are_escaped() {
        assert_eq!(
            string("a\"b\\c\n\u{1}é/"),
            "\"a\\\"b\\\\c\\u000a\\u0001é/\""
        );
        let fields = [
            ("n", Value::Number(7)),
            ("none", Value::Null),
            ("t", Value::Text(String::from("x"))),
        ];
        assert_eq!(object(&fields), "{\"n\": 7, \"none\": null, \"t\": \"x\"}");
    }
}
