//! What the tables are held to: the enumerations of `include/pica.h`, and the proved table of held bits.

/// The text between two marks.
fn between<'a>(text: &'a str, from: &str, to: &str) -> Result<&'a str, String> {
    let missing = || format!("`{from}` .. `{to}` isn't found");
    let (_, rest) = text.split_once(from).ok_or_else(missing)?;
    rest.split_once(to)
        .map(|(part, _)| part)
        .ok_or_else(missing)
}

fn without_comments(text: &str) -> String {
    let mut parts = text.split("/*");
    let mut kept = parts.next().unwrap_or("").to_string();
    for part in parts {
        kept.push_str(part.split_once("*/").map_or("", |(_, rest)| rest));
    }
    kept
}

/// The items of a list with commas.
fn items(text: &str) -> impl Iterator<Item = &str> {
    text.split(',')
        .map(str::trim)
        .filter(|item| !item.is_empty())
}

/// `enum pica_refusal`: numbers and names.
pub fn refusals(header: &str) -> Result<Vec<(u32, String)>, String> {
    let text = without_comments(header);
    let row = |item: &str| {
        let wrong = || format!("include/pica.h, enum pica_refusal: no name with a number: {item}");
        let (name, number) = item.split_once(" = ").ok_or_else(wrong)?;
        let name = name.strip_prefix("PICA_").ok_or_else(wrong)?;
        Ok((number.parse().map_err(|_| wrong())?, name.to_string()))
    };
    items(between(&text, "enum pica_refusal {", "}")?)
        .map(row)
        .collect()
}

/// `enum pica_field`, with a stage's fields put in where its macro stands: names in lower case, in their order.
pub fn fields(header: &str) -> Result<Vec<String>, String> {
    let text = without_comments(header);
    let macro_text =
        between(&text, "#define PICA_FIELDS_OF_STAGE_(stage)", "\n\n")?.replace('\\', " ");
    let mut names = Vec::new();
    for item in items(between(&text, "enum pica_field {", "}")?) {
        if let Some(stage) = item.strip_prefix("PICA_FIELDS_OF_STAGE_(") {
            let stage = stage.trim_end_matches(')');
            names.extend(items(&macro_text).map(|name| name.replace("##stage##", stage)));
        } else if item != "PICA_FIELD_COUNT" {
            names.push(item.trim_end_matches(" = 0").to_string());
        }
    }
    let short = |name: &String| match name.strip_prefix("PICA_FIELD_") {
        Some(short) => Ok(short.to_lowercase()),
        None => Err(format!(
            "include/pica.h, enum pica_field: no name of a field: {name}"
        )),
    };
    names.iter().map(short).collect()
}

/// The rows of `HELD` in `crates/registers`: id and held bits, ids ascending.
pub fn held(source: &str) -> Result<Vec<(u32, u32)>, String> {
    let number = |item: &str| {
        let digits = item.strip_prefix("0x").unwrap_or(item);
        u32::from_str_radix(digits, 16).map_err(|_| format!("the held table: {item} is no number"))
    };
    let rows = between(source, "const HELD: [u32; 132] = [", "]")?;
    let words = items(rows)
        .map(number)
        .collect::<Result<Vec<u32>, String>>()?;
    let mut rows: Vec<(u32, u32)> = words.chunks_exact(2).map(|row| (row[0], row[1])).collect();
    rows.sort_unstable();
    Ok(rows)
}
