//! JSON, for programs that read what a command found.

/// Words between quotation marks.
pub fn string(words: &str) -> String {
    let mut text = String::from("\"");
    for letter in words.chars() {
        match letter {
            '"' | '\\' => text.extend(['\\', letter]),
            letter if letter.is_control() => text += &format!("\\u{:04x}", u32::from(letter)),
            letter => text.push(letter),
        }
    }
    text + "\""
}

/// A list of values.
pub fn list(values: impl IntoIterator<Item = String>) -> String {
    format!("[{}]", values.into_iter().collect::<Vec<_>>().join(", "))
}

/// Names with their values, in their order.
pub fn object(fields: &[(&str, String)]) -> String {
    let field = |(name, value): &(&str, String)| format!("{}: {value}", string(name));
    format!("{{{}}}", fields.iter().map(field).collect::<Vec<_>>().join(", "))
}

#[cfg(test)]
mod tests {
    use super::*;

    #[test]
    fn words_and_values() {
        assert_eq!(string("a\"b\\\u{7}é"), "\"a\\\"b\\\\\\u0007é\"");
        let inner = list([String::from("1"), string("x")]);
        assert_eq!(
            object(&[("n", inner), ("t", "true".into())]),
            "{\"n\": [1, \"x\"], \"t\": true}"
        );
    }
}
