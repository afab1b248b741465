//! antt's notation for the lists, words and bytes of a line.

/// A list: its items before `[]`.
pub fn list<T: ToString>(items: impl IntoIterator<Item = T>) -> String {
    let mut text = String::new();
    for item in items {
        text += &item.to_string();
        text += " ∷ ";
    }
    text + "[]"
}

/// A list of words separated by spaces.
pub fn words(text: &str) -> String {
    list(text.split_whitespace())
}

/// A list of bytes of two hexadecimal digits each.
pub fn bytes(text: &str) -> String {
    list(hexadecimal_bytes(text))
}

/// The bytes of two hexadecimal digits each.
pub fn hexadecimal_bytes(text: &str) -> Vec<u8> {
    text.as_bytes()
        .chunks(2)
        .map(|digits| {
            digits
                .iter()
                .fold(0, |byte, &digit| byte * 16 + value(digit))
        })
        .collect()
}

fn value(digit: u8) -> u8 {
    match digit {
        b'0'..=b'9' => digit - b'0',
        _ => digit - b'a' + 10,
    }
}
