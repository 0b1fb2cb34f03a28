//! Small texts for people.

/// The text with its first letter in upper case.
#[cfg(feature = "title")]
pub fn title(text: &str) -> String {
    let mut letters = text.chars();
    match letters.next() {
        Some(first) => first.to_uppercase().chain(letters).collect(),
        None => String::new(),
    }
}

/// A name to the left of a column of `width` letters, a number with three decimals to the right.
#[cfg(feature = "align")]
pub fn row(name: &str, width: usize, number: f64) -> String {
    format!("{name:width$}{number:8.3}")
}
