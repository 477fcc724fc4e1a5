//! The text of a reduction's map: for each element of a rule the number of the element that it went to.

use super::read::{Kind, Parsed};
use super::tokens::{TextError, Tokens};

/// A map has no count: its numbers go on to the end.
pub(super) fn read(tokens: &mut Tokens<'_>) -> Result<Parsed, TextError> {
    let mut parsed = Parsed::new();
    while tokens.peek().is_some() {
        let wanted = format!("where element {} went", parsed.bytes.len());
        parsed.byte(tokens, &wanted)?;
    }
    Ok(parsed)
}

/// The text of a map, 16 numbers in a line.
pub fn print_map(map: &[u8]) -> String {
    let mut text = Kind::Map.header();
    for line in map.chunks(16) {
        let numbers: Vec<String> = line.iter().map(u8::to_string).collect();
        text.push_str(&format!("  {}\n", numbers.join(" ")));
    }
    text
}
