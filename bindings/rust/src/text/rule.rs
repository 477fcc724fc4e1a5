//! The text of a rule: the propositions, if letters are their valuations; `elements`, n and the products by rows; `letters`, k and for
//! each letter its name, if it has one, and its element; the marks section.

use super::counts::Section;
use super::marks;
use super::names::Names;
use super::read::{Kind, Parsed};
use super::tokens::{whole_number, TextError, Tokens};
use crate::files::Rule;
use std::fmt::Write;

pub(super) fn read(tokens: &mut Tokens<'_>) -> Result<Parsed, TextError> {
    let mut parsed = Parsed::new();
    parsed.names.read_declaration(tokens, "elements")?;
    let elements = read_elements(tokens, &mut parsed)?;
    for a in 0..elements {
        for b in 0..elements {
            parsed.byte(tokens, &format!("the product {a}·{b}"))?;
        }
    }
    let letters = read_letters(tokens, &mut parsed)?;
    for letter in 0..letters {
        let name = tokens
            .peek()
            .filter(|token| whole_number(token.word).is_none());
        let wanted = format!("the element of letter {letter}");
        if name.is_some() {
            tokens.next(&wanted)?;
        }
        parsed.names.add(letter, name)?;
        parsed.byte(tokens, &wanted)?;
    }
    marks::read_section(tokens, &mut parsed)?;
    Ok(parsed)
}

/// Reads how many elements there are: products are as many as their square.
fn read_elements(tokens: &mut Tokens<'_>, parsed: &mut Parsed) -> Result<usize, TextError> {
    let word = tokens.expect("elements")?;
    let section = Section::new(tokens, word, Some("letters"), "elements");
    let length = section.ahead.len();
    let root = length.isqrt();
    let square = root > 0 && root * root == length;
    let with = section.first().is_some_and(|count| {
        let products = count.checked_mul(count);
        products.and_then(|own| own.checked_add(1)) == Some(length)
    });
    // No element at all is no rule, so that a single 0 in a line of its own is a product.
    match section.left_out(with && !square, square)? {
        true => parsed.counted(root, word),
        false => parsed.byte(tokens, "the count of the elements"),
    }
}

/// Reads how many letters there are: each has one number, and of propositions there are as many as these have valuations.
fn read_letters(tokens: &mut Tokens<'_>, parsed: &mut Parsed) -> Result<usize, TextError> {
    let word = tokens.expect("letters")?;
    let section = Section::new(tokens, word, Some("marks"), "letters");
    let (numbers, valuations) = (section.numbers(), parsed.names.count());
    let fits = |letters: usize| valuations.is_none_or(|valuations| letters == valuations);
    let with = section
        .first()
        .is_some_and(|count| numbers == count.saturating_add(1) && fits(count));
    let without = numbers > 0 && fits(numbers);
    let place = tokens.peek().map_or(word, |token| token.place);
    let (letters, place) = match section.left_out(with, without)? {
        true => (parsed.counted(numbers, word)?, word),
        false => (parsed.byte(tokens, "the count of the letters")?, place),
    };
    parsed.names.expect_count(letters, place)?;
    Ok(letters)
}

/// The text of a rule.
pub fn print_rule(rule: &Rule, names: &Names) -> String {
    let mut text = Kind::Rule.header() + &names.declaration();
    let _ = writeln!(text, "elements {}", rule.elements);
    let widest = rule.products.iter().max().unwrap_or(&0).to_string().len();
    for row in rule.products.chunks(usize::from(rule.elements).max(1)) {
        let entry = |product: &u8| format!(" {product:>widest$}");
        let _ = writeln!(text, " {}", row.iter().map(entry).collect::<String>());
    }
    let _ = writeln!(text, "letters {}", rule.images.len());
    for (letter, image) in (0..=u8::MAX).zip(&rule.images) {
        let _ = match names.written(letter) {
            Some(name) => writeln!(text, "  {name} {image}"),
            None => writeln!(text, "  {image}"),
        };
    }
    marks::print_section(&rule.marks, &mut text);
    text
}
