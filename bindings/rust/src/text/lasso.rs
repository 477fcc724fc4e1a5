//! The text of a lasso: `u: 1 0  v: 0`, letters by name, as valuations such as `a & !b`, or by number. `u:` may be left out with an
//! empty start.

use super::names::Names;
use super::read::skip_lasso_header;
use super::tokens::{decode, TextError, Tokens};
use crate::files::Lasso;

/// The lasso that a text says, its letters by the names or as numbers from 0 to 255.
pub fn read_lasso(bytes: &[u8], names: &Names) -> Result<Lasso, TextError> {
    let mut tokens = Tokens::of(decode(bytes)?);
    skip_lasso_header(&mut tokens)?;
    let u = match tokens.take("u:") {
        Some(_) => read_word(&mut tokens, names)?,
        None => Vec::new(),
    };
    tokens.expect("v:")?;
    let v = read_word(&mut tokens, names)?;
    tokens.end()?;
    Ok(Lasso { u, v })
}

fn read_word(tokens: &mut Tokens<'_>, names: &Names) -> Result<Vec<u8>, TextError> {
    let mut letters = Vec::new();
    while tokens
        .peek()
        .is_some_and(|token| !token.word.ends_with(':'))
    {
        letters.push(names.read(tokens)?);
    }
    Ok(letters)
}

/// The letter that a text is: by name, as a valuation such as `a & !b`, or as a number from 0 to 255.
pub fn read_letter(text: &str, names: &Names) -> Result<u8, TextError> {
    let mut tokens = Tokens::of(text);
    let letter = names.read(&mut tokens)?;
    tokens.end()?;
    Ok(letter)
}

/// The letters of a word, with a space between them.
pub fn print_word(word: &[u8], names: &Names) -> String {
    let letters: Vec<String> = word.iter().map(|letter| names.show(*letter)).collect();
    letters.join(" ")
}

/// The text of a lasso, one line without its end.
pub fn print_lasso(lasso: &Lasso, names: &Names) -> String {
    let v = print_word(&lasso.v, names);
    match lasso.u.is_empty() {
        true => format!("u:  v: {v}"),
        false => format!("u: {}  v: {v}", print_word(&lasso.u, names)),
    }
}
