//! Letters as valuations of propositions: a conjunction of propositions and negated ones is one letter.

use super::quotes::{unquoted, written};
use super::tokens::{shown, whole_number, TextError, Token, Tokens};

/// A letter as a conjunction that has every proposition; none where there are none, or where it is no valuation.
pub(super) fn written_out(propositions: &[String], letter: u8) -> Option<String> {
    let literal = |(bit, name): (usize, &String)| match letter >> bit & 1 {
        1 => written(name),
        _ => format!("!{}", written(name)),
    };
    let fits = !propositions.is_empty() && usize::from(letter) < 1 << propositions.len();
    let literals: Vec<String> = propositions.iter().enumerate().map(literal).collect();
    fits.then(|| literals.join(" & "))
}

/// Reads a conjunction of propositions and negated ones, whose first word was taken.
pub(super) fn read(
    propositions: &[String],
    first: Token<'_>,
    tokens: &mut Tokens<'_>,
    known: &str,
) -> Result<u8, TextError> {
    let (mut token, mut letter, mut seen) = (first, 0, 0);
    loop {
        let holds = token.word != "!";
        if !holds {
            token = tokens.next("a proposition")?;
        }
        let fault = |message: String| TextError::new(token.place, message);
        let name = match unquoted(token.word) {
            Some(name) => name.map_err(|message| fault(message.to_string()))?,
            None => token.word.to_string(),
        };
        // Digits without quotes are a number, whatever a proposition is called.
        let number = whole_number(token.word).is_some();
        let bit = propositions.iter().position(|own| *own == name);
        let Some(bit) = bit.filter(|_| !number) else {
            let word = shown(&name);
            return Err(fault(format!(
                "`{word}` is no proposition and no number from 0 to 255{known}"
            )));
        };
        if seen >> bit & 1 == 1 {
            return Err(fault(format!(
                "`{}` stands twice in one letter",
                shown(&name)
            )));
        }
        seen |= 1 << bit;
        letter |= u8::from(holds) << bit;
        if tokens.take("&").is_none() {
            return Ok(letter);
        }
        token = tokens.next("a proposition")?;
    }
}
