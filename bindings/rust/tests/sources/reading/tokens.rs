//! The tokens of Rattle code, without comments.

/// A token of code: an identifier, a number, or one other character.
#[derive(Clone, Debug)]
pub struct Token {
    pub text: String,
    pub line: usize,
    /// Where it begins and ends in the text.
    pub from: usize,
    pub to: usize,
}

pub fn is(tokens: &[Token], at: usize, text: &str) -> bool {
    tokens.get(at).is_some_and(|token| token.text == text)
}

pub fn find(tokens: &[Token], from: usize, text: &str) -> usize {
    (from..tokens.len())
        .find(|&at| is(tokens, at, text))
        .unwrap_or(tokens.len() - 1)
}

/// Where the bracket closes that stands at the place.
pub fn closing(tokens: &[Token], open: usize) -> usize {
    let mut depth = 0;
    for (at, token) in tokens.iter().enumerate().skip(open) {
        match token.text.as_str() {
            "(" | "{" | "[" => depth += 1,
            ")" | "}" | "]" => depth -= 1,
            _ => {}
        }
        if depth == 0 {
            return at;
        }
    }
    tokens.len() - 1
}

/// The parts between the separators that stand outside brackets, one more than there are such separators.
pub fn split<'a>(tokens: &'a [Token], separator: &str) -> Vec<&'a [Token]> {
    let mut found = Vec::new();
    let (mut from, mut at) = (0, 0);
    while at < tokens.len() {
        match tokens[at].text.as_str() {
            "(" | "{" | "[" => at = closing(tokens, at),
            text if text == separator => {
                found.push(&tokens[from..at]);
                from = at + 1;
            }
            _ => {}
        }
        at += 1;
    }
    found.push(&tokens[from..]);
    found
}

pub fn is_identifier(text: &str) -> bool {
    text.starts_with(|c: char| c.is_alphabetic() || c == '_')
}

/// By their spelling: declared types begin with a capital letter, those of the language do not.
pub fn is_type(text: &str) -> bool {
    text.starts_with(|c: char| c.is_ascii_uppercase())
}

fn is_letter(character: char) -> bool {
    character.is_alphanumeric() || character == '_'
}

pub fn tokens(text: &str) -> Vec<Token> {
    let mut found = Vec::new();
    let mut line = 1;
    let mut places = text.char_indices().peekable();
    while let Some((from, first)) = places.next() {
        if first == '\n' {
            line += 1;
        }
        if first.is_whitespace() {
            continue;
        }
        let mut to = from + first.len_utf8();
        if is_letter(first) {
            while let Some(&(at, next)) = places.peek() {
                if !is_letter(next) {
                    break;
                }
                to = at + next.len_utf8();
                places.next();
            }
        }
        found.push(Token {
            text: text[from..to].to_string(),
            line,
            from,
            to,
        });
    }
    found
}

/// The text with spaces for its comments and for what stands in quotes, so that places and lines stay. The quotes of a byte string
/// stay too: it is an array.
pub fn without_comments(text: &str) -> String {
    let characters: Vec<char> = text.chars().collect();
    let mut left = String::with_capacity(text.len());
    let mut at = 0;
    while at < characters.len() {
        let end = match characters[at] {
            '/' if characters.get(at + 1) == Some(&'/') => (at..characters.len())
                .find(|&end| characters[end] == '\n')
                .unwrap_or(characters.len()),
            '"' => {
                let mut end = at + 1;
                while end < characters.len() && characters[end] != '"' {
                    end += if characters[end] == '\\' { 2 } else { 1 };
                }
                if left.ends_with('b') && !left[..left.len() - 1].ends_with(is_letter) {
                    let inside = &characters[at + 1..end.min(characters.len())];
                    left.push('"');
                    left.extend(inside.iter().map(|&c| if c == '\n' { c } else { ' ' }));
                    left.push('"');
                    at = end + 1;
                    continue;
                }
                end + 1
            }
            // a character, and not a lifetime
            '\'' if characters.get(at + 2) == Some(&'\'') => at + 3,
            '\'' if characters.get(at + 1) == Some(&'\\') => at + 4,
            other => {
                left.push(other);
                at += 1;
                continue;
            }
        };
        for &character in &characters[at..end.min(characters.len())] {
            left.push(if character == '\n' { '\n' } else { ' ' });
        }
        at = end;
    }
    left
}
