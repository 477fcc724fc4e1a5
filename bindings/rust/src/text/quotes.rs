//! Names as texts write them: a plain one as it is, every other in double quotes, with a backslash before a quote
//! or a backslash.

/// Words with a meaning of their own, in a text or in a line that follows a rule.
const RESERVED: [&str; 12] = [
    "elements",
    "letters",
    "marks",
    "states",
    "transitions",
    "mark",
    "verdict",
    "keep",
    "return",
    "save",
    "u",
    "v",
];

/// What a plain name is, for messages.
pub(super) const PLAIN: &str = "a letter or `_`, then letters, digits, `_` and `-`";

/// Whether a word means something else where a plain name may stand.
pub(super) fn is_reserved(word: &str) -> bool {
    RESERVED.contains(&word)
}

/// Whether a word has the form of a plain name. Of what is beyond ASCII everything passes that can be seen: many
/// scripts write one letter with several characters.
pub(super) fn is_plain(word: &str) -> bool {
    let seen = |own: char| !own.is_ascii() && !own.is_whitespace() && !own.is_control();
    let first = |own: char| own.is_ascii_alphabetic() || own == '_' || seen(own);
    word.starts_with(first)
        && word
            .chars()
            .all(|own| first(own) || own.is_ascii_digit() || own == '-')
}

/// A name in double quotes.
fn quoted(name: &str) -> String {
    format!("\"{}\"", name.replace('\\', "\\\\").replace('"', "\\\""))
}

/// Names in double quotes, a blank before each.
pub(crate) fn in_quotes(names: &[String]) -> String {
    let names = names.iter().map(|name| format!(" {}", quoted(name)));
    names.collect()
}

/// Names with a comma between them, for messages; numbers stand for letters without a name.
pub fn listed(names: &[String]) -> String {
    let shown = |name: &String| match name.parse::<u8>() {
        Ok(number) => number.to_string(),
        Err(_) => written(name),
    };
    names.iter().map(shown).collect::<Vec<_>>().join(", ")
}

/// A name as it is printed where plain names may stand.
pub(super) fn written(name: &str) -> String {
    match is_plain(name) && !is_reserved(name) {
        true => name.to_string(),
        false => quoted(name),
    }
}

/// How many bytes of a text, which begins with a quote, belong to the name in quotes; all where it does not end.
pub(super) fn quoted_length(text: &str) -> usize {
    let mut escaped = false;
    for (at, character) in text.char_indices().skip(1) {
        match character {
            _ if escaped => escaped = false,
            '\\' => escaped = true,
            '"' => return at + 1,
            _ => {}
        }
    }
    text.len()
}

/// What a text in quotes says, with a backslash before a quote or a backslash; none where they do not hold all of it.
pub fn unquote(text: &str) -> Option<String> {
    let said = unquoted(text).filter(|_| quoted_length(text) == text.len());
    said?.ok()
}

/// The name in quotes, or what is wrong with it; none where the word does not begin with a quote.
pub(super) fn unquoted(word: &str) -> Option<Result<String, &'static str>> {
    let inner = word.strip_prefix('"')?;
    let mut name = String::new();
    let mut characters = inner.chars();
    loop {
        match characters.next() {
            Some('"') => return Some(Ok(name)),
            Some('\\') => name.extend(characters.next()),
            Some(character) => name.push(character),
            None => return Some(Err("a name in quotes does not end in its line")),
        }
    }
}
