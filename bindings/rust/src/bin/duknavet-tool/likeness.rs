//! What bytes look like that were refused. It changes no answer, only the words of the refusal.

/// What to say of bytes that look like a text of some kind; nothing where they do not.
pub fn words(bytes: &[u8]) -> Option<&'static str> {
    if bytes.starts_with(&[0xff, 0xfe]) || bytes.starts_with(&[0xfe, 0xff]) {
        return Some("it looks like a text in UTF-16, and texts are in UTF-8");
    }
    let text = std::str::from_utf8(bytes).ok()?;
    let text = text.trim_start_matches('\u{feff}').trim();
    let unseen = |character: char| character.is_control() && !character.is_whitespace();
    if text.is_empty() || text.contains(unseen) {
        return None;
    }
    Some(of_text(text))
}

fn of_text(text: &str) -> &'static str {
    let mut lines = text.lines().filter(|line| !line.starts_with('#'));
    let first = lines.find_map(|line| line.split_whitespace().next());
    let headers = [
        (
            "elements",
            "it looks like the text of a rule without its first line, `duknavet rule 1`",
        ),
        (
            "states",
            "it looks like the text of an automaton without its first line, `duknavet automaton 1`",
        ),
        (
            "marks",
            "it looks like the text of a marks section without its first line, `duknavet marks 1`",
        ),
        (
            "propositions",
            "it looks like a text without its first line, such as `duknavet rule 1`",
        ),
    ];
    if let Some((_, words)) = headers.iter().find(|(word, _)| Some(*word) == first) {
        return words;
    }
    if text.contains("--BODY--") {
        return "it looks like the Hanoi format without its first line, `HOA: v1`";
    }
    if text
        .chars()
        .all(|own| own.is_ascii_digit() || own.is_whitespace() || own == ',')
    {
        return "it looks like numbers, and a text of them has a first line, such as `duknavet rule 1`";
    }
    if is_markup(text) {
        return "it looks like XML or HTML, which is not read";
    }
    if is_formula(text) {
        return "it looks like a formula, and `duknavet-tool formula` makes a rule of one";
    }
    if text.starts_with(['{', '[']) {
        return "it looks like JSON, which is not read";
    }
    "it looks like a text, and one begins with `duknavet` and what it is of, `HOA:`, `never`, `u:` or `v:`"
}

fn is_markup(text: &str) -> bool {
    let begins = |own: char| own.is_ascii_alphabetic() || "?!/".contains(own);
    let named = text
        .strip_prefix('<')
        .is_some_and(|rest| rest.starts_with(begins));
    named && text.contains('>')
}

/// Whether a text is made of names, constants and the signs of temporal logic, and has one of these.
fn is_formula(text: &str) -> bool {
    let in_name = |own: char| own.is_alphanumeric() || own == '_';
    let in_sign = |own: char| own.is_whitespace() || "!&|()[]<>-=^~".contains(own);
    let signs = ["[]", "<>", "&", "|", "!", "->", "~"];
    let operators = ["G", "F", "X", "U", "R", "W", "M", "V", "GF", "FG"];
    let mut names = text.split(|own| !in_name(own));
    text.chars().all(|own| in_name(own) || in_sign(own))
        && text.contains(|own: char| own.is_alphabetic())
        && (signs.iter().any(|sign| text.contains(sign))
            || names.any(|name| operators.contains(&name)))
}
