//! The words of antt, the language of `specs/`, `proofs/` and clauses.

/// A word, or one of the marks that stand for themselves.
#[derive(Clone, Debug, PartialEq)]
pub struct Word {
    pub text: String,
    pub line: usize,
    /// How many characters stand before it in its line.
    pub column: usize,
    /// Nothing stands between it and what is before it.
    pub tight: bool,
}

impl Word {
    pub fn is(&self, text: &str) -> bool {
        self.text == text
    }

    pub fn is_mark(&self) -> bool {
        self.text.chars().next().is_some_and(is_mark) && self.text.chars().count() == 1
    }
}

/// "A name is any run of characters other than spaces and" these. A quoted text and a name between « and » are read apart.
fn is_mark(character: char) -> bool {
    "(){}.;,@".contains(character)
}

fn ends_word(character: char) -> bool {
    character.is_whitespace() || is_mark(character) || "\"«»".contains(character)
}

/// The words of a text, without comments and without what stands in quotes. An escaped name keeps its « and ».
pub fn words(text: &str) -> Vec<Word> {
    let mut found: Vec<Word> = Vec::new();
    let characters: Vec<char> = text.chars().collect();
    let (mut at, mut line, mut begins) = (0, 1, 0);
    // Where the last word ended: a word that begins there is tight.
    let mut ended = None;
    while at < characters.len() {
        let first = characters[at];
        if first == '\n' {
            line += 1;
            begins = at + 1;
            at += 1;
            continue;
        }
        if first.is_whitespace() {
            at += 1;
            continue;
        }
        if characters[at..].starts_with(&['-', '-']) {
            while at < characters.len() && characters[at] != '\n' {
                at += 1;
            }
            continue;
        }
        if characters[at..].starts_with(&['{', '-']) {
            let mut depth = 0;
            while at < characters.len() {
                if characters[at..].starts_with(&['{', '-']) {
                    depth += 1;
                    at += 2;
                } else if characters[at..].starts_with(&['-', '}']) {
                    depth -= 1;
                    at += 2;
                } else {
                    if characters[at] == '\n' {
                        line += 1;
                        begins = at + 1;
                    }
                    at += 1;
                }
                if depth == 0 {
                    break;
                }
            }
            continue;
        }
        let from = at;
        if first == '"' {
            at += 1;
            while at < characters.len() && characters[at] != '"' {
                at += if characters[at] == '\\' { 2 } else { 1 };
            }
            at += 1;
            continue;
        } else if first == '«' {
            while at < characters.len() && characters[at] != '»' {
                at += 1;
            }
            at += 1;
        } else if ends_word(first) {
            at += 1;
        } else {
            while at < characters.len() && !ends_word(characters[at]) {
                at += 1;
            }
        }
        found.push(Word {
            text: characters[from..at.min(characters.len())].iter().collect(),
            line,
            column: from - begins,
            tight: ended == Some(from),
        });
        ended = Some(at);
    }
    found
}

/// What stands in an operator's name for an argument.
const PLACE: char = '◌';

/// The parts of an operator, as `if`, `then` and `else` of `if◌then◌else◌`; none of a plain name.
pub fn parts(name: &str) -> Vec<&str> {
    if name.starts_with('«') || !name.contains(PLACE) {
        return Vec::new();
    }
    name.split(PLACE).filter(|part| !part.is_empty()).collect()
}

/// The part that a word writes of an operator: itself, or for a section as `◌+` what is left of it.
pub fn part_written(word: &str) -> &str {
    word.trim_matches(PLACE)
}

/// What a word is to the names that are in scope where it stands.
#[derive(Clone, Copy, Debug, PartialEq)]
pub enum Role {
    /// It may be a name in scope.
    Name,
    /// It stands behind a dot: a field, or what the module or the type before the dot has.
    Member,
    /// A field's label, as `x` in `record { x = 1; .. }`, or the name of an implicit argument, as `x` in `f {x = 1}`.
    Label,
    Mark,
}

/// The roles of the words of an item.
pub fn roles(words: &[Word]) -> Vec<Role> {
    let mut found = Vec::with_capacity(words.len());
    // The dot that ends the names a λ binds is none that a member follows; the λs that wait for theirs, by their depth.
    let mut waiting: Vec<usize> = Vec::new();
    let mut depth = 0;
    let mut behind_dot = false;
    for (at, word) in words.iter().enumerate() {
        let member = behind_dot && word.tight;
        behind_dot = false;
        match word.text.as_str() {
            "(" | "{" => depth += 1,
            ")" | "}" => {
                depth = usize::saturating_sub(depth, 1);
                waiting.retain(|&waits| waits <= depth);
            }
            "λ" => waiting.push(depth),
            "." if waiting.last() == Some(&depth) => {
                waiting.pop();
            }
            "." => behind_dot = true,
            _ => {}
        }
        let opened = at > 0 && (words[at - 1].is("{") || words[at - 1].is(";"));
        let label = opened && words.get(at + 1).is_some_and(|next| next.is("="));
        found.push(match word.is_mark() {
            true => Role::Mark,
            false if member => Role::Member,
            false if label => Role::Label,
            false => Role::Name,
        });
    }
    found
}
