//! The lines that a station is given: events and requests, the same for `follow` and `board`.

use duknavet::text::{self, unquote};

/// What a line asks for.
#[derive(Clone, Debug, PartialEq, Eq)]
pub enum Request {
    /// An event, by the words that name its letter.
    Event(String),
    Mark,
    Verdict,
    Keep(usize),
    Return(usize),
    Save,
    Who,
    /// The rule in a file enters under a name.
    Enter {
        name: usize,
        file: String,
    },
    /// The rule under a name is replaced by its reduction, which has a map.
    Replace {
        name: usize,
        file: String,
        map: String,
    },
    Leave(usize),
}

/// The request of a line, or what is wrong with it; none where there are no words. Where `bare` letters are
/// understood every line is an event that is no request of one rule.
pub fn request(line: &str, bare: bool) -> Result<Option<Request>, String> {
    let words: Vec<&str> = text::words(line).collect();
    let request = match words.as_slice() {
        [] => return Ok(None),
        ["mark"] => Request::Mark,
        ["verdict"] => Request::Verdict,
        ["save"] => Request::Save,
        ["who"] => Request::Who,
        ["keep", word] => Request::Keep(name(word)?),
        ["return", word] => Request::Return(name(word)?),
        ["event", letter @ ..] if !letter.is_empty() => Request::Event(letter.join(" ")),
        letter if bare => Request::Event(letter.join(" ")),
        ["leave", word] => Request::Leave(name(word)?),
        ["enter", word, file] => Request::Enter {
            name: name(word)?,
            file: self::file(file)?,
        },
        ["replace", word, file, map] => Request::Replace {
            name: name(word)?,
            file: self::file(file)?,
            map: self::file(map)?,
        },
        _ => {
            let requests =
                "enter N FILE, leave N, replace N FILE MAP, event LETTER, mark, who or save";
            return Err(format!("a line is {requests}"));
        }
    };
    Ok(Some(request))
}

/// The request of a log's line: the letter in a column, or a mark where the word is `mark`. Columns count from
/// 1, or from -1 on backwards from the last; a log has no comments.
pub fn request_in_column(line: &str, column: isize) -> Result<Option<Request>, String> {
    let mut words = line.split_whitespace();
    if words.clone().next().is_none() {
        return Ok(None);
    }
    let place = column.unsigned_abs().saturating_sub(1);
    let word = match column > 0 {
        true => words.nth(place),
        false => words.rev().nth(place),
    };
    match word {
        Some("mark") => Ok(Some(Request::Mark)),
        Some(letter) => Ok(Some(Request::Event(letter.to_string()))),
        None => Err(format!("there is no column {column}")),
    }
}

/// A name as a number; whether it is one of 0 to 7 the call says.
fn name(word: &str) -> Result<usize, String> {
    let number = word.parse();
    number.map_err(|_| format!("`{word}` is no name from 0 to 7"))
}

/// The name of a file, which stands in quotes where it has blanks or a `#`.
fn file(word: &str) -> Result<String, String> {
    let file = match word.starts_with('"') {
        true => unquote(word).ok_or_else(|| format!("{word} is no name in quotes"))?,
        false => word.to_string(),
    };
    match file.as_str() {
        "-" => Err("standard input has the requests, so the rule is a file".to_string()),
        _ => Ok(file),
    }
}
