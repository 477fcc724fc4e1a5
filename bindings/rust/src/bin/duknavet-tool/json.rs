//! Answers as JSON, one object a line.

use duknavet::files::Lasso;
use duknavet::text::Names;
use std::fmt;

/// A value. Keys keep their order.
#[derive(Clone, Debug)]
pub enum Json {
    None,
    Truth(bool),
    Number(u64),
    Text(String),
    List(Vec<Json>),
    Object(Keys),
}

pub type Keys = Vec<(String, Json)>;

impl From<bool> for Json {
    fn from(truth: bool) -> Json {
        Json::Truth(truth)
    }
}

impl From<usize> for Json {
    fn from(number: usize) -> Json {
        Json::Number(number as u64)
    }
}

impl From<u8> for Json {
    fn from(number: u8) -> Json {
        Json::Number(number.into())
    }
}

impl From<&str> for Json {
    fn from(text: &str) -> Json {
        Json::Text(text.to_string())
    }
}

impl Json {
    pub fn list<T: Into<Json>>(values: impl IntoIterator<Item = T>) -> Json {
        Json::List(values.into_iter().map(Into::into).collect())
    }

    pub fn or_none<T: Into<Json>>(value: Option<T>) -> Json {
        value.map_or(Json::None, Into::into)
    }

    /// A letter: its name where letters are called in some way, else its number.
    fn letter(letter: u8, names: &Names) -> Json {
        match names.any() {
            true => Json::Text(names.show(letter)),
            false => letter.into(),
        }
    }

    pub fn word(letters: &[u8], names: &Names) -> Json {
        Json::list(letters.iter().map(|own| Json::letter(*own, names)))
    }

    pub fn lasso(lasso: &Lasso, names: &Names) -> Json {
        Json::Object(keys([
            ("u", Json::word(&lasso.u, names)),
            ("v", Json::word(&lasso.v, names)),
        ]))
    }
}

pub fn keys<const N: usize>(pairs: [(&str, Json); N]) -> Keys {
    pairs.map(|(key, value)| (key.to_string(), value)).into()
}

/// A word of an answer: none, a number, or itself.
fn value(word: &str) -> Json {
    match (word, word.parse()) {
        ("none", _) => Json::None,
        (_, Ok(number)) => Json::Number(number),
        _ => word.into(),
    }
}

/// The words of a station's answer as keys: `before none since 1` has two. The rules on a board are a list.
pub fn of_answer(line: &str) -> Keys {
    let words: Vec<&str> = line.split_whitespace().collect();
    match words[..] {
        ["saved"] => keys([("saved", true.into())]),
        ["not", "saved"] => keys([("saved", false.into())]),
        ["who", "nobody"] => keys([("who", Json::List(Vec::new()))]),
        ["who", fingerprint, "grade", grade] => {
            keys([("who", fingerprint.into()), ("grade", value(grade))])
        }
        ["who", ..] => {
            let rules = line.trim_start_matches("who ").split(',').map(|rule| {
                let words: Vec<&str> = rule.split_whitespace().collect();
                Json::Object(match words[..] {
                    [name, fingerprint, _, grade] => keys([
                        ("name", value(name)),
                        ("rule", fingerprint.into()),
                        ("grade", value(grade)),
                    ]),
                    _ => Vec::new(),
                })
            });
            keys([("who", Json::list(rules))])
        }
        _ => {
            let pairs = words.chunks_exact(2);
            let pair = |pair: &[&str]| (pair[0].to_string(), value(pair[1]));
            pairs.map(pair).collect()
        }
    }
}

impl fmt::Display for Json {
    fn fmt(&self, f: &mut fmt::Formatter<'_>) -> fmt::Result {
        match self {
            Json::None => f.write_str("null"),
            Json::Truth(truth) => write!(f, "{truth}"),
            Json::Number(number) => write!(f, "{number}"),
            Json::Text(text) => quoted(text, f),
            Json::List(values) => {
                f.write_str("[")?;
                for (at, value) in values.iter().enumerate() {
                    let comma = if at > 0 { ", " } else { "" };
                    write!(f, "{comma}{value}")?;
                }
                f.write_str("]")
            }
            Json::Object(keys) => {
                f.write_str("{")?;
                for (at, (key, value)) in keys.iter().enumerate() {
                    f.write_str(if at > 0 { ", " } else { "" })?;
                    quoted(key, f)?;
                    write!(f, ": {value}")?;
                }
                f.write_str("}")
            }
        }
    }
}

fn quoted(text: &str, f: &mut fmt::Formatter<'_>) -> fmt::Result {
    f.write_str("\"")?;
    for own in text.chars() {
        match own {
            '"' | '\\' => write!(f, "\\{own}")?,
            '\n' => f.write_str("\\n")?,
            own if own.is_control() => write!(f, "\\u{:04x}", u32::from(own))?,
            own => write!(f, "{own}")?,
        }
    }
    f.write_str("\"")
}
