//! A file of antt: what it brings in and what it defines.

use super::words::{words, Word};

/// A name that a `use` line brings in, or a module.
#[derive(Clone, Debug)]
pub struct Import {
    pub line: usize,
    /// The way to the module.
    pub path: Vec<String>,
    /// The name there, none where the module itself is brought in.
    pub item: Option<String>,
    /// The name here.
    pub name: String,
    /// By `pub use`.
    pub passed_on: bool,
}

/// A function with its clauses, a record with its fields or a data type with its constructors.
#[derive(Debug)]
pub struct Definition {
    pub name: String,
    pub line: usize,
    /// The names that go with a type, as those of its constructors.
    pub with_it: Vec<String>,
    /// The signature or the heading; then each line that stands under it in the same column, with what hangs on it.
    pub items: Vec<Vec<Word>>,
}

#[derive(Debug, Default)]
pub struct Module {
    pub imports: Vec<Import>,
    pub definitions: Vec<Definition>,
    /// All words but those of `use` and `mod` lines.
    pub words: Vec<Word>,
    /// Forms that are not read here: nothing is known of the names that they define.
    pub unread: Vec<(usize, String)>,
}

const MARKS_OF_A_SIGNATURE: [&str; 4] = ["unfoldable", "abbrev", "pub", "axiom"];

impl Module {
    pub fn read(text: &str) -> Module {
        let mut module = Module::default();
        module.block(words(text), &[]);
        module
    }

    /// The definition of a name, or of what it goes with.
    pub fn definition(&self, name: &str) -> Option<usize> {
        self.definitions.iter().position(|definition| {
            definition.name == name || definition.with_it.iter().any(|own| own == name)
        })
    }

    /// The items of one column; `around` are the headings of the sections they stand in, which belong to each definition.
    fn block(&mut self, words: Vec<Word>, around: &[Word]) {
        let Some(column) = words.first().map(|word| word.column) else {
            return;
        };
        let mut open = None;
        for item in items(words, column) {
            let start = item
                .iter()
                .position(|word| !MARKS_OF_A_SIGNATURE.contains(&word.text.as_str()))
                .unwrap_or(0);
            let head = item[start].text.as_str();
            let line = item[start].line;
            match head {
                "use" => self.import(
                    &item[start + 1..],
                    item[..start].iter().any(|w| w.is("pub")),
                ),
                "mod" => {}
                "module" | "mutual" => {
                    let length = if head == "mutual" {
                        Some(start)
                    } else {
                        item.iter().position(|word| word.is("where"))
                    };
                    match length {
                        Some(length) => {
                            let heading = &item[..length];
                            self.words.extend_from_slice(heading);
                            self.block(item[length + 1..].to_vec(), &[around, heading].concat());
                        }
                        None => self.unread.push((line, head.to_string())),
                    }
                    open = None;
                }
                "infix" | "infixl" | "infixr" => self.words.extend(item),
                "open" | "ruleset" => {
                    self.unread.push((line, head.to_string()));
                    self.words.extend(item);
                    open = None;
                }
                _ => {
                    self.words.extend_from_slice(&item);
                    let name = match head {
                        "record" | "data" => item.get(start + 1).map(|word| word.text.clone()),
                        _ if is_signature(&item[start..]) => Some(head.to_string()),
                        _ => None,
                    };
                    match (name, open) {
                        (Some(name), _) => {
                            let with_it = names_with_type(&item, head == "data");
                            open = Some(self.definitions.len());
                            let mut items = vec![item];
                            if !around.is_empty() {
                                items.push(around.to_vec());
                            }
                            self.definitions.push(Definition {
                                name,
                                line,
                                with_it,
                                items,
                            });
                        }
                        (None, Some(index)) => self.definitions[index].items.push(item),
                        (None, None) => self.unread.push((line, head.to_string())),
                    }
                }
            }
        }
    }

    fn import(&mut self, words: &[Word], passed_on: bool) {
        match imports(words, passed_on) {
            Some(found) => self.imports.extend(found),
            None => self
                .unread
                .push((words.first().map_or(0, |word| word.line), "use".to_string())),
        }
    }
}

/// What follows `use`: `M.N.{a, b as c}`, `M.N` or `M.N as c`.
pub fn imports(words: &[Word], passed_on: bool) -> Option<Vec<Import>> {
    let Some(open) = words.iter().position(|word| word.is("{")) else {
        let (way, name) = way_and_name(words)?;
        return Some(vec![Import {
            line: words.first()?.line,
            path: way,
            item: None,
            name,
            passed_on,
        }]);
    };
    let (last, inner) = words[open + 1..].split_last()?;
    if !last.is("}") {
        return None;
    }
    let mut found = Vec::new();
    for words_of_item in inner.split(|word| word.is(",")) {
        let (way, name) = way_and_name(words_of_item)?;
        let mut path = plain(&words[..open]);
        path.extend(way);
        found.push(Import {
            line: words_of_item.first()?.line,
            item: path.pop(),
            path,
            name,
            passed_on,
        });
    }
    Some(found)
}

/// `M.N as c` is the way M, N with the name c; `M.N` has the name N.
fn way_and_name(words: &[Word]) -> Option<(Vec<String>, String)> {
    match words.iter().position(|word| word.is("as")) {
        Some(at) => Some((plain(&words[..at]), words.get(at + 1)?.text.clone())),
        None => {
            let way = plain(words);
            let name = way.last()?.clone();
            Some((way, name))
        }
    }
}

/// The words of a path, without its dots.
fn plain(words: &[Word]) -> Vec<String> {
    let names = words.iter().filter(|word| !word.is("."));
    names.map(|word| word.text.clone()).collect()
}

/// The words from each that begins a line in the column up to the next such.
fn items(words: Vec<Word>, column: usize) -> Vec<Vec<Word>> {
    let mut found: Vec<Vec<Word>> = Vec::new();
    let mut line = 0;
    for word in words {
        if word.line != line && word.column == column || found.is_empty() {
            found.push(Vec::new());
        }
        line = word.line;
        found.last_mut().expect("an item was begun").push(word);
    }
    found
}

/// `name : ..`, or `name {levels} : ..`; a clause has no colon there.
fn is_signature(words: &[Word]) -> bool {
    let after = match words.get(1) {
        Some(word) if word.is("{") => words
            .iter()
            .position(|word| word.is("}"))
            .map(|close| close + 1),
        _ => Some(1),
    };
    after.is_some_and(|at| words.get(at).is_some_and(|word| word.is(":")))
}

/// The names that go with a type: of its constructors, which stand before the colon of each line under a heading of `data`, and of
/// what the lines `deriving D as name` make.
fn names_with_type(item: &[Word], is_data: bool) -> Vec<String> {
    let Some(heading) = item.iter().position(|word| word.is("where")) else {
        return Vec::new();
    };
    let body = item[heading + 1..].to_vec();
    let Some(column) = body.first().map(|word| word.column) else {
        return Vec::new();
    };
    let mut found = Vec::new();
    for line in items(body, column) {
        if line[0].is("deriving") {
            found.extend(line.last().map(|word| word.text.clone()));
        } else if is_data {
            let names = line.iter().take_while(|word| !word.is(":"));
            found.extend(names.map(|word| word.text.clone()));
        }
    }
    found
}
