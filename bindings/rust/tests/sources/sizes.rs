//! How many bytes the arrays and the declared types of the library have, as its sources write them.

use std::collections::BTreeSet;

use super::reading::code::{Code, Constant, DeclaredType, Function};
use super::reading::library::{code_path, Library};
use super::reading::repository::Repository;
use super::reading::tokens::{closing, is, is_type, split, Token};

/// Document 02: "no function of the library takes, makes or hands back an array or struct of 4,096 bytes or more".
const LIMIT: usize = 4096;

/// The types of numbers, with their bytes.
const NUMBERS: [(&str, usize); 13] = [
    ("u8", 1),
    ("i8", 1),
    ("bool", 1),
    ("u16", 2),
    ("i16", 2),
    ("u32", 4),
    ("i32", 4),
    ("f32", 4),
    ("u64", 8),
    ("i64", 8),
    ("usize", 8),
    ("isize", 8),
    ("f64", 8),
];

/// The bytes that a value has, and of what number its place is a multiple.
#[derive(Clone, Copy)]
struct Layout {
    size: usize,
    align: usize,
}

impl Layout {
    fn number(size: usize) -> Layout {
        Layout { size, align: size }
    }

    /// One part behind the other, each at its place, and in all a multiple of the greatest.
    fn of_parts(parts: &[Layout]) -> Layout {
        let align = parts.iter().map(|part| part.align).max().unwrap_or(1);
        let end = parts.iter().fold(0, |end: usize, part| {
            end.next_multiple_of(part.align).saturating_add(part.size)
        });
        Layout {
            size: end.checked_next_multiple_of(align).unwrap_or(usize::MAX),
            align,
        }
    }
}

/// What was found in the library: `rules`, `exports_c` and every crate below them.
pub struct Sizes<'a> {
    library: &'a Library,
    pub crates: BTreeSet<&'a str>,
    pub arrays: usize,
    pub structs: usize,
    pub enums: usize,
    pub faults: Vec<String>,
}

impl<'a> Sizes<'a> {
    pub fn of(repository: &'a Repository, library: &'a Library) -> Sizes<'a> {
        let mut sizes = Sizes {
            library,
            crates: repository.with_all_below(&["rules", "exports_c"]),
            arrays: 0,
            structs: 0,
            enums: 0,
            faults: Vec::new(),
        };
        for (path, _) in repository.ending(".rt") {
            let home = path.split('/').next().unwrap_or(path);
            if sizes.crates.contains(home) && path != code_path(home) {
                sizes
                    .faults
                    .push(format!("crates/{path}: is not read here"));
            }
        }
        for home in sizes.crates.clone() {
            match library.code(home) {
                Some(code) => sizes.measure(home, code),
                None => sizes.faults.push(format!("{home} has no code")),
            }
        }
        sizes
    }

    fn measure(&mut self, home: &str, code: &Code) {
        for declared in &code.types {
            match declared.variants.is_empty() {
                true => self.structs += 1,
                false => self.enums += 1,
            }
            let size = self.declared(home, declared, 0);
            self.hold(home, declared.line, &declared.name, size);
        }
        for array in arrays(&code.written) {
            self.arrays += 1;
            let size = self.layout(home, array, 0);
            self.hold(home, array[0].line, &text(array), size);
        }
        for constant in &code.constants {
            match self.layout(home, &constant.kind, 0) {
                Ok(layout) if layout.size < LIMIT => {}
                Ok(_) => self.only_lent(constant),
                Err(why) => self.fault(home, constant.line, &constant.name, &why),
            }
        }
    }

    fn hold(&mut self, home: &str, line: usize, what: &str, size: Result<Layout, String>) {
        match size {
            Ok(layout) if layout.size < LIMIT => {}
            Ok(layout) => self.fault(home, line, what, &format!("{} bytes", layout.size)),
            Err(why) => self.fault(home, line, what, &why),
        }
    }

    fn fault(&mut self, home: &str, line: usize, what: &str, why: &str) {
        let path = code_path(home);
        self.faults
            .push(format!("crates/{path}:{line}: {what}: {why}"));
    }

    /// A constant may be large, but a value that is it would be a copy: it is named only as an argument that is lent, `&NAME`. And it is
    /// built anew wherever it is named: only one function names it, once.
    fn only_lent(&mut self, constant: &Constant) {
        let mut is_named = false;
        for home in self.crates.clone() {
            let written = match self.library.code(home) {
                Some(code) => &code.written,
                None => continue,
            };
            for at in 0..written.len() {
                if written[at].text != constant.name {
                    continue;
                }
                // `&NAME` or `&home::NAME`
                let from = match at >= 3 && is(written, at - 1, ":") {
                    true => at - 3,
                    false => at,
                };
                let is_before = |by: usize, marks: &[&str]| {
                    from >= by && marks.contains(&written[from - by].text.as_str())
                };
                let is_lent = is_before(1, &["&"]) && is_before(2, &["(", ","]);
                let line = written[at].line;
                if !is_lent || !(is(written, at + 1, ")") || is(written, at + 1, ",")) {
                    self.fault(home, line, &constant.name, "is named and not only lent");
                } else if is_named {
                    self.fault(home, line, &constant.name, "is named a second time");
                } else {
                    is_named = true;
                }
            }
        }
    }

    /// The layout of a type, or of the value that an array repeats. What is behind a reference counts as if it stood there.
    fn layout(&self, home: &str, text: &[Token], depth: usize) -> Result<Layout, String> {
        let first = text.first().map_or("", |token| token.text.as_str());
        match first {
            _ if depth > 32 => Err("holds itself".to_string()),
            "mut" => self.layout(home, &text[1..], depth),
            "'" => self.layout(home, text.get(2..).unwrap_or(&[]), depth),
            "&" => {
                let behind = self.layout(home, &text[1..], depth)?;
                Ok(Layout {
                    size: behind.size.max(8),
                    align: 8,
                })
            }
            "[" if closing(text, 0) == text.len() - 1 => {
                self.array(home, &text[1..text.len() - 1], depth)
            }
            "b" if is(text, 1, "\"") && text.len() == 3 => Ok(Layout {
                size: text[2].from - text[1].to,
                align: 1,
            }),
            "true" | "false" if text.len() == 1 => Ok(Layout::number(1)),
            _ if text.len() == 1 && first.starts_with(|c: char| c.is_ascii_digit()) => {
                // the widest where none is written
                let own = |(name, _): &&(&str, usize)| first.ends_with(name) && is_integer(name);
                let width = NUMBERS.iter().find(own).map_or(8, |(_, bytes)| *bytes);
                Ok(Layout::number(width))
            }
            _ if text.len() == 1 && !is_type(first) => {
                let own = NUMBERS.iter().find(|(name, _)| *name == first);
                let own = own.map(|(_, bytes)| Layout::number(*bytes));
                own.ok_or_else(|| format!("the size of {first} is not known"))
            }
            _ if is(text, 1, ":") && self.library.code(first).is_some() => {
                self.layout(first, &text[3..], depth)
            }
            _ => self.named(home, text, depth),
        }
    }

    /// The layout of `[entry; length]`, of a list of values, or of a slice.
    fn array(&self, home: &str, inner: &[Token], depth: usize) -> Result<Layout, String> {
        if let [entry, length] = split(inner, ";")[..] {
            let entry = self.layout(home, entry, depth)?;
            let length = self.number(home, length, depth)?;
            return Ok(Layout {
                size: entry.size.saturating_mul(length),
                align: entry.align,
            });
        }
        let entries = split(inner, ",").into_iter();
        let entries = entries.filter(|entry| !entry.is_empty());
        let entries: Vec<Result<Layout, String>> = entries
            .map(|entry| self.layout(home, entry, depth))
            .collect();
        // All entries of a list have one type: what is worked out there is as large as an entry that is known.
        let known = entries.iter().flatten().copied().next();
        let part = |entry: Result<Layout, String>| entry.or_else(|fault| known.ok_or(fault));
        let parts: Result<Vec<Layout>, String> = entries.into_iter().map(part).collect();
        let parts = parts?;
        match parts[..] {
            // a slice has a place and a length
            [entry] => Ok(Layout {
                size: entry.size.max(16),
                align: entry.align,
            }),
            _ => Ok(Layout::of_parts(&parts)),
        }
    }

    /// The layout of a declared type, of a value that is written as one of its cases, or of a constant.
    fn named(&self, home: &str, text: &[Token], depth: usize) -> Result<Layout, String> {
        let unknown = || format!("the size of {} is not known", self::text(text));
        let name = text.first().map_or("", |token| token.text.as_str());
        let declares = |code: &Code, name: &str| code.type_named(name).is_some();
        if let Some(home) = self.library.home_of(home, name, declares) {
            let declared = self.library.code(&home).and_then(|c| c.type_named(name));
            let declared = declared.ok_or_else(unknown)?;
            let is_case = |token: &Token| declared.variants.contains(&token.text);
            let next = text.get(1).map_or("", |token| token.text.as_str());
            return match next {
                // a lifetime in angles
                "" | "{" | "(" | "<" => self.declared(&home, declared, depth + 1),
                ":" if text.get(3).is_some_and(is_case) => {
                    self.declared(&home, declared, depth + 1)
                }
                _ => Err(unknown()),
            };
        }
        match (self.constant(home, name), text.len()) {
            (Some((home, constant)), 1) => self.layout(&home, &constant.kind, depth + 1),
            _ => Err(unknown()),
        }
    }

    /// The layout of a struct, or of the largest case of an enum behind the number of the case.
    fn declared(
        &self,
        home: &str,
        declared: &DeclaredType,
        depth: usize,
    ) -> Result<Layout, String> {
        let mut largest = Layout { size: 0, align: 1 };
        for case in &declared.cases {
            let mut parts = Vec::new();
            if !declared.variants.is_empty() {
                parts.push(Layout::number(8));
            }
            for field in case {
                parts.push(self.layout(home, field, depth + 1)?);
            }
            let own = Layout::of_parts(&parts);
            if own.size > largest.size {
                largest = own;
            }
        }
        Ok(largest)
    }

    /// A length: sums and products of numbers and of constants by name.
    fn number(&self, home: &str, text: &[Token], depth: usize) -> Result<usize, String> {
        let unknown = || format!("the length {} is not known", self::text(text));
        if depth > 32 {
            return Err(unknown());
        }
        let joins: [(&str, fn(usize, usize) -> usize); 2] =
            [("+", usize::saturating_add), ("*", usize::saturating_mul)];
        for (mark, join) in joins {
            let parts = split(text, mark);
            if parts.len() > 1 {
                let parts = parts.into_iter();
                let numbers: Result<Vec<usize>, String> = parts
                    .map(|part| self.number(home, part, depth + 1))
                    .collect();
                return numbers?.into_iter().reduce(join).ok_or_else(unknown);
            }
        }
        let first = text.first().ok_or_else(unknown)?.text.as_str();
        match text.len() {
            1 if first.starts_with(|c: char| c.is_ascii_digit()) => {
                let digits = first.replace('_', "");
                let digits = digits.strip_suffix("usize").unwrap_or(&digits);
                digits.parse().map_err(|_| unknown())
            }
            1 => {
                let (home, constant) = self.constant(home, first).ok_or_else(unknown)?;
                self.number(&home, &constant.value, depth + 1)
            }
            // `home::NAME`
            4 if is(text, 1, ":") && is(text, 2, ":") => self.number(first, &text[3..], depth + 1),
            length if first == "(" && closing(text, 0) == length - 1 => {
                self.number(home, &text[1..length - 1], depth + 1)
            }
            _ => Err(unknown()),
        }
    }

    /// The constant that a name means in a crate, and its home; none where its crate declares two.
    fn constant(&self, home: &str, name: &str) -> Option<(String, &'a Constant)> {
        let declares = |code: &Code, name: &str| code.constants.iter().any(|own| own.name == name);
        let home = self.library.home_of(home, name, declares)?;
        let all = self.library.code(&home)?.constants.iter();
        let mut named = all.filter(|constant| constant.name == name);
        match (named.next(), named.next()) {
            (Some(constant), None) => Some((home, constant)),
            _ => None,
        }
    }

    /// The functions that promise a product of the lent table, by crate: their answer is `product_at` of a table. Of each, whether its
    /// body is that one byte, read from the lent slice of which the promise speaks.
    pub fn products(&self) -> Vec<(String, bool)> {
        let mut found = Vec::new();
        for home in &self.crates {
            let functions = self.library.code(home).map(|code| &code.functions);
            for function in functions.into_iter().flatten() {
                if let Some(table) = promised_table(function) {
                    let name = format!("{home}::{}", function.name);
                    found.push((name, is_read_from(function, &table)));
                }
            }
        }
        found
    }
}

fn is_integer(name: &str) -> bool {
    !name.starts_with('f') && name != "bool"
}

/// Whether the bracket writes the bytes of one number, at most 16: the argument of `from_le_bytes`, or the pattern of a `let` that takes
/// `to_le_bytes` apart.
fn is_of_a_number(written: &[Token], at: usize) -> bool {
    let is_argument = at > 1 && is(written, at - 1, "(") && is(written, at - 2, "from_le_bytes");
    let is_pattern = at > 0 && is(written, at - 1, "let");
    let end = closing(written, at);
    let rest = written.get(end..).unwrap_or(&[]);
    let taken = rest.iter().take_while(|token| token.text != ";");
    is_argument || is_pattern && taken.into_iter().any(|token| token.text == "to_le_bytes")
}

/// The brackets that write an array: those with a `;` or a `,` of their own, and byte strings.
fn arrays(written: &[Token]) -> Vec<&[Token]> {
    let mut found = Vec::new();
    for (at, token) in written.iter().enumerate() {
        if token.text == "[" && !is_of_a_number(written, at) {
            let end = closing(written, at);
            let inner = &written[at + 1..end];
            if split(inner, ";").len() > 1 || split(inner, ",").len() > 1 {
                found.push(&written[at..=end]);
            }
        }
        if token.text == "b" && is(written, at + 1, "\"") && is(written, at + 2, "\"") {
            found.push(&written[at..at + 3]);
        }
    }
    found
}

/// The parameter that `table` is in `ensures { result ≡ product_at table.now .. }`; empty where it is written otherwise.
fn promised_table(function: &Function) -> Option<String> {
    for clause in &function.ensures {
        let words: Vec<&str> = clause.iter().map(|word| word.text.as_str()).collect();
        let at = words
            .windows(3)
            .position(|three| three == ["result", "≡", "product_at"]);
        if let Some(at) = at {
            return Some(match words[at + 3..] {
                [table, ".", "now", ..] => table.to_string(),
                _ => String::new(),
            });
        }
    }
    None
}

/// Whether the body is `table[..] as usize`, with the parameter `table: &[u8]`.
fn is_read_from(function: &Function, table: &str) -> bool {
    let mut parameters = function.parameters.iter().zip(&function.kinds);
    let is_slice =
        parameters.any(|(name, kind)| name == table && text(kind).replace(' ', "") == "&[u8]");
    let body = &function.body;
    let reads = is(body, 0, table) && is(body, 1, "[");
    is_slice && reads && text(&body[closing(body, 1) + 1..]) == "as usize"
}

fn text(tokens: &[Token]) -> String {
    let words: Vec<&str> = tokens.iter().map(|token| token.text.as_str()).collect();
    words.join(" ")
}
