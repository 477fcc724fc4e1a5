//! A file of Rattle code: what it brings in, the types and the constants it declares, and its functions with their clauses.

use super::module::{imports, Import};
use super::tokens::{
    closing, find, is, is_identifier, is_type, split, tokens, without_comments, Token,
};
use super::words::{words, Word};

/// An item of `use home::item;`, of `use home::{item, item};`, or of one with modules between.
#[derive(Debug)]
pub struct CodeImport {
    pub line: usize,
    pub home: String,
    pub item: String,
    /// By `pub use`.
    pub passed_on: bool,
}

/// An enum or a struct.
#[derive(Debug)]
pub struct DeclaredType {
    pub name: String,
    pub line: usize,
    pub variants: Vec<String>,
    /// The declared types that its fields have.
    pub types: Vec<String>,
    /// The fields' types of each case; a struct has one case.
    pub cases: Vec<Vec<Vec<Token>>>,
}

/// `const name: kind = value;`
#[derive(Debug)]
pub struct Constant {
    pub name: String,
    pub line: usize,
    pub kind: Vec<Token>,
    pub value: Vec<Token>,
}

#[derive(Debug)]
pub struct Function {
    pub name: String,
    pub line: usize,
    pub public: bool,
    pub parameters: Vec<String>,
    /// The types of its parameters, as they are written.
    pub kinds: Vec<Vec<Token>>,
    /// The declared types of its parameters and of its answer.
    pub types: Vec<String>,
    pub requires: Vec<Vec<Word>>,
    pub ensures: Vec<Vec<Word>>,
    pub body: Vec<Token>,
}

#[derive(Debug, Default)]
pub struct Code {
    pub imports: Vec<CodeImport>,
    pub ghost_imports: Vec<Import>,
    pub types: Vec<DeclaredType>,
    pub constants: Vec<Constant>,
    pub functions: Vec<Function>,
    /// The tokens outside `use` items, clauses and constants.
    pub written: Vec<Token>,
    /// The identifiers outside `use` items and clauses.
    pub identifiers: Vec<String>,
    /// `use` items of a form that is not read here.
    pub unread: Vec<(usize, String)>,
}

impl Code {
    pub fn read(text: &str) -> Code {
        let text = without_comments(text);
        let tokens = tokens(&text);
        let mut code = Code::default();
        let mut at = 0;
        while at < tokens.len() {
            at = match tokens[at].text.as_str() {
                "ghost" if is(&tokens, at + 1, "use") => code.ghost_import(&text, &tokens, at),
                "use" => code.import(&tokens, at),
                "enum" | "struct" => code.declared_type(&tokens, at),
                "fn" => code.function(&text, &tokens, at),
                "const" if is(&tokens, at + 2, ":") => code.constant(&tokens, at),
                other => {
                    code.written.push(tokens[at].clone());
                    if is_identifier(other) {
                        code.identifiers.push(other.to_string());
                    }
                    at + 1
                }
            };
        }
        code
    }

    pub fn function_named(&self, name: &str) -> Option<&Function> {
        self.functions.iter().find(|function| function.name == name)
    }

    pub fn type_named(&self, name: &str) -> Option<&DeclaredType> {
        self.types.iter().find(|declared| declared.name == name)
    }

    fn ghost_import(&mut self, text: &str, tokens: &[Token], at: usize) -> usize {
        let end = find(tokens, at, ";");
        let inner = &text[tokens[at + 1].to..tokens.get(end).map_or(text.len(), |t| t.from)];
        match imports(&placed(inner, tokens[at].line), false) {
            Some(found) => self.ghost_imports.extend(found),
            None => self.unread.push((tokens[at].line, "ghost use".to_string())),
        }
        end + 1
    }

    fn import(&mut self, tokens: &[Token], at: usize) -> usize {
        let end = find(tokens, at, ";");
        let passed_on = at > 0 && tokens[at - 1].text == "pub";
        match brought(&[], &tokens[at + 1..end]) {
            Some(ways) if ways.iter().all(|(_, way)| way.len() > 1) => {
                self.imports
                    .extend(ways.into_iter().map(|(line, way)| CodeImport {
                        line,
                        home: way[0].clone(),
                        item: way[way.len() - 1].clone(),
                        passed_on,
                    }))
            }
            _ => self.unread.push((tokens[at].line, "use".to_string())),
        }
        end + 1
    }

    pub fn has_constant(&self, name: &str) -> bool {
        self.constants.iter().any(|constant| constant.name == name)
    }

    fn constant(&mut self, tokens: &[Token], at: usize) -> usize {
        // an array's type has a semicolon of its own
        let length = split(&tokens[at..], ";")[0].len();
        let item = &tokens[at + 3..at + length];
        let (kind, value) = match &split(item, "=")[..] {
            [kind, value] => (kind.to_vec(), value.to_vec()),
            _ => (item.to_vec(), Vec::new()),
        };
        let identifiers = item.iter().filter(|t| is_identifier(&t.text));
        self.identifiers.extend(identifiers.map(|t| t.text.clone()));
        self.constants.push(Constant {
            name: tokens[at + 1].text.clone(),
            line: tokens[at].line,
            kind,
            value,
        });
        at + length + 1
    }

    fn declared_type(&mut self, tokens: &[Token], at: usize) -> usize {
        let opens = |t: &Token| ["{", "(", ";"].contains(&t.text.as_str());
        let open = at + tokens[at..].iter().take_while(|t| !opens(t)).count();
        let end = closing(tokens, open);
        let is_enum = tokens[at].text == "enum";
        let inner = tokens.get(open + 1..end).unwrap_or(&[]);
        let cases = match is_enum {
            true => split(inner, ",").into_iter().map(case_fields).collect(),
            false => vec![fields(inner)],
        };
        let mut declared = DeclaredType {
            name: tokens[at + 1].text.clone(),
            line: tokens[at].line,
            variants: Vec::new(),
            types: Vec::new(),
            cases,
        };
        let mut depth = 0;
        for token in &tokens[open..end] {
            match token.text.as_str() {
                "{" | "(" => depth += 1,
                "}" | ")" => depth -= 1,
                name if is_type(name) && is_enum && depth == 1 => {
                    declared.variants.push(name.to_string())
                }
                name if is_type(name) => declared.types.push(name.to_string()),
                _ => {}
            }
        }
        self.identifiers.extend(declared.types.iter().cloned());
        self.types.push(declared);
        self.written
            .extend_from_slice(&tokens[at..tokens.len().min(end + 1)]);
        end + 1
    }

    fn function(&mut self, text: &str, tokens: &[Token], at: usize) -> usize {
        let open = find(tokens, at, "(");
        let close = closing(tokens, open);
        // `pub fn` or `pub extern "C" fn`
        let mark = tokens[..at].iter().rev().take(2);
        let mut function = Function {
            name: tokens[at + 1].text.clone(),
            line: tokens[at].line,
            public: mark
                .take_while(|t| is_identifier(&t.text))
                .any(|t| t.text == "pub"),
            parameters: Vec::new(),
            kinds: fields(&tokens[open + 1..close]),
            types: Vec::new(),
            requires: Vec::new(),
            ensures: Vec::new(),
            body: Vec::new(),
        };
        for index in open..close {
            if is(tokens, index + 1, ":") && is_identifier(&tokens[index].text) {
                function.parameters.push(tokens[index].text.clone());
            }
        }
        let mut next = close + 1;
        let mut answer = next;
        while next < tokens.len() && !["{", ";"].contains(&tokens[next].text.as_str()) {
            let clause = tokens[next].text.as_str();
            if clause != "requires" && clause != "ensures" {
                // an array's type has a semicolon of its own
                next = match clause {
                    "[" | "(" => closing(tokens, next) + 1,
                    _ => next + 1,
                };
                answer = next;
                continue;
            }
            let from = find(tokens, next, "{");
            let to = closing(tokens, from);
            let inner = placed(&text[tokens[from].to..tokens[to].from], tokens[from].line);
            match clause {
                "requires" => function.requires.push(inner),
                _ => function.ensures.push(inner),
            }
            next = to + 1;
        }
        let types = tokens[at..answer].iter().filter(|t| is_type(&t.text));
        function.types = types.map(|t| t.text.clone()).collect();
        self.identifiers.extend(function.types.iter().cloned());
        // The module of a type that is written with it, as in `io::Result<()>`.
        let homes = tokens[at..answer].windows(3).filter(|part| {
            is_identifier(&part[0].text) && part[1].text == ":" && part[2].text == ":"
        });
        self.identifiers
            .extend(homes.map(|part| part[0].text.clone()));
        if is(tokens, next, "{") {
            function.body = tokens[next + 1..closing(tokens, next)].to_vec();
        }
        self.functions.push(function);
        self.written.extend_from_slice(&tokens[at..answer]);
        next
    }
}

/// The whole ways that a tree of a `use` item names, each with its line: `way::item` or `way::{tree, ..}`, where `self` is the way itself.
fn brought(before: &[String], tree: &[Token]) -> Option<Vec<(usize, Vec<String>)>> {
    match tree {
        [item] if item.text == "self" => Some(vec![(item.line, before.to_vec())]),
        [item] if is_identifier(&item.text) => {
            let way = [before, &[item.text.clone()]].concat();
            Some(vec![(item.line, way)])
        }
        [module, first, second, rest @ ..]
            if is_identifier(&module.text) && first.text == ":" && second.text == ":" =>
        {
            brought(&[before, &[module.text.clone()]].concat(), rest)
        }
        [open, inner @ .., close] if open.text == "{" && close.text == "}" => {
            let trees = split(inner, ",").into_iter();
            let mut found = Vec::new();
            for tree in trees.filter(|tree| !tree.is_empty()) {
                found.extend(brought(before, tree)?);
            }
            Some(found)
        }
        _ => None,
    }
}

/// The types of fields or parameters, as `pub name: type` or, in a tuple struct, `type`.
fn fields(tokens: &[Token]) -> Vec<Vec<Token>> {
    let kind = |field: &[Token]| match field.iter().position(|t| t.text == ":") {
        Some(at) => field[at + 1..].to_vec(),
        None => field.iter().filter(|t| t.text != "pub").cloned().collect(),
    };
    let all = split(tokens, ",").into_iter();
    all.filter(|field| !field.is_empty()).map(kind).collect()
}

/// The types of the fields of a variant, as `Name`, `Name(type, ..)` or `Name { name: type, .. }`.
fn case_fields(variant: &[Token]) -> Vec<Vec<Token>> {
    match variant.len() {
        0..=2 => Vec::new(),
        length => fields(&variant[2..length - 1]),
    }
}

/// The words of a part of a text that begins in the line.
fn placed(text: &str, line: usize) -> Vec<Word> {
    let mut found = words(text);
    found.iter_mut().for_each(|word| word.line += line - 1);
    found
}
