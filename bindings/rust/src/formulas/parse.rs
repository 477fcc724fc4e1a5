//! Formulas read: Spot's precedences, and no chain of operators that tools read in two ways.

use super::meaning::Alphabet;
use super::parts::Parts;
use super::patterns::{self, Pattern, Scope};
use super::tokens::{operator, tokens, FormulaError, Placed, Sign, Span, Token};
use super::tree::{Binary, Tree, Unary};
use super::{MOST_DEPTH, MOST_SIZE};
use crate::text::{listed, Place};

/// A formula that was read.
#[derive(Clone, Debug, PartialEq, Eq)]
pub struct Read {
    /// What it says.
    pub tree: Tree,
    /// Whether Spin would read it otherwise: there `&&`, `||`, `->` and `<->` bind alike, from the left.
    pub otherwise_in_spin: bool,
}

/// Reads a formula over the letters or propositions of an alphabet.
pub fn read(text: &str, alphabet: &Alphabet) -> Result<Read, FormulaError> {
    read_part(text, Span::whole(text), alphabet, &Parts::default())
}

/// Reads a part of a text, which may name parts that were read before.
pub(super) fn read_part(
    text: &str,
    span: Span,
    alphabet: &Alphabet,
    parts: &Parts,
) -> Result<Read, FormulaError> {
    let (tokens, end) = tokens(text, span)?;
    let parse = |spin: bool| {
        let mut parser = Parser {
            text,
            tokens: &tokens,
            at: 0,
            end,
            depth: 0,
            size: 0,
            spin,
            alphabet,
            parts,
        };
        parser.whole()
    };
    let tree = parse(false)?;
    let otherwise_in_spin = parse(true).is_ok_and(|other| other != tree);
    Ok(Read {
        tree,
        otherwise_in_spin,
    })
}

/// A tree and its depth, so that no tree is walked before it is known to be shallow.
struct Grown {
    tree: Tree,
    depth: usize,
}

impl Grown {
    fn leaf(tree: Tree) -> Grown {
        Grown { tree, depth: 1 }
    }
}

struct Parser<'a> {
    text: &'a str,
    tokens: &'a [Placed],
    at: usize,
    end: Place,
    depth: usize,
    /// How many names and operators the trees have that were made.
    size: usize,
    /// Whether the formula is read as Spin reads it.
    spin: bool,
    alphabet: &'a Alphabet,
    parts: &'a Parts,
}

/// How strong an operator between two parts binds, the weakest 1.
fn strength(sign: Binary, spin: bool) -> usize {
    match sign {
        Binary::Until | Binary::WeakUntil | Binary::Release | Binary::StrongRelease => 5,
        _ if spin => 1,
        Binary::And => 4,
        Binary::Xor => 3,
        Binary::Or => 2,
        Binary::Implies | Binary::Equivalent => 1,
    }
}

/// Whether a chain of operators that bind so strong is read in two ways.
fn ambiguous(strength: usize, spin: bool) -> bool {
    strength == 5 || (strength == 1 && !spin)
}

/// A tree in a message: whole if it is short.
fn shown(tree: &Tree) -> String {
    let text = tree.to_string();
    match text.chars().count() > 40 {
        true => text.chars().take(39).chain(['…']).collect(),
        false => text,
    }
}

impl Parser<'_> {
    fn token(&self) -> Option<&Token> {
        self.tokens.get(self.at).map(|placed| &placed.token)
    }

    fn place(&self) -> Place {
        let own = self.tokens.get(self.at).map(|placed| placed.place);
        own.unwrap_or(self.end)
    }

    fn fault(&self, place: Place, message: impl Into<String>) -> FormulaError {
        FormulaError::new(self.text, place, message)
    }

    /// Goes on behind a token, if it is the next.
    fn take(&mut self, token: &Token) -> bool {
        let found = self.token() == Some(token);
        self.at += usize::from(found);
        found
    }

    fn expect(&mut self, token: &Token, what: &str) -> Result<(), FormulaError> {
        match self.take(token) {
            true => Ok(()),
            false => Err(self.fault(self.place(), format!("expected {what}"))),
        }
    }

    fn whole(&mut self) -> Result<Tree, FormulaError> {
        if self.tokens.is_empty() {
            return Err(self.fault(self.end, "there is no formula"));
        }
        let tree = self.expression(1)?.tree;
        let message = match self.token() {
            None => return Ok(tree),
            Some(Token::Close) => "there is no `(` for this `)`",
            Some(Token::Name(_) | Token::Quoted(_)) => "expected an operator before this name",
            Some(_) => "expected an operator or the end",
        };
        Err(self.fault(self.place(), message))
    }

    /// One level deeper.
    fn deeper(&mut self) -> Result<(), FormulaError> {
        self.depth += 1;
        match self.depth > MOST_DEPTH {
            true => Err(self.too_deep()),
            false => Ok(()),
        }
    }

    fn too_deep(&self) -> FormulaError {
        let message = format!("parts lie more than {MOST_DEPTH} deep in one another");
        self.fault(self.place(), message)
    }

    /// That there is room for so many names and operators more.
    fn room(&mut self, more: usize) -> Result<(), FormulaError> {
        self.size = self.size.saturating_add(more);
        match self.size > MOST_SIZE {
            true => Err(self.fault(
                self.place(),
                format!("the formula has more than {MOST_SIZE} names and operators, its parts written out"),
            )),
            false => Ok(()),
        }
    }

    /// A tree with parts of some depth below it.
    fn grown(&mut self, tree: Tree, below: usize) -> Result<Grown, FormulaError> {
        self.room(1)?;
        match below >= MOST_DEPTH {
            true => Err(self.too_deep()),
            false => Ok(Grown {
                tree,
                depth: below + 1,
            }),
        }
    }

    /// The operator between two parts that comes next, if one does, and how many tokens it has.
    fn between(&self) -> Option<(Binary, usize)> {
        let Some(Token::Sign(sign)) = self.token() else {
            return None;
        };
        let next = self.tokens.get(self.at + 1).map(|placed| &placed.token);
        let binary = match sign {
            Sign::Weak if next == Some(&Token::Sign(Sign::Until)) => {
                return Some((Binary::WeakUntil, 2))
            }
            Sign::Until => Binary::Until,
            Sign::WeakUntil => Binary::WeakUntil,
            Sign::Release => Binary::Release,
            Sign::StrongRelease => Binary::StrongRelease,
            Sign::And => Binary::And,
            Sign::Xor => Binary::Xor,
            Sign::Or => Binary::Or,
            Sign::Implies => Binary::Implies,
            Sign::Equivalent => Binary::Equivalent,
            _ => return None,
        };
        Some((binary, 1))
    }

    /// Parts with operators between them that bind at least so strong.
    fn expression(&mut self, least: usize) -> Result<Grown, FormulaError> {
        self.deeper()?;
        let mut first = self.one()?;
        while let Some((sign, length)) = self.between() {
            let own = strength(sign, self.spin);
            if own < least {
                break;
            }
            let place = self.place();
            self.at += length;
            let second = self.expression(own + 1)?;
            if let Some((next, length)) = self.between() {
                if ambiguous(own, self.spin) && strength(next, self.spin) == own {
                    self.at += length;
                    let third = self.expression(own + 1)?;
                    let parts = [first.tree, second.tree, third.tree];
                    return Err(self.fault(place, two_readings(sign, next, parts)));
                }
            }
            let below = first.depth.max(second.depth);
            first = self.grown(Tree::two(sign, first.tree, second.tree), below)?;
        }
        self.depth -= 1;
        Ok(first)
    }

    /// A part with the operators before it.
    fn one(&mut self) -> Result<Grown, FormulaError> {
        let Some(Token::Sign(sign)) = self.token() else {
            return self.bare();
        };
        let unary = match sign {
            Sign::Not => Unary::Not,
            Sign::Next => Unary::Next,
            Sign::Eventually => Unary::Eventually,
            Sign::Always | Sign::Never => Unary::Always,
            _ => return self.bare(),
        };
        let never = *sign == Sign::Never;
        self.deeper()?;
        self.at += 1;
        let mut part = self.one()?;
        self.depth -= 1;
        if never {
            part = self.grown(Tree::one(Unary::Not, part.tree), part.depth)?;
        }
        self.grown(Tree::one(unary, part.tree), part.depth)
    }

    fn bare(&mut self) -> Result<Grown, FormulaError> {
        let place = self.place();
        let token = self.token().cloned();
        let Some(token) = token else {
            return Err(self.fault(place, "the formula ends where a part is wanted"));
        };
        self.at += 1;
        match token {
            Token::Open => {
                let part = self.expression(1)?;
                self.expect(&Token::Close, "`)`")?;
                Ok(part)
            }
            Token::OpenSet => self.set(place).map(Grown::leaf),
            Token::Sign(Sign::True) => Ok(Grown::leaf(Tree::Constant(true))),
            Token::Sign(Sign::False) => Ok(Grown::leaf(Tree::Constant(false))),
            Token::Name(name) => self.named(name, place),
            Token::Quoted(name) => self.known(name, place),
            _ => Err(self.fault(place, "expected a part of the formula, as a name or `(`")),
        }
    }

    /// A name, or a pattern with its parts.
    fn named(&mut self, name: String, place: Place) -> Result<Grown, FormulaError> {
        let plain = self.alphabet.has(&name) || self.part(&name).is_some();
        match Pattern::named(&name) {
            Some(pattern) if !plain && self.token() == Some(&Token::Open) => {
                self.pattern(pattern, place)
            }
            _ => self.known(name, place),
        }
    }

    fn part(&self, name: &str) -> Option<&Tree> {
        self.parts.get(name)
    }

    fn known(&mut self, name: String, place: Place) -> Result<Grown, FormulaError> {
        let parts = self.parts;
        if let Some(tree) = parts.get(&name) {
            self.room(tree.size())?;
            return self.grown(tree.clone(), tree.depth() - 1);
        }
        self.room(1)?;
        match self.alphabet.has(&name) {
            true => Ok(Grown::leaf(Tree::Name(name))),
            false => Err(self.fault(place, self.unknown(&name))),
        }
    }

    /// What is said of a name that nothing has.
    fn unknown(&self, name: &str) -> String {
        let mut known = self.alphabet.called();
        known.extend(self.parts.names().cloned());
        let kind = self.alphabet.kind();
        let hint = match self.spelled(name) {
            Some(spelled) => format!("; operators are words of their own: `{spelled}`"),
            None => String::new(),
        };
        format!("`{name}` is no {kind}; there are {}{hint}", listed(&known))
    }

    /// A name taken apart into operators and a name that is known, as `GFa` into `G F a`.
    fn spelled(&self, name: &str) -> Option<String> {
        let mut signs = Vec::new();
        let mut rest = name;
        while let Some(first) = rest.chars().next() {
            if !signs.is_empty() && (self.alphabet.has(rest) || self.part(rest).is_some()) {
                return Some(format!("{} {rest}", signs.join(" ")));
            }
            let length = first.len_utf8();
            operator(&rest[..length]).filter(|_| "XFG".contains(first))?;
            signs.push(&rest[..length]);
            rest = &rest[length..];
        }
        None
    }

    /// The letters of a set, behind its bracket.
    fn set(&mut self, place: Place) -> Result<Tree, FormulaError> {
        if self.alphabet.has_propositions() {
            let message = "a set is of letters; with propositions write `a || b`";
            return Err(self.fault(place, message));
        }
        let mut names = Vec::new();
        loop {
            let place = self.place();
            let name = match self.token() {
                Some(Token::Name(name) | Token::Quoted(name)) => name.clone(),
                _ => return Err(self.fault(place, "expected a letter of the set")),
            };
            if !self.alphabet.has(&name) {
                return Err(self.fault(place, self.unknown(&name)));
            }
            self.at += 1;
            names.push(name);
            if self.take(&Token::CloseSet) {
                return Ok(Tree::Set(names));
            }
            self.expect(&Token::Comma, "`,` or `}`")?;
        }
    }

    /// As many parts in brackets, with commas between them.
    fn arguments(&mut self, name: &str, count: usize) -> Result<Vec<Tree>, FormulaError> {
        self.expect(&Token::Open, "`(`")?;
        let mut parts = vec![self.expression(1)?.tree];
        while parts.len() < count {
            self.expect(&Token::Comma, &format!("`,`: {name} has {count} parts"))?;
            parts.push(self.expression(1)?.tree);
        }
        self.expect(&Token::Close, "`)`")?;
        Ok(parts)
    }

    fn pattern(&mut self, pattern: Pattern, place: Place) -> Result<Grown, FormulaError> {
        if pattern == Pattern::Universality && !self.alphabet.has_propositions() {
            let message =
                "universality is of propositions: of letters exactly one holds at a place";
            return Err(self.fault(place, message));
        }
        let parts = self.arguments(pattern.name(), pattern.count())?;
        let scope = match self.token() {
            Some(Token::Name(name)) => Scope::named(name),
            _ => None,
        };
        let tree = match scope {
            None => patterns::globally(pattern, &parts),
            Some(scope) => {
                self.at += 1;
                let ends = self.arguments(scope.name(), scope.count())?;
                patterns::within(pattern, &parts, scope, &ends)
            }
        };
        let depth = tree.depth();
        self.room(tree.size())?;
        self.grown(tree, depth - 1)
    }
}

/// That three parts with two operators between them can be read in two ways.
fn two_readings(first: Binary, second: Binary, parts: [Tree; 3]) -> String {
    let (left, right) = (first.sign(), second.sign());
    let [a, b, c] = parts.map(|part| shown(&part));
    format!(
        "this can be read as `({a} {left} {b}) {right} {c}` or as `{a} {left} ({b} {right} {c})`; brackets say which"
    )
}
