//! The specification patterns of Dwyer, Avrunin and Corbett, as their usual formulas.

use super::tree::{Binary, Tree, Unary};

/// What is asked of the parts P, or S and P.
#[derive(Clone, Copy, Debug, PartialEq, Eq)]
pub(super) enum Pattern {
    Absence,
    Universality,
    Existence,
    Precedence,
    Response,
}

/// Where it is asked, between Q and R.
#[derive(Clone, Copy, Debug, PartialEq, Eq)]
pub(super) enum Scope {
    Before,
    After,
    Between,
    AfterUntil,
}

impl Pattern {
    const ALL: [Pattern; 5] = [
        Pattern::Absence,
        Pattern::Universality,
        Pattern::Existence,
        Pattern::Precedence,
        Pattern::Response,
    ];

    pub fn name(self) -> &'static str {
        match self {
            Pattern::Absence => "absence",
            Pattern::Universality => "universality",
            Pattern::Existence => "existence",
            Pattern::Precedence => "precedence",
            Pattern::Response => "response",
        }
    }

    pub fn named(name: &str) -> Option<Pattern> {
        Pattern::ALL.into_iter().find(|own| own.name() == name)
    }

    /// How many parts it has: P, or S and P.
    pub fn count(self) -> usize {
        match self {
            Pattern::Precedence | Pattern::Response => 2,
            _ => 1,
        }
    }
}

impl Scope {
    const ALL: [Scope; 4] = [
        Scope::Before,
        Scope::After,
        Scope::Between,
        Scope::AfterUntil,
    ];

    pub fn name(self) -> &'static str {
        match self {
            Scope::Before => "before",
            Scope::After => "after",
            Scope::Between => "between",
            Scope::AfterUntil => "after_until",
        }
    }

    pub fn named(name: &str) -> Option<Scope> {
        Scope::ALL.into_iter().find(|own| own.name() == name)
    }

    /// How many parts it has: R, Q, or Q and R.
    pub fn count(self) -> usize {
        match self {
            Scope::Before | Scope::After => 1,
            Scope::Between | Scope::AfterUntil => 2,
        }
    }
}

fn not(part: &Tree) -> Tree {
    Tree::one(Unary::Not, part.clone())
}

fn always(part: Tree) -> Tree {
    Tree::one(Unary::Always, part)
}

fn eventually(part: Tree) -> Tree {
    Tree::one(Unary::Eventually, part)
}

fn and(first: Tree, second: Tree) -> Tree {
    Tree::two(Binary::And, first, second)
}

fn or(first: Tree, second: Tree) -> Tree {
    Tree::two(Binary::Or, first, second)
}

fn implies(first: Tree, second: Tree) -> Tree {
    Tree::two(Binary::Implies, first, second)
}

fn until(first: Tree, second: Tree) -> Tree {
    Tree::two(Binary::Until, first, second)
}

fn weak_until(first: Tree, second: Tree) -> Tree {
    Tree::two(Binary::WeakUntil, first, second)
}

/// The pattern everywhere. `parts` has as many as the pattern asks for, S before P.
pub(super) fn globally(pattern: Pattern, parts: &[Tree]) -> Tree {
    let (s, p) = (&parts[0], &parts[parts.len() - 1]);
    match pattern {
        Pattern::Absence => always(not(p)),
        Pattern::Universality => always(p.clone()),
        Pattern::Existence => eventually(p.clone()),
        Pattern::Precedence => weak_until(not(p), s.clone()),
        Pattern::Response => always(implies(p.clone(), eventually(s.clone()))),
    }
}

/// The pattern in a scope. `ends` has as many parts as the scope asks for, Q before R.
pub(super) fn within(pattern: Pattern, parts: &[Tree], scope: Scope, ends: &[Tree]) -> Tree {
    let (q, r) = (&ends[0], &ends[ends.len() - 1]);
    match scope {
        Scope::Before => before(pattern, parts, r),
        Scope::After => after(pattern, parts, q),
        Scope::Between => {
            let opened = and(q.clone(), not(r));
            match pattern {
                Pattern::Existence => always(implies(opened, reaches(parts, r, weak_until))),
                _ => {
                    let closed = and(opened, eventually(r.clone()));
                    always(implies(closed, up_to(pattern, parts, r, until)))
                }
            }
        }
        Scope::AfterUntil => {
            let opened = and(q.clone(), not(r));
            let kept = match pattern {
                Pattern::Existence => reaches(parts, r, until),
                _ => up_to(pattern, parts, r, weak_until),
            };
            always(implies(opened, kept))
        }
    }
}

/// P comes before R does.
fn reaches(parts: &[Tree], r: &Tree, joined: fn(Tree, Tree) -> Tree) -> Tree {
    let p = &parts[parts.len() - 1];
    joined(not(r), and(p.clone(), not(r)))
}

/// The pattern, other than existence, up to R.
fn up_to(pattern: Pattern, parts: &[Tree], r: &Tree, joined: fn(Tree, Tree) -> Tree) -> Tree {
    let (s, p) = (&parts[0], &parts[parts.len() - 1]);
    match pattern {
        Pattern::Absence | Pattern::Existence => joined(not(p), r.clone()),
        Pattern::Universality => joined(p.clone(), r.clone()),
        Pattern::Precedence => joined(not(p), or(s.clone(), r.clone())),
        Pattern::Response => {
            let answered = until(not(r), and(s.clone(), not(r)));
            joined(implies(p.clone(), answered), r.clone())
        }
    }
}

fn before(pattern: Pattern, parts: &[Tree], r: &Tree) -> Tree {
    match pattern {
        Pattern::Existence => reaches(parts, r, weak_until),
        _ => implies(eventually(r.clone()), up_to(pattern, parts, r, until)),
    }
}

fn after(pattern: Pattern, parts: &[Tree], q: &Tree) -> Tree {
    let all = globally(pattern, parts);
    match pattern {
        Pattern::Existence | Pattern::Precedence => {
            or(always(not(q)), eventually(and(q.clone(), all)))
        }
        _ => always(implies(q.clone(), all)),
    }
}
