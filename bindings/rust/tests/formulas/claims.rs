//! Rules of the specification patterns against the never claims that Spin 6.5.2 makes of them and of their negations (`claims/`): each that has at most six
//! states and 64 matrices ends in the same bytes. Two negations, of a response between and after until, were written in fewer signs for Spin, since its
//! claims of the plain ones have seven and nine states.

use super::propositions;
use super::rules::of;
use duknavet::{exchange, owned};
use std::fs;
use std::path::PathBuf;

const PATTERNS: [(&str, &str); 5] = [
    ("absence", "absence(p)"),
    ("universality", "universality(p)"),
    ("existence", "existence(p)"),
    ("precedence", "precedence(s, p)"),
    ("response", "response(s, p)"),
];

const SCOPES: [(&str, &str); 5] = [
    ("globally", ""),
    ("before", " before(r)"),
    ("after", " after(q)"),
    ("between", " between(q, r)"),
    ("after-until", " after_until(q, r)"),
];

/// The smallest rule of a claim, and the propositions in the order in which the claim has them; none where the claim is too large.
fn of_claim(file: &str, negated: bool) -> Option<(Vec<u8>, Vec<String>)> {
    let folder = PathBuf::from(env!("CARGO_MANIFEST_DIR")).join("tests/formulas/claims");
    let claim = fs::read(folder.join(file)).expect("a claim of Spin's");
    let read = exchange::read(&claim).ok()?;
    let rule = owned::automaton_rule(&read.automaton.bytes()).ok()?;
    let rule = match negated {
        true => owned::complement(&rule).expect("a strong rule"),
        false => rule,
    };
    let rule = owned::reduce(&rule).expect("a strong rule");
    Some((rule, read.propositions))
}

#[test]
fn patterns_are_what_spin_makes_of_them() {
    let mut through = 0;
    let mut compared = 0;
    for (name, pattern) in PATTERNS {
        for (scope, words) in SCOPES {
            let formula = format!("{pattern}{words}");
            let claims = [
                of_claim(&format!("{name}-{scope}.never"), false),
                of_claim(&format!("{name}-{scope}-negated.never"), true),
            ];
            let met = claims.into_iter().flatten().map(|(rule, names)| {
                let names: Vec<&str> = names.iter().map(String::as_str).collect();
                assert_eq!(of(&formula, &propositions(&names)), rule, "{formula}");
            });
            let met = met.count();
            through += usize::from(met > 0);
            compared += met;
        }
    }
    assert_eq!((through, compared), (25, 38));
}
