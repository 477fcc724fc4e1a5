//! Precedences, words, signs and patterns.

use super::{bracketed, letters, propositions, read};
use duknavet::formulas::Alphabet;

fn abc() -> Alphabet {
    propositions(&["a", "b", "c"])
}

fn reads(text: &str, expected: &str) {
    assert_eq!(bracketed(text, &abc()), expected, "{text}");
}

#[test]
fn operators_bind_as_in_spot() {
    reads("!a U b", "(!a U b)");
    reads("X a U F b", "(X a U F b)");
    reads("a U b && c", "((a U b) && c)");
    reads("a && b xor c", "((a && b) xor c)");
    reads("a xor b || c", "((a xor b) || c)");
    reads("a || b -> c", "((a || b) -> c)");
    reads("a || b && c", "(a || (b && c))");
    reads("a && b && c", "((a && b) && c)");
    reads("G a -> b", "(G a -> b)");
    reads("G (a -> b)", "G (a -> b)");
    reads("a -> b U c", "(a -> (b U c))");
}

#[test]
fn signs_and_words_say_the_same() {
    reads("[] a", "G a");
    reads("<> a", "F a");
    reads("a /\\ b \\/ ~c", "((a && b) || !c)");
    reads("a & b | c", "((a && b) || c)");
    reads("a V b", "(a R b)");
    reads("always a and not b", "(G a && !b)");
    reads("eventually a or next b", "(F a || X b)");
    reads("a until b", "(a U b)");
    reads("a weak until b", "(a W b)");
    reads("a release b", "(a R b)");
    reads("never a", "G !a");
    reads("true xor false", "(true xor false)");
    reads("a->b", "(a -> b)");
    reads("a<->b", "(a <-> b)");
}

#[test]
fn operators_are_whole_words() {
    let alphabet = letters(&["Flap", "GFa", "U", "pump-off"]);
    assert_eq!(bracketed("Flap || GFa", &alphabet), "(Flap || GFa)");
    assert_eq!(bracketed("\"U\" U Flap", &alphabet), "(\"U\" U Flap)");
    assert_eq!(bracketed("pump-off->Flap", &alphabet), "(pump-off -> Flap)");
    assert_eq!(bracketed("F {Flap, \"U\"}", &alphabet), "F {Flap, U}");
}

#[test]
fn what_spin_reads_otherwise_is_told() {
    let otherwise = |text: &str| read(text, &abc()).expect(text).otherwise_in_spin;
    assert!(otherwise("a || b && c"));
    assert!(otherwise("a -> b && c"));
    assert!(!otherwise("a && b || c"));
    assert!(!otherwise("a || (b && c)"));
    assert!(!otherwise("G (a -> (b U c))"));
    assert!(!otherwise("a U b && c U a"));
}

#[test]
fn patterns_stand_for_their_formulas() {
    reads("absence(a)", "G !a");
    reads("universality(a)", "G a");
    reads("existence(a) before(b)", "(!b W (a && !b))");
    reads(
        "absence(a) between(b, c)",
        "G (((b && !c) && F c) -> (!a U c))",
    );
    reads("precedence(a, b)", "(!b W a)");
    reads("precedence(a, b) after(c)", "(G !c || F (c && (!b W a)))");
    reads("response(a, b)", "G (b -> F a)");
    reads(
        "response(a, b) after_until(c, a && b)",
        "G ((c && !(a && b)) -> ((b -> (!(a && b) U (a && !(a && b)))) W (a && b)))",
    );
    reads("!absence(a) && b", "(!G !a && b)");
}
