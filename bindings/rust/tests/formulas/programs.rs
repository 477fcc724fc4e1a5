//! The bytes of formulas.

use super::{formula, letters, propositions};
use duknavet::formulas::{Alphabet, Program};

fn bytes(text: &str, alphabet: &Alphabet) -> Vec<u8> {
    let program = Program::of(&formula(text, alphabet)).expect("a program");
    program.bytes
}

#[test]
fn operations_follow_their_parts() {
    let alphabet = letters(&["a", "b", "c"]);
    assert_eq!(bytes("a", &alphabet), [0, 3, 1, 0]);
    assert_eq!(bytes("true", &alphabet), [1, 3]);
    assert_eq!(bytes("G F c", &alphabet), [0, 3, 4, 0, 8, 9]);
    assert_eq!(bytes("a U X b", &alphabet), [0, 3, 1, 0, 0, 3, 2, 0, 6, 7]);
    assert_eq!(
        bytes("!(a W b)", &alphabet),
        [0, 3, 1, 0, 0, 3, 2, 0, 11, 2]
    );
}

#[test]
fn the_deeper_part_comes_first_where_the_order_means_nothing() {
    let alphabet = letters(&["a", "b", "c"]);
    let deep = bytes("(a U b) && c", &alphabet);
    assert_eq!(bytes("c && (a U b)", &alphabet), deep);
    // seventeen rules side by side, but never more than three on the stack
    let many = ["X a"; 17].join(" && ");
    let program = Program::of(&formula(&many, &alphabet)).expect("a program");
    assert!(program.bytes.len() < 100);
}

#[test]
fn what_stands_in_the_stack_is_copied() {
    let alphabet = letters(&["a", "b", "c"]);
    let text = bytes("F a && X (F a U b)", &alphabet);
    let copied = text.windows(2).filter(|pair| pair[0] == 12).count();
    assert!(copied <= 1);
    let text = bytes("(F a) U (b U F a)", &alphabet);
    assert_eq!(text, [0, 3, 1, 0, 8, 0, 3, 2, 0, 12, 1, 7, 7]);
}

#[test]
fn a_stack_of_eight_is_enough_or_told() {
    let alphabet = propositions(&["a", "b"]);
    let nested = |count: usize| {
        let mut text = "F b".to_string();
        for _ in 0..count {
            text = format!("(F a U X {text})");
        }
        text
    };
    assert!(Program::of(&formula(&nested(3), &alphabet)).is_ok());
    assert!(Program::of(&formula(&nested(12), &alphabet)).is_err());
}
