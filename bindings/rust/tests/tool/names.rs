//! How letters are called in texts: by names, in quotes where they are not plain, or as valuations of propositions.

use crate::program::run_with;
use crate::random::Random;
use crate::samples::NAMED;
use duknavet::files::{Automaton, Lasso, Rule};
use duknavet::text::Names;
use duknavet::text::{print_automaton, print_lasso, print_rule, read, read_lasso, read_letter};

/// W with letters that are valuations of a and b: letters 0 and 2 lack a.
const VALUED: &str = "duknavet rule 1
propositions 2 \"a\" \"b\"
elements 2
  0 0
  0 1
letters 4
  1
  0
  1
  0
marks 1
  0 0 proper
";

#[test]
fn propositions_of_a_rule() {
    let (_, parsed) = read(VALUED.as_bytes()).expect("a rule with propositions");
    assert_eq!(parsed.bytes, [2, 0, 0, 0, 1, 4, 1, 0, 1, 0, 1, 0, 0, 0, 3]);
    assert_eq!(parsed.bytes.len(), parsed.places.len());
    assert_eq!(
        parsed.names,
        Names::propositions(&["a", "b"]).expect("two names")
    );
    let rule = Rule::take_apart(&parsed.bytes).expect("a rule");
    assert_eq!(print_rule(&rule, &parsed.names), VALUED);
    for short in [
        "propositions a b",
        "propositions \"a\" b",
        "propositions 2 a b",
    ] {
        let text = VALUED.replace("propositions 2 \"a\" \"b\"", short);
        assert_eq!(
            read(text.as_bytes()).map(|(_, own)| own.names),
            Ok(parsed.names.clone())
        );
    }
}

#[test]
fn propositions_of_an_automaton() {
    let text = "duknavet automaton 1
propositions 1 \"x > 0\"
states 1
  both
letters 2
transitions 1
  0 1 0
";
    let (_, parsed) = read(text.as_bytes()).expect("an automaton with a proposition");
    assert_eq!(parsed.bytes, [1, 3, 2, 1, 0, 0, 1, 0]);
    let automaton = Automaton::take_apart(&parsed.bytes).expect("an automaton");
    assert_eq!(print_automaton(&automaton, &parsed.names), text);
    let by_name = text.replace("0 1 0", "0 \"x > 0\" 0");
    assert_eq!(
        read(by_name.as_bytes()).map(|(_, own)| own.bytes),
        Ok(parsed.bytes)
    );
    // Without a proposition there is one letter, which goes by its number.
    let none = "duknavet automaton 1\npropositions 0\nstates 1\n  both\nletters 1\ntransitions 1\n  0 0 0\n";
    let (_, parsed) = read(none.as_bytes()).expect("an automaton over no proposition");
    assert_eq!(
        (parsed.names.count(), parsed.names.show(0)),
        (Some(1), "0".to_string())
    );
    let automaton = Automaton::take_apart(&parsed.bytes).expect("an automaton");
    assert_eq!(print_automaton(&automaton, &parsed.names), none);
}

/// A conjunction is one letter, what is left out of it is false, and what is printed has every proposition.
#[test]
fn letters_as_valuations() {
    let names = Names::propositions(&["a", "b", "mark", "x > 0"]).expect("four names");
    for (text, letter) in [
        ("a", 1),
        ("!a", 0),
        ("b & a", 3),
        ("a&!b", 1),
        ("!a & !b & \"mark\"", 4),
        ("\"x > 0\"&!\"a\"", 8),
        ("13", 13),
        ("200", 200),
    ] {
        assert_eq!(read_letter(text, &names), Ok(letter), "{text}");
    }
    assert_eq!(names.show(9), "a & !b & !\"mark\" & \"x > 0\"");
    assert_eq!(names.show(16), "16");
    let lasso = Lasso {
        u: vec![2],
        v: vec![0, 15, 16],
    };
    let names = Names::propositions(&["a", "b", "c", "d"]).expect("four names");
    let text = print_lasso(&lasso, &names);
    assert_eq!(
        text,
        "u: !a & b & !c & !d  v: !a & !b & !c & !d a & b & c & d 16"
    );
    assert_eq!(read_lasso(text.as_bytes(), &names), Ok(lasso));
    for (text, expected) in [
        (
            "e",
            "line 1, column 1: `e` is no proposition and no number from 0 to 255; the propositions are a, b, c, d",
        ),
        (
            "a & !e",
            "line 1, column 6: `e` is no proposition and no number from 0 to 255; the propositions are a, b, c, d",
        ),
        (
            "a & 1",
            "line 1, column 5: `1` is no proposition and no number from 0 to 255; the propositions are a, b, c, d",
        ),
        ("a & !a", "line 1, column 6: `a` stands twice in one letter"),
        (
            "a &",
            "line 1, column 4: expected a proposition, found the end",
        ),
        (
            "a b",
            "line 1, column 3: expected the end of the text, found `b`",
        ),
        (
            "\"a",
            "line 1, column 1: a name in quotes does not end in its line",
        ),
        ("", "line 1, column 1: expected a letter, found the end"),
    ] {
        let error = read_letter(text, &names).expect_err(text);
        assert_eq!(error.to_string(), expected);
    }
}

#[test]
fn faults_of_propositions() {
    let rule = |line: &str| VALUED.replace("propositions 2 \"a\" \"b\"", line);
    for (text, expected) in [
        (rule("propositions 5"), "line 2, column 14: expected the count of the propositions, a number from 0 to 4, found `5`"),
        (rule("propositions a b c d e"), "line 2, column 22: 5 propositions, but letters have room for 4"),
        (rule("propositions 2 \"a\" \"a\""), "line 2, column 20: `a` is another proposition's name already"),
        (rule("propositions 1 a b"), "line 2, column 18: expected `elements`, found `b`"),
        (rule("propositions 3 a b"), "line 3, column 1: `elements` has another meaning and is no letter's name"),
        (rule("propositions 1 a"), "line 6, column 9: 4 letters, but 1 proposition and so 2 valuations"),
        (rule("propositions \"a\" \"b"), "line 2, column 18: a name in quotes does not end in its line"),
        (VALUED.replace("\n  1\n", "\n  up 1\n"), "line 7, column 3: letters have no names where there are propositions"),
    ] {
        let error = read(text.as_bytes()).expect_err(&text);
        assert_eq!(error.to_string(), expected);
    }
}

/// A name that is not plain stands in quotes, and names in UTF-8 are compared by their bytes.
#[test]
fn names_of_any_characters() {
    let (_, parsed) = read(NAMED.as_bytes()).expect("a rule with names");
    let rule = Rule::take_apart(&parsed.bytes).expect("a rule");
    let any = [
        "été",
        "e\u{301}te\u{301}",
        "स्थिति",
        "a b",
        "mark",
        "#:&!",
        "\\\"",
        "",
        "7up",
        "-",
    ];
    let mut random = Random::new(3801);
    for _ in 0..200 {
        let pair = [*random.pick(&any), *random.pick(&any)];
        let Ok(names) = Names::letters(&pair) else {
            assert_eq!(pair[0], pair[1]);
            continue;
        };
        let text = print_rule(&rule, &names);
        let (_, again) = read(text.as_bytes()).expect(&text);
        assert_eq!(
            (&again.bytes, &again.names),
            (&parsed.bytes, &names),
            "{text}"
        );
        let lasso = Lasso {
            u: vec![1, 0],
            v: vec![0, 1],
        };
        let text = print_lasso(&lasso, &names);
        assert_eq!(read_lasso(text.as_bytes(), &names), Ok(lasso), "{text}");
        assert_eq!(Names::of_line(&names.line()), Ok(names));
    }
    // Composed and decomposed are two names.
    let names = Names::letters(&["été", "e\u{301}te\u{301}"]).expect("two names");
    assert_eq!(read_letter("e\u{301}te\u{301}", &names), Ok(1));
    assert!(print_rule(&rule, &names).contains("\n  été 0\n"));
}

/// A letter without a name has its number for one, and no other letter can have it.
#[test]
fn numbers_as_names() {
    let some = Names::letters(&["0", "shut", "2"]).expect("one name");
    assert_eq!(
        some.as_letters(),
        Some(vec!["0".into(), "shut".into(), "2".into()])
    );
    assert_eq!((some.of(0), some.show(2)), (None, "2".to_string()));
    assert_eq!(some.line(), "letters \"0\" \"shut\" \"2\"");
    assert_eq!(Names::of_line(&some.line()), Ok(some));
    assert_eq!(Names::letters(&["0", "1"]), Ok(Names::none()));
    assert_eq!(Names::none().line(), "");
    assert_eq!(Names::of_line(""), Ok(Names::none()));
    let swapped = Names::letters(&["1", "0"]).expect_err("numbers of other letters");
    assert_eq!(swapped, "`1` is a number and the name of no other letter");
    let automaton = "duknavet automaton 1\nstates 1\n  both\nletters 2\n  up \"1\"\ntransitions 2\n  0 up 0\n  0 1 0\n";
    let (_, parsed) = read(automaton.as_bytes()).expect("an automaton with one name");
    let parts = Automaton::take_apart(&parsed.bytes).expect("an automaton");
    assert_eq!(print_automaton(&parts, &parsed.names), automaton);
    let three = Names::propositions(&["p", "q r", "0"]).expect("three names");
    assert_eq!(read_letter("0", &three), Ok(0));
    assert_eq!(read_letter("\"0\" & p", &three), Ok(5));
    assert!(read_letter("p & 0", &three).is_err());
    assert_eq!(three.line(), "propositions \"p\" \"q r\" \"0\"");
    assert_eq!(Names::of_line(&three.line()), Ok(three));
    for damaged in [
        "letters \"a\" \"a\"",
        "propositions \"a",
        "names",
        "letters 1 0",
        "propositions a b c d e",
    ] {
        assert!(Names::of_line(damaged).is_err(), "{damaged}");
    }
}

/// Names and propositions through the Hanoi format and back.
#[test]
fn through_the_hanoi_format() {
    let text = |letters: &str, names: &str| {
        format!("duknavet automaton 1\n{names}states 2\n  initial\n  final\nletters {letters}\ntransitions 2\n  0 1 1\n  1 0 1\n")
    };
    for (automaton, header) in [
        (
            text("4", "propositions 2 \"x > 0\" \"p\"\n"),
            "\nAP: 2 \"x > 0\" \"p\"\nacc-name:",
        ),
        (
            text("4", "propositions 2 \"a \\\"b\\\" \\\\\" \"\"\n"),
            "\nAP: 2 \"a \\\"b\\\" \\\\\" \"\"\nacc-name:",
        ),
        (
            text("2\n  open \"shut, tight\"", "")
                .replace("0 1 1", "0 \"shut, tight\" 1")
                .replace("1 0 1", "1 open 1"),
            "\nAP: 1 \"b0\"\nduknavet-letters: 2 \"open\" \"shut, tight\"\nacc-name:",
        ),
        (
            text("3\n  open \"1\" \"2\"", "").replace("1 0 1", "1 open 1"),
            "\nAP: 2 \"b0\" \"b1\"\nduknavet-letters: 3 \"open\" \"1\" \"2\"\nacc-name:",
        ),
        (
            text("3", ""),
            "\nAP: 2 \"b0\" \"b1\"\nduknavet-letters: 3\nacc-name:",
        ),
    ] {
        let hoa = run_with(&["convert", "--to", "hoa", "-"], automaton.as_bytes());
        assert!(hoa.printed(0).contains(header), "{}", hoa.text());
        let again = run_with(&["convert", "--to", "text", "-"], hoa.printed(0).as_bytes());
        let again: String = again
            .printed(0)
            .split_inclusive('\n')
            .filter(|line| !line.starts_with('#'))
            .collect();
        assert_eq!(again, automaton);
    }
    let hoa = |line: &str| {
        format!("HOA: v1\nStart: 0\nAP: 1 \"b0\"\n{line}\nAcceptance: 0 t\n--BODY--\nState: 0 [t] 0\n--END--\n")
    };
    for (line, said) in [
        (
            "duknavet-letters: 2 \"a\"",
            "line 4, column 1: 2 letters, but 1 name\n",
        ),
        (
            "duknavet-letters: 2 \"a\" \"a\"",
            "line 4, column 1: `a` is another letter's name already",
        ),
        (
            "duknavet-letters: 2 \"1\" \"0\"",
            "line 4, column 1: `1` is a number and the name of no other letter",
        ),
    ] {
        run_with(&["check", "-"], hoa(line).as_bytes()).said(2, said);
    }
    let control = hoa("").replace("b0", "a\nb");
    run_with(&["check", "-"], control.as_bytes()).said(
        2,
        "line 3, column 7: `a\\nb` has a character that cannot be printed",
    );
}
