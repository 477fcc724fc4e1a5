//! Text forms: round trips, errors with their places, and any bytes.

use crate::definitions::acceptance::letter;
use crate::inputs::automata;
use crate::random::Random;
use crate::samples::{rule, NAMED};
use duknavet::files::{marks_bytes, marks_of, Automaton, Lasso, Mark, Rule};
use duknavet::text::{kind, print_automaton, print_lasso, print_marks, print_rule};
use duknavet::text::{read, read_lasso, read_letter, Kind, Names, Place, TextError};

/// The bytes that a text says, and that it is of a kind.
fn bytes_of(text: &str, expected: Kind) -> Vec<u8> {
    assert_eq!(kind(text.as_bytes()), Some(Ok(expected)));
    let (found, parsed) = read(text.as_bytes()).expect("a printed text reads");
    assert_eq!(found, expected);
    assert_eq!(parsed.bytes.len(), parsed.places.len());
    parsed.bytes
}

#[test]
fn rules_round_trip() {
    let mut random = Random::new(401);
    for _ in 0..400 {
        let bytes = rule(&mut random, 20).bytes();
        let parts = Rule::take_apart(&bytes).expect("a rule");
        assert_eq!(Rule::read(&bytes), Ok(parts.clone()));
        assert_eq!(parts.bytes(), bytes);
        assert_eq!(
            bytes_of(&print_rule(&parts, &Names::none()), Kind::Rule),
            bytes
        );
        let section = marks_bytes(&parts.marks);
        assert_eq!(marks_of(&section), Some(parts.marks.clone()));
        assert_eq!(bytes_of(&print_marks(&parts.marks), Kind::Marks), section);
    }
}

/// What is no rule but has the sections of one round-trips too, entries out of range and all.
#[test]
fn any_sections_round_trip() {
    let mut random = Random::new(402);
    let any = |random: &mut Random| random.below(256) as u8;
    for _ in 0..300 {
        let elements = random.below(12);
        let letters = random.below(20);
        let marks = random.below(8);
        let parts = Rule {
            elements: elements as u8,
            products: (0..elements * elements).map(|_| any(&mut random)).collect(),
            images: (0..letters).map(|_| any(&mut random)).collect(),
            marks: (0..marks)
                .map(|_| Mark {
                    s: any(&mut random),
                    e: any(&mut random),
                    grade: any(&mut random),
                })
                .collect(),
        };
        let bytes = parts.bytes();
        assert_eq!(Rule::take_apart(&bytes), Some(parts.clone()));
        assert_eq!(
            bytes_of(&print_rule(&parts, &Names::none()), Kind::Rule),
            bytes
        );
    }
}

#[test]
fn automata_round_trip() {
    let mut random = Random::new(403);
    for _ in 0..200 {
        let (states, letters) = (random.within(1, 6), random.within(1, 16));
        let bytes = automata::automaton(&mut random, states, letters, 30).bytes();
        let parts = Automaton::take_apart(&bytes).expect("an automaton");
        assert_eq!(parts.bytes(), bytes);
        let text = print_automaton(&parts, &Names::none());
        assert_eq!(bytes_of(&text, Kind::Automaton), bytes);
    }
}

#[test]
fn lassos_round_trip() {
    let mut random = Random::new(404);
    for _ in 0..200 {
        let lengths = (random.below(9), random.within(1, 9));
        let lasso = Lasso {
            u: random.word(lengths.0, 256),
            v: random.word(lengths.1, 256),
        };
        let text = print_lasso(&lasso, &Names::none());
        assert_eq!(read_lasso(text.as_bytes(), &Names::none()), Ok(lasso));
        assert_eq!(kind(text.as_bytes()), Some(Ok(Kind::Lasso)));
    }
}

/// A stretch has the letters of the endless word from its position on, and goes to the end of u or of v.
#[test]
fn stretches() {
    let mut random = Random::new(406);
    for _ in 0..300 {
        let lengths = (random.below(6), random.within(1, 6));
        let lasso = Lasso {
            u: random.word(lengths.0, 16),
            v: random.word(lengths.1, 16),
        };
        let position = random.below(40);
        let stretch = lasso.stretch(position);
        let from_there = (position..).map(|at| letter(&lasso.u, &lasso.v, at));
        assert_eq!(stretch, from_there.take(stretch.len()).collect::<Vec<u8>>());
        let end = position + stretch.len();
        let left = match position < lengths.0 {
            true => lengths.0 - end,
            false => (end - lengths.0) % lengths.1,
        };
        assert!(left == 0 && !stretch.is_empty(), "{lasso:?} at {position}");
    }
    let long = Lasso {
        u: vec![0; 4225],
        v: vec![0],
    };
    assert!(long.stretch(0).is_empty());
}

#[test]
fn names_round_trip() {
    let (_, parsed) = read(NAMED.as_bytes()).expect("a rule with names");
    let parts = Rule::take_apart(&parsed.bytes).expect("a rule");
    let printed = print_rule(&parts, &parsed.names);
    let (_, again) = read(printed.as_bytes()).expect("a printed rule");
    assert_eq!((&again.bytes, &again.names), (&parsed.bytes, &parsed.names));
    assert_eq!(print_rule(&parts, &again.names), printed);
    let lasso = Lasso {
        u: vec![1],
        v: vec![0, 0, 9],
    };
    let text = print_lasso(&lasso, &parsed.names);
    assert_eq!(text, "u: shut  v: open open 9");
    assert_eq!(read_lasso(text.as_bytes(), &parsed.names), Ok(lasso));
    let automaton = "duknavet automaton 1\nstates 1\n  both\nletters 2\n  up down\ntransitions 2\n  0 up 0\n  0 down 0\n";
    let (_, parsed) = read(automaton.as_bytes()).expect("an automaton with names");
    assert_eq!(parsed.bytes, [1, 3, 2, 2, 0, 0, 0, 0, 0, 1, 0]);
    let parts = Automaton::take_apart(&parsed.bytes).expect("an automaton");
    assert_eq!(print_automaton(&parts, &parsed.names), automaton);
}

/// A grade is 3 for proper, 2 for tolerable and 1 for poor, by word or number.
#[test]
fn grades() {
    let text = b"duknavet marks 1\nmarks 4 0 0 proper 0 1 tolerable 1 1 poor 2 2 3";
    let (_, parsed) = read(text).expect("marks");
    assert_eq!(parsed.bytes, [4, 0, 0, 0, 3, 0, 1, 2, 1, 1, 1, 2, 2, 3]);
}

/// A text without its counts, which stand in the lines of their words.
fn without_counts(text: &str) -> String {
    let words = [
        "elements",
        "letters",
        "marks",
        "states",
        "transitions",
        "propositions",
    ];
    let line = |line: &str| match line.split_once(' ') {
        Some((word, rest)) if words.contains(&word) => {
            let names = rest.split_once(' ').map_or("", |(_, names)| names);
            format!("{word} {names}\n")
        }
        _ => format!("{line}\n"),
    };
    text.lines().map(line).collect()
}

/// Counts may be left out, and a text then says the same bytes, unless a number may be a count or an entry.
#[test]
fn counts_left_out() {
    let mut random = Random::new(407);
    let (mut same, mut refused) = (0, 0);
    for round in 0..400 {
        let rule = Rule::take_apart(&rule(&mut random, 12).bytes()).expect("a rule");
        let names: Vec<String> = (0..rule.images.len())
            .map(|own| format!("a{own}"))
            .collect();
        let names = match round % 2 {
            0 => Names::letters(&names).expect("different names"),
            _ => Names::none(),
        };
        let text = without_counts(&print_rule(&rule, &names));
        match read(text.as_bytes()) {
            Ok((_, parsed)) => {
                assert_eq!(
                    (parsed.bytes, parsed.names),
                    (rule.bytes(), names),
                    "{text}"
                );
                same += 1;
            }
            Err(error) => {
                // As many letters as the first one's element says, and one more.
                assert!(
                    round % 2 == 1 && error.message.contains("may be the count of the letters"),
                    "{error}"
                );
                assert_eq!(usize::from(rule.images[0]), rule.images.len() - 1);
                refused += 1;
            }
        }
    }
    assert!(same > 300 && refused > 10, "{same} {refused}");
    for _ in 0..200 {
        let (states, letters) = (random.within(1, 6), random.within(1, 16));
        let bytes = automata::automaton(&mut random, states, letters, 30).bytes();
        let parts = Automaton::take_apart(&bytes).expect("an automaton");
        let names: Vec<String> = (0..letters).map(|own| format!("a{own}")).collect();
        let names = Names::letters(&names).expect("different names");
        let text = without_counts(&print_automaton(&parts, &names));
        let (_, parsed) = read(text.as_bytes()).expect(&text);
        assert_eq!((parsed.bytes, parsed.names), (bytes, names), "{text}");
    }
    let valued = "duknavet automaton 1\npropositions a b\nstates\n both\nletters\ntransitions\n 0 a & !b 0\n 0 !a 0\n 0 3 0\n";
    let (_, parsed) = read(valued.as_bytes()).expect("an automaton over propositions");
    assert_eq!(parsed.bytes, [1, 3, 4, 3, 0, 0, 1, 0, 0, 0, 0, 0, 3, 0]);
    let valued = "duknavet rule 1\npropositions a\nelements\n 0\nletters\n 1\n 0\nmarks\n";
    let (_, parsed) = read(valued.as_bytes()).expect("a rule over a proposition");
    assert_eq!(parsed.bytes, [1, 0, 2, 1, 0, 0, 0]);
}

/// A count in a later line is one where the text cannot be meant without it; a word at the very end may have lost its count.
#[test]
fn counts_in_other_lines() {
    let bytes = |text: &str| read(format!("duknavet {text}").as_bytes()).map(|(_, own)| own.bytes);
    let expected = Ok(vec![1, 0, 2, 0, 0, 1, 0, 0, 0, 3]);
    assert_eq!(
        bytes("rule 1 elements\n1\n0 letters 2\n0\n0\nmarks\n1\n0 0 3"),
        expected
    );
    assert_eq!(bytes("rule 1 elements 1 0 letters\n2 a 0 b 0\nmarks\n0 0 3").map(|own| own.len()), Err(TextError {
        place: Place { line: 2, column: 1 },
        message: "`2` may be the count of the letters or belong to the first of them: the count stands in the line of its word".to_string(),
    }));
    assert_eq!(
        bytes("rule 1 elements 1 0 letters a 0 b 0\nmarks\n0 0 3"),
        expected
    );
    assert!(bytes("rule 1 elements 1 0 letters 1 0 marks").is_err());
    assert_eq!(
        bytes("rule 1 elements 1 0 letters 1 0 marks\n"),
        Ok(vec![1, 0, 1, 0, 0, 0])
    );
    assert_eq!(
        bytes("marks 1\nmarks\n0 0 3\n1 1 poor"),
        Ok(vec![2, 0, 0, 0, 3, 1, 1, 1])
    );
    for cut in [
        "rule 1\nelements\n 0 0 0\nletters 1 0\nmarks 0\n",
        "marks 1\nmarks\n0 0",
        "rule 1\nelements\nletters a 0\nmarks 0\n",
    ] {
        assert!(bytes(cut).is_err(), "{cut}");
    }
}

#[test]
fn errors_have_places() {
    let header = "duknavet rule 1\n";
    for (text, expected) in [
        ("elements 2\n 0 0\n 0 x\n", "line 4, column 4: expected the product 1·1, a number from 0 to 255, found `x`"),
        ("elements 256\n", "line 2, column 10: expected the count of the elements, a number from 0 to 255, found `256`"),
        ("elements 1 0 letters 1 0 marks 1 0 0 good", "line 2, column 38: expected the grade of mark 0: `poor`, `tolerable`, `proper`, a number from 0 to 255, found `good`"),
        ("elements 1 0 letters 1 0 marks 0\n more", "line 3, column 2: expected the end of the text, found `more`"),
        ("elements 1 0\n# no letters\n", "line 4, column 1: expected `letters`, found the end"),
        ("elements 1 0 letters 2 up 0 up 0", "line 2, column 29: `up` is another letter's name already"),
        ("elements 1 0 letters 1 mark 0", "line 2, column 24: `mark` has another meaning and is no letter's name"),
        ("elements 1 0 letters 1 é+ 0", "line 2, column 24: `é+` is no name: a name is a letter or `_`, then letters, digits, `_` and `-`, or stands in quotes"),
        ("elements 1 0 # é\n letters 1é 0", "line 3, column 10: `1é` is no name: a name is a letter or `_`, then letters, digits, `_` and `-`, or stands in quotes"),
        ("elements 1 0 # é\n letters 256 0", "line 3, column 10: expected the count of the letters, a number from 0 to 255, found `256`"),
        ("elements 1 0 # é\n letters é 0", "line 3, column 13: expected `marks`, found the end"),
        ("elements 1 -1", "line 2, column 12: expected the product 0·0, a number from 0 to 255, found `-1`"),
    ] {
        let error = read((header.to_string() + text).as_bytes()).expect_err(text);
        assert_eq!(error.to_string(), expected);
    }
    let error = read(b"duknavet rule 1\nelem\xff").expect_err("no text");
    assert_eq!(
        error.to_string(),
        "line 2, column 5: the text is not in UTF-8"
    );
}

/// Any bytes are read or have an error within the text, and nothing panics.
#[test]
fn any_bytes() {
    let mut random = Random::new(405);
    let words = [
        "duknavet",
        "rule",
        "automaton",
        "marks",
        "lasso",
        "1",
        "0",
        "2",
        "elements",
        "letters",
        "states",
        "transitions",
        "u:",
        "v:",
        ":",
        "#",
        "\n",
        " ",
        "proper",
        "both",
        "x",
        "99999999999999999999",
        "\u{e9}",
        "\t",
        "propositions",
        "\"",
        "\"a b\"",
        "\\",
        "&",
        "!",
        "p",
    ];
    let valued = Names::propositions(&["p", "a b"]).expect("two names");
    let (mut read_well, mut faults) = (0, 0);
    for round in 0..30_000 {
        let mut bytes: Vec<u8> = Vec::new();
        match round % 3 {
            0 => bytes.extend((0..random.below(40)).map(|_| random.below(256) as u8)),
            1 => {
                let kind = *random.pick(&["rule", "automaton", "marks", "lasso"]);
                bytes.extend(format!("duknavet {kind} 1\n").bytes());
                for _ in 0..random.below(30) {
                    bytes.extend(random.pick(&words).bytes());
                    bytes.push(b' ');
                }
            }
            _ => {
                bytes.extend(NAMED.bytes());
                for _ in 0..random.within(1, 3) {
                    let at = random.below(bytes.len());
                    bytes[at] = random.below(256) as u8;
                }
            }
        }
        let lines = 1 + bytes.iter().filter(|byte| **byte == b'\n').count();
        match read(&bytes) {
            Ok(_) => read_well += 1,
            Err(error) => {
                faults += 1;
                assert!(
                    (1..=lines).contains(&error.place.line),
                    "{error} of {bytes:?}"
                );
                assert!(
                    (1..=bytes.len() + 1).contains(&error.place.column),
                    "{error} of {bytes:?}"
                );
            }
        }
        let _ = read_lasso(&bytes, &Names::none());
        let _ = read_lasso(&bytes, &valued);
        let line = String::from_utf8_lossy(&bytes);
        let _ = read_letter(&line, &valued);
        if let Ok(names) = Names::of_line(&line) {
            assert_eq!(Names::of_line(&names.line()), Ok(names));
        }
        assert!(duknavet::text::words(&line).count() <= line.chars().count());
        let _ = kind(&bytes);
    }
    assert!(
        read_well > 100 && faults > 10_000,
        "{read_well} and {faults}"
    );
}
