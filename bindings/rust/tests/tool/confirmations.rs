//! Reductions that were made elsewhere, end to end and against the engine written apart; maps as texts.

use crate::definitions::acceptance::{grade, Marking};
use crate::definitions::confirmed::{self, Fault};
use crate::definitions::contexts;
use crate::definitions::order;
use crate::definitions::rule::{Mark, Rule};
use crate::inputs::{marks, presentations};
use crate::program::{run, run_with, Ran, Scrap};
use crate::random::Random;
use crate::samples::{remainders, rule, GRADED, NAMED, NOT_ASSOCIATIVE, TWICE, W, Z};
use duknavet::text::{print_map, read, Kind};
use duknavet::witness::{why_not_confirmed, ReductionFault};
use duknavet::{owned, Confirmation, Strength};

/// W with every mark, which one element is enough for.
const ALL: &[u8] = &[2, 0, 0, 0, 1, 2, 0, 1, 3, 0, 0, 0, 3, 0, 1, 3, 1, 1, 3];
const ONE_ELEMENT: &[u8] = &[1, 0, 2, 0, 0, 1, 0, 0, 0, 3];
/// W with its elements exchanged.
const EXCHANGED: &[u8] = &[2, 0, 1, 1, 1, 2, 1, 0, 1, 0, 1, 1, 3];
/// Sums modulo 2 of letters 0, and whether there was one; it has the grades of Z.
const SUMS: &[u8] = &[
    3, 0, 1, 2, 1, 1, 2, 2, 2, 1, 2, 2, 0, 4, 0, 0, 0, 3, 1, 0, 3, 1, 1, 3, 2, 1, 3,
];

fn asked(first: &[u8], second: &[u8], map: &[u8]) -> Ran {
    let (first, second) = (Scrap::holding(first), Scrap::holding(second));
    run_with(&["confirm", first.name(), second.name(), "-"], map)
}

#[test]
fn answers() {
    for (first, second, map) in [
        (W, W, &[0, 1][..]),
        (W, EXCHANGED, &[1, 0]),
        (ALL, ONE_ELEMENT, &[0, 0]),
        (TWICE, TWICE, &[0, 1, 2, 3]),
        (SUMS, SUMS, &[0, 1, 2]),
    ] {
        assert_eq!(asked(first, second, map).printed(0), "yes\n");
    }
    for (first, second, map, why) in [
        (W, W, &[][..], "the map has 0 bytes, and the rule has 2 elements"),
        (W, W, &[0], "the map has 1 byte, and the rule has 2 elements"),
        (W, W, &[0, 1, 0], "the map has 3 bytes, and the rule has 2 elements"),
        (W, &[1, 0, 1, 0, 0, 0], &[0, 0], "the rule has 2 letters, and the reduced one has 1"),
        (W, W, &[0, 7], "element 1 goes to 7, and the reduced rule has 2 elements"),
        (ALL, ONE_ELEMENT, &[1, 0], "element 0 goes to 1, and the reduced rule has 1 element"),
        (W, W, &[0, 0], "no element goes to 1 of the reduced rule"),
        (W, W, &[1, 0], "letter 0 stands for 0, which goes to 1, and in the reduced rule for 0"),
        (
            TWICE,
            TWICE,
            &[0, 1, 3, 2],
            "products are not carried over: 1·1 = 2 goes to 3, but 1 goes to 1 and 1 to 1, and 1·1 = 2",
        ),
        (
            SUMS,
            Z,
            &[0, 0, 1],
            "the reduced rule is weak: u: 0  v: 0 0 has grade 3, but u: 0  v: 1 has grade 0, both with the values 1 and 0",
        ),
        (W, GRADED, &[0, 1], "u:  v: 1 has grade 0 by the rule and 1 by the reduced one"),
        (ALL, ALL, &[0, 1], "the reduced rule has 2 elements, and 1 is enough"),
    ] {
        assert_eq!(asked(first, second, map).printed(1), format!("no: {why}\n"));
    }
}

#[test]
fn names_of_letters() {
    let said = "no: letter open stands for 0, which goes to 1, and in the reduced rule for 0\n";
    let shown = |first: &[u8], second: &[u8], map: &[u8], status: i32| {
        let ran = asked(first, second, map);
        let by_number = "names no letters, so they go by their numbers\n";
        assert!(
            ran.status == status && ran.err.ends_with(by_number),
            "{ran:?}"
        );
        ran.text().to_string()
    };
    for (first, second) in [(NAMED.as_bytes(), W), (W, NAMED.as_bytes())] {
        assert_eq!(shown(first, second, &[0, 1], 0), "yes\n");
        assert_eq!(shown(first, second, &[1, 0], 1), said);
    }
    assert_eq!(
        asked(NAMED.as_bytes(), NAMED.as_bytes(), &[1, 0]).printed(1),
        said
    );
    let said = "no: u:  v: shut has grade 0 by the rule and 1 by the reduced one\n";
    assert_eq!(shown(NAMED.as_bytes(), GRADED, &[0, 1], 1), said);
}

#[test]
fn maps_as_texts() {
    let text = b"duknavet map 1\n# to both\n1 0\n";
    assert_eq!(asked(W, EXCHANGED, text).printed(0), "yes\n");
    let said = "no: the map has 0 bytes, and the rule has 2 elements\n";
    assert_eq!(asked(W, W, b"duknavet map 1").printed(1), said);
    let said =
        "standard input: line 2, column 3: expected where element 1 went, a number from 0 to 255";
    for number in ["256", "one", "-1"] {
        let text = format!("duknavet map 1\n0 {number}\n");
        asked(W, W, text.as_bytes()).said(2, &format!("{said}, found `{number}`"));
    }
    asked(W, W, b"duknavet marks 1\nmarks 0\n").said(2, "expected a map, found a marks section");
    asked(W, b"duknavet map 1\n0 1\n", &[0, 1]).said(2, "expected a rule, found a map");
    let converted =
        |words: &[&str], input: &[u8]| run_with(&[&["convert", "-"], words].concat(), input);
    let bytes = converted(&[], b"duknavet map 1\n0 255\n7\n");
    assert_eq!((bytes.status, bytes.out), (0, vec![0, 255, 7]));
    let text = converted(&["--as", "map"], &[3, 0, 200]);
    assert_eq!(text.printed(0), "duknavet map 1\n  3 0 200\n");
    converted(&["--to", "hoa", "--as", "map"], &[0]).said(3, "the Hanoi format");
    let map = b"duknavet map 1\n0\n";
    run_with(&["check", "-"], map).said(3, "a map passes only beside a rule");
    run_with(&["show", "-"], map).said(3, "it shows rules and automata");
    run_with(&["picture", "-"], map).said(3, "it draws ");
    let rule = Scrap::holding(W);
    run_with(&["compare", rule.name(), "-"], map).said(3, "it compares rules and automata");
}

/// Every map has a text, which reads back.
#[test]
fn maps_round_trip() {
    let mut random = Random::new(1311);
    for length in 0..100 {
        let map = random.word(length, 256);
        let text = print_map(&map);
        let (kind, parsed) = read(text.as_bytes()).expect("a printed text reads");
        assert_eq!((kind, parsed.bytes), (Kind::Map, map));
        assert!(text.lines().all(|line| line.len() < 80), "{text}");
    }
}

#[test]
fn reduce_writes_its_map() {
    let map = Scrap::free();
    let reduced = |words: &[&str], rule: &[u8]| {
        let ran = run_with(
            &[&["reduce", "-", "--map", map.name()], words].concat(),
            rule,
        );
        (ran, std::fs::read(map.name()).expect("a map"))
    };
    let (ran, bytes) = reduced(&[], ALL);
    assert_eq!((ran.status, ran.out.as_slice()), (0, ONE_ELEMENT));
    assert_eq!(bytes, [0, 0]);
    assert_eq!(asked(ALL, ONE_ELEMENT, &bytes).printed(0), "yes\n");
    let (ran, text) = reduced(&[], NAMED.as_bytes());
    assert!(ran.printed(0).contains("  open 0\n"), "{ran:?}");
    assert_eq!(text, b"duknavet map 1\n  0 1\n");
    assert_eq!(asked(NAMED.as_bytes(), &ran.out, &text).printed(0), "yes\n");
    let (ran, bytes) = reduced(&["--to", "bytes"], NAMED.as_bytes());
    assert_eq!((ran.out.as_slice(), bytes.as_slice()), (W, &[0, 1][..]));
    let (ran, text) = reduced(&["--to=text"], EXCHANGED);
    assert!(ran.printed(0).starts_with("duknavet rule 1\nelements 2\n"));
    assert_eq!(text, b"duknavet map 1\n  1 0\n");
    // A refused rule has no map, and one that cannot be written is told before anything is printed.
    let free = Scrap::free();
    run_with(&["reduce", "-", "--map", free.name()], Z).said(2, "refusal 12");
    run_with(&["reduce", "-", "--to", "ink", "--map", free.name()], W).said(3, "`--to` takes one");
    assert!(std::fs::read(free.name()).is_err());
    run_with(&["reduce", "-", "--map", "/there/is/no/map"], W).said(3, "/there/is/no/map: ");
    run_with(&["reduce", "-", "--map"], W).said(3, "`--map` needs FILE");
}

#[test]
fn refused() {
    let weak = ": the first rule is weak: u: 0  v: 0 0 has grade 3, but u: 0  v: 1 has grade 0, both with the values 1 and 0 (refusal 12, input 1, place 0)";
    for (second, map) in [
        (W, &[0, 1][..]),
        (Z, &[0, 1]),
        (W, &[]),
        (ONE_ELEMENT, &[9; 3]),
    ] {
        asked(Z, second, map).said(2, weak);
    }
    let product = ": the second rule: (0·0)·1 = 0 but 0·(0·1) = 1 (refusal 5, input 2, place 1)";
    asked(Z, NOT_ASSOCIATIVE, &[]).said(2, product);
    asked(&W[..4], NOT_ASSOCIATIVE, &[]).said(2, ": the first rule: the file ends at byte 4");
    let unlinked = NAMED.replace("0 0 proper", "1 0 proper");
    let placed = "line 10, column 3: the second rule: mark 0, the pair (1, 0), is not linked: 1·0 = 0 (refusal 7, input 2, place 10)";
    asked(W, unlinked.as_bytes(), &[0, 1]).said(2, placed);
    let unreached = [2, 0, 0, 0, 1, 1, 0, 0, 0];
    let said = "the second rule: element 1 is no word's value (refusal 6, input 2, place 1)";
    asked(W, &unreached, &[0, 1]).said(2, said);
    let rule = Scrap::holding(W);
    run(&["confirm", rule.name(), rule.name()])
        .said(3, "it takes RULE REDUCED MAP, but was given 2");
    run(&["confirm", "-", rule.name(), "-"]).said(3, "`-` stands twice");
}

fn grades_of(rule: &Rule) -> (Marking, Vec<Vec<u8>>, Vec<u8>) {
    let m = &rule.morphism;
    let marking = Marking::new(m.n, &rule.marks);
    let words: Vec<Vec<u8>> = m.words().into_iter().map(Option::unwrap).collect();
    let outcomes = contexts::outcomes(m, &marking, &words);
    (marking, words, outcomes)
}

/// What the engine written apart says of two strong rules: the conditions that do not hold.
fn foreseen(first: &Rule, second: &Rule, map: &[u8]) -> Vec<Fault> {
    let (m, r) = (&first.morphism, &second.morphism);
    let mut faults = confirmed::of_map(m, r, map);
    let ((_, _, own), (_, _, other)) = (grades_of(first), grades_of(second));
    if faults.is_empty() && !confirmed::same_grades((m.n, &own), (r.n, &other), map) {
        faults.push(Fault::Grades);
    }
    if !confirmed::smallest(r, &other) {
        faults.push(Fault::Size);
    }
    faults
}

/// Whether the words of the tool can be said: what they name is so by the engine written apart.
fn holds(fault: &ReductionFault, first: &Rule, second: &Rule, map: &[u8]) -> Fault {
    let (m, r) = (&first.morphism, &second.morphism);
    let to = |s: u8| map[s as usize];
    match fault {
        ReductionFault::MapLength { bytes, elements } => {
            assert_eq!((*bytes, usize::from(*elements)), (map.len(), m.n));
            assert_ne!(*bytes, m.n);
            Fault::Length
        }
        ReductionFault::Letters { first, second } => {
            assert_eq!((*first, *second), (m.letters(), r.letters()));
            assert_ne!(first, second);
            Fault::Letters
        }
        ReductionFault::Foreign {
            element,
            to: byte,
            elements,
        } => {
            assert_eq!((*byte, usize::from(*elements)), (to(*element), r.n));
            assert!(byte >= elements);
            Fault::Outside
        }
        ReductionFault::NotOnto { element } => {
            assert!(usize::from(*element) < r.n && !map.contains(element));
            Fault::NotOnto
        }
        ReductionFault::Image {
            letter,
            element,
            to: goal,
            image,
        } => {
            let at = usize::from(*letter);
            assert_eq!((*element, *image), (m.images[at], r.images[at]));
            assert!(*goal == to(*element) && goal != image);
            Fault::Images
        }
        ReductionFault::Product {
            factors: (a, b),
            product,
            to: goal,
            goals,
            other,
        } => {
            assert_eq!((*product, *goal), (m.product(*a, *b), to(*product)));
            assert_eq!(*goals, (to(*a), to(*b)));
            assert!(*other == r.product(goals.0, goals.1) && goal != other);
            Fault::Products
        }
        ReductionFault::Weak(_) => Fault::Weak,
        ReductionFault::Grades(difference) => {
            let (u, v) = (&difference.lasso.u, &difference.lasso.v);
            let of = |rule: &Rule| grade(&rule.morphism, &grades_of(rule).0, u, v);
            assert_eq!(
                (of(first), of(second)),
                (difference.first, difference.second)
            );
            assert_ne!(difference.first, difference.second);
            Fault::Grades
        }
        ReductionFault::TooLarge { elements, enough } => {
            let classes = contexts::classes(r, &grades_of(second).2).1;
            assert_eq!(
                (usize::from(*elements), usize::from(*enough)),
                (r.n, classes)
            );
            assert!(enough < elements);
            Fault::Size
        }
    }
}

/// A second rule and a map for a strong rule, right or nearly so.
fn drawn(random: &mut Random, first: &Rule, reduced: &Rule, map: &[u8]) -> (Rule, Vec<u8>) {
    let (mut second, mut map) = (reduced.clone(), map.to_vec());
    let n = second.morphism.n;
    match random.below(10) {
        0 => map[random.below(first.morphism.n)] = random.below(n + 1) as u8,
        1 => drop(map.pop()),
        2 => map.push(0),
        3 => {
            let order = random.order(n);
            let number: Vec<u8> = order.into_iter().map(|s| s as u8).collect();
            second = order::renumbered(&second, &number);
            map = map.iter().map(|t| number[*t as usize]).collect();
        }
        4 => {
            let marks = marks::regraded(random, &second.morphism, &second.marks);
            second.marks = marks;
        }
        5 => {
            second = first.clone();
            map = first.morphism.elements().collect();
        }
        6 => second = presentations::fewer_marks(random, reduced).unwrap_or(second),
        7 => map = random.word(map.len(), n),
        8 => second.morphism.images.push(second.morphism.images[0]),
        _ => {}
    }
    (second, map)
}

#[test]
fn against_the_engine() {
    let mut random = Random::new(1312);
    let (mut yes, mut faults) = (0, Vec::new());
    for _ in 0..1200 {
        let first = rule(&mut random, 9);
        let bytes = first.bytes();
        if owned::strong(&bytes) == Ok(Strength::Weak) {
            let refused = owned::confirm(&bytes, &[1, 0, 1, 0, 0, 0], &[]).expect_err("weak");
            assert_eq!(
                (refused.refused.refusal.number(), refused.refused.input),
                (12, 1)
            );
            continue;
        }
        let reduction = owned::reduce_with_map(&bytes).expect("a strong rule");
        let (_, _, outcomes) = grades_of(&first);
        let own = confirmed::own_map(&first.morphism, &outcomes);
        assert_eq!(reduction.map, own, "{bytes:?}");
        let reduced = crate::definitions::checks::rule(&reduction.rule).expect("a rule");
        let (second, map) = drawn(&mut random, &first, &reduced, &own);
        let file = second.bytes();
        if owned::strong(&file) == Ok(Strength::Weak) {
            let why = why_not_confirmed(&bytes, &file, &map);
            assert!(matches!(why, Ok(Some(_))), "{why:?}");
            continue;
        }
        let foreseen = foreseen(&first, &second, &map);
        let found = owned::confirm(&bytes, &file, &map);
        let why = why_not_confirmed(&bytes, &file, &map).expect("nothing to refuse");
        match foreseen.is_empty() {
            true => {
                assert_eq!((found, why), (Ok(Confirmation::Yes), None));
                yes += 1;
            }
            false => {
                assert_eq!(found, Ok(Confirmation::No), "{bytes:?} {file:?} {map:?}");
                let why = why.unwrap_or_else(|| panic!("no reason: {foreseen:?}"));
                let fault = holds(&why, &first, &second, &map);
                assert!(foreseen.contains(&fault), "{why:?} of {foreseen:?}");
                if !faults.contains(&fault) {
                    faults.push(fault);
                }
            }
        }
    }
    assert!(yes > 100 && faults.len() >= 8, "{yes} {faults:?}");
}

/// The largest rules: 64 remainders of which one element is enough, and counts of which all are needed.
#[test]
fn sixty_four_elements() {
    let all = remainders(64).bytes();
    let reduction = owned::reduce_with_map(&all).expect("a strong rule");
    assert_eq!(reduction.map, [0; 64]);
    let ran = asked(&all, &reduction.rule, &reduction.map);
    assert_eq!(ran.printed(0), "yes\n");
    let said = "no: element 63 goes to 1, and the reduced rule has 1 element\n";
    let other = [&[0; 63][..], &[1]].concat();
    assert_eq!(asked(&all, &reduction.rule, &other).printed(1), said);
    let same: Vec<u8> = (0..64).collect();
    let said = "no: the reduced rule has 64 elements, and 1 is enough\n";
    assert_eq!(asked(&all, &all, &same).printed(1), said);
    let mut unmarked = remainders(64);
    unmarked.marks = vec![Mark {
        pair: (0, 0),
        grade: 1,
    }];
    let said = "no: u:  v: 0 has grade 3 by the rule and 1 by the reduced one\n";
    assert_eq!(asked(&all, &unmarked.bytes(), &same).printed(1), said);
}
