//! Why a lasso has its grade and which grades can still come, end to end and against the engine written apart.

use crate::definitions::acceptance::{grade, letter, segment, writings, Marking};
use crate::definitions::rule::{Mark, Rule};
use crate::definitions::splits;
use crate::inputs::morphisms;
use crate::program::{run, run_with, Scrap};
use crate::random::Random;
use crate::samples::{rule, GRADED, NAMED, NOT_ASSOCIATIVE, W, Z};
use duknavet::files::Lasso;
use duknavet::witness::{prospects, value_grades, why_grade};
use duknavet::{owned, Monitor, Refusal, RuleMonitor, NONE, POINTS};

fn marking(rule: &Rule) -> Marking {
    Marking::new(rule.morphism.n, &rule.marks)
}

#[test]
fn told() {
    let asked = |lasso: &str, bytes: &[u8]| run_with(&["explain", "-", lasso], bytes);
    let two = "grade 2 turns 1
u has the value 0, v the value 1: with 1 turn of v the pair (0, 1)
the mark (0, 1) of grade 2 accepts it
  p: 0  value 0: u
  w: 1  value 1: 1 turn of v
however it is cut, its linked pairs are (0, 1)
grade 3: of 1 mark none accepts it
";
    assert_eq!(asked("u: 0  v: 1", GRADED).printed(0), two);
    let none = "grade 0 turns 1
u has the value 0, v the value 1: with 1 turn of v the pair (0, 1)
no mark accepts it
however it is cut, its linked pairs are (0, 1)
grade 1: there is no mark of it
grade 2: there is no mark of it
grade 3: of 1 mark none accepts it
";
    assert_eq!(asked("u: 0  v: 1", W).printed(1), none);
    // A weak rule: the writing as it stands has another pair than the marked one.
    let weak = "grade 3 turns 1
u has the value 1, v the value 0: with 1 turn of v the pair (1, 0)
the mark (0, 0) of grade 3 accepts it
  p: 0 1 1 0  value 0: u, the first 3 letters of v
  w: 1 1 0 1 1 0  value 0: 1 turn of v from letter 3 of v on
however it is cut, its linked pairs are (0, 0) (1, 0)
";
    assert_eq!(asked("u: 0  v: 1 1 0 1 1 0", Z).printed(0), weak);
    let named = asked("v: shut open", NAMED.as_bytes());
    let words = "u is empty, v the value 0: with 1 turn of v the pair (0, 0)\n";
    assert!(named.printed(0).contains(words));
    assert!(named
        .printed(0)
        .contains("  p: shut open  value 0: 1 turn of v\n"));
}

/// u ends as v does, so that p ends within u.
#[test]
fn within_the_start() {
    let found = run_with(&["explain", "-", "u: 0 1 1 0 1  v: 1 0 1"], W);
    let places = "  p: 0  value 0: the first letter of u\n  w: 1 1 0  value 0: 1 turn of v from letter 1 of u on\n";
    assert!(found.printed(0).contains(places), "{found:?}");
    let doubled = run_with(&["explain", "-", "u: 0  v: 1 0 1 0"], W);
    let places = "  p: 0  value 0: u\n  w: 1 0  value 0: 2 letters\n";
    assert!(doubled.printed(0).contains(places), "{doubled:?}");
}

#[test]
fn states() {
    let asked = |state: &str, bytes: &[u8]| run_with(&["explain", "-", "--state", state], bytes);
    let open = "value 1 open\ngrade 1  u:  v: 1\ngrade 2  u: 0  v: 1\ngrade 3  u:  v: 0\n";
    for state in ["1", "none,1", "1,none", "1,1", "64,1", " none , 1"] {
        assert_eq!(asked(state, GRADED).printed(1), open);
    }
    let two = "value 0 open\ngrade 2  u:  v: 1\ngrade 3  u:  v: 0\n";
    for state in ["0", "0,1", "1,0"] {
        assert_eq!(asked(state, GRADED).printed(1), two);
    }
    let nothing = asked("none", GRADED);
    assert_eq!(nothing.printed(1), open.replace("value 1", "value none"));
    let formula = |state: &str| {
        let words = ["explain", "f:F a", "--letters", "a,b", "--state", state];
        run(&words)
    };
    let settled = "value 0 settled\ngrade 3  u:  v: a\n";
    assert_eq!(formula("0").printed(0), settled);
    let still = "value 1 open\ngrade 0  u:  v: b\ngrade 3  u:  v: a\n";
    assert_eq!(formula("none,1").printed(1), still);
}

#[test]
fn refused_and_wrong_use() {
    let asked =
        |words: &[&str], bytes: &[u8]| run_with(&[&["explain", "-"], words].concat(), bytes);
    asked(&["--state", "0"], Z).said(2, "the rule is weak: ");
    asked(&["--state", "2"], W).said(2, "refusal 3");
    asked(&["--state", "0,63"], W).said(2, "refusal 3");
    asked(&["u: 0 v: 2"], W).said(2, "refusal 10");
    for words in ["v: 0", "--state=0"] {
        asked(&[words], NOT_ASSOCIATIVE).said(2, "refusal 5");
        asked(&[words], &W[..12]).said(2, "within the marks");
    }
    let both = "it takes RULE and LASSO, or RULE and --state BEFORE,SINCE";
    asked(&[], W).said(3, both);
    asked(&["v: 0", "--state", "0"], W).said(3, both);
    for state in ["", "x", "0,", ",0", "0,0,0", "-1"] {
        let state = format!("--state={state}");
        asked(&[&state], W).said(3, "`--state` takes elements or none as in 0,1");
    }
}

/// The reason for each grade is what the definitions say: all pairs of all writings, a mark that is one of them, and the first place to cut.
#[test]
fn reasons_against_the_engine() {
    let mut random = Random::new(4701);
    let (mut grades, mut weak, mut moved) = ([0; 4], 0, 0);
    for _ in 0..700 {
        let rule = rule(&mut random, 12);
        let (m, marks) = (&rule.morphism, marking(&rule));
        weak += usize::from(!splits::strong(m, &marks));
        for _ in 0..4 {
            let lengths = (random.below(5), random.within(1, 5));
            let lasso = Lasso {
                u: random.word(lengths.0, m.letters()),
                v: random.word(lengths.1, m.letters()),
            };
            let Lasso { u, v } = &lasso;
            let reason = why_grade(&rule.bytes(), &lasso).expect("a rule");
            let reason = reason.unwrap_or_else(|| panic!("{lasso:?} of {:?}", rule.bytes()));
            let expected = grade(m, &marks, u, v);
            assert_eq!(reason.grade, expected);
            let rows = writings(m, u, v);
            let mut linked = m.linked_pairs();
            linked.retain(|(s, e)| rows[usize::from(*s)] >> e & 1 == 1);
            assert_eq!(reason.pairs, linked);
            let turns = v.repeat(reason.turns);
            let pair = (m.value(&[u.as_slice(), &turns].concat()), m.value(&turns));
            assert_eq!(reason.pair, pair);
            assert!(m.linked(pair));
            assert_eq!(reason.values.1, m.value(v));
            assert_eq!(reason.values.0, (!u.is_empty()).then(|| m.value(u)));
            let higher: Vec<(u8, usize)> = (expected + 1..=3)
                .map(|grade| {
                    let own = rule.marks.iter().filter(|mark| mark.grade == grade);
                    (grade, own.count())
                })
                .collect();
            assert_eq!(reason.higher, higher);
            grades[usize::from(expected)] += 1;
            let Some(accepted) = reason.accepted else {
                assert_eq!(expected, 0);
                continue;
            };
            let (p, w) = (&accepted.writing.u, &accepted.writing.v);
            let marked = (accepted.mark.s, accepted.mark.e);
            assert_eq!((m.value(p), m.value(w)), marked);
            assert_eq!(
                (marks.grade(marked), accepted.mark.grade),
                (expected, expected)
            );
            let same = |p: &[u8], w: &[u8]| {
                let long = u.len().max(p.len()) + v.len() + w.len();
                (0..long).all(|place| letter(u, v, place) == letter(p, w, place))
            };
            assert!(same(p, w));
            for start in 1..p.len() {
                for cycle in 1..=m.n * v.len() {
                    let (p, w) = (segment(u, v, 0, start), segment(u, v, start, cycle));
                    let pair = (m.value(&p), m.value(&w));
                    assert!(marks.grade(pair) < expected || !same(&p, &w), "{lasso:?}");
                }
            }
            moved += usize::from(marked != pair);
        }
    }
    assert!(grades.iter().all(|own| *own > 30), "{grades:?}");
    assert!(weak > 60 && moved > 60, "{weak} {moved}");
}

/// Every word of so many letters at most.
fn all_words(letters: usize, most: usize) -> Vec<Vec<u8>> {
    let mut words = vec![Vec::new()];
    let mut next = 0;
    while words.get(next).is_some_and(|word| word.len() < most) {
        for letter in (0..=u8::MAX).take(letters) {
            words.push([words[next].as_slice(), &[letter]].concat());
        }
        next += 1;
    }
    words
}

/// Which grades can still come is found by trying: each continuation of up to four letters, and for the rest every linked pair's words.
#[test]
fn prospects_against_the_engine() {
    let mut random = Random::new(4702);
    let (mut settled, mut open, mut found) = (0, 0, 0);
    while found < 100 {
        let rule = rule(&mut random, 10);
        let (m, marks) = (&rule.morphism, marking(&rule));
        if !splits::strong(m, &marks) || m.letters() > 3 {
            continue;
        }
        found += 1;
        let words: Vec<Vec<u8>> = m.words().into_iter().flatten().collect();
        assert_eq!(words.len(), m.n);
        let tried = all_words(m.letters(), 4);
        for value in m.elements().map(Some).chain([None]) {
            let so_far = value.map_or(Vec::new(), |value| words[usize::from(value)].clone());
            let graded = |u: &[u8], v: &[u8]| grade(m, &marks, &[so_far.as_slice(), u].concat(), v);
            let since = value.map_or(NONE, usize::from);
            let monitor = Monitor {
                before: NONE,
                since,
            };
            let told = prospects(&rule.bytes(), monitor).expect("a strong rule");
            let told = told.expect("confirmed");
            assert_eq!(told.value, value);
            let mut least = [usize::MAX; 4];
            let cycles = tried.iter().filter(|v| !v.is_empty());
            for (u, v) in cycles.flat_map(|v| tried.iter().map(move |u| (u, v))) {
                if u.len() + v.len() <= 4 {
                    let own = &mut least[usize::from(graded(u, v))];
                    *own = (*own).min(u.len() + v.len());
                }
            }
            let mut can = [false; 4];
            for (u, v) in words.iter().flat_map(|u| words.iter().map(move |v| (u, v))) {
                can[usize::from(graded(u, v))] = true;
            }
            for grade in 0..4 {
                let own = told.grades.iter().find(|own| usize::from(own.0) == grade);
                let letters = own.map(|(_, lasso)| lasso.letters());
                assert_eq!(own.is_some(), can[grade] || least[grade] < usize::MAX);
                match letters {
                    Some(letters) if letters <= 4 => assert_eq!(letters, least[grade]),
                    _ => assert_eq!(least[grade], usize::MAX, "{:?}", rule.bytes()),
                }
            }
            for (grade, lasso) in &told.grades {
                assert_eq!(graded(&lasso.u, &lasso.v), *grade);
            }
            match told.settled() {
                Some(_) => settled += 1,
                None => open += 1,
            }
        }
    }
    assert!(settled > 60 && open > 60, "{settled} {open}");
}

/// The grades by values are the verdicts of monitors with these values, and weak rules have none.
#[test]
fn grades_by_values_are_verdicts() {
    let mut random = Random::new(4703);
    let (mut strong, mut weak) = (0, 0);
    for _ in 0..150 {
        let rule = rule(&mut random, 10);
        let bytes = rule.bytes();
        if !splits::strong(&rule.morphism, &marking(&rule)) {
            let refused = value_grades(&bytes).expect_err("a weak rule").refused;
            assert_eq!(refused.refusal, Refusal::NotStrong);
            weak += 1;
            continue;
        }
        strong += 1;
        let grades = value_grades(&bytes)
            .expect("a strong rule")
            .expect("grades");
        let n = rule.morphism.n;
        assert_eq!(grades.len(), (n + 1) * n);
        for (at, grade) in grades.iter().enumerate() {
            let before = if at / n == n { NONE } else { at / n };
            let since = at % n;
            let monitor = Monitor { before, since };
            let mut watched = RuleMonitor::resumed(&bytes, monitor, [0; POINTS]);
            assert_eq!(watched.verdict().expect("a verdict").grade, *grade);
        }
    }
    assert!(strong > 10 && weak > 10, "{strong} {weak}");
}

/// p may have more letters than `member` takes: here 63 turns of the longest v come before the marked value.
#[test]
fn long_words() {
    let pair = (63, 0);
    let rule = morphisms::sums(64, &[1, 0]).with(vec![Mark { pair, grade: 2 }]);
    let mut lasso = Lasso {
        u: Vec::new(),
        v: vec![1; duknavet::WORD],
    };
    lasso.v[duknavet::WORD - 1] = 0;
    let reason = why_grade(&rule.bytes(), &lasso).expect("a rule");
    let reason = reason.expect("confirmed");
    assert_eq!(
        (reason.grade, reason.turns, reason.pairs.len()),
        (2, 64, 64)
    );
    let writing = reason.accepted.expect("a mark").writing;
    assert_eq!(writing.u.len(), 63 * duknavet::WORD);
    assert_eq!(writing.v.len(), 64 * duknavet::WORD);
    let file = Scrap::holding(&rule.bytes());
    let text = duknavet::text::print_lasso(&lasso, &duknavet::text::Names::none());
    let told = run_with(&["explain", file.name(), "-"], text.as_bytes());
    let places = "  p: (266112 letters)  value 63: 63 turns of v\n  w: (270336 letters)  value 0: 64 turns of v\n";
    assert!(told.printed(0).contains(places));
    assert_eq!(
        owned::member(&rule.bytes(), &[], &lasso.v).map(|own| own.grade),
        Ok(2)
    );
}
