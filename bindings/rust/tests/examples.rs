//! The small rules of document 01, with grade 3 on each mark, each with the answer that the document gives; further grades, and the turns
//! of cycles.

use duknavet::words::Explained;
use duknavet::{advance_event, advance_mark, advance_stay, advance_word, feed};
use duknavet::{automaton_rule, classes, combine, complement, confirm, event, fresh, included};
use duknavet::{constant, first_letter, next, owned, until, UNTIL_CLASSES};
use duknavet::{keep, mark, member, reduce, reduce_rounds, return_to, state_kind, strong};
use duknavet::{successors, verdict};
use duknavet::{Classes, Confirmation, Inclusion, Membership, StateKind};
use duknavet::{Monitor, Operation, Partition, Refusal, Refused, RuleMonitor, Strength, Verdict};
use duknavet::{
    BLOCKS, CLASSES_OUT, LOG, MAP_OUT, MOST_ROUNDS, NONE, POINTS, RULE_OUT, SCRATCH,
    SUCCESSORS_OUT, U_OUT, V_OUT, WORD,
};

/// Letter 0 without end, over letters 0 and 1.
const W: [u8; 13] = [2, 0, 0, 0, 1, 2, 0, 1, 1, 0, 0, 0, 3];
/// W with all 3 linked pairs marked.
const W_ALL: [u8; 19] = [2, 0, 0, 0, 1, 2, 0, 1, 3, 0, 0, 0, 3, 0, 1, 3, 1, 1, 3];
/// Grade 3 where letter 0 comes without end, 2 where it comes and ends, 1 where it never comes.
const W_GRADED: [u8; 19] = [2, 0, 0, 0, 1, 2, 0, 1, 3, 0, 0, 0, 3, 0, 1, 2, 1, 1, 1];
/// The group of two elements, with one of two conjugate pairs marked.
const Z: [u8; 13] = [2, 0, 1, 1, 0, 2, 1, 0, 1, 0, 0, 0, 3];
/// Z with letter 0 only.
const Z_ONE_LETTER: [u8; 12] = [2, 0, 1, 1, 0, 1, 1, 1, 0, 0, 0, 3];
/// From some place on only one of two letters comes: elements for letter 0 alone, for letter 1 alone, for both.
const ONE_LETTER: [u8; 27] = [
    3, 0, 2, 2, 2, 1, 2, 2, 2, 2, 2, 0, 1, 4, 0, 2, 0, 3, 2, 1, 3, 1, 1, 3, 0, 0, 3,
];
/// State 0 initial, state 1 final; letter 0 leads to state 1, letter 1 to state 0.
const M10: [u8; 18] = [2, 1, 2, 2, 4, 0, 0, 0, 1, 0, 1, 0, 1, 0, 1, 1, 1, 0];

fn scratch() -> Vec<u8> {
    vec![0xa5; SCRATCH]
}

fn refused<T>(number: u8, input: u8, place: u64) -> Result<T, Refused> {
    let refusal = Refusal::from_number(number).expect("a refusal's number");
    Err(Refused {
        refusal,
        input,
        place,
    })
}

fn counts(rule: &[u8]) -> Result<Classes, Refused> {
    classes(rule, &mut vec![0; CLASSES_OUT], &mut scratch())
}

fn strength(rule: &[u8]) -> Result<Strength, Refused> {
    strong(rule, &mut scratch())
}

fn lasso(rule: &[u8], u: &[u8], v: &[u8]) -> Result<Membership, Refused> {
    member(rule, u, v, &mut scratch())
}

fn graded(grade: u8, turns: usize) -> Result<Membership, Refused> {
    Ok(Membership { grade, turns })
}

/// The remainders by n under addition, with one letter, of image 1.
fn remainders(n: u8, marks: &[u8]) -> Vec<u8> {
    let mut rule = vec![n];
    rule.extend((0..n).flat_map(|a| (0..n).map(move |b| (a + b) % n)));
    rule.extend([1, 1 % n]);
    rule.extend(marks);
    rule
}

/// The reduction, and the front of the map, with one byte of the 9s that were there.
fn reduced_by(rule: &[u8]) -> Result<(Vec<u8>, Vec<u8>), Refused> {
    let (mut out, mut map) = (vec![0; RULE_OUT], [9; MAP_OUT + 1]);
    let length = reduce(rule, &mut out, &mut map, &mut scratch())?.length;
    let elements = rule[0] as usize;
    assert_eq!(map[elements..], [9; MAP_OUT + 1][elements..]);
    Ok((out[..length].to_vec(), map[..elements + 1].to_vec()))
}

fn reduced(rule: &[u8]) -> Result<Vec<u8>, Refused> {
    reduced_by(rule).map(|(rule, _)| rule)
}

fn confirmed(first: &[u8], second: &[u8], map: &[u8]) -> Result<Confirmation, Refused> {
    confirm(first, second, map, &mut scratch())
}

fn complemented(rule: &[u8]) -> Result<Vec<u8>, Refused> {
    let mut out = vec![0; RULE_OUT];
    let length = complement(rule, &mut out, &mut scratch())?.length;
    Ok(out[..length].to_vec())
}

fn combined(first: &[u8], second: &[u8], operation: Operation) -> Result<Vec<u8>, Refused> {
    let mut out = vec![0; RULE_OUT];
    let length = combine(first, second, operation, &mut out, &mut scratch())?.length;
    Ok(out[..length].to_vec())
}

fn translated(automaton: &[u8]) -> Result<Vec<u8>, Refused> {
    let mut out = vec![0; RULE_OUT];
    let length = automaton_rule(automaton, &mut out, &mut scratch())?.length;
    Ok(out[..length].to_vec())
}

fn found(linked: usize, classes: usize, joins: usize) -> Result<Classes, Refused> {
    Ok(Classes {
        linked,
        classes,
        joins,
    })
}

#[test]
fn m1_w_is_strong_and_its_own_reduction() {
    assert_eq!(counts(&W), found(3, 3, 0));
    assert_eq!(strength(&W), Ok(Strength::Strong));
    assert_eq!(reduced(&W).map(|rule| rule[0]), Ok(2));
}

#[test]
fn m2_w_accepts() {
    assert_eq!(lasso(&W, &[1], &[0]), graded(3, 1));
}

#[test]
fn m3_w_does_not_accept() {
    assert_eq!(lasso(&W, &[0], &[1]), graded(0, 1));
}

#[test]
fn m4_w_with_every_mark_reduces_to_one_element() {
    assert_eq!(reduced(&W_ALL), Ok(vec![1, 0, 2, 0, 0, 1, 0, 0, 0, 3]));
}

#[test]
fn m5_z_has_one_class() {
    assert_eq!(counts(&Z), found(2, 1, 1));
}

#[test]
fn m6_z_is_weak() {
    assert_eq!(strength(&Z), Ok(Strength::Weak));
    assert_eq!(lasso(&Z, &[0], &[1]), graded(0, 1));
    assert_eq!(lasso(&Z, &[0], &[0, 0]), graded(3, 1));
    assert_eq!(reduced(&Z), refused(12, 1, 0));
    assert_eq!(complemented(&Z), refused(12, 1, 0));
    let monitor = Monitor {
        before: 0,
        since: 0,
    };
    assert_eq!(verdict(&Z, monitor, &mut scratch()), refused(12, 1, 0));
}

#[test]
fn m7_one_letter_makes_z_strong() {
    assert_eq!(strength(&Z_ONE_LETTER), Ok(Strength::Strong));
    assert_eq!(reduced(&Z_ONE_LETTER).map(|rule| rule[0]), Ok(1));
}

#[test]
fn m8_a_table_that_is_not_associative() {
    let rule = [2, 1, 0, 0, 0, 1, 0, 0, 0];
    assert_eq!(strength(&rule), refused(5, 1, 1));
}

#[test]
fn m9_an_element_that_no_word_reaches() {
    let rule = [2, 0, 0, 0, 1, 1, 0, 0, 0];
    assert_eq!(strength(&rule), refused(6, 1, 1));
}

#[test]
fn m10_an_automaton_of_three_matrices() {
    let rule = translated(&M10).expect("few matrices");
    assert_eq!(rule[0], 3);
    assert_eq!(reduced(&rule).map(|rule| rule[0]), Ok(2));
}

#[test]
fn counts_of_elements_and_letters() {
    assert_eq!(strength(&[0]), refused(2, 1, 0));
    assert_eq!(strength(&[65]), refused(2, 1, 0));
    assert_eq!(strength(&[1, 0, 17]), refused(2, 1, 2));
    let mut widest = vec![1, 0, 16];
    widest.extend([0; 16]);
    widest.extend([0, 0]);
    assert_eq!(strength(&widest), Ok(Strength::Strong));
    assert_eq!(strength(&remainders(64, &[0, 0])), Ok(Strength::Strong));
}

#[test]
fn an_unlinked_mark() {
    let rule = [2, 0, 0, 0, 1, 2, 0, 1, 1, 0, 1, 0, 3];
    // 1·0 = 0 in W's table, so (1, 0) is not linked; it stands from byte 10 on.
    assert_eq!(strength(&rule), refused(7, 1, 10));
}

#[test]
fn lengths_of_words() {
    assert_eq!(lasso(&W, &[1], &[]), refused(11, 2, 0));
    assert_eq!(lasso(&W, &[1], &[0; WORD + 1]), refused(11, 2, 0));
    assert_eq!(lasso(&W, &[1], &[0]), graded(3, 1));
    assert_eq!(lasso(&W, &[1], &[0; WORD]), graded(3, 1));
    assert_eq!(lasso(&W, &[], &[]), refused(11, 2, 0));
    assert_eq!(lasso(&W, &[1; WORD + 1], &[0]), refused(11, 1, 0));
    assert_eq!(lasso(&W, &[1; WORD], &[0]), graded(3, 1));
}

#[test]
fn turns_of_a_cycle() {
    // In Z letter 0 stands for 1, and 1 + 1 = 0: two turns settle it. Letter 1 stands for 0, and one does.
    assert_eq!(lasso(&Z, &[0], &[0]), graded(3, 2));
    assert_eq!(lasso(&Z, &[1], &[0, 1]), graded(3, 2));
    assert_eq!(lasso(&Z, &[0], &[1]), graded(0, 1));
    let no_marks = [2, 0, 1, 1, 0, 2, 1, 0, 0, 0];
    assert_eq!(lasso(&no_marks, &[0], &[0]), graded(0, 2));
    // The remainders by 4, weak: both cycles have the value 2.
    let four = [
        4, 0, 1, 2, 3, 1, 2, 3, 0, 2, 3, 0, 1, 3, 0, 1, 2, 2, 1, 2, 1, 0, 0, 0, 3,
    ];
    assert_eq!(strength(&four), Ok(Strength::Weak));
    assert_eq!(lasso(&four, &[0], &[1]), graded(0, 2));
    assert_eq!(lasso(&four, &[0], &[0, 0]), graded(3, 2));
    assert_eq!(lasso(&four, &[1], &[0]), graded(3, 4));
}

#[test]
fn turns_in_the_cyclic_group_of_64() {
    let (marked, no_marks) = (remainders(64, &[1, 0, 0, 0, 2]), remainders(64, &[0, 0]));
    for length in 1..=64 {
        // The least number of turns whose letters together are a multiple of 64.
        let turns = (1..=64).find(|c| c * length % 64 == 0).expect("64 is one");
        let v = vec![0; length];
        assert_eq!(lasso(&marked, &[0], &v), graded(2, turns));
        assert_eq!(lasso(&no_marks, &[0], &v), graded(0, turns));
        for before in [0, 1, 63] {
            let since = length % 64;
            let monitor = Monitor { before, since };
            for (rule, grade) in [(&marked, 2), (&no_marks, 0)] {
                let answer = verdict(rule, monitor, &mut scratch());
                assert_eq!(answer, Ok(Verdict { grade, turns }));
            }
        }
    }
}

#[test]
fn lassos_with_an_empty_start() {
    assert_eq!(lasso(&W, &[], &[0]), graded(3, 1));
    assert_eq!(lasso(&W, &[], &[1]), graded(0, 1));
    // Z is weak: 1 for ever has grade 3, and 0, then 1 for ever grade 0.
    assert_eq!(lasso(&Z, &[], &[1]), graded(3, 1));
    let rule = translated(&M10).expect("few matrices");
    assert_eq!(lasso(&rule, &[], &[0]), graded(3, 1));
    assert_eq!(lasso(&rule, &[], &[1]), graded(0, 1));
}

#[test]
fn an_automaton_that_accepts_nothing() {
    // An idle initial state, and a final one that loops where no run comes.
    let rule = translated(&[2, 1, 2, 1, 1, 0, 1, 0, 1]).expect("few matrices");
    assert_eq!(lasso(&rule, &[0], &[0]), graded(0, 1));
}

#[test]
fn advanced_by_steps_and_words() {
    let scratch = &mut scratch();
    let as_it_is = advance_stay(&W, fresh(), scratch).expect("a monitor of W");
    assert_eq!((as_it_is.monitor, as_it_is.verdict), (fresh(), None));
    let one = advance_event(&W, fresh(), 1, scratch).expect("a letter of W");
    assert_eq!(one.verdict, Some(Verdict { grade: 0, turns: 1 }));
    let marked = advance_mark(&W, one.monitor, scratch).expect("a monitor of W");
    assert_eq!((marked.monitor.before, marked.monitor.since), (1, NONE));
    assert_eq!(marked.verdict, None);
    let word = advance_word(&W, marked.monitor, &[1, 0, 1], scratch).expect("letters of W");
    assert_eq!((word.monitor.before, word.monitor.since), (1, 0));
    assert_eq!(word.verdict, Some(Verdict { grade: 3, turns: 1 }));
    assert_eq!(advance_word(&W, word.monitor, &[], scratch), Ok(word));
    let foreign = advance_word(&W, word.monitor, &[0, 1, 9], scratch).expect_err("no letter of W");
    assert_eq!(foreign.monitor, word.monitor);
    assert_eq!(Err::<(), _>(foreign.refused), refused(10, 1, 2));
    // A weak rule is refused before its letters are looked at.
    let weak = advance_event(&Z, fresh(), 9, scratch).expect_err("Z is weak");
    assert_eq!(Err::<(), _>(weak.refused), refused(12, 1, 0));
    let order_two = advance_word(&Z_ONE_LETTER, fresh(), &[0, 0, 0], scratch).expect("strong");
    assert_eq!(order_two.verdict.map(|verdict| verdict.turns), Some(2));
}

#[test]
fn fed() {
    let scratch = &mut scratch();
    // Z is weak: a word may be fed to its monitor all the same.
    let fed = feed(&Z, fresh(), &[0, 1, 0], scratch).expect("letters of Z");
    let by_letters = [0, 1, 0].iter().try_fold(fresh(), |monitor, letter| {
        event(&Z, monitor, *letter, scratch)
    });
    assert_eq!(Ok(fed), by_letters);
    assert_eq!(feed(&Z, fed, &[], scratch), Ok(fed));
    let foreign = feed(&Z, fed, &[0, 7, 9], scratch).expect_err("no letter of Z");
    assert_eq!(foreign.monitor, fed);
    assert_eq!(Err::<(), _>(foreign.refused), refused(10, 1, 1));
    let long = feed(&Z, fed, &vec![0; LOG + 1], scratch).expect_err("one letter too many");
    assert_eq!(Err::<(), _>(long.refused), refused(11, 1, 0));
    let mut watched = RuleMonitor::new(&Z);
    watched.feed(&[0, 1, 0]).expect("letters of Z");
    assert_eq!(watched.monitor(), fed);
    let foreign = watched.feed(&[0, 7]).expect_err("no letter of Z").words;
    assert_eq!(
        foreign,
        "letter 7 at position 1 of the word: the rule has 2 letters"
    );
}

#[test]
fn the_longest_word_of_events() {
    let scratch = &mut scratch();
    let mut word = vec![0; LOG];
    let all = advance_word(&W, fresh(), &word, scratch).expect("letters of W");
    assert_eq!(all.verdict, Some(Verdict { grade: 3, turns: 1 }));
    word[LOG - 1] = 2;
    let last = advance_word(&W, fresh(), &word, scratch).expect_err("no letter of W");
    assert_eq!(Err::<(), _>(last.refused), refused(10, 1, LOG as u64 - 1));
    word.push(0);
    let long = advance_word(&W, fresh(), &word, scratch).expect_err("one letter more");
    assert_eq!(Err::<(), _>(long.refused), refused(11, 1, 0));
}

#[test]
fn advanced_in_words() {
    let mut watched = RuleMonitor::new(&W);
    let graded = Verdict { grade: 3, turns: 1 };
    assert_eq!(watched.advance_word(&[1, 0]), Ok(Some(graded)));
    assert_eq!(watched.advance_stay(), Ok(Some(graded)));
    let said = |answer: Result<Option<Verdict>, Explained>| answer.expect_err("refused").words;
    let foreign = said(watched.advance_word(&[0, 1, 7]));
    assert_eq!(
        foreign,
        "letter 7 at position 2 of the word: the rule has 2 letters"
    );
    assert_eq!(
        said(watched.advance_event(2)),
        "letter 2: the rule has 2 letters"
    );
    let long = said(watched.advance_word(&vec![0; LOG + 1]));
    assert_eq!(long, "the word has 16777217 letters, more than 16777216");
    assert_eq!(watched.advance_mark(), Ok(None));
    assert_eq!(watched.monitor().since, NONE);
    let weak = said(RuleMonitor::new(&Z).advance_word(&[9]));
    assert!(weak.starts_with("the rule is weak: "), "{weak}");
}

#[test]
fn a_monitor_of_w() {
    let scratch = &mut scratch();
    let start = fresh();
    assert_eq!((start.before, start.since), (NONE, NONE));
    assert_eq!(mark(&W, start, scratch), Ok(start));
    assert_eq!(verdict(&W, start, scratch), refused(11, 1, 0));
    let first = event(&W, start, 1, scratch).expect("a letter of W");
    // No mark yet: 1 for ever.
    let of_the_cycle = Verdict { grade: 0, turns: 1 };
    assert_eq!(verdict(&W, first, scratch), Ok(of_the_cycle));
    let marked = mark(&W, first, scratch).expect("a monitor of W");
    assert_eq!((marked.before, marked.since), (1, NONE));
    let second = event(&W, marked, 0, scratch).expect("a letter of W");
    assert_eq!((second.before, second.since), (1, 0));
    let judged = Verdict { grade: 3, turns: 1 };
    assert_eq!(verdict(&W, second, scratch), Ok(judged));
    let refusal = event(&W, second, 2, scratch).expect_err("W has two letters");
    assert_eq!(refusal.monitor, second);
    assert_eq!(Err::<(), _>(refusal.refused), refused(10, 1, 0));
}

#[test]
fn named_points_of_w() {
    let scratch = &mut scratch();
    let points = &mut vec![0; POINTS];
    let after = |monitor, letter, scratch: &mut [u8]| event(&W, monitor, letter, scratch);
    let first = after(fresh(), 1, scratch).expect("a letter of W");
    let never = return_to(&W, first, 7, points, scratch).expect_err("nothing was kept");
    assert_eq!(Err::<(), _>(never.refused), refused(16, 1, 0));
    let ninth = keep(&W, first, 8, points, scratch).expect_err("the names are 0 to 7");
    assert_eq!(Err::<(), _>(ninth.refused), refused(15, 1, 0));
    assert_eq!(points, &[0; POINTS]);
    assert_eq!(keep(&W, first, 7, points, scratch), Ok(first));
    assert_eq!(points[21..], [1, NONE as u8, 1]);
    let second = after(first, 0, scratch).expect("a letter of W");
    assert_eq!(return_to(&W, second, 7, points, scratch), Ok(first));
    assert_eq!(return_to(&W, first, 7, points, scratch), Ok(first));
    assert_eq!(keep(&W, second, 7, points, scratch), Ok(second));
    assert_eq!(return_to(&W, first, 7, points, scratch), Ok(second));
    // A value of a name never kept is not looked at, and one of another kept name is.
    points[1] = 9;
    assert_eq!(return_to(&W, first, 7, points, scratch), Ok(second));
    points[0] = 1;
    let stray = return_to(&W, first, 7, points, scratch).expect_err("W has two elements");
    assert_eq!(stray.monitor, first);
    assert_eq!(Err::<(), _>(stray.refused), refused(3, 1, 0));
}

#[test]
fn rounds_of_a_count() {
    // How often letter 1 occurs, up to twice, and more often; grade 3 for just twice.
    let rule = [
        4, 0, 1, 2, 3, 1, 2, 3, 3, 2, 3, 3, 3, 3, 3, 3, 3, 2, 0, 1, 1, 0, 2, 0, 3,
    ];
    let within = |rule: &[u8], limit| {
        let mut blocks = [9; BLOCKS];
        let answer = reduce_rounds(rule, limit, &mut blocks, &mut scratch());
        (answer, blocks[..5].to_vec())
    };
    let done = |rounds, finished| Ok(Partition { rounds, finished });
    assert_eq!(within(&rule, 0), (done(0, false), vec![0, 1, 2, 1, 9]));
    for limit in [1, 2, MOST_ROUNDS] {
        assert_eq!(within(&rule, limit), (done(1, true), vec![0, 1, 2, 3, 9]));
    }
    assert_eq!(
        within(&rule, MOST_ROUNDS + 1),
        (refused(20, 1, 0), vec![9; 5])
    );
    // 20 comes before 12, and 13 before all.
    assert_eq!(within(&Z, MOST_ROUNDS), (refused(12, 1, 0), vec![9; 5]));
    assert_eq!(within(&Z, MOST_ROUNDS + 1), (refused(20, 1, 0), vec![9; 5]));
    let short = reduce_rounds(&Z, MOST_ROUNDS + 1, &mut [9; BLOCKS - 1], &mut scratch());
    assert_eq!(short, refused(13, 1, 0));
}

#[test]
fn the_automaton_of_w() {
    let kind = |s, e, least| state_kind(&W, s, e, least, &mut scratch());
    assert_eq!(kind(0, 0, 3), Ok(StateKind::Initial));
    assert_eq!(kind(0, 1, 1), Ok(StateKind::Plain));
    assert_eq!(kind(NONE, 0, 1), Ok(StateKind::Final));
    let graded = |least| state_kind(&W_GRADED, 0, 1, least, &mut scratch());
    assert_eq!(graded(2), Ok(StateKind::Initial));
    assert_eq!(graded(3), Ok(StateKind::Plain));
    let from = |rule: &[u8], s, e, letter| {
        let mut out = [9; SUCCESSORS_OUT];
        let answer = successors(rule, s, e, letter, &mut out, &mut scratch());
        answer.map(|found| out[..found.count].to_vec())
    };
    // Letter 0 times anything is 0, which is none times 0; letter 1 is 1, which only 1 times 1 is.
    assert_eq!(from(&W, NONE, 0, 0), Ok(vec![0, 1, 64]));
    assert_eq!(from(&W, NONE, 0, 1), Ok(vec![0]));
    assert_eq!(from(&W, 1, 1, 1), Ok(vec![1, 64]));
    assert_eq!(from(&W, 1, 1, 0), Ok(vec![]));
    // In Z, 1 times 1 is 0, so (0, 1) is no state. First 17, then 10; 3 before 17.
    assert_eq!(from(&Z, 0, 1, 7), refused(17, 1, 0));
    assert_eq!(from(&Z, 2, 0, 7), refused(17, 1, 0));
    assert_eq!(from(&Z, 0, 0, 2), refused(10, 1, 0));
    let strange = |s, e, least| state_kind(&Z, s, e, least, &mut scratch());
    assert_eq!(strange(0, 1, 1), refused(17, 1, 0));
    assert_eq!(strange(0, 1, 0), refused(3, 1, 0));
    assert_eq!(strange(65, 0, 4), refused(3, 1, 0));
    let short = successors(&Z, 0, 1, 7, &mut [9; SUCCESSORS_OUT - 1], &mut scratch());
    assert_eq!(short, refused(13, 1, 0));
}

#[test]
fn complement_and_inclusion_of_w() {
    let scratch = &mut scratch();
    let other = complemented(&W).expect("strong");
    assert_eq!(lasso(&other, &[1], &[0]), graded(0, 1));
    assert_eq!(lasso(&other, &[0], &[1]), graded(3, 1));
    let (u, v) = (&mut vec![0; U_OUT], &mut vec![0; V_OUT]);
    let every = &W_ALL[8..];
    assert_eq!(included(&W, every, u, v, scratch), Ok(Inclusion::Included));
    let Ok(Inclusion::NotIncluded { u: i, v: j }) = included(&W_ALL, &W[8..], u, v, scratch) else {
        panic!("W does not accept letter 1 for ever");
    };
    assert_eq!(lasso(&W, &u[..i], &v[..j]), graded(0, 1));
}

#[test]
fn maps_of_reductions() {
    let map = |rule: &[u8]| reduced_by(rule).map(|(_, map)| map);
    assert_eq!(map(&W), Ok(vec![0, 1, 9]));
    assert_eq!(map(&W_ALL), Ok(vec![0, 0, 9]));
    assert_eq!(map(&Z_ONE_LETTER), Ok(vec![0, 0, 9]));
    // Its elements 0 and 2 have a letter 0, and element 1 has none.
    let rule = translated(&M10).expect("few matrices");
    assert_eq!(map(&rule), Ok(vec![0, 1, 0, 9]));
    // The same rule in other numbers: both, letter 1, letter 0; and with the letters' elements exchanged.
    assert_eq!(map(&ONE_LETTER), Ok(vec![0, 1, 2, 9]));
    let backwards = [
        3, 0, 0, 0, 0, 1, 0, 0, 0, 2, 2, 2, 1, 4, 0, 0, 1, 3, 2, 2, 3, 0, 2, 3, 1, 1, 3,
    ];
    assert_eq!(map(&backwards), Ok(vec![2, 1, 0, 9]));
    assert_eq!(reduced(&backwards), reduced(&ONE_LETTER));
    let mut exchanged = ONE_LETTER;
    exchanged[11..13].copy_from_slice(&[1, 0]);
    assert_eq!(map(&exchanged), Ok(vec![1, 0, 2, 9]));
    // 64 remainders, all of one grade.
    let (_, map) = reduced_by(&remainders(64, &[1, 0, 0, 0, 3])).expect("strong");
    assert_eq!(map, [vec![0; 64], vec![9]].concat());
}

#[test]
fn a_short_map_changes_nothing() {
    let (mut out, mut map, mut scratch) = ([8; RULE_OUT], [9; MAP_OUT - 1], [7; SCRATCH]);
    let answer = reduce(&W, &mut out, &mut map, &mut scratch);
    assert_eq!(answer, refused(13, 1, 0));
    assert!(out == [8; RULE_OUT] && map == [9; MAP_OUT - 1] && scratch == [7; SCRATCH]);
    // Nor do a weak rule and a damaged one, but for the scratch.
    let mut map = [9; MAP_OUT];
    for (rule, expected) in [(&Z[..], refused(12, 1, 0)), (&W[..12], refused(1, 1, 12))] {
        assert_eq!(reduce(rule, &mut out, &mut map, &mut scratch), expected);
        assert!(out == [8; RULE_OUT] && map == [9; MAP_OUT] && scratch == [0; SCRATCH]);
    }
}

#[test]
fn what_reduce_writes_is_confirmed() {
    // The sets of six letters, with grade 3 where the set that comes without end has an even number of them.
    let mut sets = vec![64];
    sets.extend((0..64).flat_map(|a| (0..64).map(move |b| a | b)));
    sets.extend([16, 1, 2, 4, 8, 16, 32, 0, 1, 2, 4, 8, 16, 32, 0, 1, 2]);
    let linked = (0..64).flat_map(|s| (0..64).map(move |e| (s, e)));
    let even = linked.filter(|(s, e): &(u8, u8)| s | e == *s && e.count_ones() % 2 == 0);
    let marks: Vec<u8> = even.flat_map(|(s, e)| [s, e, 3]).collect();
    sets.extend((marks.len() as u16 / 3).to_le_bytes());
    sets.extend(marks);
    let remainders = remainders(64, &[1, 0, 0, 0, 3]);
    for rule in [&W[..], &W_ALL, &W_GRADED, &Z_ONE_LETTER, &remainders, &sets] {
        let (second, map) = reduced_by(rule).expect("strong");
        let (elements, longer) = (rule[0] as usize, &map[..]);
        let asked = |map: &[u8]| confirmed(rule, &second, map);
        assert_eq!(asked(&map[..elements]), Ok(Confirmation::Yes));
        assert_eq!(asked(longer), Ok(Confirmation::No));
        assert_eq!(asked(&map[..elements - 1]), Ok(Confirmation::No));
    }
}

#[test]
fn w_reduced_elsewhere() {
    let yes_if = |yes| match yes {
        true => Ok(Confirmation::Yes),
        false => Ok(Confirmation::No),
    };
    let exchanged = [2, 0, 1, 1, 1, 2, 1, 0, 1, 0, 1, 1, 3];
    assert_eq!(confirmed(&W, &W, &[0, 1]), yes_if(true));
    assert_eq!(confirmed(&W, &exchanged, &[1, 0]), yes_if(true));
    assert_eq!(confirmed(&W, &exchanged, &[0, 1]), yes_if(false));
    // Letters exchanged in the second, products that are not carried over, an element that none goes to.
    let other_letters = [2, 0, 0, 0, 1, 2, 1, 0, 1, 0, 0, 0, 3];
    assert_eq!(confirmed(&W, &other_letters, &[0, 1]), yes_if(false));
    assert_eq!(confirmed(&W, &W, &[1, 0]), yes_if(false));
    let one_element = [1, 0, 2, 0, 0, 1, 0, 0, 0, 3];
    assert_eq!(confirmed(&one_element, &W, &[0]), yes_if(false));
    // To exchange the two letters keeps products and grades, and not the letters' elements.
    assert_eq!(
        confirmed(&ONE_LETTER, &ONE_LETTER, &[0, 1, 2]),
        yes_if(true)
    );
    assert_eq!(
        confirmed(&ONE_LETTER, &ONE_LETTER, &[1, 0, 2]),
        yes_if(false)
    );
}

#[test]
fn marks_of_reductions_made_elsewhere() {
    // Letters 0 and 1 in turn, 0 first: elements for 0, 1, neither, 0 1 and 1 0. Of its two marks each follows from the other, since a turn
    // later the same endless word has the other pair of values.
    let in_turn = |marks: &[u8]| {
        let table = [
            2, 3, 2, 2, 0, 4, 2, 2, 1, 2, 2, 2, 2, 2, 2, 0, 2, 2, 3, 2, 2, 1, 2, 2, 4,
        ];
        [&[5], &table[..], &[2, 0, 1], marks].concat()
    };
    let both = in_turn(&[2, 0, 0, 4, 3, 3, 3, 3]);
    let same = [0, 1, 2, 3, 4];
    assert_eq!(
        reduced_by(&both),
        Ok((both.clone(), vec![0, 1, 2, 3, 4, 9]))
    );
    for (marks, answer) in [
        (&[2, 0, 3, 3, 3, 0, 4, 3][..], Confirmation::Yes),
        (&[1, 0, 3, 3, 3], Confirmation::Yes),
        (&[1, 0, 0, 4, 3], Confirmation::Yes),
        (&[2, 0, 0, 4, 3, 3, 3, 1], Confirmation::Yes),
        (&[2, 0, 0, 4, 2, 3, 3, 1], Confirmation::No),
        (&[0, 0], Confirmation::No),
    ] {
        assert_eq!(confirmed(&both, &in_turn(marks), &same), Ok(answer));
        assert_eq!(confirmed(&in_turn(marks), &both, &same), Ok(answer));
    }
    // Here no mark follows from others: 1, then 0 for ever has only (2, 0).
    let fewer = [&ONE_LETTER[..13], &[2, 0, 0, 0, 3, 1, 1, 3]].concat();
    let answer = confirmed(&ONE_LETTER, &fewer, &[0, 1, 2]);
    assert_eq!(answer, Ok(Confirmation::No));
    assert_eq!(lasso(&fewer, &[1], &[0]), graded(0, 1));
}

#[test]
fn sizes_and_maps_of_reductions_made_elsewhere() {
    let one_element = [1, 0, 1, 0, 1, 0, 0, 0, 3];
    let asked = |second: &[u8], map: &[u8]| confirmed(&Z_ONE_LETTER, second, map);
    assert_eq!(asked(&one_element, &[0, 0]), Ok(Confirmation::Yes));
    assert_eq!(asked(&Z_ONE_LETTER, &[0, 1]), Ok(Confirmation::No));
    let other_grade = [1, 0, 1, 0, 1, 0, 0, 0, 2];
    assert_eq!(asked(&other_grade, &[0, 0]), Ok(Confirmation::No));
    for map in [&[][..], &[0], &[0, 0, 0], &[0, 1], &[0, 255], &[0; 64]] {
        assert_eq!(asked(&one_element, map), Ok(Confirmation::No));
    }
    assert_eq!(confirmed(&W, &one_element, &[0, 0]), Ok(Confirmation::No));
}

#[test]
fn no_and_refusals_of_confirm() {
    assert_eq!(confirmed(&W, &Z, &[0, 1]), Ok(Confirmation::No));
    // Words without letter 0 told apart make Z strong. Then Z is weak, and nothing else is wrong with it.
    let strong = [
        3, 0, 1, 2, 1, 1, 2, 2, 2, 1, 2, 2, 0, 4, 0, 0, 0, 3, 1, 0, 3, 1, 1, 3, 2, 1, 3,
    ];
    assert_eq!(strength(&strong), Ok(Strength::Strong));
    assert_eq!(confirmed(&strong, &Z, &[0, 0, 1]), Ok(Confirmation::No));
    assert_eq!(
        confirmed(&strong, &strong, &[0, 1, 2]),
        Ok(Confirmation::Yes)
    );
    // 12 for the first comes before every no, and what is wrong with the files before 12.
    for (second, map) in [(&W[..], &[0][..]), (&Z, &[0, 1]), (&Z_ONE_LETTER, &[7; 64])] {
        assert_eq!(confirmed(&Z, second, map), refused(12, 1, 0));
    }
    let not_associative = [2, 1, 0, 0, 0, 1, 0, 0, 0];
    assert_eq!(confirmed(&Z, &not_associative, &[]), refused(5, 2, 1));
    let unreached = [2, 0, 0, 0, 1, 1, 0, 0, 0];
    assert_eq!(confirmed(&W, &unreached, &[0, 1]), refused(6, 2, 1));
    assert_eq!(confirmed(&W[..4], &not_associative, &[]), refused(1, 1, 4));
    assert_eq!(confirmed(&W, &W[..12], &[0, 1]), refused(1, 2, 12));
    let mut short = [7; SCRATCH - 1];
    let answer = confirm(&[], &[], &[], &mut short);
    assert_eq!((answer, short), (refused(13, 1, 0), [7; SCRATCH - 1]));
}

#[test]
fn w_combined_with_its_complement() {
    let other = complemented(&W).expect("strong");
    let with = |operation| combined(&W, &other, operation);
    let no_marks = [2, 0, 0, 0, 1, 2, 0, 1, 0, 0];
    assert_eq!(with(Operation::Both), Ok(no_marks.to_vec()));
    assert_eq!(with(Operation::Either), Ok(W_ALL.to_vec()));
    assert_eq!(with(Operation::Without), Ok(W.to_vec()));
    // The other way about only Without is another.
    let back = |operation| combined(&other, &W, operation);
    assert_eq!(back(Operation::Both), Ok(no_marks.to_vec()));
    assert_eq!(back(Operation::Either), Ok(W_ALL.to_vec()));
    assert_eq!(back(Operation::Without), Ok(other.clone()));
}

#[test]
fn combined_grades() {
    // W_GRADED has 3, 2 and 1 where W has 3, 0 and 0, and its complement has 0, 1 and 2.
    let with = |second: &[u8], operation| combined(&W_GRADED, second, operation);
    assert_eq!(with(&W, Operation::Both), Ok(W.to_vec()));
    assert_eq!(with(&W, Operation::Either), Ok(W_GRADED.to_vec()));
    let marked = |marks: &[u8]| Ok([&W[..8], marks].concat());
    let beyond = marked(&[2, 0, 0, 1, 2, 1, 1, 1]);
    assert_eq!(with(&W, Operation::Without), beyond);
    let other = complemented(&W_GRADED).expect("strong");
    let ones = marked(&[2, 0, 0, 1, 1, 1, 1, 1]);
    assert_eq!(with(&other, Operation::Both), ones);
    let higher = marked(&[3, 0, 0, 0, 3, 0, 1, 2, 1, 1, 2]);
    assert_eq!(with(&other, Operation::Either), higher);
    assert_eq!(with(&other, Operation::Without), Ok(W_GRADED.to_vec()));
}

#[test]
fn a_rule_that_is_not_closed_combined_with_itself() {
    // Its one lasso has grade 3 by (0, 0), and so by (1, 0), which is conjugate to it. The first word has the value 1, so 0 and 1 change
    // places.
    let itself = |operation| combined(&Z_ONE_LETTER, &Z_ONE_LETTER, operation);
    let every = vec![2, 1, 0, 0, 1, 1, 0, 2, 0, 0, 1, 3, 1, 1, 3];
    assert_eq!(itself(Operation::Both), Ok(every.clone()));
    assert_eq!(itself(Operation::Either), Ok(every));
    let none = vec![2, 1, 0, 0, 1, 1, 0, 0, 0];
    assert_eq!(itself(Operation::Without), Ok(none));
}

#[test]
fn pairs_of_remainders() {
    let marks = [1, 0, 0, 0, 3];
    let pairs = |m, n| {
        let (first, second) = (remainders(m, &marks), remainders(n, &marks));
        let rule = combined(&first, &second, Operation::Either)?;
        Ok((rule.len(), rule[0]))
    };
    // As many as the least common multiple, here each with a mark for the idempotent that the last of them is.
    assert_eq!(pairs(8, 8), Ok((64 + 5 + 3 * 8, 8)));
    assert_eq!(pairs(8, 9), refused(19, 1, 0));
    assert_eq!(pairs(64, 3), refused(19, 1, 0));
    assert_eq!(pairs(5, 13), refused(19, 1, 0));
    for (m, n) in [(64, 64), (1, 64), (64, 1), (4, 64)] {
        assert_eq!(pairs(m, n), Ok((4293, 64)));
    }
}

#[test]
fn refused_combinations() {
    let both = |first: &[u8], second: &[u8]| combined(first, second, Operation::Both);
    assert_eq!(both(&W, &Z_ONE_LETTER), refused(18, 1, 0));
    assert_eq!(both(&Z_ONE_LETTER, &W), refused(18, 1, 0));
    assert_eq!(both(&W, &Z), refused(12, 2, 0));
    assert_eq!(both(&Z, &W), refused(12, 1, 0));
    assert_eq!(both(&Z, &Z), refused(12, 1, 0));
    // Both files pass before letters are counted, letters agree before strength is asked, and strength comes before pairs.
    assert_eq!(both(&Z, &Z_ONE_LETTER), refused(18, 1, 0));
    let not_associative = [2, 1, 0, 0, 0, 1, 0, 0, 0];
    assert_eq!(both(&Z, &not_associative), refused(5, 2, 1));
    assert_eq!(both(&not_associative, &W[..5]), refused(5, 1, 1));
    assert_eq!(both(&W, &W[..5]), refused(1, 2, 5));
    // 13 comes before all, and no byte is written then; nor at any other refusal.
    let mut out = [9; RULE_OUT];
    let operation = Operation::Both;
    let short = combine(&[], &Z, operation, &mut out[1..], &mut scratch());
    assert_eq!(short, refused(13, 1, 0));
    let weak = combine(&W, &Z, operation, &mut out, &mut scratch());
    assert_eq!((weak, out), (refused(12, 2, 0), [9; RULE_OUT]));
}

#[test]
fn three_grades() {
    assert_eq!(strength(&W_GRADED), Ok(Strength::Strong));
    for (grade, u, v) in [
        (3, &[1][..], &[0][..]),
        (3, &[], &[1, 0]),
        (2, &[0], &[1]),
        (1, &[1], &[1]),
        (1, &[], &[1]),
    ] {
        assert_eq!(lasso(&W_GRADED, u, v), graded(grade, 1));
    }
    for (grade, before, since) in [(3, 1, 0), (3, NONE, 0), (2, 0, 1), (1, 1, 1), (1, NONE, 1)] {
        let answer = verdict(&W_GRADED, Monitor { before, since }, &mut scratch());
        assert_eq!(answer, Ok(Verdict { grade, turns: 1 }));
    }
    // One element would give all lassos one grade; and every linked pair is marked already, with the grade of its lassos.
    assert_eq!(reduced(&W_GRADED), Ok(W_GRADED.to_vec()));
    let other = [2, 0, 0, 0, 1, 2, 0, 1, 2, 0, 0, 1, 1, 1, 1, 2];
    assert_eq!(complemented(&W_GRADED), Ok(other.to_vec()));
    assert_eq!(complemented(&other), Ok(W_GRADED.to_vec()));
}

#[test]
fn samples_are_these_rules() {
    let w = include_bytes!("../../../samples/letter-0-without-end.rule");
    let three_grades = include_bytes!("../../../samples/three-grades.rule");
    let not_associative = include_bytes!("../../../samples/not-associative.rule");
    assert_eq!((w, three_grades), (&W, &W_GRADED));
    assert_eq!(strength(not_associative), refused(5, 1, 1));
}

#[test]
fn a_reduction_keeps_the_grade() {
    let rule = [2, 0, 1, 1, 0, 1, 1, 1, 0, 0, 0, 2];
    assert_eq!(reduced(&rule), Ok(vec![1, 0, 1, 0, 1, 0, 0, 0, 2]));
    assert_eq!(lasso(&rule, &[0], &[0]), graded(2, 2));
    // W with every mark, of two grades: one element would not do.
    let mut two_grades = W_ALL;
    two_grades[12] = 2;
    assert_eq!(reduced(&two_grades), Ok(two_grades.to_vec()));
}

#[test]
fn strong_for_grade_1_and_weak_for_grade_2() {
    // Z with both of its linked pairs marked: every lasso has grade 1 or more, and the lassos of grade 2 are those of Z.
    let rule = [2, 0, 1, 1, 0, 2, 1, 0, 2, 0, 0, 0, 2, 1, 0, 1];
    assert_eq!(strength(&rule), Ok(Strength::Weak));
    assert_eq!(lasso(&rule, &[0], &[1]), graded(1, 1));
    assert_eq!(lasso(&rule, &[0], &[0, 0]), graded(2, 1));
    assert_eq!(reduced(&rule), refused(12, 1, 0));
    let mut equal_grades = rule;
    equal_grades[15] = 2;
    assert_eq!(strength(&equal_grades), Ok(Strength::Strong));
}

#[test]
fn inclusion_compares_grades() {
    let scratch = &mut scratch();
    let (u, v) = (&mut vec![0; U_OUT], &mut vec![0; V_OUT]);
    let own = &W_GRADED[8..];
    // The same pairs, and (0, 1) with 3 in place of 2.
    let mut higher = W_GRADED;
    higher[15] = 3;
    assert_eq!(
        included(&W_GRADED, own, u, v, scratch),
        Ok(Inclusion::Included)
    );
    assert_eq!(
        included(&W_GRADED, &higher[8..], u, v, scratch),
        Ok(Inclusion::Included)
    );
    let Ok(Inclusion::NotIncluded { u: i, v: j }) = included(&higher, own, u, v, scratch) else {
        panic!("the pair (0, 1) has a lower grade");
    };
    assert_eq!(lasso(&higher, &u[..i], &v[..j]), graded(3, 1));
    assert_eq!(lasso(&W_GRADED, &u[..i], &v[..j]), graded(2, 1));
}

#[test]
fn an_automaton_marks_with_grade_3() {
    let rule = translated(&M10).expect("few matrices");
    let marks = [2, 0, 0, 0, 3, 2, 2, 3];
    assert_eq!(rule[13..], marks);
    assert_eq!(reduced(&rule), Ok(W.to_vec()));
}

#[test]
fn grades_that_there_are_none_of() {
    let second =
        |bytes: &[u8]| included(&W, bytes, &mut [0; U_OUT], &mut [0; V_OUT], &mut scratch());
    for grade in [0, 4, 255] {
        let mut rule = W;
        rule[12] = grade;
        assert_eq!(strength(&rule), refused(3, 1, 12));
        assert_eq!(second(&[1, 0, 0, 0, grade]), refused(3, 2, 4));
        // In the order of the file: behind the mark's own s and e, before the next mark.
        assert_eq!(second(&[2, 0, 0, 2, grade, 2, 0, 3]), refused(3, 2, 3));
        assert_eq!(second(&[2, 0, 0, 0, grade, 2, 0, 3]), refused(3, 2, 4));
    }
    // The same pair with another grade stands twice all the same.
    assert_eq!(second(&[2, 0, 0, 0, 3, 0, 0, 1]), refused(8, 2, 5));
    assert_eq!(second(&[2, 0, 0, 0, 3, 0, 1]), refused(1, 2, 7));
}

#[test]
fn files_with_two_bytes_a_mark_are_cut_short() {
    let before = [2, 0, 0, 0, 1, 2, 0, 1, 1, 0, 0, 0];
    assert_eq!(strength(&before), refused(1, 1, 12));
}

fn of_first_letter(letters: usize, set: usize, grade: usize) -> Result<Vec<u8>, Refused> {
    let mut out = vec![0; RULE_OUT];
    let length = first_letter(letters, set, grade, &mut out)?.length;
    Ok(out[..length].to_vec())
}

fn of_constant(letters: usize, grade: usize) -> Result<Vec<u8>, Refused> {
    let mut out = vec![0; RULE_OUT];
    let length = constant(letters, grade, &mut out)?.length;
    Ok(out[..length].to_vec())
}

fn of_next(rule: &[u8]) -> Result<Vec<u8>, Refused> {
    let mut out = vec![0; RULE_OUT];
    let length = next(rule, &mut out, &mut scratch())?.length;
    Ok(out[..length].to_vec())
}

/// The classes hold stale bytes, and end as zeros.
fn of_until(first: &[u8], second: &[u8]) -> Result<Vec<u8>, Refused> {
    let (mut out, mut classes) = (vec![0; RULE_OUT], vec![0xa5; UNTIL_CLASSES + 3]);
    let formed = until(first, second, &mut out, &mut classes, &mut scratch());
    assert!(classes.iter().all(|byte| *byte == 0));
    Ok(out[..formed?.length].to_vec())
}

fn grade_of(rule: &[u8], u: &[u8], v: &[u8]) -> u8 {
    lasso(rule, u, v).expect("a rule and a lasso").grade
}

/// A letter and an element for each grade: each lasso has the grade of its first letter.
fn by_first_letter(grades: &[u8]) -> Vec<u8> {
    let n = grades.len() as u8;
    let mut rule = vec![n];
    rule.extend((0..n).flat_map(|a| (0..n).map(move |_| a)));
    rule.push(n);
    rule.extend(0..n);
    let pairs = (0..n).flat_map(|s| (0..n).map(move |e| (s, e)));
    let marks: Vec<[u8; 3]> = pairs
        .map(|(s, e)| [s, e, grades[s as usize]])
        .filter(|mark| mark[2] > 0)
        .collect();
    rule.extend((marks.len() as u16).to_le_bytes());
    rule.extend(marks.concat());
    rule
}

#[test]
fn rules_of_a_first_letter() {
    let zero_of_two = [2, 0, 0, 1, 1, 2, 0, 1, 2, 0, 0, 0, 3, 0, 1, 3];
    assert_eq!(of_first_letter(2, 0b01, 3), Ok(zero_of_two.to_vec()));
    let ends_of_three = [2, 0, 0, 1, 1, 3, 0, 1, 0, 2, 0, 0, 0, 2, 0, 1, 2];
    assert_eq!(of_first_letter(3, 0b101, 2), Ok(ends_of_three.to_vec()));
    let last_of_three = [2, 0, 0, 1, 1, 3, 0, 1, 1, 2, 0, 1, 0, 1, 1, 1, 1];
    assert_eq!(of_first_letter(3, 0b110, 1), Ok(last_of_three.to_vec()));
    // All letters, none, or no grade: one element is enough.
    let always = vec![1, 0, 2, 0, 0, 1, 0, 0, 0, 2];
    let never = vec![1, 0, 2, 0, 0, 0, 0];
    assert_eq!(of_constant(2, 2), Ok(always.clone()));
    assert_eq!(of_first_letter(2, 0b11, 2), Ok(always));
    assert_eq!(of_constant(2, 0), Ok(never.clone()));
    assert_eq!(of_first_letter(2, 0, 2), Ok(never.clone()));
    assert_eq!(of_first_letter(2, 0b01, 0), Ok(never));
}

#[test]
fn numbers_of_a_first_letter_refused() {
    let short = &mut [7; RULE_OUT - 1];
    assert_eq!(first_letter(0, 0, 4, short), refused(13, 1, 0));
    assert_eq!(constant(0, 4, short), refused(13, 1, 0));
    assert_eq!(*short, [7; RULE_OUT - 1]);
    for letters in [0, 17, usize::MAX] {
        assert_eq!(of_first_letter(letters, 1 << 20, 4), refused(2, 1, 0));
        assert_eq!(of_constant(letters, 4), refused(2, 1, 0));
    }
    assert_eq!(of_first_letter(16, 1 << 20, 4), refused(3, 1, 0));
    assert_eq!(of_constant(16, 256), refused(3, 1, 0));
    assert_eq!(
        of_first_letter(16, 1 << 16 | 1 << 20, 3),
        refused(10, 1, 16)
    );
    assert_eq!(of_first_letter(2, 1 << 63 | 1, 3), refused(10, 1, 63));
    let said = |answer: Result<Vec<u8>, Explained>| answer.expect_err("a refusal").to_string();
    let words = "17 letters, not 1 to 16 (refusal 2, input 1, place 0)";
    assert_eq!(said(owned::constant(17, 1)), words);
    let words = "the grade is 4, not 0 to 3 (refusal 3, input 1, place 0)";
    assert_eq!(said(owned::first_letter(2, 1, 4)), words);
    let words = "the set has letter 5: the rule has 2 letters (refusal 10, input 1, place 5)";
    assert_eq!(said(owned::first_letter(2, 0b10_0001, 1)), words);
}

#[test]
fn four_grades_of_a_lasso() {
    // Letter 0 first has grade 3 and letter 1 grade 1; by the second letter 1 has grade 2. Of 0, then 1 for ever, letter 1 comes at place 1,
    // behind grade 3.
    let first = by_first_letter(&[3, 1]);
    let second = of_first_letter(2, 0b10, 2).expect("numbers");
    let rules = [
        first.clone(),
        second.clone(),
        of_next(&first).expect("strong"),
        of_until(&first, &second).expect("strong"),
    ];
    assert_eq!(rules.map(|rule| grade_of(&rule, &[0], &[1])), [3, 0, 1, 2]);
    // The same over three letters, where letter 2 lets nothing through: 0, then 2, then 1 for ever.
    let first = by_first_letter(&[3, 1, 0]);
    let second = of_first_letter(3, 0b010, 2).expect("numbers");
    let made = of_until(&first, &second).expect("strong");
    assert_eq!(grade_of(&made, &[0], &[1]), 2);
    assert_eq!(grade_of(&made, &[0, 2], &[1]), 0);
    assert_eq!(grade_of(&made, &[1, 0, 2], &[1]), 2);
    assert_eq!(
        grade_of(&of_next(&second).expect("strong"), &[], &[2, 1]),
        2
    );
}

#[test]
fn next_and_until_of_three_grades() {
    let ones = of_first_letter(2, 0b10, 3).expect("numbers");
    let next = of_next(&W_GRADED).expect("strong");
    let until = of_until(&W_GRADED, &ones).expect("strong");
    let back = of_until(&ones, &W_GRADED).expect("strong");
    // The lasso; by the rule, by what is next, by the rule until letter 1, and by letter 1 until the rule.
    let cases: [(&[u8], &[u8], [u8; 4]); 6] = [
        (&[0], &[1], [2, 1, 2, 2]),
        (&[0, 0], &[1], [2, 2, 2, 2]),
        (&[], &[0], [3, 3, 0, 3]),
        (&[1], &[0], [3, 3, 3, 3]),
        (&[], &[1], [1, 1, 3, 1]),
        (&[1, 0], &[1], [2, 2, 3, 2]),
    ];
    for (u, v, expected) in cases {
        let rules = [&W_GRADED[..], &next, &until, &back];
        assert_eq!(
            rules.map(|rule| grade_of(rule, u, v)),
            expected,
            "{u:?} {v:?}"
        );
    }
    assert_eq!(strength(&until), Ok(Strength::Strong));
    assert_eq!(strength(&next), Ok(Strength::Strong));
}

#[test]
fn next_of_sums_modulo_3() {
    // Words of one letter: 1 to 4 letters have values behind the first, and further ones repeat.
    let sums = remainders(3, &[1, 0, 0, 0, 2]);
    let expected = [
        4, 1, 2, 3, 1, 2, 3, 1, 2, 3, 1, 2, 3, 1, 2, 3, 1, 1, 0, 3, 0, 1, 2, 2, 2, 2, 2, 3, 2, 2,
    ];
    let next = of_next(&sums);
    assert_eq!(next, Ok(expected.to_vec()));
    let always = of_constant(1, 2).expect("numbers");
    assert_eq!(reduced(&expected), Ok(always.clone()));
    // Every lasso has grade 2 by the sums, so that only the second decides below that.
    let low = of_constant(1, 1).expect("numbers");
    let until = of_until(&sums, &low).expect("strong");
    assert_eq!(reduced(&until), Ok(low.clone()));
    let back = of_until(&low, &sums).expect("strong");
    assert_eq!(reduced(&back), Ok(always));
}

#[test]
fn next_and_until_refused() {
    assert_eq!(of_next(&Z), refused(12, 1, 0));
    assert_eq!(of_next(&W[..12]), refused(1, 1, 12));
    assert_eq!(
        of_next(&by_first_letter(&[0; 7])).map(|rule| rule[0]),
        Ok(56)
    );
    assert_eq!(of_next(&by_first_letter(&[0; 8])), refused(23, 1, 0));
    let one_letter = of_constant(1, 3).expect("numbers");
    assert_eq!(of_until(&W, &one_letter), refused(18, 1, 0));
    assert_eq!(of_until(&Z, &one_letter), refused(18, 1, 0));
    assert_eq!(of_until(&Z, &Z), refused(12, 1, 0));
    assert_eq!(of_until(&W, &Z), refused(12, 2, 0));
    assert_eq!(of_until(&W, &W[..12]), refused(1, 2, 12));
    let sums = |n| remainders(n, &[0, 0]);
    assert_eq!(of_until(&sums(8), &sums(9)), refused(19, 1, 0));
    // Ten letters that let everything through, and six that bound the grade in eight ways: more than 64 in all.
    let first = by_first_letter(&[3, 3, 3, 3, 3, 3, 3, 3, 3, 3, 0, 1, 2, 3, 3, 2]);
    let second = by_first_letter(&[0, 0, 0, 0, 0, 0, 0, 0, 0, 0, 0, 1, 2, 3, 1, 0]);
    assert_eq!(of_until(&first, &second), refused(23, 1, 0));
    let said = owned::until(&first, &second).expect_err("a refusal");
    let words =
        "the rule of `until` would have more than 64 elements (refusal 23, input 1, place 0)";
    assert_eq!(said.to_string(), words);
    let said = owned::next(&by_first_letter(&[0; 8])).expect_err("a refusal");
    let words =
        "the rule of `next` would have more than 64 elements (refusal 23, input 1, place 0)";
    assert_eq!(said.to_string(), words);
}

#[test]
fn short_classes_change_nothing() {
    let sizes = [RULE_OUT, UNTIL_CLASSES, SCRATCH];
    for short in 0..3 {
        let mut lent = sizes.map(|size| vec![7; size]);
        lent[short].pop();
        let before = lent.clone();
        let [out, classes, scratch] = &mut lent;
        // 13 comes before whatever is wrong with the files.
        assert_eq!(until(&Z, &[], out, classes, scratch), refused(13, 1, 0));
        assert_eq!(lent, before);
    }
}
