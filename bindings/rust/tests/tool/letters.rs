//! Letters named, renamed, put in another order and added, and the order in which two rules are equal.

use crate::program::{run, run_with, Ran, Scrap};
use crate::random::Random;
use crate::samples::{self, NAMED, NOT_ASSOCIATIVE, TWICE, W, Z};
use duknavet::files::Rule;
use duknavet::owned;
use duknavet::witness::{compare, equal_in_order, Comparison};

fn letters(option: &str, list: &str, rule: &[u8]) -> Ran {
    run_with(&["letters", "-", option, list], rule)
}

/// The lines of a text between `letters` and `marks`.
fn listed(text: &str) -> Vec<&str> {
    let lines = text
        .lines()
        .skip_while(|line| !line.starts_with("letters "));
    let lines = lines.skip(1).take_while(|line| !line.starts_with("marks "));
    lines.map(str::trim).collect()
}

const VALUED: &str = "duknavet rule 1\npropositions a b\nelements 4\n 0 0 0 0\n 1 1 1 1\n 2 2 2 2\n 3 3 3 3\nletters 4 0 1 2 3\nmarks 0\n";

#[test]
fn named_and_ordered() {
    for (option, list, rule, expected) in [
        ("--name", "up, down", W, &["up 0", "down 1"][..]),
        (
            "--name",
            "shut,open",
            NAMED.as_bytes(),
            &["shut 0", "open 1"],
        ),
        ("--name", "x > 0,1", W, &["\"x > 0\" 0", "1"]),
        (
            "--order",
            "shut,open",
            NAMED.as_bytes(),
            &["shut 1", "open 0"],
        ),
        (
            "--rename",
            "open=shut,shut=open",
            NAMED.as_bytes(),
            &["shut 0", "open 1"],
        ),
        (
            "--rename",
            "shut=closed",
            NAMED.as_bytes(),
            &["open 0", "closed 1"],
        ),
        ("--rename", "1=shut", W, &["0", "shut 1"]),
        (
            "--add",
            "alarm=shut",
            NAMED.as_bytes(),
            &["open 0", "shut 1", "alarm 1"],
        ),
        (
            "--add",
            "a=open,b=a",
            NAMED.as_bytes(),
            &["open 0", "shut 1", "a 0", "b 0"],
        ),
        ("--add", "halt=1", W, &["0", "1", "halt 1"]),
        (
            "--name",
            "p,q,r,s",
            VALUED.as_bytes(),
            &["p 0", "q 1", "r 2", "s 3"],
        ),
        ("--order", "b,a", VALUED.as_bytes(), &["0", "2", "1", "3"]),
        (
            "--rename",
            "a=x,b=a",
            VALUED.as_bytes(),
            &["0", "1", "2", "3"],
        ),
    ] {
        let ran = letters(option, list, rule);
        assert_eq!(listed(ran.printed(0)), expected, "{option} {list}");
    }
    let ordered = letters("--order", "b,a", VALUED.as_bytes());
    assert!(ordered
        .printed(0)
        .contains("\npropositions 2 \"b\" \"a\"\n"));
    let renamed = letters("--rename", "a=x,b=a", VALUED.as_bytes());
    assert!(renamed
        .printed(0)
        .contains("\npropositions 2 \"x\" \"a\"\n"));
    // Bytes without names stay bytes.
    let ran = letters("--order", "1,0", W);
    assert_eq!(
        (ran.status, ran.out),
        (0, vec![2, 0, 0, 0, 1, 2, 1, 0, 1, 0, 0, 0, 3])
    );
    let bytes = run_with(&["letters", "-", "--name", "a,b", "--to", "bytes"], W);
    assert_eq!((bytes.status, bytes.out.as_slice()), (0, W));
}

#[test]
fn refused() {
    for (option, list, rule, said) in [
        (
            "--name",
            "a",
            W,
            "standard input: a name is wanted for each of 2 letters, and 1 is given",
        ),
        ("--name", "a,a", W, "`a` is another letter's name already"),
        (
            "--name",
            "1,0",
            W,
            "`1` is a number and the name of no other letter",
        ),
        (
            "--order",
            "open",
            NAMED.as_bytes(),
            "different names: only the rule has shut",
        ),
        (
            "--order",
            "open,shut,up",
            NAMED.as_bytes(),
            "only the order has up",
        ),
        (
            "--order",
            "open,shut,open",
            NAMED.as_bytes(),
            "open stands twice in the order",
        ),
        ("--order", "0,0,1", W, "0 stands twice in the order"),
        ("--order", "a", VALUED.as_bytes(), "only the rule has b"),
        (
            "--rename",
            "up=down",
            NAMED.as_bytes(),
            "there is no `up`, only open, shut",
        ),
        (
            "--rename",
            "open",
            NAMED.as_bytes(),
            "`open` is not of the form a=b",
        ),
        (
            "--rename",
            "open=shut",
            NAMED.as_bytes(),
            "`shut` is another letter's name already",
        ),
        (
            "--add",
            "open=shut",
            NAMED.as_bytes(),
            "`open` is another letter's name already",
        ),
        (
            "--add",
            "up=down",
            NAMED.as_bytes(),
            "there is no `down`, only open, shut",
        ),
        (
            "--add",
            "c=a",
            VALUED.as_bytes(),
            "a valuation of propositions is not added",
        ),
        (
            "--name",
            "a,b",
            NOT_ASSOCIATIVE,
            "(0·0)·1 = 0 but 0·(0·1) = 1",
        ),
    ] {
        letters(option, list, rule).said(2, said);
    }
    let said = "one of --name, --order, --rename and --add is given";
    run_with(&["letters", "-"], W).said(3, said);
    run_with(&["letters", "-", "--name", "a,b", "--order", "b,a"], W).said(3, said);
}

/// A flap and a pump have different events: with those of the other added to each they are combined.
#[test]
fn what_is_refused_is_mended() {
    let flap = Scrap::holding(NAMED.as_bytes());
    let pump = NAMED.replace("open", "pumps").replace("shut", "rests");
    let pump = Scrap::holding(pump.as_bytes());
    let both =
        |first: &Scrap, second: &Scrap| run(&["combine", "both", first.name(), second.name()]);
    both(&flap, &pump).said(2, "the letters have different names");
    let add = |list: &str, rule: &Scrap| {
        let ran = run(&["letters", rule.name(), "--add", list]);
        Scrap::holding(ran.printed(0).as_bytes())
    };
    let flap = add("pumps=shut,rests=shut", &flap);
    let pump = add("shut=rests,open=rests", &pump);
    let both = Scrap::holding(both(&flap, &pump).printed(0).as_bytes());
    for (lasso, grade) in [
        ("v: open pumps", 3),
        ("v: open rests", 0),
        ("u: open  v: pumps shut", 0),
    ] {
        let member = run(&["member", both.name(), lasso]);
        assert_eq!(member.text(), format!("grade {grade} turns 1\n"));
    }
}

/// Rules with equal grades by name are written alike.
#[test]
fn reductions_with_sorted_letters() {
    let sorted = |text: &str| {
        let ran = run_with(&["reduce", "-", "--letters", "sorted"], text.as_bytes());
        ran.printed(0).to_string()
    };
    let other_order = NAMED.replace("open 0\n  shut 1", "shut 1\n  open 0");
    assert_eq!(sorted(NAMED), sorted(&other_order));
    let exchanged = NAMED.replace("open 0\n  shut 1", "shut 0\n  open 1");
    assert_ne!(sorted(NAMED), sorted(&exchanged));
    assert_eq!(listed(&sorted(&exchanged)), ["open 0", "shut 1"]);
    let valued = VALUED
        .replace("a b", "b a")
        .replace("marks 0", "marks 4 2 0 3 2 1 3 2 2 3 2 3 3");
    let text = sorted(&valued);
    assert!(
        text.starts_with("duknavet rule 1\npropositions 2 \"a\" \"b\"\n"),
        "{text}"
    );
    let file = Scrap::holding(text.as_bytes());
    assert_eq!(
        run(&["member", file.name(), "v: a"]).text(),
        "grade 3 turns 1\n"
    );
    let plain = run_with(&["reduce", "-", "--letters", "sorted"], W);
    assert_eq!((plain.status, plain.out.as_slice()), (0, W));
    run_with(&["reduce", "-", "--letters", "sorted"], Z).said(2, "the rule is weak");
    run_with(&["reduce", "-", "--letters", "any"], W).said(3, "`--letters` takes one of sorted");
}

#[test]
fn equal_in_another_order() {
    let mut random = Random::new(3803);
    let (mut found, mut none) = (0, 0);
    for round in 0..300 {
        let rule = samples::rule(&mut random, 12).bytes();
        let rule = Rule::take_apart(&rule).expect("a rule");
        if owned::reduce(&rule.bytes()).is_err() {
            continue;
        }
        let order = random.order(rule.images.len());
        let order: Vec<u8> = order.iter().map(|letter| *letter as u8).collect();
        let mut other = rule.with_letters(&order).expect("its own letters");
        if round % 4 == 0 {
            other.marks.iter_mut().for_each(|mark| mark.grade ^= 3);
            other.marks.retain(|mark| mark.grade > 0);
        }
        let back = equal_in_order(&rule.bytes(), &other.bytes()).expect("two rules");
        let Some(back) = back else {
            none += 1;
            assert_eq!(round % 4, 0, "{rule:?} in the order {order:?}");
            continue;
        };
        found += 1;
        let again = other.with_letters(&back).expect("letters of the other");
        let compared = compare(&rule.bytes(), &again.bytes()).expect("two rules");
        assert!(matches!(compared, Comparison::EqualReductions(_)));
    }
    assert!(found > 60 && none > 5, "{found} {none}");
}

#[test]
fn compare_tells_of_another_order() {
    let exchanged = NAMED.replace("open 0\n  shut 1", "shut 0\n  open 1");
    let rule = Scrap::holding(NAMED.as_bytes());
    let ran = run_with(&["compare", rule.name(), "-"], exchanged.as_bytes());
    let said =
        "equal in another order of letters: shut, open of the second for open, shut of the first";
    assert_eq!(ran.noted(1, said), "u:  v: open\ngrades 3 0\n");
    let plain = Scrap::holding(W);
    let ran = run_with(
        &["compare", plain.name(), "-"],
        &[2, 0, 0, 0, 1, 2, 1, 0, 1, 0, 0, 0, 3],
    );
    let said = "equal in another order of letters: 1, 0 of the second for 0, 1 of the first";
    assert_eq!(ran.noted(1, said), "u:  v: 0\ngrades 3 0\n");
    let ran = run_with(&["compare", plain.name(), "-"], TWICE);
    assert_eq!(ran.printed(1), "u:  v: 0\ngrades 3 0\n");
}
