//! Letters of two files that meet by name or by proposition: answers that were false by the names of the files, and random orders.

use crate::inputs::{marks, morphisms};
use crate::program::{run, run_with, Ran, Scrap};
use crate::random::Random;
use crate::samples::{self, NAMED, W};
use duknavet::files::Rule;
use duknavet::text::{print_lasso, print_rule, Names};
use duknavet::witness::{compare, included_in, Comparison, Grades};
use duknavet::{owned, Operation};

/// The flap opens again and again, with its letters in the other order.
const OTHER_ORDER: &str = "duknavet rule 1
elements 2
  0 0
  0 1
letters 2
  shut 1
  open 0
marks 1
  0 0 proper
";

/// The bytes of the flap's rule with the names exchanged: it shuts again and again.
fn exchanged() -> String {
    NAMED.replace("open 0\n  shut 1", "shut 0\n  open 1")
}

fn two(words: &[&str], first: &str, second: &str) -> Ran {
    let first = Scrap::holding(first.as_bytes());
    let words: Vec<&str> = words.iter().copied().chain([first.name(), "-"]).collect();
    run_with(&words, second.as_bytes())
}

/// Proposition `of` of those declared holds again and again.
fn again(propositions: &str, of: usize) -> String {
    format!(
        "HOA: v1\nStart: 0\nAP: {propositions}\nAcceptance: 1 Inf(0)\n--BODY--\nState: 0\n[!{of}] 0\n[{of}] 0 {{0}}\n--END--\n"
    )
}

#[test]
fn propositions_in_another_order() {
    let (a, b) = (again("2 \"a\" \"b\"", 0), again("2 \"b\" \"a\"", 0));
    let order = "equal in another order of letters: !a & b, a & !b of the second for a & !b, !a & b of the first";
    let different = "u:  v: a & !b\ngrades 3 0\n";
    assert_eq!(two(&["compare"], &a, &b).noted(1, order), different);
    let same = again("2 \"b\" \"a\"", 1);
    let equal = "equal: both reduce to the same 2 elements\n";
    assert_eq!(two(&["compare"], &a, &same).printed(0), equal);
    assert_eq!(
        two(&["compare"], &again("1 \"a\"", 0), &a).printed(0),
        equal
    );
    assert_eq!(
        two(&["compare"], &a, &again("1 \"a\"", 0)).printed(0),
        equal
    );
}

#[test]
fn a_rule_against_itself_in_another_order() {
    let equal = "equal: both reduce to the same 2 elements\n";
    assert_eq!(two(&["compare"], NAMED, OTHER_ORDER).printed(0), equal);
    assert_eq!(two(&["compare"], OTHER_ORDER, NAMED).printed(0), equal);
}

#[test]
fn equal_bytes_with_names_exchanged() {
    let exchanged = exchanged();
    let compared = two(&["compare"], NAMED, &exchanged);
    let order =
        "equal in another order of letters: shut, open of the second for open, shut of the first";
    assert_eq!(compared.noted(1, order), "u:  v: open\ngrades 3 0\n");
    let (rule, reduced) = (
        Scrap::holding(NAMED.as_bytes()),
        Scrap::holding(exchanged.as_bytes()),
    );
    let confirmed = run_with(
        &["confirm", rule.name(), reduced.name(), "-"],
        b"duknavet map 1\n0 1",
    );
    let said = "no: letter open stands for 0, which goes to 0, and in the reduced rule for 1\n";
    assert_eq!(confirmed.printed(1), said);
    for (file, grade) in [(&rule, 3), (&reduced, 0)] {
        let member = run(&["member", file.name(), "v: open"]);
        assert_eq!(member.text(), format!("grade {grade} turns 1\n"));
    }
    let other_order = Scrap::holding(OTHER_ORDER.as_bytes());
    let map = b"duknavet map 1\n0 1";
    let confirmed = run_with(&["confirm", rule.name(), other_order.name(), "-"], map);
    assert_eq!(confirmed.printed(0), "yes\n");
}

#[test]
fn both_of_two_that_grade_alike() {
    let both = two(&["combine", "both"], NAMED, OTHER_ORDER);
    let both = Scrap::holding(both.printed(0).as_bytes());
    for (lasso, grade) in [("v: open", 3), ("v: shut", 0)] {
        let member = run(&["member", both.name(), lasso]);
        assert_eq!(member.text(), format!("grade {grade} turns 1\n"));
    }
}

#[test]
fn an_event_of_a_board_by_name() {
    let alarm = NAMED.replace("open 0\n  shut 1", "alarm 0\n  open 1");
    let shut = NAMED.replace("open 0\n  shut 1", "open 1\n  shut 0");
    let [one, two, three] = [NAMED, &alarm, &shut].map(|text| Scrap::holding(text.as_bytes()));
    let lines = |second: &Scrap| {
        let (one, second) = (one.name(), second.name());
        format!("enter 0 {one}\nenter 1 {second}\nevent open\nleave 0\n")
    };
    let ran = run_with(&["board"], lines(&two).as_bytes());
    let answers = "lowest none\nnot understood\nlowest 3\nlowest none\n";
    assert_eq!(ran.text(), answers);
    assert!(
        ran.err.contains("only the board has shut, only "),
        "{ran:?}"
    );
    let ran = run_with(&["board"], lines(&three).as_bytes());
    assert_eq!(
        ran.printed(0),
        "lowest none\nlowest none\nlowest 0\nlowest 0\n"
    );
}

/// What Spin 6.5 writes for `a || b && c` and for `(a || b) && c`, which it reads alike: the claims name their propositions in different orders.
#[test]
fn claims_that_name_propositions_in_another_order() {
    let claim = |condition: &str| {
        format!("never  {{\naccept_init:\nT0_init:\n\tdo\n\t:: atomic {{ ({condition}) -> assert(!({condition})) }}\n\tod;\naccept_all:\n\tskip\n}}\n")
    };
    let one = claim("(((a) && (c)) || ((b) && (c)))");
    let other = claim("(a || b) && (c)");
    let equal = "equal: both reduce to the same 2 elements\n";
    assert_eq!(two(&["compare"], &one, &other).printed(0), equal);
    assert_eq!(two(&["compare"], &other, &one).printed(0), equal);
    let different = claim("(a) && (c)");
    let compared = two(&["compare"], &one, &different);
    assert_eq!(compared.printed(1), "u:  v: !a & c & b\ngrades 3 0\n");
}

/// (a, b) and (b, c) give (a, b, c), and letter 6 acts as letter 2 in the first and 3 in the second.
#[test]
fn propositions_of_both() {
    let rule = |names: &str, letters: &str| {
        // The first letter of a lasso has the grade of its element.
        let marks: String = (1..4)
            .flat_map(|s| (0..4).map(move |e| format!(" {s} {e} {s}")))
            .collect();
        format!("duknavet rule 1\npropositions {names}\nelements 4\n 0 0 0 0\n 1 1 1 1\n 2 2 2 2\n 3 3 3 3\nletters 4 {letters}\nmarks 12{marks}\n")
    };
    let (first, second) = (rule("a b", "0 1 2 3"), rule("b c", "3 2 1 0"));
    let both = two(&["combine", "either"], &first, &second);
    let text = both.printed(0);
    assert!(
        text.starts_with("duknavet rule 1\npropositions 3 \"a\" \"b\" \"c\"\nelements "),
        "{text}"
    );
    assert!(text.contains("\nletters 8\n"), "{text}");
    let [first, second, both] = [&first, &second, text].map(|own| Scrap::holding(own.as_bytes()));
    let grade = |file: &Scrap, lasso: &str| {
        let ran = run(&["member", file.name(), lasso]);
        ran.text().as_bytes()[6] - b'0'
    };
    assert_eq!(grade(&both, "v: 6"), grade(&both, "v: b & c"));
    for letter in 0..8_u8 {
        let (own, other) = (letter & 3, letter >> 1);
        let expected =
            grade(&first, &format!("v: {own}")).max(grade(&second, &format!("v: {other}")));
        assert_eq!(
            grade(&both, &format!("v: {letter}")),
            expected,
            "letter {letter}"
        );
    }
}

/// Propositions stay through everything that is made of an automaton, and a reduction may know more of them than its rule.
#[test]
fn propositions_live_on() {
    let made = |words: &[&str], input: &str| {
        let ran = run_with(words, input.as_bytes());
        ran.printed(0).to_string()
    };
    let declared = "\npropositions 2 \"a\" \"x > 0\"\n";
    let rule = made(&["automaton", "-"], &again("2 \"a\" \"x > 0\"", 1));
    assert!(rule.contains(declared), "{rule}");
    for words in [
        &["reduce", "-"][..],
        &["complement", "-"],
        &["letters", "-", "--order", "a,x > 0"],
        &["convert", "-", "--to", "text"],
    ] {
        assert!(made(words, &rule).contains(declared), "{words:?}");
    }
    let file = Scrap::holding(rule.as_bytes());
    let both = made(&["combine", "both", file.name(), "-"], &rule);
    assert!(both.contains(declared), "{both}");
    let small = made(&["reduce", "-"], &rule);
    let hoa = made(&["convert", "-", "--to", "hoa"], &small);
    assert!(hoa.contains("\nAP: 2 \"a\" \"x > 0\"\n"), "{hoa}");
    let equal = "equal: both reduce to the same 2 elements\n";
    assert_eq!(made(&["compare", file.name(), "-"], &hoa), equal);
    let shown = made(&["show", "-"], &small);
    assert!(
        shown.contains("\n  2 !a & \"x > 0\" stands for 1\n"),
        "{shown}"
    );
    let page = made(&["page", "-"], &small);
    assert!(
        page.contains("<td>!a &amp; &quot;x &gt; 0&quot;</td>"),
        "{page}"
    );
    let states = made(
        &["states", "-", "--state", "1,1", "--letter", "\"x > 0\""],
        &small,
    );
    assert!(states.contains("\n  !a & \"x > 0\" to "), "{states}");
    // A rule over one proposition, and its reduction over that one and another, in any order.
    let one = made(&["automaton", "-"], &again("1 \"x > 0\"", 0));
    let (one, map, small) = (
        Scrap::holding(one.as_bytes()),
        Scrap::free(),
        Scrap::holding(small.as_bytes()),
    );
    run(&["reduce", one.name(), "--map", map.name()]).printed(0);
    assert_eq!(
        run(&["confirm", one.name(), small.name(), map.name()]).printed(0),
        "yes\n"
    );
    let other = made(
        &["letters", "-", "--rename", "a=x > 0,x > 0=a"],
        &std::fs::read_to_string(small.name()).expect("a file"),
    );
    let other = Scrap::holding(other.as_bytes());
    let said =
        "no: letter \"x > 0\" & !a stands for 1, which goes to 1, and in the reduced rule for 0\n";
    assert_eq!(
        run(&["confirm", one.name(), other.name(), map.name()]).printed(1),
        said
    );
}

#[test]
fn letters_that_do_not_meet() {
    let halt = NAMED.replace("shut", "halt");
    let valued = |names: &str| {
        let rule = NAMED.replace("open ", "").replace("shut ", "");
        rule.replace("rule 1", &format!("rule 1\npropositions {names}"))
    };
    for command in [&["compare"][..], &["combine", "both"], &["included"]] {
        two(command, NAMED, &halt).said(
            2,
            " has shut, only standard input has halt; `duknavet-tool letters` renames",
        );
        two(command, NAMED, &valued("p")).said(
            2,
            "are open, shut, and those of standard input are valuations of p",
        );
        two(command, &valued("p"), NAMED).said(
            2,
            "are valuations of p, and those of standard input are open, shut",
        );
        let sixteen = |names: &str| {
            valued(names).replace("letters 2\n  0\n  1 ", "letters 8 0 1 0 1 0 1 0 1")
        };
        let many = "have 6 propositions together, more than 4: a, b, c, d, e, f";
        two(command, &sixteen("a b c"), &sixteen("d e f")).said(2, many);
    }
    // Where only some letters are named the others have their number for a name.
    let some = NAMED.replace("shut 1", "1");
    two(&["compare"], NAMED, &some).said(2, "has shut, only standard input has 1;");
    let equal = "equal: both reduce to the same 2 elements\n";
    assert_eq!(two(&["compare"], &some, &some).printed(0), equal);
    let by_number = two(&["compare", "--by-number"], NAMED, &halt);
    assert_eq!(
        by_number.noted(0, "letters go by their numbers, as --by-number asks"),
        equal
    );
    // By number, letters that the files call differently are numbers.
    let strict = halt.replace("proper", "poor");
    let by_number = two(&["compare", "--by-number"], NAMED, &strict);
    assert_eq!(by_number.text(), "u:  v: 0\ngrades 3 1\n");
    let plain = Scrap::holding(W);
    let three = NAMED
        .replace("letters 2", "letters 3")
        .replace("marks", "halt 1\nmarks");
    run_with(&["compare", plain.name(), "-"], three.as_bytes())
        .said(2, "the first has 2 letters and the second 3");
    run_with(&["combine", "both", plain.name(), "-"], three.as_bytes()).said(2, "refusal 18");
}

/// A word over all propositions, and the same word with those literals only that a file knows.
fn restricted(word: &[u8], all: &[&str], known: &[&str]) -> String {
    let letter = |letter: &u8| {
        let bits = all
            .iter()
            .enumerate()
            .filter(|(_, name)| known.contains(name));
        let literals = bits.map(|(bit, name)| match letter >> bit & 1 {
            1 => format!("\"{name}\""),
            _ => format!("!\"{name}\""),
        });
        literals.collect::<Vec<_>>().join(" & ")
    };
    word.iter().map(letter).collect::<Vec<_>>().join("  ")
}

/// Rules over some of four propositions, in any order: each lasso over all of them has the higher of the grades that the two files give
/// to what they know of it.
#[test]
fn random_propositions() {
    let mut random = Random::new(3804);
    let mut combined = 0;
    while combined < 60 {
        let mut drawn = || {
            let count = random.within(1, 3);
            let names = random.shuffled(&["p", "x > 0", "q", "mark"])[..count].to_vec();
            let morphism = morphisms::any(&mut random, 6);
            let acts_as = random.word(1 << count, morphism.letters());
            let marks = marks::closed(&mut random, &morphism);
            let rule = Rule::take_apart(&morphism.with(marks).bytes()).expect("a rule");
            let rule = rule.with_letters(&acts_as).expect("its own letters");
            let text = print_rule(
                &rule,
                &Names::propositions(&names).expect("different names"),
            );
            (rule.bytes(), names, Scrap::holding(text.as_bytes()))
        };
        let ((first, own, one), (second, other, two)) = (drawn(), drawn());
        // Not every choice of letters has every element for a value.
        if owned::complement(&first).is_err() || owned::complement(&second).is_err() {
            continue;
        }
        let ran = run(&["combine", "either", one.name(), two.name()]);
        if ran.status == 2 {
            assert!(ran.err.contains("refusal 19"), "{ran:?}");
            continue;
        }
        combined += 1;
        let either = Scrap::holding(ran.printed(0).as_bytes());
        let new = other.iter().copied().filter(|name| !own.contains(name));
        let all: Vec<&str> = own.iter().copied().chain(new).collect();
        for _ in 0..4 {
            let lengths = (random.below(3), random.within(1, 3));
            let (u, v) = (
                random.word(lengths.0, 1 << all.len()),
                random.word(lengths.1, 1 << all.len()),
            );
            let grade = |file: &Scrap, known: &[&str]| {
                let (u, v) = (restricted(&u, &all, known), restricted(&v, &all, known));
                run(&["member", file.name(), &format!("u: {u}  v: {v}")]).out[6]
            };
            assert_eq!(
                grade(&either, &all),
                grade(&one, &own).max(grade(&two, &other))
            );
        }
    }
}

const NAMES: [&str; 16] = [
    "open", "shut", "alarm", "été", "x > 0", "mark", "halt", "p", "q", "r", "s", "t", "#", "a b",
    "c-1", "_",
];

/// Two rules over as many letters.
fn pair(random: &mut Random) -> (Vec<u8>, Vec<u8>) {
    loop {
        let first = samples::rule(random, 8);
        let second = match random.below(3) {
            0 => first.clone(),
            1 => first.morphism.with(marks::closed(random, &first.morphism)),
            _ => {
                let morphism = morphisms::any(random, 7);
                let marks = marks::mixed(random, &morphism);
                morphism.with(marks)
            }
        };
        if first.morphism.letters() == second.morphism.letters() {
            return (first.bytes(), second.bytes());
        }
    }
}

/// The text of a rule with its letters in another order.
fn text_in_order(rule: &[u8], names: &[&str], order: &[usize]) -> String {
    let rule = Rule::take_apart(rule).expect("a rule");
    let acts_as: Vec<u8> = order.iter().map(|letter| *letter as u8).collect();
    let rule = rule.with_letters(&acts_as).expect("letters of the rule");
    let names: Vec<&str> = order.iter().map(|letter| names[*letter]).collect();
    print_rule(&rule, &Names::letters(&names).expect("different names"))
}

/// What `compare` prints of two rules with equal order of letters, and its status.
fn compared(first: &[u8], second: &[u8], names: &Names) -> (i32, String) {
    match compare(first, second).expect("two rules") {
        Comparison::EqualReductions(own) => {
            let elements = if own[0] == 1 { "element" } else { "elements" };
            (
                0,
                format!("equal: both reduce to the same {} {elements}\n", own[0]),
            )
        }
        Comparison::EqualGrades => (0, "equal: neither grades a lasso higher\n".to_string()),
        Comparison::Different(own) => {
            let lasso = print_lasso(&own.lasso, names);
            (1, format!("{lasso}\ngrades {} {}\n", own.first, own.second))
        }
        _ => (2, String::new()),
    }
}

#[test]
fn random_orders() {
    let mut random = Random::new(3802);
    let (mut equal, mut different, mut combined) = (0, 0, 0);
    for _ in 0..1000 {
        let (first, second) = pair(&mut random);
        let letters = Rule::take_apart(&first).expect("a rule").images.len();
        let own = &random.shuffled(&NAMES)[..letters];
        let names = Names::letters(own).expect("different names");
        let file = Scrap::holding(
            text_in_order(&first, own, &(0..letters).collect::<Vec<usize>>()).as_bytes(),
        );
        let other = text_in_order(&second, own, &random.order(letters));
        let other_file = Scrap::holding(other.as_bytes());
        let ran = run(&["compare", file.name(), other_file.name()]);
        let (status, printed) = compared(&first, &second, &names);
        assert_eq!(
            (ran.status, ran.text()),
            (status, printed.as_str()),
            "{ran:?}"
        );
        match status {
            0 => equal += 1,
            1 => {
                different += 1;
                let (lasso, grades) = printed.split_once("\ngrades ").expect("two lines");
                let by = |file: &Scrap| run(&["member", file.name(), lasso]).out[6];
                let expected = grades.as_bytes();
                assert_eq!([by(&file), by(&other_file)], [expected[0], expected[2]]);
            }
            _ => {}
        }
        combined += of_strong(&first, &second, &names, [&file, &other_file]);
        refused_where_it_stands(&mut random, &file, &other);
    }
    assert!(
        equal > 200 && different > 200 && combined > 100,
        "{equal} {different} {combined}"
    );
}

/// What `combine` and `included` say of two strong rules; 1 where both are.
fn of_strong(first: &[u8], second: &[u8], names: &Names, files: [&Scrap; 2]) -> usize {
    let Ok(both) = owned::combine(first, second, Operation::Both) else {
        return 0;
    };
    let text = print_rule(&Rule::take_apart(&both).expect("a rule"), names);
    let ran = run(&["combine", "both", files[0].name(), files[1].name()]);
    assert_eq!(ran.printed(0), text);
    let ran = run(&["included", files[0].name(), files[1].name()]);
    match included_in(first, second).expect("two strong rules") {
        Grades::NoneHigher => assert_eq!(ran.printed(0), "included\n"),
        Grades::Higher(own) => {
            let lasso = print_lasso(&own.lasso, names);
            assert_eq!(
                ran.printed(1),
                format!("{lasso}\ngrades {} {}\n", own.first, own.second)
            );
        }
        Grades::TooLarge(_) => panic!("the two were combined"),
    }
    1
}

/// A second file whose letter stands for no element is refused at that letter's line and column.
fn refused_where_it_stands(random: &mut Random, file: &Scrap, second: &str) {
    let lines: Vec<&str> = second.lines().collect();
    let letters = lines
        .iter()
        .position(|line| line.starts_with("letters "))
        .expect("letters");
    let marks = lines
        .iter()
        .position(|line| line.starts_with("marks "))
        .expect("marks");
    let line = letters + 1 + random.below(marks - letters - 1);
    let (name, _) = lines[line].rsplit_once(' ').expect("a name and an element");
    let damaged = second.replace(&format!("\n{}\n", lines[line]), &format!("\n{name} 99\n"));
    let column = name.chars().count() + 2;
    let place = format!("standard input: line {}, column {column}: ", line + 1);
    for words in [&["compare"][..], &["combine", "either"]] {
        let words: Vec<&str> = words.iter().copied().chain([file.name(), "-"]).collect();
        run_with(&words, damaged.as_bytes()).said(2, &place);
    }
}
