//! Boards as stations: what they answer, keep and resume.

use super::{contents, fingerprint, lines_read};
use crate::following::Line;
use crate::program::{run_with, Scrap};
use crate::samples::{GRADED, NAMED, W, Z};

/// A rule of three elements that reduces to W.
const LARGER: &[u8] = &[
    3, 0, 2, 2, 0, 1, 2, 0, 2, 2, 2, 0, 1, 2, 0, 0, 0, 3, 2, 2, 3,
];

/// Each rule present is told by its name, the fingerprint of its bytes as they came, and its grade.
#[test]
fn who_is_present() {
    let exchanged = NAMED.replace("open 0\n  shut 1", "shut 1\n  open 0");
    let [named, other] = [NAMED, &exchanged].map(|text| Scrap::holding(text.as_bytes()));
    let graded = Scrap::holding(GRADED);
    let came = |bytes: &[u8]| format!("{:016x}", fingerprint(bytes));
    let mut line = Line::open(&["board"]);
    assert_eq!(line.ask("who"), "who nobody");
    for (name, file) in [(5, &named), (2, &other), (7, &graded)] {
        line.ask(&format!("enter {name} {}", file.name()));
    }
    let (first, second) = (came(W), came(&[2, 0, 0, 0, 1, 2, 1, 0, 1, 0, 0, 0, 3]));
    let third = came(GRADED);
    let told = |grades: [&str; 3]| {
        let [two, five, seven] = grades;
        format!("who 2 {second} grade {two}, 5 {first} grade {five}, 7 {third} grade {seven}")
    };
    assert_eq!(line.ask("who"), told(["none", "none", "none"]));
    assert_eq!(line.ask("event shut"), "lowest 0");
    assert_eq!(line.ask("who"), told(["0", "0", "1"]));
    assert_eq!(line.ask("event open"), "lowest 3");
    assert_eq!(line.ask("who"), told(["3", "3", "3"]));
    line.ask("leave 2");
    line.ask("leave 7");
    assert_eq!(line.ask("mark"), "lowest none");
    assert_eq!(line.ask("who"), format!("who 5 {first} grade none"));
    assert_eq!(line.close(), 0);
}

/// What came is told after the board was taken up again too.
#[test]
fn origins_are_kept() {
    let exchanged = NAMED.replace("open 0\n  shut 1", "shut 1\n  open 0");
    let [named, other] = [NAMED, &exchanged].map(|text| Scrap::holding(text.as_bytes()));
    let state = Scrap::free();
    let words = ["board", "--state", state.name()];
    let lines = format!("enter 1 {}\nenter 2 {}\nwho\n", named.name(), other.name());
    let told = run_with(&words, lines.as_bytes()).printed(0).to_string();
    let told = told.lines().last().expect("an answer");
    assert_eq!(run_with(&words, b"who\n").printed(0).trim_end(), told);
}

#[test]
fn files_in_quotes() {
    let folder = Scrap::free();
    std::fs::create_dir(folder.name()).expect("a folder of the test");
    let odd = format!("{}/a \"rule\" # of \\ ours", folder.name());
    std::fs::write(&odd, W).expect("a file of the test");
    let quoted = odd.replace('\\', "\\\\").replace('"', "\\\"");
    let mut line = Line::open(&["board"]);
    assert_eq!(
        line.ask(&format!("enter 3 \"{quoted}\" # in")),
        "lowest none"
    );
    assert_eq!(line.ask("event 0"), "lowest 3");
    for wrong in [
        format!("enter 4 \"{quoted}"),
        format!("enter 4 \"{quoted}\" \"\""),
        format!("enter 4 {odd}"),
        "enter 4 \"\"".to_string(),
        "enter 4 \"-\"".to_string(),
    ] {
        assert_eq!(line.ask(&wrong), "not understood", "{wrong}");
    }
    assert_eq!(line.close(), 1);
    std::fs::remove_dir_all(folder.name()).expect("a folder of the test");
}

#[test]
fn lowest_grades_where_they_change() {
    let [first, second] = [W, GRADED].map(Scrap::holding);
    let lines = format!(
        "mark\nenter 0 {}\nevent 0\nevent 0\nenter 1 {}\nevent 0\nmark\nevent 1\nevent 1\nleave 0\nwho\nleave 1\nleave 1\n",
        first.name(),
        second.name()
    );
    let ran = run_with(&["board", "--on-change"], lines.as_bytes());
    let who = format!("who 1 {:016x} grade 2\n", fingerprint(GRADED));
    let answers = format!(
        "lowest none\nlowest 3\nlowest none\nlowest 0\nlowest 2\n{who}lowest none\nrefused 22 input 1 place 0\n"
    );
    assert_eq!((ran.status, ran.text()), (1, answers.as_str()));
}

#[test]
fn letters_of_a_log() {
    let rule = Scrap::holding(NAMED.as_bytes());
    let state = Scrap::free();
    let words = ["board", "--state", state.name()];
    let lines = format!("enter 3 {}\n", rule.name());
    run_with(&words, lines.as_bytes()).printed(0);
    let log = b"08:00 open\n08:01 bell\n08:02 mark\n08:03 shut\n08:04 200\n";
    let all = [&words[..], &["--field", "2", "--skip-unknown"]].concat();
    let ran = run_with(&all, log);
    assert_eq!(
        (ran.status, ran.text()),
        (0, "lowest 3\nlowest none\nlowest 0\n")
    );
    let words = "duknavet-tool: 2 lines passed over that had no letter\n";
    assert_eq!(ran.err, words);
}

#[test]
fn saved_at_a_signal_and_resumed() {
    let (rule, state) = (Scrap::holding(NAMED.as_bytes()), Scrap::free());
    let words = ["board", "--state", state.name(), "--resume"];
    let log = format!(
        "enter 3 {}\nevent shut\nmark\nbad\nevent open\n",
        rule.name()
    );
    let mut line = Line::open(&words);
    for (asked, answer) in
        log.lines()
            .zip(["lowest none", "lowest 0", "lowest none", "not understood"])
    {
        assert_eq!(line.ask(asked), answer);
    }
    line.signal("TERM");
    assert_eq!(line.ended().0, 143);
    assert_eq!(lines_read(&contents(&state)), 4);
    let ran = run_with(&words, log.as_bytes());
    assert_eq!(ran.printed(0), "lowest 3\n");
    let saved = contents(&state);
    run_with(&words, b"enter 3 another\n").said(2, "it has 1 line, and the state stands for 5");
    assert_eq!(contents(&state), saved);
    let once = Scrap::free();
    run_with(&["board", "--state", once.name()], log.as_bytes());
    assert_eq!(contents(&once), saved);
}

#[test]
fn two_processes() {
    let state = Scrap::free();
    let mut first = Line::open(&["board", "--state", state.name()]);
    assert_eq!(first.ask("save"), "saved");
    let second = run_with(&["board", "--state", state.name()], b"mark\n");
    second.said(2, "another process has this state");
    assert_eq!(first.close(), 0);
}

/// A rule is replaced by its reduction with what it heard, if the map is right.
#[test]
fn reductions_take_a_name_over() {
    let [old, new, map, wrong, weak] = [LARGER, W, &[0, 1, 0], &[1, 0, 1], Z].map(Scrap::holding);
    let state = Scrap::free();
    let mut line = Line::open(&["board", "--state", state.name()]);
    line.ask(&format!("enter 4 {}", old.name()));
    // Events 0 1 have the value 2, which the reduction does not have.
    for asked in ["event 0", "event 1", "mark", "event 0"] {
        line.ask(asked);
    }
    assert_eq!(line.ask("event 1"), "lowest 3");
    assert_eq!(line.ask("save"), "saved");
    assert!(contents(&state).contains("\nrule 4 2 2 "));
    let replace = |name: usize, new: &Scrap, map: &Scrap| {
        format!("replace {name} {} \"{}\"", new.name(), map.name())
    };
    assert_eq!(line.ask(&replace(4, &new, &wrong)), "not understood");
    assert_eq!(
        line.ask(&replace(5, &new, &map)),
        "refused 22 input 1 place 0"
    );
    assert_eq!(
        line.ask(&replace(4, &weak, &map)),
        "refused 12 input 4 place 0"
    );
    assert_eq!(
        line.ask(&replace(4, &map, &new)),
        "refused 2 input 4 place 0"
    );
    let who = |bytes: &[u8]| format!("who 4 {:016x} grade 3", fingerprint(bytes));
    assert_eq!(line.ask("who"), who(LARGER));
    assert_eq!(line.ask(&replace(4, &new, &map)), "lowest 3");
    assert_eq!(line.ask("who"), who(W));
    assert_eq!(line.ask("save"), "saved");
    let saved = contents(&state);
    assert!(saved.contains("\nrule 4 0 0 9b00692cc1d86283\n"), "{saved}");
    assert_eq!(line.ask("mark"), "lowest none");
    assert_eq!(line.ask("event 1"), "lowest 0");
    assert_eq!(line.close(), 1);
}
