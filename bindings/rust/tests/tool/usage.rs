//! Help, the man page, wrong use, and output that cannot be written.

use crate::program::{run, tool, Scrap};
use crate::samples::{AUTOMATON, W};

const COMMANDS: [&str; 27] = [
    "check",
    "summary",
    "strong",
    "member",
    "explain",
    "classes",
    "complement",
    "combine",
    "next",
    "until",
    "included",
    "reduce",
    "confirm",
    "rounds",
    "automaton",
    "formula",
    "states",
    "feed",
    "follow",
    "board",
    "stretch",
    "convert",
    "letters",
    "show",
    "picture",
    "page",
    "compare",
];

#[test]
fn help() {
    let overview = run(&["--help"]);
    for name in COMMANDS {
        assert!(
            overview.printed(0).contains(&format!("\n  {name} ")),
            "{name}"
        );
        let own = run(&[name, "--help"]);
        assert!(own
            .printed(0)
            .starts_with(&format!("usage: duknavet-tool {name} ")));
        assert_eq!(run(&["help", name]).out, own.out);
        assert!(run(&["--man"])
            .printed(0)
            .contains(&format!("\n.B {name} ")));
    }
    let manual = include_str!("../../../../docs/duknavet-tool.1");
    let hint = "docs/duknavet-tool.1 is what `duknavet-tool --man` prints";
    assert!(run(&["--man"]).printed(0) == manual, "{hint}");
    assert!(run(&["--version"]).printed(0).starts_with("duknavet-tool "));
    assert_eq!(run(&["-V"]).out, run(&["--version"]).out);
}

/// The parts of a topic's text that are indented, without the blanks.
fn examples(text: &str) -> Vec<String> {
    let parts = text.split("\n\n").filter(|part| part.starts_with("    "));
    let bare = |part: &str| {
        let lines = part.lines().map(|line| line.strip_prefix("    "));
        lines
            .map(|line| format!("{}\n", line.unwrap_or("")))
            .collect()
    };
    parts.map(bare).collect()
}

#[test]
fn topics_of_help_have_examples_that_hold() {
    let overview = run(&["--help"]);
    for topic in ["formats", "grades", "marks", "formulas"] {
        assert!(overview.printed(0).contains(&format!("help {topic} ")));
    }
    let formats = run(&["help", "formats"]);
    let texts = examples(formats.printed(0));
    let [rule, automaton, lasso] = &texts[..] else {
        panic!("{texts:?}")
    };
    let rule = Scrap::holding(rule.as_bytes());
    let automaton = Scrap::holding(automaton.as_bytes());
    run(&["check", rule.name()]).printed(0);
    run(&["check", automaton.name()]).printed(0);
    run(&["member", rule.name(), lasso.trim_end()]).printed(0);
    for (topic, count) in [("grades", 1), ("marks", 1), ("formulas", 4)] {
        let help = run(&["help", topic]);
        let examples = examples(help.printed(0));
        assert_eq!(examples.len(), count, "{topic}");
        for example in examples {
            let Some(command) = example.strip_prefix("$ duknavet-tool ") else {
                let document = Scrap::holding(example.as_bytes());
                let words = ["formula", document.name(), "--letters", "alarm,pump,shut"];
                run(&words).printed(0);
                continue;
            };
            // Every second part stands between quotes.
            let parts = command.trim_end().split('\'').enumerate();
            let words: Vec<&str> = parts
                .flat_map(|(at, part)| match at % 2 {
                    0 => part.split_whitespace().collect(),
                    _ => vec![part],
                })
                .collect();
            let root = std::path::Path::new(env!("CARGO_MANIFEST_DIR")).join("../..");
            let ended = tool().args(&words).current_dir(root).output();
            let ended = ended.expect("the tool runs");
            assert!(ended.status.success(), "{command}");
        }
    }
    run(&["--man", "grades"]).said(3, "there is no man page `grades`");
    let manual = include_str!("../../../../docs/duknavet-formats.5");
    let hint = "docs/duknavet-formats.5 is what `duknavet-tool --man formats` prints";
    assert!(run(&["--man", "formats"]).printed(0) == manual, "{hint}");
}

#[test]
fn completion_knows_every_subcommand() {
    let completion = run(&["--completion"]);
    let script = completion.printed(0);
    for name in COMMANDS {
        assert!(
            script.contains(&format!("\n    {name}) options='")),
            "{name}"
        );
    }
    let file = Scrap::holding(script.as_bytes());
    let shell = std::process::Command::new("bash")
        .args(["-n", file.name()])
        .status();
    assert!(shell.expect("bash runs").success());
    // asked as bash asks: the second word behind `help`, and options of a subcommand
    let asked = |words: &str, at: usize| {
        let ask = format!(
            ". {}; COMP_WORDS=({words}); COMP_CWORD={at}; _duknavet_tool; echo \"${{COMPREPLY[*]}}\"",
            file.name()
        );
        let told = std::process::Command::new("bash")
            .args(["-c", &ask])
            .output();
        String::from_utf8(told.expect("bash runs").stdout).expect("text")
    };
    assert_eq!(asked("duknavet-tool comp", 1), "complement compare\n");
    assert_eq!(asked("duknavet-tool help gr", 2), "grades\n");
    assert_eq!(asked("duknavet-tool reduce --t", 2), "--to\n");
}

#[test]
fn wrong_use() {
    run(&[]).said(3, "there is no subcommand");
    run(&["frobnicate"]).said(3, "there is no subcommand `frobnicate`");
    run(&["help", "frobnicate"]).said(3, "there is no subcommand `frobnicate`");
    for name in COMMANDS {
        // A board takes nothing, so that it is refused what the others need.
        match name {
            "board" => run(&[name, "-"]).said(3, "but was given 1"),
            _ => run(&[name]).said(3, "but was given 0"),
        }
        run(&[name, "--frobnicate", "-"]).said(3, "there is no option `--frobnicate`");
    }
    run(&["reduce", "-", "--to"]).said(3, "`--to` needs FORM");
    run(&["reduce", "-", "--to=text", "--to=text"]).said(3, "`--to` stands twice");
    run(&["check", "/there/is/no/such/file"]).said(3, "/there/is/no/such/file: ");
    run(&["check", env!("CARGO_MANIFEST_DIR")]).said(3, "directory");
    run(&["check", "--", "--as"]).said(3, "--as: ");
}

/// A write that fails is noticed, whatever is written.
#[test]
fn full_disk() {
    let full = std::fs::OpenOptions::new().write(true).open("/dev/full");
    let full = full.expect("this test needs /dev/full");
    let rule = Scrap::holding(W);
    let automaton = Scrap::holding(AUTOMATON);
    let map = Scrap::holding(&[0, 1]);
    let log = Scrap::holding(b"0\n1\n");
    for name in COMMANDS {
        let words = match name {
            "member" | "explain" => vec![name, rule.name(), "v: 0"],
            "combine" => vec![name, "both", rule.name(), rule.name()],
            "until" => vec![name, rule.name(), rule.name()],
            "included" | "follow" | "board" => continue,
            "automaton" => vec![name, automaton.name()],
            "formula" => vec![name, "G a", "--letters", "a,b"],
            "letters" => vec![name, rule.name(), "--name", "a,b"],
            "feed" => vec![name, rule.name(), log.name()],
            "stretch" => vec![name, "v: 0", "0"],
            "compare" => vec![name, rule.name(), automaton.name()],
            "confirm" => vec![name, rule.name(), rule.name(), map.name()],
            _ => vec![name, rule.name()],
        };
        let output = tool()
            .args(&words)
            .stdout(full.try_clone().expect("a second handle"))
            .output()
            .expect("the tool runs");
        assert_eq!(output.status.code(), Some(3), "{name}");
        let said = String::from_utf8_lossy(&output.stderr);
        assert!(
            said.starts_with("duknavet-tool: standard output: "),
            "{said}"
        );
    }
}
