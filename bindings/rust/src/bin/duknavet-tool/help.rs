//! Help for each subcommand, and the man page, from the same words.

use crate::command::{Answer, Command, Failure};
use crate::nearest::nearest;
use crate::topics::{self, Topic};
use crate::{commands, output};
use std::ffi::OsString;
use std::fmt::Write;

const PURPOSE: &str = "ask questions about rules over endless event sequences";

const FILES: &str = "A file is given by its name, or as - for standard input, which can be read once. What begins with the word \
`duknavet` and a space is a text; with `HOA:`, an automaton in that format; with `never` and white space or a brace, a never claim; \
with `u:` or `v:`, a lasso; a byte order mark, blank lines and comments before that are passed over. Everything else is the bytes of a file. Bytes that pass the checks are never taken for a text. Where a subcommand has --letters and --ap for \
formulas, f:FORMULA, or a file that begins `duknavet formula 1`, stands for its rule; beside another rule it has the letters of that one.";

const STATUS: [(&str, &str); 5] = [
    ("0", "yes, or done"),
    ("1", "no; of follow and board, some line was refused"),
    (
        "2",
        "an input was refused, by a call or as a text that cannot be read",
    ),
    ("3", "wrong use, or a file could not be read or written"),
    (
        "129, 130, 143",
        "SIGHUP, SIGINT or SIGTERM ended follow or board, and the state is saved",
    ),
];

/// `--help` with or without the name of a subcommand or of a topic.
pub fn print(words: &[OsString]) -> Result<Answer, Failure> {
    let Some(first) = words.first() else {
        return output::print(&overview());
    };
    let name = first.to_string_lossy();
    match (commands::named(&name), topics::named(&name)) {
        (Some(command), _) => output::print(&of(command)),
        (None, Some(topic)) => output::print(&explained(topic)),
        _ => Err(no_subcommand(&name)),
    }
}

/// `--man` with or without the name of a topic that has a page of its own.
pub fn print_manual(words: &[OsString]) -> Result<Answer, Failure> {
    match words.first().map(|word| word.to_string_lossy()) {
        None => output::print(&manual()),
        Some(word) if word == "formats" => output::print(&formats_manual()),
        Some(word) => Err(Failure::Usage(format!(
            "there is no man page `{word}`; there are those of the tool and of `formats`"
        ))),
    }
}

/// That there is no such subcommand, and which is nearest.
pub fn no_subcommand(name: &str) -> Failure {
    let others = ["--help", "--version", "--man", "--completion"];
    let known = commands::ALL.iter().map(|command| command.name);
    let nearest = match nearest(name, known.chain(others)) {
        Some(nearest) => format!("; the nearest is `{nearest}`"),
        None => String::new(),
    };
    let message = format!("there is no subcommand `{name}`{nearest}; --help lists them");
    Failure::Usage(message)
}

pub fn overview() -> String {
    let mut text = format!("usage: duknavet-tool SUBCOMMAND ..\n\nTo {PURPOSE}.\n\n");
    for command in commands::ALL {
        let _ = writeln!(text, "  {:<11} {}", command.name, command.purpose);
    }
    text.push_str("\n`duknavet-tool SUBCOMMAND --help` says more. Help also explains:\n\n");
    for topic in &topics::ALL {
        let _ = writeln!(text, "  help {:<10} {}", topic.name, topic.purpose);
    }
    text.push('\n');
    text.push_str(&wrapped(FILES, 100));
    text.push_str("\nexit status:\n");
    for (status, meaning) in STATUS {
        let _ = writeln!(text, "  {status}  {meaning}");
    }
    text
}

pub fn of(command: &Command) -> String {
    let mut text = format!(
        "usage: duknavet-tool {} {}\n\n{}\n\n",
        command.name,
        synopsis(command),
        wrapped(&capitalized(command.purpose), 100).trim_end()
    );
    text.push_str(&wrapped(command.details, 100));
    if has_options(command) {
        text.push_str("\noptions:\n");
    }
    for choice in command.choices() {
        let shown = match choice.value {
            Some(value) => format!("--{} {value}", choice.name),
            None => format!("--{}", choice.name),
        };
        let _ = writeln!(text, "  {shown:<20} {}", choice.meaning);
    }
    text
}

fn has_options(command: &Command) -> bool {
    command.choices().next().is_some()
}

fn synopsis(command: &Command) -> String {
    match has_options(command) {
        false => command.arguments.to_string(),
        true => format!("{} [options]", command.arguments),
    }
}

fn capitalized(line: &str) -> String {
    let mut characters = line.chars();
    match characters.next() {
        Some(first) => format!("{}{}.", first.to_uppercase(), characters.as_str()),
        None => String::new(),
    }
}

/// The parts of a topic, and whether each is an example, which stands as it is.
fn parts(text: &str) -> impl Iterator<Item = (bool, &str)> {
    text.split("\n\n")
        .map(|part| (part.starts_with("    "), part))
}

/// What help says of a topic.
pub fn explained(topic: &Topic) -> String {
    let mut text = format!("{}\n", capitalized(topic.purpose));
    for (example, part) in parts(topic.text) {
        let _ = match example {
            true => write!(text, "\n{part}\n"),
            false => write!(text, "\n{}", wrapped(part, 100)),
        };
    }
    text
}

/// A topic in a man page.
fn topic_manual(topic: &Topic) -> String {
    let mut page = String::new();
    for (example, part) in parts(topic.text) {
        let _ = match example {
            true => writeln!(page, ".PP\n.nf\n{}\n.fi", roff(part)),
            false => writeln!(page, ".PP\n{}", roff(wrapped(part, 78).trim_end())),
        };
    }
    page
}

/// The man page of the files.
fn formats_manual() -> String {
    let topic = &topics::ALL[0];
    let mut page = String::from(".TH DUKNAVET-FORMATS 5\n.SH NAME\n");
    let _ = writeln!(page, "duknavet\\-formats \\- {}", roff(topic.purpose));
    page.push_str(".SH DESCRIPTION\n");
    page.push_str(&topic_manual(topic));
    page.push_str(".SH SEE ALSO\n.BR duknavet-tool (1)\n");
    page
}

/// What bash asks to complete a command line: subcommands first, then options and files.
pub fn completion() -> String {
    let names = || commands::ALL.iter().map(|command| command.name);
    let helped = names().chain(topics::ALL.iter().map(|topic| topic.name));
    let first: Vec<&str> = names()
        .chain(["help", "--help", "--version", "--man", "--completion"])
        .collect();
    let helped: Vec<&str> = helped.collect();
    let mut cases = String::new();
    for command in commands::ALL {
        let options = command.choices().map(|choice| choice.name);
        let options: Vec<String> = options
            .chain(["help"])
            .map(|name| format!("--{name}"))
            .collect();
        let _ = writeln!(
            cases,
            "    {}) options='{}' ;;",
            command.name,
            options.join(" ")
        );
    }
    COMPLETION
        .replace("FIRST", &first.join(" "))
        .replace("HELPED", &helped.join(" "))
        .replace("    CASES\n", &cases)
}

const COMPLETION: &str = r#"# bash completion for duknavet-tool, as `duknavet-tool --completion` prints it
_duknavet_tool() {
    local word=${COMP_WORDS[COMP_CWORD]} options=''
    if [ "$COMP_CWORD" -eq 1 ]; then
        COMPREPLY=($(compgen -W 'FIRST' -- "$word"))
        return
    fi
    case ${COMP_WORDS[1]} in
    help) COMPREPLY=($(compgen -W 'HELPED' -- "$word")); return ;;
    CASES
    esac
    case $word in
    -*) COMPREPLY=($(compgen -W "$options" -- "$word")) ;;
    *) COMPREPLY=($(compgen -f -- "$word")) ;;
    esac
}
complete -o filenames -F _duknavet_tool duknavet-tool
"#;

/// The words in lines of at most so many characters.
fn wrapped(words: &str, width: usize) -> String {
    let mut text = String::new();
    let mut column = 0;
    for word in words.split_whitespace() {
        let length = word.chars().count();
        if column > 0 && column + 1 + length > width {
            text.push('\n');
            column = 0;
        } else if column > 0 {
            text.push(' ');
            column += 1;
        }
        text.push_str(word);
        column += length;
    }
    text.push('\n');
    text
}

/// The man page of the tool.
fn manual() -> String {
    let mut page = String::from(".TH DUKNAVET-TOOL 1\n.SH NAME\n");
    let _ = writeln!(page, "duknavet-tool \\- {}", roff(PURPOSE));
    page.push_str(
        ".SH SYNOPSIS\n.B duknavet-tool\n.I SUBCOMMAND\narguments [options]\n.SH DESCRIPTION\n",
    );
    let _ = writeln!(page, "{}", roff(wrapped(FILES, 78).trim_end()));
    page.push_str(".SH SUBCOMMANDS\n");
    for command in commands::ALL {
        let _ = writeln!(
            page,
            ".TP\n.B {} {}",
            command.name,
            roff(&synopsis(command))
        );
        let _ = writeln!(page, "{}", roff(&capitalized(command.purpose)));
        let _ = writeln!(page, "{}", roff(wrapped(command.details, 78).trim_end()));
        for choice in command.choices() {
            let value = choice.value.unwrap_or("");
            let shown = format!("--{} {value}", choice.name);
            let _ = writeln!(
                page,
                ".br\n{}: {}.",
                roff(shown.trim_end()),
                roff(choice.meaning)
            );
        }
    }
    for topic in topics::ALL.iter().skip(1) {
        let _ = writeln!(page, ".SH {}", topic.name.to_uppercase());
        page.push_str(&topic_manual(topic));
    }
    page.push_str(".SH EXIT STATUS\n");
    for (status, meaning) in STATUS {
        let _ = writeln!(page, ".TP\n{status}\n{}", roff(meaning));
    }
    page.push_str(
        ".SH SEE ALSO\n.BR duknavet-formats (5),\ndocs/TOOL.md and docs/FORMATS.md of the repository.\n",
    );
    page
}

/// A text as roff has it: a backslash, a hyphen and a line that begins with a dot or a quote mean something else there.
fn roff(text: &str) -> String {
    let escaped = text.replace('\\', "\\e").replace('-', "\\-");
    let line = |line: &str| match line.starts_with(['.', '\'']) {
        true => format!("\\&{line}"),
        false => line.to_string(),
    };
    escaped.lines().map(line).collect::<Vec<_>>().join("\n")
}
