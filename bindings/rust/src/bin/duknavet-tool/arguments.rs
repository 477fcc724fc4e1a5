//! The words behind a subcommand: options and arguments.

use crate::command::{Command, Failure};
use crate::nearest::nearest;
use std::ffi::{OsStr, OsString};
use std::os::unix::ffi::OsStrExt as _;

/// The arguments and options that a subcommand was given.
pub struct Arguments {
    command: &'static str,
    plain: Vec<OsString>,
    options: Vec<(&'static str, Option<Value>)>,
}

/// The value of an option: as it was given, for the name of a file, and as words.
struct Value {
    given: OsString,
    words: String,
}

impl Value {
    fn new(given: OsString) -> Value {
        let words = given.to_string_lossy().into_owned();
        Value { given, words }
    }
}

impl Arguments {
    pub fn read(command: &Command, words: &[OsString]) -> Result<Arguments, Failure> {
        let mut arguments = Arguments {
            command: command.name,
            plain: Vec::new(),
            options: Vec::new(),
        };
        let mut words = words.iter();
        let mut only_plain = false;
        while let Some(word) = words.next() {
            let shown = word.to_string_lossy();
            if let Some(joined) = shown.strip_prefix("-o").filter(|_| !only_plain) {
                arguments.output(command, word, joined, &mut words)?;
                continue;
            }
            match shown.strip_prefix("--") {
                Some("") if !only_plain => only_plain = true,
                Some(option) if !only_plain => {
                    arguments.option(command, option, &mut words)?;
                }
                _ if !only_plain && shown.len() > 1 && shown.starts_with('-') => {
                    return Err(arguments.no_option(command, &shown));
                }
                _ => arguments.plain.push(word.clone()),
            }
        }
        let given = arguments.plain.len();
        if given < command.least || given > command.most {
            let shown = command.arguments;
            return Err(arguments.usage(&format!("it takes {shown}, but was given {given}")));
        }
        Ok(arguments)
    }

    /// `-o FILE`, or both in one word.
    fn output<'a>(
        &mut self,
        command: &Command,
        word: &OsStr,
        joined: &str,
        words: &mut impl Iterator<Item = &'a OsString>,
    ) -> Result<(), Failure> {
        if !command.choices().any(|own| own.name == "output") {
            return Err(self.no_option(command, "-o"));
        }
        if joined.is_empty() {
            return self.option(command, "output", words);
        }
        let file = OsStr::from_bytes(&word.as_bytes()[2..]).to_os_string();
        self.option(command, "output", &mut [file].iter())
    }

    fn option<'a>(
        &mut self,
        command: &Command,
        option: &str,
        words: &mut impl Iterator<Item = &'a OsString>,
    ) -> Result<(), Failure> {
        let (name, joined) = match option.split_once('=') {
            Some((name, value)) => (name, Some(Value::new(value.into()))),
            None => (option, None),
        };
        let Some(choice) = command.choices().find(|own| own.name == name) else {
            return Err(self.no_option(command, &format!("--{name}")));
        };
        let value = match (choice.value, joined) {
            (None, None) => None,
            (None, Some(_)) => {
                return Err(self.usage(&format!("`--{name}` takes no value")));
            }
            (Some(_), Some(value)) => Some(value),
            (Some(shown), None) => match words.next() {
                Some(value) => Some(Value::new(value.clone())),
                None => return Err(self.usage(&format!("`--{name}` needs {shown}"))),
            },
        };
        if self.options.iter().any(|(own, _)| *own == choice.name) {
            return Err(self.usage(&format!("`--{name}` stands twice")));
        }
        self.options.push((choice.name, value));
        Ok(())
    }

    /// That there is no such option, and which is nearest.
    fn no_option(&self, command: &Command, given: &str) -> Failure {
        let names = command.choices().map(|own| own.name);
        let nearest = match nearest(given.trim_start_matches('-'), names.chain(["help"])) {
            Some(nearest) => format!("; the nearest is `--{nearest}`"),
            None => String::new(),
        };
        self.usage(&format!("there is no option `{given}`{nearest}"))
    }

    pub fn command(&self) -> &'static str {
        self.command
    }

    /// Every argument.
    pub fn all(&self) -> &[OsString] {
        &self.plain
    }

    /// The first argument that names a file, or is a formula.
    pub fn first_file(&self) -> &OsStr {
        self.plain(match self.command {
            "combine" => 1,
            _ => 0,
        })
    }

    /// An argument by its place; there are as many as the subcommand asks for.
    pub fn plain(&self, place: usize) -> &OsStr {
        self.plain.get(place).map_or(OsStr::new("-"), |word| word)
    }

    fn given(&self, option: &str) -> Option<&Value> {
        let own = self.options.iter().find(|(own, _)| *own == option);
        own.and_then(|(_, value)| value.as_ref())
    }

    /// Whether an option that takes no value was given.
    pub fn has(&self, option: &str) -> bool {
        self.options.iter().any(|(own, _)| *own == option)
    }

    pub fn value(&self, option: &str) -> Option<&str> {
        self.given(option).map(|value| value.words.as_str())
    }

    /// The name of a file that an option gives.
    pub fn file(&self, option: &str) -> Option<&OsStr> {
        self.given(option).map(|value| value.given.as_os_str())
    }

    /// A number that an option gives, from `least` to `most`.
    pub fn number(
        &self,
        option: &str,
        least: usize,
        most: usize,
    ) -> Result<Option<usize>, Failure> {
        let Some(value) = self.value(option) else {
            return Ok(None);
        };
        let number: Option<usize> = value.parse().ok();
        match number.filter(|number| (least..=most).contains(number)) {
            Some(number) => Ok(Some(number)),
            None => Err(self.usage(&format!(
                "`--{option}` takes a number from {least} to {most}, not `{value}`"
            ))),
        }
    }

    /// One of the words that an option takes.
    pub fn one_of(&self, option: &str, words: &[&str]) -> Result<Option<&str>, Failure> {
        match self.value(option) {
            Some(value) if !words.contains(&value) => {
                let all = words.join(", ");
                Err(self.usage(&format!("`--{option}` takes one of {all}, not `{value}`")))
            }
            value => Ok(value),
        }
    }

    pub fn usage(&self, message: &str) -> Failure {
        let name = self.command;
        Failure::Usage(format!(
            "{name}: {message}; `duknavet-tool {name} --help` says more"
        ))
    }
}
