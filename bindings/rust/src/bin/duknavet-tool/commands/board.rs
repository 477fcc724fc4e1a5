//! Rules that enter and leave while events come.

use super::confirm::confirmed_over;
use crate::arguments::Arguments;
use crate::board_letters::{all_have, Order};
use crate::board_state::{self, BoardState, Found, Origins, Rules};
use crate::command::{Answer, Choice, Command, Failure};
use crate::former::image;
use crate::input::{self, Source};
use crate::meeting;
use crate::report;
use crate::station::{
    self, options, Fault, Fingerprint, Machine, Options, Progress, Reply, Request, StateFile,
};
use duknavet::text::{Kind, Names};
use duknavet::words::Explained;
use duknavet::{Board, RuleBoard, RuleMonitor, NONE, POINTS};
use std::ffi::OsStr;
use std::sync::Arc;

pub const COMMAND: Command = Command {
    name: "board",
    arguments: "nothing",
    least: 0,
    most: 0,
    purpose: "keep a board of up to eight strong rules by requests from standard input",
    options: &[
        options::STATE,
        options::RESUME,
        options::SAVE_EVERY,
        options::SAVE_AFTER,
        options::ON_CHANGE,
        options::FIELD,
        options::SKIP_UNKNOWN,
        LETTERS,
        PROPOSITIONS,
        meeting::BY_NUMBER,
    ],
    common: &[report::OPTIONS],
    details: "A line is enter N FILE, the rule in FILE under the free name N, 0 to 7; leave N; replace N FILE \
MAP, the reduction in FILE in place of the rule N, where confirm says yes to MAP; event LETTER, by \
number, by name or as in a & !b; mark; who; or save. A file's name with blanks or a # stands in \
quotes; a line has at most 256 bytes. The letters are called as in the first rule that names any, \
or as an option says, until the board is empty: a rule that enters has its letters put in that \
order, new propositions come behind, and one with other names is not let in; with --by-number what \
files call their letters is passed over. Empty lines and \
comments, from # on, are passed over. Each other line has one answer: the lowest grade among the \
rules that heard an event since their last mark, or none; for who the rules present, each with its \
name, the fingerprint of its bytes as they came, and its grade; for save, saved or not saved; or \
refused and the numbers, the input a rule's name, or not understood, with the words on standard \
error, and then nothing has changed. Status, --state, with the rules in the state, and --resume \
are as for follow. Memory stays the same however many events come.",
    run,
};

const LETTERS: Choice = Choice {
    name: "letters",
    value: Some("NAMES"),
    meaning: "the board's letters, as in open,shut; else those of the first rule that names any",
};

const PROPOSITIONS: Choice = Choice {
    name: "ap",
    value: Some("NAMES"),
    meaning: "the propositions that the board's letters are valuations of, as in a,b",
};

fn run(arguments: &Arguments) -> Result<Answer, Failure> {
    let options = Options::read(arguments)?;
    let fixed = fixed_letters(arguments)?;
    let file = arguments.file("state").map(StateFile::open).transpose()?;
    let found = file.as_ref().map(board_state::read).transpose()?;
    let found = found.flatten().unwrap_or_else(|| Found {
        board: RuleBoard::new(),
        names: Names::none(),
        origins: Origins::default(),
        progress: Some(Progress::NONE),
    });
    let names = start(file.as_ref(), &found, &fixed)?;
    let order = Order::new(names, fixed);
    let rules = Rules::of(&found.board, &order.names, &found.origins);
    let by_number = arguments.has(meeting::BY_NUMBER.name);
    if by_number {
        meeting::tell_by_number();
    }
    let posting = Posting {
        board: found.board,
        order,
        by_number,
        origins: found.origins,
        rules: Arc::new(rules),
    };
    station::run(posting, options, file, found.progress)
}

/// The letters that the command line fixes.
fn fixed_letters(arguments: &Arguments) -> Result<Names, Failure> {
    let names = |option: Choice| arguments.value(option.name).map(meeting::names_in);
    let read = match (names(LETTERS), names(PROPOSITIONS)) {
        (Some(_), Some(_)) => Err("`--letters` and `--ap` do not go together".to_string()),
        (Some(letters), None) => Names::letters(&letters),
        (None, Some(propositions)) => Names::propositions(&propositions),
        (None, None) => Ok(Names::none()),
    };
    read.map_err(|message| arguments.usage(&message))
}

/// How the letters of a board that is taken up are called: as its state says, and what is fixed has to be the same.
fn start(file: Option<&StateFile>, found: &Found, fixed: &Names) -> Result<Names, Failure> {
    let (names, board) = (&found.names, &found.board);
    if !fixed.any() || names == fixed {
        return Ok(names.clone());
    }
    match (file, !names.any() && all_have(board, fixed.count())) {
        (None, _) | (_, true) => Ok(fixed.clone()),
        (Some(file), false) => Err(file.refused("the rules of the state have other letters")),
    }
}

struct Posting {
    board: RuleBoard,
    order: Order,
    /// What files call their letters is passed over.
    by_number: bool,
    origins: Origins,
    rules: Arc<Rules>,
}

impl Machine for Posting {
    type State = BoardState;
    const BARE_LETTERS: bool = false;

    fn answer(&mut self, request: Request) -> Result<Reply, Fault> {
        let posted = match request {
            Request::Event(letter) => {
                let letter = station::letter(&letter, &self.order.names)?;
                self.board.event(letter)?
            }
            Request::Mark => self.board.mark()?,
            Request::Enter { name, file } => self.enter(name, &file)?,
            Request::Replace { name, file, map } => self.replace(name, &file, &map)?,
            Request::Leave(name) => {
                let left = self.board.leave(name)?;
                self.order.leave(left);
                self.post(name, None);
                left
            }
            Request::Who => return Ok(Reply::Said(self.who()?)),
            Request::Verdict | Request::Keep(_) | Request::Return(_) | Request::Save => {
                let message = "a board has no verdict and no points of its own";
                return Err(Fault::NotUnderstood(message.to_string()));
            }
        };
        Ok(Reply::Moved(shown(posted)))
    }

    fn grade(&mut self) -> Result<String, Explained> {
        Ok(shown(self.board.board()))
    }

    fn state(&self) -> BoardState {
        BoardState {
            board: self.board.board(),
            rules: Arc::clone(&self.rules),
        }
    }
}

impl Posting {
    fn enter(&mut self, name: usize, file: &str) -> Result<Board, Fault> {
        let source = read(file, Kind::Rule)?;
        // As it stands first, so that what is wrong with it is told of the file.
        self.board.clone().enter(name, &source.bytes)?;
        let (mut board, rule, names) = self.met(&source)?;
        let entered = board.enter(name, &rule)?;
        self.board = board;
        self.order.names = names;
        self.post(name, Some(Fingerprint::of(&source.bytes)));
        Ok(entered)
    }

    /// The rule under a name is replaced by its reduction, with what it heard.
    fn replace(&mut self, name: usize, file: &str, map: &str) -> Result<Board, Fault> {
        let (source, map) = (read(file, Kind::Rule)?, read(map, Kind::Map)?);
        let mut tried = self.board.clone();
        tried.leave(name)?;
        tried.enter(name, &source.bytes)?;
        let (board, rule, names) = self.met(&source)?;
        let old = board.file(name).unwrap_or_default();
        confirmed_over(&names, old, &rule, &map.bytes)?.map_err(|no| {
            let map = &map.name;
            Fault::NotUnderstood(format!("{map} does not take rule {name} to {file}: {no}"))
        })?;
        let mut state = board.board().state();
        for value in state.iter_mut().skip(3 * name + 1).take(2) {
            *value = image(&map.bytes, *value);
        }
        let mut entered = board;
        entered.leave(name)?;
        entered.enter(name, &rule)?;
        // Its grade is what it was, and so is the lowest.
        let replaced = Board::from_state(state);
        let replaced = RuleBoard::resumed(replaced, entered.files().to_vec());
        replaced.clone().mark()?;
        self.board = replaced;
        self.order.names = names;
        self.post(name, Some(Fingerprint::of(&source.bytes)));
        Ok(self.board.board())
    }

    /// The board and a rule with their letters in the same order.
    fn met(&self, source: &Source) -> Result<(RuleBoard, Vec<u8>, Names), Fault> {
        let none = Names::none();
        let names = if self.by_number { &none } else { &source.names };
        let met = self
            .order
            .meeting(&self.board, &source.bytes, names, &source.name);
        met.map_err(Fault::NotUnderstood)
    }

    /// Notes which file came under a name, or that none stands there.
    fn post(&mut self, name: usize, origin: Option<Fingerprint>) {
        if let Some(own) = self.origins.get_mut(name) {
            *own = origin;
        }
        let rules = Rules::of(&self.board, &self.order.names, &self.origins);
        self.rules = Arc::new(rules);
    }

    /// The rules present, each with its name, the fingerprint of what came, and its grade.
    fn who(&self) -> Result<String, Explained> {
        let mut present = Vec::new();
        for name in self.board.board().names() {
            let file = self.board.file(name).unwrap_or_default();
            let monitor = self.board.board().monitor(name);
            let origin = self.origins.get(name).copied().flatten();
            if let (Some(monitor), Some(origin)) = (monitor, origin) {
                let grade = match monitor.since {
                    NONE => "none".to_string(),
                    _ => {
                        let mut own = RuleMonitor::resumed(file, monitor, [0; POINTS]);
                        own.verdict()?.grade.to_string()
                    }
                };
                present.push(format!("{name} {origin} grade {grade}"));
            }
        }
        Ok(match present.is_empty() {
            true => "who nobody\n".to_string(),
            false => format!("who {}\n", present.join(", ")),
        })
    }
}

/// A file that a line names.
fn read(file: &str, kind: Kind) -> Result<Source, Fault> {
    input::expected(OsStr::new(file), kind).map_err(|failure| match failure {
        Failure::Refused(message)
        | Failure::ByCall(_, message)
        | Failure::Usage(message)
        | Failure::Files(message) => Fault::NotUnderstood(message),
        Failure::Closed => Fault::NotUnderstood(format!("{file} cannot be read")),
    })
}

fn shown(board: Board) -> String {
    match board.lowest() {
        Some(grade) => format!("lowest {grade}\n"),
        None => "lowest none\n".to_string(),
    }
}
