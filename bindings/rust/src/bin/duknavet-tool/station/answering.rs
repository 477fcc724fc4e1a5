//! The run of a station: each line is answered, answers are written as soon as no input waits, and the state is kept.

use super::keeper::{self, Keeper, Snapshot};
use super::language::{self, Request};
use super::lines::{self, Line, Lines};
use super::machine::{Fault, Machine, MachineState, Reply};
use super::options::{Objects, Options};
use super::progress::Progress;
use super::sealed;
use super::state_file::StateFile;
use super::waiting::Waiting;
use crate::command::{Answer, Failure};
use crate::report::{self, About};
use crate::{json, output};
use duknavet::words::Explained;
use duknavet::Refusal;

/// As many bytes of answers are held back at most while more lines wait.
const MOST_ANSWERS: usize = 65_536;

/// How many lines were not done.
#[derive(Clone, Copy, Default)]
struct Tally {
    refused: u64,
    skipped: u64,
}

impl Tally {
    fn words(&self) -> Option<String> {
        let refused = (self.refused > 0).then(|| format!("{} refused", lines::lines(self.refused)));
        let skipped = (self.skipped > 0).then(|| {
            format!(
                "{} passed over that had no letter",
                lines::lines(self.skipped)
            )
        });
        let parts: Vec<String> = refused.into_iter().chain(skipped).collect();
        (!parts.is_empty()).then(|| parts.join(", "))
    }
}

/// A state as it is saved.
struct Standing<S> {
    machine: S,
    progress: Progress,
    tally: Tally,
}

impl<S: MachineState> Snapshot for Standing<S> {
    fn text(&self) -> String {
        let lines = format!("{}{}\n", self.machine.lines(), self.progress.line());
        sealed::seal(S::KIND, &lines)
    }

    fn last_words(&self) -> Option<String> {
        self.tally.words()
    }
}

/// Answers lines until the input ends. With a file the state is saved there at the end, however it comes;
/// `progress` is what the state that was found there had read of its input, if it says so.
pub fn run<M: Machine>(
    machine: M,
    options: Options,
    file: Option<StateFile>,
    progress: Option<Progress>,
) -> Result<Answer, Failure> {
    let begun = resumed_from(&options, file.as_ref(), progress)?;
    let mut lines = Lines::of_standard_input(options.longest_line())?;
    let keeper = match file {
        Some(file) => Some(Keeper::start(file, options.save_after)?),
        None => None,
    };
    lines.skip(begun)?;
    let mut station = Station {
        machine,
        options,
        lines,
        keeper,
        progress: begun,
        handled: begun,
        waiting: Waiting::default(),
        unsaid: None,
        tally: Tally::default(),
        answers: Vec::new(),
        grade: None,
    };
    let answered = station.answer_lines();
    // Also where nobody reads the answers any more: what was followed so far is not lost.
    if let Some(keeper) = &station.keeper {
        keeper.save()?;
    }
    answered?;
    if let Some(words) = station.tally.words() {
        output::complain(&words);
    }
    Ok(match station.tally.refused {
        0 => Answer::Done,
        _ => Answer::No,
    })
}

/// What is to be passed over of the input.
fn resumed_from(
    options: &Options,
    file: Option<&StateFile>,
    progress: Option<Progress>,
) -> Result<Progress, Failure> {
    match (progress, file) {
        _ if !options.resume => Ok(Progress::NONE),
        (Some(progress), _) => Ok(progress),
        (None, None) => Ok(Progress::NONE),
        (None, Some(file)) => Err(file.refused(
            "its version, 1, does not say what was read of the input, so --resume cannot be",
        )),
    }
}

struct Station<M: Machine> {
    machine: M,
    options: Options,
    lines: Lines,
    keeper: Option<Keeper<Standing<M::State>>>,
    /// The lines that the machine stands for.
    progress: Progress,
    /// The lines that were taken, also those whose events wait.
    handled: Progress,
    waiting: Waiting,
    /// The answer to the last event that was fed, where none has been given since.
    unsaid: Option<String>,
    tally: Tally,
    /// Answers that are not written yet.
    answers: Vec<u8>,
    /// The grade that was printed last.
    grade: Option<String>,
}

impl<M: Machine> Station<M> {
    fn answer_lines(&mut self) -> Result<(), Failure> {
        // Lines may be here already, behind those that were passed over.
        if let Some(keeper) = &self.keeper {
            keeper.work();
        }
        self.settle()?;
        while let Some((line, progress)) = self.next_line()? {
            if progress.unfinished && self.options.resume {
                break;
            }
            self.answer(&line, progress)?;
            self.handled = progress;
            if self.waiting.is_full() {
                self.feed()?;
            }
            if self.waiting.is_empty() {
                self.progress = progress;
            }
            let every = self.options.save_every;
            if every.is_some_and(|every| progress.lines.is_multiple_of(every)) {
                self.settle()?;
                if let Some(Err(failure)) = self.keeper.as_ref().map(Keeper::save) {
                    keeper::complain_not_saved(&failure);
                }
            }
        }
        self.feed()?;
        if let Some(answer) = self.unsaid.take() {
            self.say(answer, self.progress);
        }
        self.settle()
    }

    /// The next line. Before it is waited for, the answers so far are written, and the state is handed over.
    fn next_line(&mut self) -> Result<Option<(Line, Progress)>, Failure> {
        if self.lines.waits() {
            if self.answers.len() >= MOST_ANSWERS {
                self.settle()?;
            }
            return self.lines.next(self.handled);
        }
        self.settle()?;
        if let Some(keeper) = &self.keeper {
            keeper.rest();
        }
        let next = self.lines.next(self.handled);
        if let Some(keeper) = &self.keeper {
            keeper.work();
        }
        next
    }

    /// Writes the answers and hands the state over, between two lines or within one that changed nothing.
    ///
    /// With `--resume` a line can be read again, so it counts once its answer was written; else it is gone from
    /// the input and counts though nobody reads the answer.
    fn settle(&mut self) -> Result<(), Failure> {
        self.feed()?;
        if !self.options.resume {
            self.publish();
        }
        output::write(&std::mem::take(&mut self.answers))?;
        if self.options.resume {
            self.publish();
        }
        Ok(())
    }

    fn publish(&self) {
        if let Some(keeper) = &self.keeper {
            keeper.publish(Standing {
                machine: self.machine.state(),
                progress: self.progress,
                tally: self.tally,
            });
        }
    }

    fn answer(&mut self, line: &Line, progress: Progress) -> Result<(), Failure> {
        if self.options.quiet {
            if let Some(letter) = self.event_of(line) {
                self.waiting.push(letter, progress);
                return Ok(());
            }
        }
        let requested = self.requested(line);
        if let Ok(None) = requested {
            return Ok(());
        }
        self.feed()?;
        self.waiting.forget();
        let replied = match requested {
            Ok(None) => return Ok(()),
            Ok(Some(Request::Save)) => self.save()?,
            Ok(Some(request)) => self.machine.answer(request),
            Err(fault) => Err(fault),
        };
        match replied.and_then(|reply| self.shown(reply)) {
            Ok(answer) => self.say(answer, progress),
            Err(fault) => self.refuse(fault, progress)?,
        }
        Ok(())
    }

    /// What a line asks for. What is no UTF-8 is a sign that stands for such bytes, and no letter.
    fn requested(&self, line: &Line) -> Result<Option<Request>, Fault> {
        let Line::Whole(line) = line else {
            return Err(Fault::NotUnderstood("the line is too long".to_string()));
        };
        let line = &String::from_utf8_lossy(line);
        match self.options.field {
            Some(column) => language::request_in_column(line, column).map_err(Fault::NoLetter),
            None => language::request(line, M::BARE_LETTERS).map_err(Fault::NotUnderstood),
        }
    }

    /// The letter of a line that is an event.
    fn event_of(&mut self, line: &Line) -> Option<u8> {
        let Line::Whole(bytes) = line else {
            return None;
        };
        if let Some(letter) = self.waiting.known(bytes) {
            return Some(letter);
        }
        let Ok(Some(Request::Event(words))) = self.requested(line) else {
            return None;
        };
        let letter = self.machine.feeding()?.letter(&words).ok()?;
        self.waiting.remember(bytes, letter);
        Some(letter)
    }

    /// Feeds the events that wait. One that is refused is answered as a line of its own, and those behind it are fed.
    fn feed(&mut self) -> Result<(), Failure> {
        if self.waiting.is_empty() {
            return Ok(());
        }
        let word = self.waiting.take();
        let (mut letters, mut lines) = (&word.letters[..], &word.lines[..]);
        while let Some(refused) = self.feed_part(letters, lines) {
            if let Err(explained) = self.hear(&letters[refused..=refused]) {
                self.refuse(Fault::Refused(explained), lines[refused])?;
            }
            self.progress = lines[refused];
            (letters, lines) = (&letters[refused + 1..], &lines[refused + 1..]);
        }
        self.progress = self.handled;
        Ok(())
    }

    /// Feeds events up to the first that is refused, and says which that is.
    fn feed_part(&mut self, letters: &[u8], lines: &[Progress]) -> Option<usize> {
        let refused = self.hear(letters).err()?.refused;
        let foreign = refused.refusal == Refusal::UnknownLetter;
        let place = usize::try_from(refused.place).ok().filter(|_| foreign);
        let place = place.filter(|place| *place < letters.len()).unwrap_or(0);
        if place == 0 {
            return Some(0);
        }
        match self.feed_part(&letters[..place], &lines[..place]) {
            None => {
                self.progress = lines[place - 1];
                Some(place)
            }
            earlier => earlier,
        }
    }

    /// Events wait only for a machine that takes them together.
    fn hear(&mut self, letters: &[u8]) -> Result<(), Explained> {
        if let Some(machine) = self.machine.feeding() {
            self.unsaid = Some(machine.feed(letters)?);
        }
        Ok(())
    }

    /// Says a line, or the object of its words; nothing where it is empty.
    fn say(&mut self, answer: String, progress: Progress) {
        let told = match &self.options.json {
            Some(_) if answer.is_empty() => answer,
            Some(objects) => report::object(about(objects, progress, 0), json::of_answer(&answer)),
            None => answer,
        };
        self.answers.extend(told.as_bytes());
    }

    /// The line that a reply is shown as, empty where the grade is wanted and is what it was.
    fn shown(&mut self, reply: Reply) -> Result<String, Fault> {
        match reply {
            Reply::Moved(_) if self.options.on_change => {
                let grade = self.machine.grade()?;
                let is_new = self.grade.as_ref() != Some(&grade);
                self.grade = Some(grade.clone());
                Ok(if is_new { grade } else { String::new() })
            }
            Reply::Moved(answer) => {
                self.unsaid = None;
                Ok(answer)
            }
            Reply::Said(answer) => Ok(answer),
        }
    }

    /// Saves at a line's request. One that fails is told and is not the end: the next may succeed.
    fn save(&mut self) -> Result<Result<Reply, Fault>, Failure> {
        self.settle()?;
        let Some(keeper) = &self.keeper else {
            let message = "there is no --state to save to";
            return Ok(Err(Fault::NotUnderstood(message.to_string())));
        };
        let answer = match keeper.save() {
            Ok(()) => "saved\n",
            Err(failure) => {
                keeper::complain_not_saved(&failure);
                "not saved\n"
            }
        };
        Ok(Ok(Reply::Said(answer.to_string())))
    }

    /// The answer to a line that was not done. Its words go to standard error, behind the answers before it.
    fn refuse(&mut self, fault: Fault, progress: Progress) -> Result<(), Failure> {
        let has_no_letter = match &fault {
            Fault::NoLetter(_) => true,
            Fault::Refused(explained) => explained.refused.refusal == Refusal::UnknownLetter,
            Fault::NotUnderstood(_) => false,
        };
        if has_no_letter && self.options.skip_unknown {
            self.tally.skipped = self.tally.skipped.saturating_add(1);
            return Ok(());
        }
        self.settle()?;
        self.tally.refused = self.tally.refused.saturating_add(1);
        if let Some(objects) = &self.options.json {
            let (refused, message) = match fault {
                Fault::Refused(explained) => (Some(explained.refused), explained.to_string()),
                Fault::NotUnderstood(message) | Fault::NoLetter(message) => (None, message),
            };
            let keys = report::refusal(refused, &message);
            let told = report::object(about(objects, progress, 2), keys);
            self.answers.extend(told.as_bytes());
            return Ok(());
        }
        let answer = match fault {
            Fault::Refused(explained) => refused(&explained),
            Fault::NotUnderstood(message) | Fault::NoLetter(message) => {
                let number = progress.lines + u64::from(progress.unfinished);
                output::complain(&format!("line {number}: {message}"));
                "not understood\n".to_string()
            }
        };
        self.answers.extend(answer.as_bytes());
        Ok(())
    }
}

/// What the object of a line is of.
fn about(objects: &Objects, progress: Progress, status: u8) -> About<'_> {
    About {
        command: objects.command,
        file: objects.file.as_deref(),
        line: Some(progress.lines + u64::from(progress.unfinished)),
        status,
    }
}

/// The numbers of a refusal for the answer; its words go to standard error.
fn refused(explained: &Explained) -> String {
    output::complain(&explained.to_string());
    let refused = explained.refused;
    format!(
        "refused {} input {} place {}\n",
        refused.refusal.number(),
        refused.input,
        refused.place
    )
}
