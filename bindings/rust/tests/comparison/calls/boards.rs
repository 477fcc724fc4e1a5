//! Calls on a board, from its state and the bytes of its files alone.

use super::markings::outcomes;
use super::{lengths, Comparison};
use crate::definitions::acceptance::grade;
use crate::definitions::boards::{self, Slot, NAMES, NO_GRADE, STATE};
use crate::definitions::checks::{self, Refusal};
use crate::lending::Lent;
use crate::subject::{Known, Subject};
use duknavet::{Board, NotPosted, Refused, BOARD_FILES, NONE, SCRATCH};
use std::collections::HashMap;
use std::rc::Rc;

pub const BOARD_SIZES: [usize; 2] = [BOARD_FILES, SCRATCH];

/// What is asked of a board.
pub enum Deed {
    Enter(usize, Rc<Subject>),
    Leave(usize),
    Event(u8),
    Mark,
}

impl Deed {
    pub fn call(&self) -> &'static str {
        match self {
            Deed::Enter(..) => "board_enter",
            Deed::Leave(_) => "board_leave",
            Deed::Event(_) => "board_event",
            Deed::Mark => "board_mark",
        }
    }
}

/// Files that were read before: a file stands on a board for many calls.
#[derive(Default)]
pub struct Subjects(HashMap<Vec<u8>, Rc<Subject>>);

impl Subjects {
    pub fn of(&mut self, bytes: &[u8]) -> Rc<Subject> {
        if let Some(subject) = self.0.get(bytes) {
            return subject.clone();
        }
        let subject = Rc::new(Subject::new(bytes.to_vec()));
        self.0.insert(bytes.to_vec(), subject.clone());
        subject
    }
}

/// A file that is copied, and to which byte of the files.
type Copied = (usize, Rc<Subject>);

/// A state and the bytes that the files stand in.
#[derive(Clone)]
pub struct Held {
    pub state: [u8; STATE],
    pub files: Vec<u8>,
}

impl Comparison {
    /// Whether the deed was done; the state and the files are then those after it.
    pub fn board(
        &mut self,
        held: &mut Held,
        deed: &Deed,
        subjects: &mut Subjects,
        sizes: [usize; 2],
    ) -> Option<u8> {
        let call = deed.call();
        let [mut files, mut scratch] = self.lend(sizes);
        files.begin(&held.files);
        let board = Board::from_state(held.state);
        let answer = match deed {
            Deed::Enter(name, file) => {
                duknavet::board_enter(board, *name, &file.bytes, files.slice(), scratch.slice())
            }
            Deed::Leave(name) => {
                duknavet::board_leave(board, *name, files.slice(), scratch.slice())
            }
            Deed::Event(letter) => {
                duknavet::board_event(board, *letter, files.slice(), scratch.slice())
            }
            Deed::Mark => duknavet::board_mark(board, files.slice(), scratch.slice()),
        };
        let expected = self.posted(held, deed, subjects, sizes);
        if let Err((number, input, _)) = &expected {
            self.count_refused(held, deed, (*number, *input));
        }
        let (next, copied) = self.as_expected(call, answer, board, expected, &files, &scratch)?;
        if let Some((from, file)) = copied {
            held.files[from..from + file.bytes.len()].copy_from_slice(&file.bytes);
        }
        assert!(
            files.written(BOARD_FILES) == held.files,
            "files after {call}"
        );
        held.state = next;
        let lowest = next[STATE - 1];
        self.tally.count(call, "done");
        self.tally.count("board", format!("lowest {lowest}"));
        Some(lowest)
    }

    /// The refusal of a deed on buffers that are long enough, if there is one.
    pub fn board_refusal(
        &mut self,
        held: &Held,
        deed: &Deed,
        subjects: &mut Subjects,
    ) -> Option<Refusal> {
        self.posted(held, deed, subjects, BOARD_SIZES).err()
    }

    /// Holds an answer against what is expected: the state, and every byte where it was refused.
    fn as_expected<T>(
        &mut self,
        call: &str,
        answer: Result<Board, NotPosted>,
        given: Board,
        expected: Result<([u8; STATE], T), Refusal>,
        files: &Lent,
        scratch: &Lent,
    ) -> Option<([u8; STATE], T)> {
        let answer: Result<[u8; STATE], Refused> = match answer {
            Ok(board) => Ok(board.state()),
            Err(NotPosted { board, refused }) => {
                assert_eq!(board, given, "a refused {call} changed the board");
                Err(refused)
            }
        };
        let (expected, more) = match expected {
            Ok((state, more)) => (Ok(state), Some(more)),
            Err(refusal) => (Err(refusal), None),
        };
        let inputs: [&[u8]; 1] = [&given.state()];
        let found = self.agreed(call, &inputs, answer, expected, (&[files], scratch));
        let (answer, expected) = found?;
        assert_eq!(answer, expected, "{call} on {inputs:?}");
        Some((answer, more?))
    }

    /// The state after a deed and what is copied where, or the first check that fails.
    fn posted(
        &mut self,
        held: &Held,
        deed: &Deed,
        subjects: &mut Subjects,
        sizes: [usize; 2],
    ) -> Result<([u8; STATE], Option<Copied>), Refusal> {
        lengths(sizes, BOARD_SIZES)?;
        let mut slots = boards::slots(&held.state);
        match deed {
            Deed::Enter(name, _) => boards::free(&slots, *name)?,
            Deed::Leave(name) => boards::present(&slots, *name)?,
            _ => {}
        }
        let mut read: Vec<Option<Rc<Subject>>> = vec![None; NAMES];
        for (name, slot) in slots.iter().enumerate().filter(|(_, slot)| slot.present) {
            let subject = subjects.of(boards::file(&held.files, name));
            self.standing(name, slot, &subject)?;
            read[name] = Some(subject);
        }
        let mut copied = None;
        match deed {
            Deed::Enter(name, file) => {
                let fresh = Slot {
                    present: true,
                    before: NONE as u8,
                    since: NONE as u8,
                };
                self.standing(*name, &fresh, file)?;
                slots[*name] = fresh;
                read[*name] = Some(file.clone());
                copied = Some((name * boards::SLOT, file.clone()));
            }
            Deed::Leave(name) => {
                slots[*name].present = false;
                read[*name] = None;
            }
            Deed::Event(letter) => {
                for (name, subject) in read.iter().enumerate() {
                    let Some(subject) = subject else { continue };
                    let m = subject.known().morphism();
                    boards::letter(m, name, *letter)?;
                }
                for (slot, subject) in slots.iter_mut().zip(&read) {
                    let Some(subject) = subject else { continue };
                    slot.event(subject.known().morphism(), *letter);
                }
            }
            Deed::Mark => {
                for (slot, subject) in slots.iter_mut().zip(&read) {
                    let Some(subject) = subject else { continue };
                    slot.mark(subject.known().morphism());
                }
            }
        }
        let grades = slots.iter().zip(&read);
        let grades =
            grades.filter_map(|(slot, subject)| slot_grade(slot, subject.as_ref()?.known()));
        let lowest = grades.min().unwrap_or(NO_GRADE);
        Ok((boards::state(&slots, lowest), copied))
    }

    /// The checks of a rule that is present or enters, told of its name: its file, its monitor, its strength.
    fn standing(&mut self, name: usize, slot: &Slot, subject: &Subject) -> Result<(), Refusal> {
        let named = |(number, _, place): Refusal| (number, name as u8, place);
        let known = subject.read.as_ref().map_err(|refusal| named(*refusal))?;
        let (before, since) = (slot.before as usize, slot.since as usize);
        checks::monitor(known.morphism(), before, since).map_err(named)?;
        self.asked_strong(subject).map_err(named).map(|_| ())
    }

    /// Counts refusals that come before others that would apply too.
    fn count_refused(&mut self, held: &Held, deed: &Deed, (number, input): (u8, u8)) {
        let slots = boards::slots(&held.state);
        let call = deed.call();
        if let Deed::Enter(name, _) = deed {
            let own = *name == usize::from(input) && !matches!(number, 13 | 21);
            let what = if own {
                "the entering file refused"
            } else {
                "refused before the entering file"
            };
            self.tally.count(call, what);
            if number == 21 {
                let why = if *name < NAMES { "taken" } else { "above 7" };
                self.tally.count(call, format!("a name {why}"));
            }
        }
        if let Deed::Leave(name) = deed {
            if number == 22 {
                let why = if *name < NAMES { "free" } else { "above 7" };
                self.tally.count(call, format!("a name {why}"));
            }
            if usize::from(input) == *name && !matches!(number, 13 | 22) {
                self.tally.count(call, "refused for the one that leaves");
            }
        }
        if let Deed::Event(letter) = deed {
            if number == 10 {
                let foreign = slots.iter().enumerate().filter(|(name, slot)| {
                    let letters = boards::file(&held.files, *name);
                    slot.present && usize::from(*letter) >= boards::letters(letters)
                });
                if foreign.count() > 1 {
                    self.tally.count(call, "foreign to several rules");
                }
            }
        }
    }
}

/// The grade of the lassos with a monitor's values, if it has a since.
fn slot_grade(slot: &Slot, known: &Known) -> Option<u8> {
    let m = known.morphism();
    let (before, since) = (slot.before as usize, slot.since as usize);
    match (before, since) {
        (_, NONE) => None,
        (NONE, since) => Some(grade(m, &known.marking, &[], &known.words[since])),
        (before, since) => Some(outcomes(known)[before * m.n + since]),
    }
}
