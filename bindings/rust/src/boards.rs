//! The harbour board: up to eight strong rules that enter and leave while events go on.

use crate::answer::{foreign, unpack, unpack_of_board};
use crate::{raw, Monitor, Refused, BOARD_NAMES, BOARD_STATE, RULE_OUT};

/// Who is present on a board, each one's monitor, and the lowest grade that they stand for.
///
/// It goes into each call and comes back from it; the rules' files stand in bytes that are lent, that of name i from byte
/// [`RULE_OUT`](crate::RULE_OUT)·i on.
#[derive(Clone, Copy, Debug, PartialEq, Eq, Hash)]
pub struct Board {
    state: [u8; BOARD_STATE],
}

/// A refused call, with the board as it was.
#[derive(Clone, Copy, Debug, PartialEq, Eq, Hash)]
pub struct NotPosted {
    /// The board that the call was given.
    pub board: Board,
    /// Why the call refused.
    pub refused: Refused,
}

impl std::fmt::Display for NotPosted {
    fn fmt(&self, f: &mut std::fmt::Formatter<'_>) -> std::fmt::Result {
        self.refused.fmt(f)
    }
}

impl std::error::Error for NotPosted {}

impl Board {
    /// A board where nobody is present.
    pub fn empty() -> Board {
        let mut state = [0; BOARD_STATE];
        let packed = raw::board_empty(&mut state);
        match unpack(packed) {
            Ok(_) => Board { state },
            Err(_) => foreign(packed, "an empty board is never refused"),
        }
    }

    /// The board of a state: for each name 0 where no rule is present and else any other byte, `before` and `since`; then the lowest grade. Any
    /// bytes are a board, and what they lack is told by the next call.
    pub fn from_state(state: [u8; BOARD_STATE]) -> Board {
        Board { state }
    }

    /// Its state.
    pub fn state(&self) -> [u8; BOARD_STATE] {
        self.state
    }

    /// Whether a rule is present under the name; of a name above 7 there is none.
    pub fn is_present(&self, name: usize) -> bool {
        name < BOARD_NAMES && self.state[3 * name] != 0
    }

    /// The names under which a rule is present, the lowest first.
    pub fn names(&self) -> impl Iterator<Item = usize> + '_ {
        (0..BOARD_NAMES).filter(|&name| self.is_present(name))
    }

    /// The monitor of the rule under a name, if one is present there.
    pub fn monitor(&self, name: usize) -> Option<Monitor> {
        self.is_present(name).then(|| Monitor {
            before: usize::from(self.state[3 * name + 1]),
            since: usize::from(self.state[3 * name + 2]),
        })
    }

    /// The lowest grade among the rules that have heard an event since their last mark, none if there is no such rule.
    pub fn lowest(&self) -> Option<u8> {
        Some(self.state[BOARD_STATE - 1]).filter(|&grade| grade <= 3)
    }
}

/// The file of a name in the bytes that a board's files stand in, up to the end that its own counts give; where they give none that is there, all
/// bytes up to the next name's.
pub fn board_file(files: &[u8], name: usize) -> &[u8] {
    let from = files.len().min(RULE_OUT.saturating_mul(name));
    let to = files.len().min(from + RULE_OUT);
    let slot = &files[from..to];
    let count = |at: usize| slot.get(at).map_or(0, |count| usize::from(*count));
    let letters_at = 1 + count(0) * count(0);
    let marks_at = letters_at + 1 + count(letters_at);
    let marks = count(marks_at) + 256 * count(marks_at + 1);
    &slot[..slot.len().min(marks_at + 2 + 3 * marks)]
}

/// A rule enters under a free name from 0 to 7, with a fresh monitor; its file is copied to its place in `files`.
///
/// `files` has [`BOARD_FILES`](crate::BOARD_FILES) bytes or more. Every call on a board checks all rules that are present, and a refused one changes
/// neither the board nor a byte of the files.
pub fn board_enter(
    board: Board,
    name: usize,
    file: &[u8],
    files: &mut [u8],
    scratch: &mut [u8],
) -> Result<Board, NotPosted> {
    posted(board, |state| {
        raw::board_enter(state, name, file, files, scratch)
    })
}

/// The rule under a name leaves. No byte of its file is written.
pub fn board_leave(
    board: Board,
    name: usize,
    files: &[u8],
    scratch: &mut [u8],
) -> Result<Board, NotPosted> {
    posted(board, |state| raw::board_leave(state, name, files, scratch))
}

/// An event for all rules that are present. One that is foreign to a rule is refused, with the lowest such name as input.
pub fn board_event(
    board: Board,
    letter: u8,
    files: &[u8],
    scratch: &mut [u8],
) -> Result<Board, NotPosted> {
    posted(board, |state| {
        raw::board_event(state, letter, files, scratch)
    })
}

/// A mark for all rules that are present.
pub fn board_mark(board: Board, files: &[u8], scratch: &mut [u8]) -> Result<Board, NotPosted> {
    posted(board, |state| raw::board_mark(state, files, scratch))
}

fn posted(board: Board, call: impl FnOnce(&mut [u8]) -> u64) -> Result<Board, NotPosted> {
    let mut state = board.state;
    let packed = call(&mut state);
    match unpack_of_board(packed) {
        Ok([lowest, 0, 0]) if lowest == usize::from(state[BOARD_STATE - 1]) => Ok(Board { state }),
        Ok(_) => foreign(packed, "the lowest grade is not the state's"),
        Err(refused) => Err(NotPosted { board, refused }),
    }
}
