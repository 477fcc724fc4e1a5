//! The letters of a board: the order in which its rules have them.
//!
//! It is that of the first rule that calls its letters, or what the command line fixes, and stands until the board
//! is empty. A rule that enters is put in that order. New propositions come behind those that are there, and then
//! the rules present get them too: their elements stay, so that what they heard stands.

use crate::meeting::acting;
use crate::output;
use duknavet::files::Rule;
use duknavet::letters::{meet, Common};
use duknavet::text::Names;
use duknavet::{Board, RuleBoard, BOARD_FILES, RULE_OUT};

/// How the letters of a board are called.
#[derive(Default)]
pub struct Order {
    pub names: Names,
    /// What the command line fixes, if it does.
    fixed: Names,
}

impl Order {
    pub fn new(names: Names, fixed: Names) -> Order {
        Order { names, fixed }
    }

    /// Forgets the order of a board that is empty, unless it is fixed.
    pub fn leave(&mut self, board: Board) {
        if is_empty(board) {
            self.names = self.fixed.clone();
        }
    }

    /// The board with its letters and a rule that may enter it in the same order, and how the letters are called
    /// then. The rule passed its checks as it stands.
    pub fn meeting(
        &self,
        board: &RuleBoard,
        rule: &[u8],
        names: &Names,
        file: &str,
    ) -> Result<(RuleBoard, Vec<u8>, Names), String> {
        let met = meet(&self.names, names);
        match met.map_err(|apart| apart.in_words("the board", file))? {
            Some(common) => {
                let Common {
                    first,
                    second,
                    names,
                } = common;
                let board = match names == self.names {
                    true => board.clone(),
                    false => with_letters(board, &first),
                };
                Ok((board, acting(rule, &second), names))
            }
            None => {
                let called = self.by_number(board, rule, names, file)?;
                Ok((board.clone(), rule.to_vec(), called))
            }
        }
    }

    /// What letters are called where the board or the rule does not call them, so that they go by their numbers.
    fn by_number(
        &self,
        board: &RuleBoard,
        rule: &[u8],
        names: &Names,
        file: &str,
    ) -> Result<Names, String> {
        let (called, unnamed) = match (self.names.any(), names.any()) {
            (true, _) => (&self.names, file),
            (_, true) => (names, "the board"),
            _ => return Ok(Names::none()),
        };
        let wanted = called.count();
        if letters(rule) != wanted || !all_have(board, wanted) {
            return Err(format!(
                "{unnamed} names no letters, and there are not as many as of {}",
                if self.names.any() { "the board" } else { file }
            ));
        }
        if self.names.any() || !is_empty(board.board()) {
            output::complain(&format!(
                "{unnamed} names no letters, so they go by their numbers"
            ));
        }
        Ok(called.clone())
    }
}

fn is_empty(board: Board) -> bool {
    board.names().next().is_none()
}

fn letters(rule: &[u8]) -> Option<usize> {
    Rule::take_apart(rule).map(|own| own.images.len())
}

/// Whether every rule of a board has so many letters.
pub fn all_have(board: &RuleBoard, count: Option<usize>) -> bool {
    let posted = board.board();
    let mut present = posted.names().filter_map(|name| board.file(name));
    present.all(|rule| letters(rule) == count)
}

/// A board whose rules have other letters, each acting as one of their own.
fn with_letters(board: &RuleBoard, acts_as: &[u8]) -> RuleBoard {
    let mut files = vec![0; BOARD_FILES];
    for name in board.board().names() {
        let file = board.file(name).map(|own| acting(own, acts_as));
        let file = file.unwrap_or_default();
        let from = RULE_OUT * name;
        if let Some(there) = files.get_mut(from..from + file.len()) {
            there.copy_from_slice(&file);
        }
    }
    RuleBoard::resumed(board.board(), files)
}
