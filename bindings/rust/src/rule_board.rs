//! A board with the files of its rules and its scratch in one value.

use crate::words::{explain, Asked, Deed, Explained};
use crate::{board_file, Board, NotPosted, BOARD_FILES, SCRATCH};

/// A board where up to eight strong rules enter and leave while events go on. Its memory stays the same however many events come.
///
/// ```
/// use duknavet::RuleBoard;
///
/// let mut board = RuleBoard::new();
/// board.enter(3, &[2, 0, 0, 0, 1, 2, 0, 1, 1, 0, 0, 0, 3])?;
/// board.event(1)?;
/// assert_eq!(board.board().lowest(), Some(0));
/// board.mark()?;
/// assert_eq!(board.board().lowest(), None);
/// board.event(0)?;
/// assert_eq!(board.board().lowest(), Some(3));
/// board.leave(3)?;
/// assert_eq!(board.board().lowest(), None);
/// # Ok::<(), duknavet::words::Explained>(())
/// ```
#[derive(Clone, Debug)]
pub struct RuleBoard {
    board: Board,
    files: Vec<u8>,
    scratch: Vec<u8>,
}

impl Default for RuleBoard {
    fn default() -> RuleBoard {
        RuleBoard::new()
    }
}

impl RuleBoard {
    /// A board where nobody is present.
    pub fn new() -> RuleBoard {
        RuleBoard::resumed(Board::empty(), vec![0; BOARD_FILES])
    }

    /// A board as it was left, with the bytes that its files stand in. What is wrong with them is refused by the next call.
    pub fn resumed(board: Board, files: Vec<u8>) -> RuleBoard {
        RuleBoard {
            board,
            files,
            scratch: vec![0; SCRATCH],
        }
    }

    /// Who is present, with their monitors and the lowest grade.
    pub fn board(&self) -> Board {
        self.board
    }

    /// The bytes that the files stand in.
    pub fn files(&self) -> &[u8] {
        &self.files
    }

    /// The file of the rule under a name, if one is present there.
    pub fn file(&self, name: usize) -> Option<&[u8]> {
        let file = || board_file(&self.files, name);
        self.board.is_present(name).then(file)
    }

    /// A rule enters under a free name, 0 to 7, and has seen nothing.
    pub fn enter(&mut self, name: usize, file: &[u8]) -> Result<Board, Explained> {
        let (files, scratch) = (&mut self.files, &mut self.scratch);
        let posted = crate::board_enter(self.board, name, file, files, scratch);
        self.take(posted, Deed::Enter { name, file })
    }

    /// The rule under a name leaves.
    pub fn leave(&mut self, name: usize) -> Result<Board, Explained> {
        let posted = crate::board_leave(self.board, name, &self.files, &mut self.scratch);
        self.take(posted, Deed::Leave { name })
    }

    /// An event for all that are present.
    pub fn event(&mut self, letter: u8) -> Result<Board, Explained> {
        let posted = crate::board_event(self.board, letter, &self.files, &mut self.scratch);
        self.take(posted, Deed::Event { letter })
    }

    /// A mark for all that are present.
    pub fn mark(&mut self) -> Result<Board, Explained> {
        let posted = crate::board_mark(self.board, &self.files, &mut self.scratch);
        self.take(posted, Deed::Mark)
    }

    fn take(
        &mut self,
        posted: Result<Board, NotPosted>,
        deed: Deed<'_>,
    ) -> Result<Board, Explained> {
        match posted {
            Ok(board) => {
                self.board = board;
                Ok(board)
            }
            Err(not_posted) => {
                let files = &self.files;
                Err(explain(not_posted.refused, Asked::Board { files, deed }))
            }
        }
    }
}
