//! The subcommands, in the order of the help.

mod automaton;
mod board;
mod check;
mod classes;
mod combine;
mod compare;
mod complement;
mod confirm;
mod convert;
mod explain;
mod feed;
mod follow;
mod formula;
mod included;
mod letters;
mod member;
mod next;
mod page;
mod picture;
mod reduce;
mod rounds;
mod show;
mod states;
mod stretch;
mod strong;
mod summary;
mod until;

use crate::command::Command;
pub use confirm::confirmed;

pub const ALL: &[&Command] = &[
    &check::COMMAND,
    &summary::COMMAND,
    &strong::COMMAND,
    &member::COMMAND,
    &explain::COMMAND,
    &classes::COMMAND,
    &complement::COMMAND,
    &combine::COMMAND,
    &next::COMMAND,
    &until::COMMAND,
    &included::COMMAND,
    &reduce::COMMAND,
    &confirm::COMMAND,
    &rounds::COMMAND,
    &automaton::COMMAND,
    &formula::COMMAND,
    &states::COMMAND,
    &feed::COMMAND,
    &follow::COMMAND,
    &board::COMMAND,
    &stretch::COMMAND,
    &convert::COMMAND,
    &letters::COMMAND,
    &show::COMMAND,
    &picture::COMMAND,
    &page::COMMAND,
    &compare::COMMAND,
];

pub fn named(name: &str) -> Option<&'static Command> {
    ALL.iter().copied().find(|command| command.name == name)
}
