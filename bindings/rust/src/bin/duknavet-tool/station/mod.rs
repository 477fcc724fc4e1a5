//! Stations: lines from standard input for as long as they come, each with its answer, and a state that is not lost.

mod answering;
mod fingerprint;
mod keeper;
mod language;
mod lines;
mod machine;
pub mod options;
mod progress;
pub mod sealed;
#[allow(unsafe_code)]
mod signals;
mod state_file;
mod waiting;

pub use answering::run;
pub use fingerprint::Fingerprint;
pub use language::{request, request_in_column, Request};
pub use machine::{letter, Fault, Feeding, Machine, MachineState, Reply};
pub use options::Options;
pub use progress::Progress;
pub use state_file::StateFile;
