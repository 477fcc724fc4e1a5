//! The sources, read as far as the tests need: which names a file brings in, which it defines, and which words it writes. What
//! cannot be read is told apart from what is not there, so that a gap here makes a test fail and never pass.

pub mod code;
pub mod library;
pub mod module;
pub mod names;
pub mod repository;
pub mod tokens;
pub mod words;
