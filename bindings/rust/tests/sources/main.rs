//! Tests over the sources of the repository: they read the files of `crates/` and call nothing.

mod chains;
mod copies;
mod edits;
mod faces;
mod floors;
mod imports;
mod names;
mod pages;
mod reading;
mod sizes;
mod theorems;
mod walk;
