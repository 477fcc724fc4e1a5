//! The tests run with the checks of a debug build: a sum that does not fit its number ends them.

use std::hint::black_box;
use std::panic::catch_unwind;

#[test]
fn sums_that_do_not_fit_are_noticed() {
    let sum = catch_unwind(|| black_box(u8::MAX) + black_box(1));
    let checked = sum.is_err() && cfg!(debug_assertions);
    assert!(
        checked,
        "the checks of [profile.test] are off: run `cargo test` without --release"
    );
}
