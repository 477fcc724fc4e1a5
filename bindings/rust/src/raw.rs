//! The archive's functions, each behind a safe function over slices. All unsafe code of the library is here.
//!
//! Each exported function is proved to return, for every input, having read and written nothing but its slices within their
//! lengths. What it asks of a caller is what Rust's references already promise: pointers that are good for their lengths, and
//! no overlap of a slice that is written with any other.

/// For each line `name = symbol(arguments);` the archive's function `symbol`, and a safe function `name` that calls it. The lists in
/// brackets grow argument by argument: those of the safe function, those of the archive's, and what is handed over.
macro_rules! exported {
    ($($name:ident = $symbol:ident($($arguments:tt)*);)*) => {
        $(exported!(@ $name $symbol [] [] [] $($arguments)*);)*
    };
    (@ $name:ident $symbol:ident [$($safe:tt)*] [$($foreign:tt)*] [$($passed:tt)*] $x:ident: &[u8] $(, $($rest:tt)*)?) => {
        exported!(@ $name $symbol [$($safe)* $x: &[u8],] [$($foreign)* _: *const u8, _: usize,]
            [$($passed)* $x.as_ptr(), $x.len(),] $($($rest)*)?);
    };
    (@ $name:ident $symbol:ident [$($safe:tt)*] [$($foreign:tt)*] [$($passed:tt)*] $x:ident: &mut [u8] $(, $($rest:tt)*)?) => {
        exported!(@ $name $symbol [$($safe)* $x: &mut [u8],] [$($foreign)* _: *mut u8, _: usize,]
            [$($passed)* $x.as_mut_ptr(), $x.len(),] $($($rest)*)?);
    };
    (@ $name:ident $symbol:ident [$($safe:tt)*] [$($foreign:tt)*] [$($passed:tt)*] $x:ident: $number:ident $(, $($rest:tt)*)?) => {
        exported!(@ $name $symbol [$($safe)* $x: $number,] [$($foreign)* _: $number,] [$($passed)* $x,] $($($rest)*)?);
    };
    (@ $name:ident $symbol:ident [$($safe:tt)*] [$($foreign:tt)*] [$($passed:tt)*]) => {
        pub fn $name($($safe)*) -> u64 {
            extern "C" {
                fn $symbol($($foreign)*) -> u64;
            }
            // SAFETY: each pointer and length are those of one live slice; a slice that is written is borrowed mutably, so that it
            // overlaps nothing, and those that are only read may overlap. Every number is allowed for an argument that is no slice.
            unsafe { $symbol($($passed)*) }
        }
    };
}

exported! {
    inspect = duknavet_inspect(rule: &[u8], scratch: &mut [u8]);
    classes = duknavet_classes(rule: &[u8], out: &mut [u8], scratch: &mut [u8]);
    strong = duknavet_strong(rule: &[u8], scratch: &mut [u8]);
    member = duknavet_member(rule: &[u8], u: &[u8], v: &[u8], scratch: &mut [u8]);
    stretch = duknavet_stretch(u: &[u8], v: &[u8], position: usize);
    complement = duknavet_complement(rule: &[u8], out: &mut [u8], scratch: &mut [u8]);
    included = duknavet_included(rule: &[u8], second: &[u8], u: &mut [u8], v: &mut [u8], scratch: &mut [u8]);
    fresh = duknavet_fresh();
    event = duknavet_event(rule: &[u8], before: usize, since: usize, letter: u8, scratch: &mut [u8]);
    mark = duknavet_mark(rule: &[u8], before: usize, since: usize, scratch: &mut [u8]);
    feed = duknavet_feed(rule: &[u8], before: usize, since: usize, word: &[u8], scratch: &mut [u8]);
    keep = duknavet_keep(rule: &[u8], before: usize, since: usize, name: usize, points: &mut [u8], scratch: &mut [u8]);
    return_to = duknavet_return(rule: &[u8], before: usize, since: usize, name: usize, points: &[u8], scratch: &mut [u8]);
    verdict = duknavet_verdict(rule: &[u8], before: usize, since: usize, scratch: &mut [u8]);
    advance_event = duknavet_advance_event(rule: &[u8], before: usize, since: usize, letter: u8, scratch: &mut [u8]);
    advance_mark = duknavet_advance_mark(rule: &[u8], before: usize, since: usize, scratch: &mut [u8]);
    advance_stay = duknavet_advance_stay(rule: &[u8], before: usize, since: usize, scratch: &mut [u8]);
    advance_word = duknavet_advance_word(rule: &[u8], before: usize, since: usize, word: &[u8], scratch: &mut [u8]);
    reduce = duknavet_reduce(rule: &[u8], out: &mut [u8], map: &mut [u8], scratch: &mut [u8]);
    confirm = duknavet_confirm(first: &[u8], second: &[u8], map: &[u8], scratch: &mut [u8]);
    both = duknavet_both(first: &[u8], second: &[u8], out: &mut [u8], scratch: &mut [u8]);
    either = duknavet_either(first: &[u8], second: &[u8], out: &mut [u8], scratch: &mut [u8]);
    without = duknavet_without(first: &[u8], second: &[u8], out: &mut [u8], scratch: &mut [u8]);
    first_letter = duknavet_first_letter(letters: usize, set: usize, grade: usize, out: &mut [u8]);
    constant = duknavet_constant(letters: usize, grade: usize, out: &mut [u8]);
    next = duknavet_next(rule: &[u8], out: &mut [u8], scratch: &mut [u8]);
    until = duknavet_until(first: &[u8], second: &[u8], out: &mut [u8], classes: &mut [u8], scratch: &mut [u8]);
    formula_rule = duknavet_formula_rule(letters: usize, formula: &[u8], out: &mut [u8], stack: &mut [u8], spare: &mut [u8], classes: &mut [u8], scratch: &mut [u8]);
    reduce_rounds = duknavet_reduce_rounds(rule: &[u8], limit: usize, blocks: &mut [u8], scratch: &mut [u8]);
    state_kind = duknavet_state_kind(rule: &[u8], s: usize, e: usize, least: u8, scratch: &mut [u8]);
    successors = duknavet_successors(rule: &[u8], s: usize, e: usize, letter: u8, out: &mut [u8], scratch: &mut [u8]);
    automaton_rule = duknavet_automaton_rule(automaton: &[u8], out: &mut [u8], scratch: &mut [u8]);
    board_empty = duknavet_board_empty(state: &mut [u8]);
    board_enter = duknavet_board_enter(state: &mut [u8], name: usize, file: &[u8], files: &mut [u8], scratch: &mut [u8]);
    board_leave = duknavet_board_leave(state: &mut [u8], name: usize, files: &[u8], scratch: &mut [u8]);
    board_event = duknavet_board_event(state: &mut [u8], letter: u8, files: &[u8], scratch: &mut [u8]);
    board_mark = duknavet_board_mark(state: &mut [u8], files: &[u8], scratch: &mut [u8]);
}
