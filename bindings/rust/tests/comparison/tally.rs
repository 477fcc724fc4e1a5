//! How often each outcome occurred, and how often it must.

use std::collections::BTreeMap;

#[derive(Default)]
pub struct Tally(BTreeMap<(String, String), u64>);

impl Tally {
    pub fn count(&mut self, call: &str, outcome: impl Into<String>) {
        *self
            .0
            .entry((call.to_string(), outcome.into()))
            .or_default() += 1;
    }

    pub fn add(&mut self, other: Tally) {
        for (key, count) in other.0 {
            *self.0.entry(key).or_default() += count;
        }
    }

    pub fn get(&self, call: &str, outcome: &str) -> u64 {
        let key = (call.to_string(), outcome.to_string());
        self.0.get(&key).copied().unwrap_or(0)
    }

    pub fn total(&self) -> u64 {
        self.0.values().sum()
    }

    pub fn print(&self) {
        for ((call, outcome), count) in &self.0 {
            println!("{call:<16} {outcome:<34} {count:>8}");
        }
    }
}

/// How a refusal is counted.
pub fn refusal(number: u8, input: u8) -> String {
    format!("refused by {number:>2} in input {input}")
}

/// A call, and for each of its inputs the numbers of the refusals.
type Refusals = (&'static str, &'static [(u8, &'static [u8])]);

/// Which refusals each call can answer, with their inputs: every number that applies to it.
/// A rule's checks are 1 to 8; a second marks section has no table and no letters, so not 5 and 6.
const REFUSALS: [Refusals; 31] = [
    ("classes", &[(1, &[1, 2, 3, 4, 5, 6, 7, 8, 13])]),
    ("strong", &[(1, &[1, 2, 3, 4, 5, 6, 7, 8, 13])]),
    (
        "member",
        &[(1, &[1, 2, 3, 4, 5, 6, 7, 8, 10, 11, 13]), (2, &[10, 11])],
    ),
    ("complement", &[(1, &[1, 2, 3, 4, 5, 6, 7, 8, 12, 13])]),
    (
        "included",
        &[(1, &[1, 2, 3, 4, 5, 6, 7, 8, 13]), (2, &[1, 2, 3, 4, 7, 8])],
    ),
    ("event", &[(1, &[1, 2, 3, 4, 5, 6, 7, 8, 10, 13])]),
    ("mark", &[(1, &[1, 2, 3, 4, 5, 6, 7, 8, 13])]),
    ("feed", &[(1, &[1, 2, 3, 4, 5, 6, 7, 8, 10, 11, 13])]),
    ("inspect", &[(1, &[1, 2, 3, 4, 5, 6, 7, 8, 13])]),
    ("verdict", &[(1, &[1, 2, 3, 4, 5, 6, 7, 8, 11, 12, 13])]),
    (
        "advance_event",
        &[(1, &[1, 2, 3, 4, 5, 6, 7, 8, 10, 12, 13])],
    ),
    ("advance_mark", &[(1, &[1, 2, 3, 4, 5, 6, 7, 8, 12, 13])]),
    ("advance_stay", &[(1, &[1, 2, 3, 4, 5, 6, 7, 8, 12, 13])]),
    (
        "advance_word",
        &[(1, &[1, 2, 3, 4, 5, 6, 7, 8, 10, 11, 12, 13])],
    ),
    ("keep", &[(1, &[1, 2, 3, 4, 5, 6, 7, 8, 13, 15])]),
    ("return_to", &[(1, &[1, 2, 3, 4, 5, 6, 7, 8, 13, 15, 16])]),
    ("reduce", &[(1, &[1, 2, 3, 4, 5, 6, 7, 8, 12, 13])]),
    (
        "reduce_rounds",
        &[(1, &[1, 2, 3, 4, 5, 6, 7, 8, 12, 13, 20])],
    ),
    (
        "combine",
        &[
            (1, &[1, 2, 3, 4, 5, 6, 7, 8, 12, 13, 18, 19]),
            (2, &[1, 2, 3, 4, 5, 6, 7, 8, 12]),
        ],
    ),
    ("first_letter", &[(1, &[2, 3, 10, 13])]),
    ("constant", &[(1, &[2, 3, 13])]),
    ("next", &[(1, &[1, 2, 3, 4, 5, 6, 7, 8, 12, 13, 23])]),
    (
        "until",
        &[
            (1, &[1, 2, 3, 4, 5, 6, 7, 8, 12, 13, 18, 19, 23]),
            (2, &[1, 2, 3, 4, 5, 6, 7, 8, 12]),
        ],
    ),
    (
        "confirm",
        &[
            (1, &[1, 2, 3, 4, 5, 6, 7, 8, 12, 13]),
            (2, &[1, 2, 3, 4, 5, 6, 7, 8]),
        ],
    ),
    ("state_kind", &[(1, &[1, 2, 3, 4, 5, 6, 7, 8, 13, 17])]),
    ("successors", &[(1, &[1, 2, 3, 4, 5, 6, 7, 8, 10, 13, 17])]),
    ("automaton_rule", &[(1, &[1, 2, 3, 4, 8, 13, 14])]),
    (
        "board_enter",
        &board(
            &[1, 2, 3, 4, 5, 6, 7, 8, 12],
            &[1, 2, 3, 4, 5, 6, 7, 8, 12, 13, 21],
        ),
    ),
    (
        "board_leave",
        &board(&[2, 3, 5, 6, 7, 8, 12], &[2, 3, 5, 6, 7, 8, 12, 13, 22]),
    ),
    (
        "board_event",
        &board(&[2, 3, 5, 6, 7, 8, 10, 12], &[2, 3, 5, 6, 7, 8, 10, 12, 13]),
    ),
    (
        "board_mark",
        &board(&[2, 3, 5, 6, 7, 8, 12], &[2, 3, 5, 6, 7, 8, 12, 13]),
    ),
];

/// The inputs of a call on a board: a name's own refusals, and those of input 1, where what lies in no rule is told too. A file on a board ends
/// where its counts say, so that it is never refused by 1 or 4.
const fn board(name: &'static [u8], first: &'static [u8]) -> [(u8, &'static [u8]); 8] {
    [
        (0, name),
        (1, first),
        (2, name),
        (3, name),
        (4, name),
        (5, name),
        (6, name),
        (7, name),
    ]
}

/// Outcomes that must occur at least so often.
const LEAST: [(&str, &str, u64); 249] = [
    ("classes", "counts", 1000),
    ("strong", "weak", 100),
    ("strong", "strong, marks closed", 1000),
    ("strong", "strong, marks not closed", 100),
    ("strong", "weak above grade 1 only", 100),
    ("strong", "strong, marks closed, grades: 1", 500),
    ("strong", "strong, marks closed, grades: 2", 200),
    ("strong", "strong, marks closed, grades: 3", 50),
    ("strong", "strong, marks not closed, grades: 1", 100),
    ("strong", "strong, marks not closed, grades: 2", 100),
    ("strong", "strong, marks not closed, grades: 3", 20),
    ("strong of 64", "weak", 10),
    ("strong of 64", "strong, marks closed", 10),
    ("strong of 64", "strong, marks not closed", 10),
    ("member", "grade 0", 1000),
    ("member", "grade 1", 1000),
    ("member", "grade 2", 1000),
    ("member", "grade 3", 1000),
    ("member", "grade 0, 1 turn", 1000),
    ("member", "grade 0, 2 turns or more", 1000),
    ("member", "grade 1, 1 turn", 500),
    ("member", "grade 1, 2 turns or more", 500),
    ("member", "grade 2, 1 turn", 500),
    ("member", "grade 2, 2 turns or more", 500),
    ("member", "grade 3, 1 turn", 1000),
    ("member", "grade 3, 2 turns or more", 1000),
    ("member", "64 turns", 10),
    ("member", "a word of 4224 letters", 20),
    ("member of weak", "grade 0, 1 turn", 100),
    ("member of weak", "grade 0, 2 turns or more", 50),
    ("member of weak", "grade 1, 1 turn", 50),
    ("member of weak", "grade 1, 2 turns or more", 50),
    ("member of weak", "grade 2, 1 turn", 50),
    ("member of weak", "grade 2, 2 turns or more", 50),
    ("member of weak", "grade 3, 1 turn", 100),
    ("member of weak", "grade 3, 2 turns or more", 100),
    ("member", "no letter in u", 100),
    ("complement", "written", 1000),
    ("complement", "marks exchanged, and found", 1000),
    ("complement", "a mark of grade 1", 100),
    ("complement", "a mark of grade 2", 100),
    ("complement", "a mark of grade 3", 1000),
    ("complement", "the rest at each grade", 1000),
    ("included", "included", 1000),
    ("included", "not included", 100),
    ("included", "not included, v of 3 or more", 20),
    ("included", "not included above grade 1 only", 100),
    ("event", "moved", 1000),
    ("event", "a monitor's value refused", 10),
    ("mark", "moved", 1000),
    ("mark", "a monitor's value refused", 10),
    ("verdict", "grade 0", 100),
    ("verdict", "grade 1", 100),
    ("verdict", "grade 2", 100),
    ("verdict", "grade 3", 100),
    ("verdict", "grade 0, 1 turn", 100),
    ("verdict", "grade 0, 2 turns or more", 100),
    ("verdict", "grade 1, 1 turn", 50),
    ("verdict", "grade 1, 2 turns or more", 50),
    ("verdict", "grade 2, 1 turn", 50),
    ("verdict", "grade 2, 2 turns or more", 50),
    ("verdict", "grade 3, 1 turn", 100),
    ("verdict", "grade 3, 2 turns or more", 100),
    ("verdict", "64 turns", 1),
    ("verdict", "of a cycle alone", 50),
    ("verdict", "a monitor's value refused", 10),
    ("advance_event", "grade 0", 50),
    ("advance_event", "grade 1", 50),
    ("advance_event", "grade 2", 50),
    ("advance_event", "grade 3", 50),
    ("advance_event", "a monitor's value refused", 10),
    ("advance_stay", "grade 0", 50),
    ("advance_stay", "grade 1", 50),
    ("advance_stay", "grade 2", 50),
    ("advance_stay", "grade 3", 50),
    ("advance_stay", "a monitor's value refused", 10),
    ("advance_word", "grade 0", 50),
    ("advance_word", "grade 1", 50),
    ("advance_word", "grade 2", 50),
    ("advance_word", "grade 3", 50),
    ("advance_word", "a monitor's value refused", 10),
    ("advance_mark", "nothing since", 50),
    ("advance_stay", "nothing since", 50),
    ("advance_word", "nothing since", 50),
    ("advance_mark", "a monitor's value refused", 10),
    ("advance_word", "as letter by letter", 100),
    ("feed", "moved", 100),
    ("feed", "as letter by letter", 100),
    ("feed", "a monitor's value refused", 10),
    ("inspect", "counted", 100),
    ("stretch", "of u", 100),
    ("stretch", "of v", 100),
    ("stretch", "nothing left", 10),
    ("monitor", "histories", 1000),
    ("monitor", "verdicts on histories", 100),
    ("monitor", "verdicts without a mark", 50),
    ("keep", "kept", 1000),
    ("keep", "a monitor's value refused", 10),
    ("return_to", "returned", 1000),
    ("return_to", "a monitor's value refused", 10),
    ("log", "logs", 1000),
    ("log", "logs with returns", 500),
    ("log", "verdicts on logs", 100),
    ("reduce", "smaller", 100),
    ("reduce", "as large", 100),
    ("reduce", "64 elements", 1),
    ("reduce", "a mark of grade 1", 500),
    ("reduce", "a mark of grade 2", 500),
    ("reduce", "a mark of grade 3", 500),
    ("reduce", "marks exchanged, and found", 500),
    ("reduce", "elements exchanged, and found", 1000),
    ("reduce", "the same from another numbering", 1000),
    ("reduce", "the same when reduced again", 5000),
    ("reduce_rounds", "not finished", 200),
    ("reduce_rounds", "finished in 0", 1000),
    ("reduce_rounds", "finished in 1", 100),
    ("reduce_rounds", "finished in 2 to 9", 50),
    ("reduce_rounds", "finished in 10 or more", 100),
    ("reduce_rounds", "finished at the limit", 500),
    ("reduce_rounds", "61 rounds", 1),
    ("reduce_rounds", "20 for a weak rule", 50),
    ("combine", "Both", 200),
    ("combine", "Either", 200),
    ("combine", "Without", 200),
    ("combine", "64 pairs", 1),
    ("combine", "with its complement", 20),
    ("first_letter", "written", 100),
    ("constant", "written", 100),
    ("next", "written", 100),
    ("until", "written", 50),
    ("next", "another grade than the rule", 50),
    ("until", "another grade than both rules", 20),
    ("until", "17 elements or more", 5),
    ("until", "another grade than the first", 50),
    ("until", "another grade than the second", 50),
    ("confirm", "yes", 1000),
    ("confirm", "yes to what was written", 5000),
    ("confirm", "yes to 64 elements", 10),
    ("confirm", "grades by values and by lassos", 1000),
    ("confirm", "no by Length alone", 200),
    ("confirm", "no by Letters alone", 100),
    ("confirm", "no by Outside", 100),
    ("confirm", "no by NotOnto", 100),
    ("confirm", "no by Images alone", 50),
    ("confirm", "no by Products alone", 50),
    ("confirm", "no by Weak alone", 50),
    ("confirm", "no by Grades alone", 50),
    ("confirm", "no by Size alone", 50),
    ("confirm", "yes: as it is written", 200),
    ("confirm", "yes: elements renumbered", 200),
    ("confirm", "no: elements renumbered, and the map not", 50),
    ("confirm", "yes: marks in another order", 50),
    ("confirm", "yes: marks left out", 30),
    ("confirm", "yes: marks lowered", 20),
    ("confirm", "yes: letters in turn", 100),
    ("confirm", "yes: the rule itself", 50),
    (
        "confirm",
        "no: the rule itself, which is not the smallest",
        50,
    ),
    ("confirm", "yes: of a product with a cyclic group", 20),
    ("confirm", "no: an element too many", 50),
    ("confirm", "no: one class regraded", 200),
    ("confirm", "no: a byte too many", 200),
    ("confirm", "no: a byte too few", 200),
    ("confirm", "no: no byte", 200),
    ("confirm", "no: a whole buffer", 200),
    ("confirm", "no: a foreign number", 500),
    ("confirm", "no: a byte changed", 300),
    ("confirm", "no: a letter more", 200),
    ("confirm", "no: a letter less", 20),
    ("confirm", "no: a weak second", 100),
    ("confirm", "no: letters exchanged", 100),
    ("confirm", "12 before any no", 200),
    ("confirm", "the second file before 12 for the first", 200),
    ("state_kind", "plain", 1000),
    ("state_kind", "initial", 1000),
    ("state_kind", "final", 1000),
    ("state_kind", "a least grade refused", 100),
    ("state_kind", "3 before 17", 100),
    ("successors", "none", 500),
    ("successors", "one", 1000),
    ("successors", "two or more", 1000),
    ("states", "a run, strong", 500),
    ("states", "no run, strong", 500),
    ("states", "a run, weak", 200),
    ("states", "no run, weak", 200),
    ("states", "a run from an empty start", 200),
    ("print", "equal: elements renumbered", 200),
    ("print", "equal: marks in another order", 50),
    ("print", "equal: marks closed", 30),
    ("print", "equal: marks left out", 30),
    ("print", "equal: marks lowered", 20),
    ("print", "equal: times a cyclic group", 200),
    ("print", "equal: states renumbered", 200),
    ("print", "equal: an unreachable state", 200),
    ("print", "equal: a sink", 200),
    ("print", "equal: a state doubled", 200),
    ("print", "equal: a transition less", 50),
    ("print", "equal: another automaton", 50),
    ("print", "equal: another marking", 50),
    ("print", "equal: another rule", 50),
    ("print", "equal, of 2 elements or more", 300),
    ("print", "equal, of two automata's rules", 500),
    ("print", "different: one class regraded", 200),
    ("print", "different: another marking", 200),
    ("print", "different: another rule", 200),
    ("print", "different: a transition less", 30),
    ("print", "different: another automaton", 100),
    ("print", "different above grade 1 only", 100),
    ("print of 64", "equal: elements renumbered", 10),
    ("print of 64", "different: one class regraded", 10),
    ("grade byte", "0", 50),
    ("grade byte", "4", 50),
    ("grade byte", "255", 50),
    ("grade byte", "missing", 50),
    ("grade byte", "of a pair that stands twice", 50),
    ("grade byte", "of a pair that stands twice with another", 50),
    ("automaton_rule", "written", 1000),
    ("automaton_rule", "two states", 4000),
    ("automaton_rule", "marks exchanged, and found", 500),
    ("automaton_rule", "elements exchanged, and found", 1000),
    ("automaton_rule", "the same from another numbering", 1000),
    ("board_enter", "done", 1000),
    ("board_enter", "a name taken", 100),
    ("board_enter", "a name above 7", 100),
    ("board_enter", "the entering file refused", 100),
    ("board_enter", "refused before the entering file", 100),
    ("board_leave", "done", 200),
    ("board_leave", "a name free", 100),
    ("board_leave", "a name above 7", 100),
    ("board_leave", "refused for the one that leaves", 50),
    ("board_event", "done", 1000),
    ("board_event", "foreign to several rules", 100),
    ("board_mark", "done", 500),
    ("board", "lowest 0", 500),
    ("board", "lowest 1", 200),
    ("board", "lowest 2", 200),
    ("board", "lowest 3", 100),
    ("board", "lowest 4", 500),
    ("board", "worked out anew: 0", 500),
    ("board", "worked out anew: 1", 200),
    ("board", "worked out anew: 2", 200),
    ("board", "worked out anew: 3", 100),
    ("board", "worked out anew: 4", 500),
    ("board", "all names present", 200),
    ("board", "a byte behind a file changed", 500),
    ("board", "a byte of nobody's changed", 500),
    ("board", "a byte of a file spoilt", 100),
    ("board", "a refusal at its name", 1000),
    ("board", "made up, done", 500),
    ("board", "made up, refused", 500),
];

/// What occurred too seldom, or though it cannot.
pub fn faults(tally: &Tally) -> Vec<String> {
    let mut faults = Vec::new();
    for (call, outcome, least) in LEAST {
        let count = tally.get(call, outcome);
        if count < least {
            faults.push(format!("{call}: {outcome}: {count}, fewer than {least}"));
        }
    }
    for (call, inputs) in REFUSALS {
        for input in 0..=7 {
            for number in 1..=24 {
                let here = |(i, numbers): &(u8, &[u8])| *i == input && numbers.contains(&number);
                let applies = inputs.iter().any(here);
                let occurred = tally.get(call, &refusal(number, input)) > 0;
                if applies != occurred {
                    let what = if applies {
                        "never occurred"
                    } else {
                        "cannot apply"
                    };
                    faults.push(format!("{call}: {} {what}", refusal(number, input)));
                }
            }
        }
    }
    faults
}
