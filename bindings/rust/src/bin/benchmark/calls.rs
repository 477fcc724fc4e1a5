//! Each call on an input, by the library or by one of the engines, with its answer in one form.

use crate::engine::{
    automata, confirmations, inclusion, lassos, markings, monitors, reductions, temporal,
};
use crate::engine::{Refusal, Strategy};
use duknavet as library;
use duknavet::{Board, Confirmation, Inclusion, Monitor, Refused, Strength};
use duknavet::{BOARD_FILES, BOARD_NAMES};
use duknavet::{CLASSES_OUT, MAP_OUT, RULE_OUT, SCRATCH, UNTIL_CLASSES, U_OUT, V_OUT};

#[derive(Clone, Copy, Debug, PartialEq, Eq)]
pub enum Engine {
    Library,
    Rust(Strategy),
}

/// The library comes first.
pub const ENGINES: [(&str, Engine); 3] = [
    ("library", Engine::Library),
    ("plain", Engine::Rust(Strategy::Plain)),
    ("same", Engine::Rust(Strategy::Same)),
];

/// What a call is lent.
pub struct Buffers {
    out: Vec<u8>,
    map: Vec<u8>,
    u: Vec<u8>,
    v: Vec<u8>,
    classes: Vec<u8>,
    scratch: Vec<u8>,
}

impl Buffers {
    pub fn new() -> Buffers {
        Buffers {
            out: vec![0; RULE_OUT.max(CLASSES_OUT)],
            map: vec![0; MAP_OUT],
            u: vec![0; U_OUT],
            v: vec![0; V_OUT],
            classes: vec![0; UNTIL_CLASSES],
            scratch: vec![0; SCRATCH],
        }
    }
}

/// What the definitions fix of an answer, in up to three numbers: of a written rule its bytes and its elements, of an inclusion
/// whether it holds.
type Fixed = [usize; 3];

fn truth(answer: bool) -> Fixed {
    [usize::from(answer), 0, 0]
}

fn graded((grade, turns): (u8, usize)) -> Fixed {
    [usize::from(grade), turns, 0]
}

fn written(length: usize, out: &[u8]) -> Fixed {
    [length, out[0] as usize, 0]
}

/// A call with its input; monitors have the value 0 before and 1 since, and an event is letter 0.
pub enum Call {
    Classes(Vec<u8>),
    Strong(Vec<u8>),
    Complement(Vec<u8>),
    Reduce(Vec<u8>),
    /// A rule, its reduction and the map.
    Confirm(Vec<u8>, Vec<u8>, Vec<u8>),
    Event(Vec<u8>),
    Mark(Vec<u8>),
    /// A word of events.
    Feed(Vec<u8>, Vec<u8>),
    Verdict(Vec<u8>),
    Member(Vec<u8>, (Vec<u8>, Vec<u8>)),
    Included(Vec<u8>, Vec<u8>),
    AutomatonRule(Vec<u8>),
    Next(Vec<u8>),
    Until(Vec<u8>, Vec<u8>),
    /// An event on a board with the same rule under every name: the board and its files.
    Board(Board, Vec<u8>),
}

impl Call {
    pub fn run(&self, engine: Engine, buffers: &mut Buffers) -> Result<Fixed, Refusal> {
        match engine {
            Engine::Library => self
                .by_library(buffers)
                .map_err(|r| (r.refusal.number(), r.input, r.place)),
            Engine::Rust(strategy) => self.by_rust(strategy, buffers),
        }
    }

    /// A confirmation of a rule's own reduction.
    pub fn confirm_own(rule: Vec<u8>) -> Call {
        let Buffers {
            mut out,
            mut map,
            mut scratch,
            ..
        } = Buffers::new();
        let reduced = library::reduce(&rule, &mut out, &mut map, &mut scratch);
        out.truncate(reduced.expect("a strong rule").length);
        map.truncate(rule[0] as usize);
        Call::Confirm(rule, out, map)
    }

    /// A rule until its complement.
    pub fn until_complement(rule: Vec<u8>) -> Call {
        let Buffers {
            mut out,
            mut scratch,
            ..
        } = Buffers::new();
        let complement = library::complement(&rule, &mut out, &mut scratch);
        out.truncate(complement.expect("a strong rule").length);
        Call::Until(rule, out)
    }

    /// An event on a board where the rule is present under all names, each with the monitor of the other calls.
    pub fn full_board(rule: Vec<u8>) -> Call {
        let mut state = Board::empty().state();
        let mut files = vec![0; BOARD_FILES];
        for name in 0..BOARD_NAMES {
            state[3 * name..3 * name + 3].copy_from_slice(&[1, 0, 1]);
            files[RULE_OUT * name..][..rule.len()].copy_from_slice(&rule);
        }
        Call::Board(Board::from_state(state), files)
    }

    /// Fails if the engines do not give one answer, list different classes, write different maps or other rules of `next` and `until`, or
    /// leave a scratch that is not zeros.
    pub fn confirm(&self) {
        let [first, others @ ..] = ENGINES.map(|(name, engine)| {
            let mut buffers = Buffers::new();
            buffers.scratch.fill(1);
            let answer = self.run(engine, &mut buffers);
            let zeros = buffers.scratch.iter().all(|b| *b == 0);
            assert!(zeros, "{name} leaves a scratch that is not zeros");
            (name, answer, buffers.out, buffers.map)
        });
        for other in others {
            let names = (first.0, other.0);
            assert_eq!(first.1, other.1, "the answers of {names:?} differ");
            if let Call::Classes(_) | Call::Next(_) | Call::Until(..) = self {
                assert!(first.2 == other.2, "what {names:?} write differs");
            }
            assert!(first.3 == other.3, "the maps of {names:?} differ");
        }
    }

    fn by_library(&self, buffers: &mut Buffers) -> Result<Fixed, Refused> {
        let Buffers {
            out,
            map,
            u,
            v,
            classes,
            scratch,
        } = buffers;
        let monitor = Monitor {
            before: 0,
            since: 1,
        };
        let moved = |m: Monitor| [m.before, m.since, 0];
        Ok(match self {
            Call::Classes(rule) => {
                let found = library::classes(rule, out, scratch)?;
                [found.linked, found.classes, found.joins]
            }
            Call::Strong(rule) => truth(library::strong(rule, scratch)? == Strength::Strong),
            Call::Complement(rule) => written(library::complement(rule, out, scratch)?.length, out),
            Call::Reduce(rule) => written(library::reduce(rule, out, map, scratch)?.length, out),
            Call::Confirm(first, second, map) => {
                let answer = library::confirm(first, second, map, scratch)?;
                truth(answer == Confirmation::Yes)
            }
            Call::Event(rule) => {
                moved(library::event(rule, monitor, 0, scratch).map_err(|n| n.refused)?)
            }
            Call::Mark(rule) => {
                moved(library::mark(rule, monitor, scratch).map_err(|n| n.refused)?)
            }
            Call::Feed(rule, word) => {
                moved(library::feed(rule, monitor, word, scratch).map_err(|n| n.refused)?)
            }
            Call::Verdict(rule) => {
                let answer = library::verdict(rule, monitor, scratch)?;
                graded((answer.grade, answer.turns))
            }
            Call::Member(rule, lasso) => {
                let answer = library::member(rule, &lasso.0, &lasso.1, scratch)?;
                graded((answer.grade, answer.turns))
            }
            Call::Included(rule, second) => {
                let answer = library::included(rule, second, u, v, scratch)?;
                truth(answer == Inclusion::Included)
            }
            Call::AutomatonRule(automaton) => written(
                library::automaton_rule(automaton, out, scratch)?.length,
                out,
            ),
            Call::Next(rule) => written(library::next(rule, out, scratch)?.length, out),
            Call::Until(first, second) => {
                let answer = library::until(first, second, out, classes, scratch)?;
                written(answer.length, out)
            }
            Call::Board(board, files) => {
                let posted = library::board_event(*board, 0, files, scratch);
                let posted = posted.map_err(|not_posted| not_posted.refused)?;
                let since = posted.names().filter_map(|name| posted.monitor(name));
                let grade = posted.lowest().map_or(4, usize::from);
                [grade, since.map(|monitor| monitor.since).sum(), 0]
            }
        })
    }

    fn by_rust(&self, how: Strategy, buffers: &mut Buffers) -> Result<Fixed, Refusal> {
        let Buffers {
            out,
            map,
            u,
            v,
            classes,
            scratch,
        } = buffers;
        let monitor = (0, 1);
        let moved = |(before, since): monitors::Values| [before, since, 0];
        Ok(match self {
            Call::Classes(rule) => markings::classes(how, rule, out, scratch)?,
            Call::Strong(rule) => truth(markings::strong(how, rule, scratch)?),
            Call::Complement(rule) => written(markings::complement(how, rule, out, scratch)?, out),
            Call::Reduce(rule) => written(reductions::reduce(how, rule, (out, map), scratch)?, out),
            Call::Confirm(first, second, map) => {
                truth(confirmations::confirm(how, first, second, map, scratch)?)
            }
            Call::Event(rule) => moved(monitors::event(how, rule, monitor, 0, scratch)?),
            Call::Mark(rule) => moved(monitors::mark(how, rule, monitor, scratch)?),
            Call::Feed(rule, word) => moved(monitors::feed(how, rule, monitor, word, scratch)?),
            Call::Verdict(rule) => graded(monitors::verdict(how, rule, monitor, scratch)?),
            Call::Member(rule, (u, v)) => graded(lassos::member(how, rule, u, v, scratch)?),
            Call::Included(rule, second) => {
                truth(inclusion::included(how, rule, second, (u, v), scratch)?.is_none())
            }
            Call::AutomatonRule(automaton) => {
                written(automata::automaton_rule(how, automaton, out, scratch)?, out)
            }
            Call::Next(rule) => written(temporal::next(how, rule, out, scratch)?, out),
            Call::Until(first, second) => {
                let rules = (&first[..], &second[..]);
                written(temporal::until(how, rules, out, classes, scratch)?, out)
            }
            Call::Board(board, files) => {
                let (mut lowest, mut sum) = (4, 0);
                for name in board.names() {
                    let file = library::board_file(files, name);
                    let (values, grade) = monitors::advance(how, file, monitor, 0, scratch)?;
                    lowest = lowest.min(usize::from(grade));
                    sum += values.1;
                }
                [lowest, sum, 0]
            }
        })
    }
}
