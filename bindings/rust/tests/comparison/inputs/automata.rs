//! Automata with random transitions, and others for their languages.

use crate::definitions::checks::Automaton;
use crate::random::Random;

/// Each transition is there with a chance of `percent` in a hundred; their order is random.
pub fn automaton(random: &mut Random, states: usize, letters: usize, percent: usize) -> Automaton {
    let mut all = Vec::new();
    for from in 0..states as u8 {
        for letter in 0..letters as u8 {
            for to in 0..states as u8 {
                if random.below(100) < percent {
                    all.push((from, letter, to));
                }
            }
        }
    }
    let transitions = random.shuffled(&all);
    Automaton {
        kinds: random.word(states, 4),
        letters,
        transitions,
    }
}

/// The states with other numbers.
pub fn renumbered(random: &mut Random, automaton: &Automaton) -> Automaton {
    let number = random.order(automaton.states());
    let of = |q: u8| number[q as usize] as u8;
    let mut kinds = vec![0; automaton.states()];
    for (q, kind) in automaton.kinds.iter().enumerate() {
        kinds[number[q]] = *kind;
    }
    let transitions = automaton.transitions.iter();
    let transitions: Vec<_> = transitions.map(|(p, a, q)| (of(*p), *a, of(*q))).collect();
    Automaton {
        kinds,
        letters: automaton.letters,
        transitions: random.shuffled(&transitions),
    }
}

/// One state more, and some of the transitions that `allowed` says may join it.
fn with_state(
    random: &mut Random,
    automaton: &Automaton,
    kind: u8,
    allowed: impl Fn(u8, u8) -> bool,
) -> Automaton {
    let mut wider = automaton.clone();
    wider.kinds.push(kind);
    let new = automaton.states() as u8;
    for a in 0..automaton.letters as u8 {
        for (p, q) in (0..=new).flat_map(|p| (0..=new).map(move |q| (p, q))) {
            if (p == new || q == new) && allowed(p, q) && random.once_in(2) {
                wider.transitions.push((p, a, q));
            }
        }
    }
    renumbered(random, &wider)
}

/// One more state that is not initial and that no other state leads to.
pub fn with_unreachable(random: &mut Random, automaton: &Automaton) -> Automaton {
    let (new, kind) = (automaton.states() as u8, *random.pick(&[0, 2]));
    with_state(random, automaton, kind, |p, _| p == new)
}

/// One more state that leads to no other state and is not final.
pub fn with_sink(random: &mut Random, automaton: &Automaton) -> Automaton {
    let (new, kind) = (automaton.states() as u8, *random.pick(&[0, 1]));
    with_state(random, automaton, kind, |_, q| q == new)
}

/// One state twice: each transition to or from it there for both.
pub fn with_doubled(random: &mut Random, automaton: &Automaton) -> Automaton {
    let (new, doubled) = (
        automaton.states() as u8,
        random.below(automaton.states()) as u8,
    );
    let both = |q: u8| match q == doubled {
        true => vec![q, new],
        false => vec![q],
    };
    let mut wider = automaton.clone();
    wider.kinds.push(automaton.kinds[doubled as usize]);
    wider.transitions.clear();
    for (p, a, q) in &automaton.transitions {
        let ends = both(*p)
            .into_iter()
            .flat_map(|p| both(*q).into_iter().map(move |q| (p, q)));
        wider.transitions.extend(ends.map(|(p, q)| (p, *a, q)));
    }
    renumbered(random, &wider)
}

/// One of the transitions left out.
pub fn less_one(random: &mut Random, automaton: &Automaton) -> Automaton {
    let mut less = automaton.clone();
    let at = random.below(less.transitions.len());
    less.transitions.remove(at);
    less
}
