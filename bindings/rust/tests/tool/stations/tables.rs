//! A new table for the same rule: a state goes over by the map of a reduction that is right.

use super::contents;
use crate::program::{run, run_with, Scrap};
use crate::random::Random;
use crate::samples::{rule, NAMED, W};
use duknavet::{owned, Strength};

/// A rule of three elements that reduces to W.
const LARGER: &[u8] = &[
    3, 0, 2, 2, 0, 1, 2, 0, 2, 2, 2, 0, 1, 2, 0, 0, 0, 3, 2, 2, 3,
];

#[test]
fn states_go_over() {
    let [old, new, map] = [LARGER, W, &[0, 1, 0]].map(Scrap::holding);
    let state = Scrap::free();
    let plain = |rule: &Scrap, lines: &[u8]| {
        run_with(&["follow", rule.name(), "--state", state.name()], lines)
    };
    let carried = |map: &Scrap, lines: &[u8]| {
        let words = [
            "follow",
            new.name(),
            "--state",
            state.name(),
            "--from",
            old.name(),
        ];
        run_with(&[&words[..], &["--map", map.name()]].concat(), lines)
    };
    // Events 0 1 have the value 2 in the old table.
    let lines = b"1\nkeep 1\n0\n1\nkeep 7\nmark\n0\n1\n";
    assert!(plain(&old, lines)
        .printed(0)
        .ends_with("before 2 since 2\n"));
    let before = contents(&state);
    plain(&new, b"").said(2, "it is the state of another rule");
    // A map that is not right is refused, and so is one that is none.
    for wrong in [&[1, 0, 1][..], &[0, 1], &[0, 1, 9]] {
        let wrong = Scrap::holding(wrong);
        carried(&wrong, b"").said(2, "it does not take");
        assert_eq!(contents(&state), before);
    }
    let answers = "grade 3 turns 1\nbefore none since 0\nbefore none since 1\n";
    assert_eq!(
        carried(&map, b"verdict\nreturn 7\nreturn 1\n").printed(0),
        answers
    );
    let after = contents(&state);
    assert!(after.contains("\nrule 9b00692cc1d86283\n"), "{after}");
    assert!(after.contains("\npoint 1 64 1\npoint 7 64 0\n"), "{after}");
    // From then on it is a state of the new rule, with the options or without.
    assert_eq!(carried(&map, b"mark\n").printed(0), "before 1 since none\n");
    assert_eq!(plain(&new, b"0\n").printed(0), "before 1 since 0\n");
    plain(&old, b"").said(2, "it is the state of another rule");
}

/// The state of a rule that is neither is refused.
#[test]
fn states_of_a_third_rule() {
    let [old, new, map] = [LARGER, W, &[0, 1, 0]].map(Scrap::holding);
    let (third, state) = (
        Scrap::holding(NAMED.replace("0 0 proper", "0 0 poor").as_bytes()),
        Scrap::free(),
    );
    run_with(&["follow", third.name(), "--state", state.name()], b"0\n").printed(0);
    let words = [
        "follow",
        new.name(),
        "--state",
        state.name(),
        "--from",
        old.name(),
    ];
    run_with(&[&words[..], &["--map", map.name()]].concat(), b"")
        .said(2, "it is the state of another rule");
}

#[test]
fn wrong_use() {
    let [old, new, map] = [LARGER, W, &[0, 1, 0]].map(Scrap::holding);
    let [old, new, map] = [&old, &new, &map].map(Scrap::name);
    run(&["follow", new, "--state", "s", "--from", old]).said(3, "stand together");
    run(&["follow", new, "--state", "s", "--map", map]).said(3, "stand together");
    run(&["follow", new, "--from", old, "--map", map]).said(3, "`--from` needs --state");
    run(&["follow", new, "--state", "s", "--from", "-", "--map", map])
        .said(3, "the rest are files");
}

/// Whatever was followed by a rule, its reduction has the same verdicts from then on.
#[test]
fn verdicts_go_on() {
    let mut random = Random::new(53);
    let mut tried = 0;
    while tried < 12 {
        let drawn = rule(&mut random, 8);
        let bytes = drawn.bytes();
        if owned::strong(&bytes).expect("a rule") != Strength::Strong {
            continue;
        }
        tried += 1;
        let reduction = owned::reduce_with_map(&bytes).expect("a strong rule");
        let [old, new, map] =
            [&bytes, &reduction.rule, &reduction.map].map(|bytes| Scrap::holding(bytes));
        let letters = drawn.morphism.letters();
        let mut lines = |count: usize| -> String {
            let line = |random: &mut Random| match random.below(9) {
                0 => "mark\n".to_string(),
                1 => format!("keep {}\n", random.below(2)),
                2 => format!("return {}\n", random.below(2)),
                _ => format!("{}\nverdict\n", random.below(letters)),
            };
            (0..count).map(|_| line(&mut random)).collect()
        };
        let (before, after) = (lines(40), lines(40));
        let (state, second) = (Scrap::free(), Scrap::free());
        for own in [&state, &second] {
            run_with(
                &["follow", old.name(), "--state", own.name()],
                before.as_bytes(),
            );
        }
        let stayed = run_with(
            &["follow", old.name(), "--state", second.name()],
            after.as_bytes(),
        );
        let words = [
            "follow",
            new.name(),
            "--state",
            state.name(),
            "--from",
            old.name(),
        ];
        let went = run_with(
            &[&words[..], &["--map", map.name()]].concat(),
            after.as_bytes(),
        );
        let verdicts = |text: &str| -> Vec<String> {
            let told = text.lines().filter(|line| !line.starts_with("before"));
            // The turns may be fewer in a smaller table.
            told.map(|line| line.split(" turns").next().unwrap_or("").to_string())
                .collect()
        };
        assert_eq!(verdicts(stayed.text()), verdicts(went.text()));
        assert!(verdicts(went.text()).len() > 10);
    }
}
