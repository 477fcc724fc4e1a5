//! Damaged files: every subcommand ends with a status of its own and says something, and never panics.

use crate::program::{run_with, Scrap};
use crate::random::Random;
use crate::samples::{AUTOMATON, GRADED, NAMED, W, Z};

fn damaged(random: &mut Random, bytes: &[u8]) -> Vec<u8> {
    let mut bytes = bytes.to_vec();
    for _ in 0..random.within(1, 3) {
        let at = random.below(bytes.len() + 1);
        match random.below(4) {
            0 => bytes.truncate(at),
            1 => bytes.insert(at, random.below(256) as u8),
            2 => bytes.insert(at, random.below(4) as u8),
            _ => {
                if let Some(byte) = bytes.get_mut(at) {
                    *byte = random.below(256) as u8;
                }
            }
        }
    }
    bytes
}

#[test]
fn every_subcommand_survives() {
    let mut random = Random::new(601);
    let hoa = "HOA: v1\nStart: 0\nAP: 1 \"a\"\nAcceptance: 1 Inf(0)\n--BODY--\nState: 0 {0}\n[0] 0\n[!0] 1\nState: 1\n[t] 0\n--END--\n";
    let never =
        "never { T0:\n if :: (p && !q) -> goto accept_1 :: 1 -> goto T0 fi;\naccept_1: skip }";
    let inputs: [&[u8]; 9] = [
        W,
        Z,
        GRADED,
        AUTOMATON,
        NAMED.as_bytes(),
        hoa.as_bytes(),
        never.as_bytes(),
        &[0, 1],
        b"duknavet map 1\n0 1\n",
    ];
    let rule = Scrap::holding(W);
    let map = Scrap::holding(&[0, 1]);
    let calls: [&[&str]; 37] = [
        &["check", "-"],
        &["check", "--as", "automaton", "-"],
        &["summary", "-"],
        &["strong", "-"],
        &["member", "-", "u: 0 v: 1"],
        &["member", rule.name(), "-"],
        &["explain", "-", "u: 0 v: 1"],
        &["explain", "-", "--state", "none,1"],
        &["classes", "-"],
        &["complement", "-"],
        &["combine", "either", rule.name(), "-"],
        &["combine", "without", "-", rule.name(), "--to", "text"],
        &["included", rule.name(), "-"],
        &["reduce", "-", "--to", "text"],
        &["reduce", "-", "--letters", "sorted"],
        &["letters", "-", "--order", "1,0"],
        &["letters", "-", "--add", "more=0"],
        &["confirm", "-", rule.name(), map.name()],
        &["confirm", rule.name(), "-", map.name()],
        &["confirm", rule.name(), rule.name(), "-"],
        &["rounds", "-", "--limit", "1"],
        &["automaton", "-"],
        &["states", "-"],
        &["states", "-", "--state", "none,0", "--letter", "1"],
        &["feed", rule.name(), "-"],
        &["follow", rule.name()],
        &["stretch", "-", "3"],
        &["convert", "-"],
        &["convert", "-", "--as", "marks"],
        &["convert", "-", "--to", "hoa"],
        &["convert", "-", "--to", "c"],
        &["convert", "-", "--to", "never"],
        &["convert", "-", "--to", "dot", "--least", "2"],
        &["show", "-"],
        &["picture", "-"],
        &["page", "-"],
        &["compare", rule.name(), "-"],
    ];
    let mut statuses = [0; 4];
    for _ in 0..12 {
        for input in inputs {
            let bytes = damaged(&mut random, input);
            for call in calls {
                let ran = run_with(call, &bytes);
                assert!((0..=3).contains(&ran.status), "{call:?} {bytes:?}: {ran:?}");
                assert!(!ran.err.contains("panicked"), "{call:?} {bytes:?}: {ran:?}");
                assert!(
                    ran.status < 2 || !ran.err.is_empty(),
                    "{call:?} {bytes:?}: {ran:?}"
                );
                statuses[ran.status as usize] += 1;
            }
        }
    }
    // `follow` has status 1 for nearly all of them, since lines are refused.
    assert!(
        statuses[0] > 20 && statuses[1] > 100 && statuses[2] > 1000,
        "{statuses:?}"
    );
}
