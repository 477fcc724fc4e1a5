//! Reduction by rounds, end to end and against the engine written apart.

use crate::definitions::acceptance::Marking;
use crate::definitions::contexts::outcomes;
use crate::definitions::rounds::within;
use crate::definitions::rule::{Mark, Morphism, Rule};
use crate::program::run_with;
use crate::random::Random;
use crate::samples::{rule, NAMED, NOT_ASSOCIATIVE, TWICE, W, Z};
use duknavet::{owned, Refusal, Strength};

#[test]
fn rounds() {
    let asked = |limit: &str| run_with(&["rounds", "-", "--limit", limit], TWICE);
    let printed = "rounds 0 not finished\n{0}\n{1, 3}\n{2}\nbytes 0 1 2 1\n";
    assert_eq!(asked("0").printed(1), printed);
    let printed = "rounds 1 finished\n{0}\n{1}\n{2}\n{3}\nbytes 0 1 2 3\n";
    for limit in ["1", "2", "64"] {
        assert_eq!(asked(limit).printed(0), printed);
    }
    assert_eq!(run_with(&["rounds", "-"], TWICE).printed(0), printed);
    let printed = "rounds 0 finished\n{0}\n{1}\nbytes 0 1\n";
    assert_eq!(
        run_with(&["rounds", "-"], NAMED.as_bytes()).printed(0),
        printed
    );
    let joined = [2, 0, 0, 0, 1, 2, 0, 1, 3, 0, 0, 0, 3, 0, 1, 3, 1, 1, 3];
    let printed = "rounds 0 finished\n{0, 1}\nbytes 0 0\n";
    assert_eq!(run_with(&["rounds", "-"], &joined).printed(0), printed);
}

#[test]
fn refused() {
    let asked = |bytes: &[u8], limit: &str| run_with(&["rounds", "-", "--limit", limit], bytes);
    let words = "standard input: the limit of 65 rounds is above 64 (refusal 20, input 1, place 0)";
    asked(W, "65").said(2, words);
    asked(NAMED.as_bytes(), "65").said(2, words);
    asked(W, "18446744073709551615").said(2, "the limit of 18446744073709551615 rounds");
    let weak = "the rule is weak: u: 0  v: 0 0 has grade 3, but u: 0  v: 1 has grade 0, both with the values 1 and 0 (refusal 12, input 1, place 0)";
    asked(Z, "64").said(2, weak);
    asked(Z, "65").said(2, "refusal 20");
    asked(NOT_ASSOCIATIVE, "65").said(2, "(0·0)·1 = 0 but 0·(0·1) = 1 (refusal 5");
    asked(&TWICE[..24], "0").said(2, "within the marks: 2 of 3 bytes are there");
    asked(&[], "0").said(2, "the file is empty");
    asked(b"duknavet marks 1\nmarks 0\n", "0").said(2, "expected a rule, found a marks section");
    for limit in ["many", "-1", "", "18446744073709551616"] {
        asked(W, limit).said(3, "`--limit` takes a number from 0 to ");
    }
}

/// How often letter 1 occurs, up to n - 2, and n - 1 for more often, with a grade for just n - 2 times: n - 3 rounds.
fn counting(n: usize) -> Rule {
    let sums = (0..n).flat_map(|s| (0..n).map(move |t| (s + t).min(n - 1) as u8));
    let morphism = Morphism {
        n,
        table: sums.collect(),
        images: vec![0, 1],
    };
    let pair = (n as u8 - 2, 0);
    morphism.with(vec![Mark { pair, grade: 2 }])
}

#[test]
fn against_the_engine() {
    let mut random = Random::new(1201);
    let (mut unfinished, mut later, mut joined, mut weak) = (0, 0, 0, 0);
    for number in 0..500 {
        let expected = match number % 10 {
            0 => counting(random.within(3, 12)),
            _ => rule(&mut random, 14),
        };
        let (bytes, m) = (expected.bytes(), &expected.morphism);
        let limit = random.below(4);
        if owned::strong(&bytes) == Ok(Strength::Weak) {
            let refused = owned::reduce_rounds(&bytes, limit).expect_err("a weak rule");
            assert_eq!(refused.refused.refusal, Refusal::NotStrong);
            weak += 1;
            continue;
        }
        let words: Vec<Vec<u8>> = m.words().into_iter().flatten().collect();
        let outcomes = outcomes(m, &Marking::new(m.n, &expected.marks), &words);
        let (together, rounds, finished) = within(m, &outcomes, limit);
        let found = owned::reduce_rounds(&bytes, limit).expect("a strong rule");
        let done = (found.partition.rounds, found.partition.finished);
        assert_eq!(done, (rounds, finished), "{bytes:?} within {limit}");
        assert_eq!(found.least, together.least(m), "{bytes:?} within {limit}");
        let blocks = found.by_least();
        assert!(blocks.is_sorted_by_key(|block| block[0]));
        for block in &blocks {
            assert!(block.is_sorted());
            for element in block {
                assert!(together.holds(m, block[0], *element), "{bytes:?}");
            }
        }
        let mut all: Vec<u8> = blocks.concat();
        all.sort_unstable();
        assert_eq!(all, m.elements().collect::<Vec<u8>>());
        match finished {
            true => {
                let reduced = owned::reduce(&bytes).expect("a strong rule");
                assert_eq!(blocks.len(), usize::from(reduced[0]), "{bytes:?}");
                later += usize::from(rounds > 0);
            }
            false => unfinished += 1,
        }
        joined += usize::from(blocks.len() < m.n);
    }
    assert!(
        unfinished > 20 && later > 20 && joined > 100 && weak > 20,
        "{unfinished} {later} {joined} {weak}"
    );
}
