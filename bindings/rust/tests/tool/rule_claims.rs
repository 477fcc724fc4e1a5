//! Rules as never claims: what runs of the written claim accept, against the call `member`, and Spin's verifier where it is installed.

use crate::definitions::runs;
use crate::program::{run, run_with, Scrap};
use crate::random::Random;
use crate::samples::{rule, AUTOMATON, NAMED, NOT_ASSOCIATIVE, W};
use duknavet::exchange::{print_rule_never, read};
use duknavet::files::{Automaton, Rule};
use duknavet::text::Names;
use duknavet::{owned, RuleAutomaton};
use std::fmt::Write;
use std::path::Path;
use std::process::{Command, Output};

fn claim(bytes: &[u8], least: u8, propositions: &[&str]) -> String {
    let automaton = RuleAutomaton::reached(bytes, least).expect("a rule");
    let names = Names::propositions(propositions).expect("names");
    print_rule_never(&automaton, &names).expect("a claim")
}

/// A random rule over the valuations of one proposition or of two.
fn of_propositions(random: &mut Random, limit: usize) -> (Vec<u8>, &'static [&'static str]) {
    loop {
        let rule = rule(random, limit);
        match rule.morphism.letters() {
            2 => return (rule.bytes(), &["near"]),
            4 => return (rule.bytes(), &["near", "far"]),
            _ => {}
        }
    }
}

fn accepts(automaton: &Automaton, u: &[u8], v: &[u8]) -> bool {
    let next = |state: usize, letter: u8| {
        let transitions = automaton.transitions.iter();
        let own = transitions.filter(|own| (usize::from(own.from), own.letter) == (state, letter));
        own.map(|own| usize::from(own.to)).collect()
    };
    let is = |state: usize, kind: u8| automaton.kinds[state] & kind != 0;
    runs::accepted(
        automaton.kinds.len(),
        |state| is(state, Automaton::INITIAL),
        |state| is(state, Automaton::FINAL),
        next,
        (u, v),
    )
}

#[test]
fn runs_against_member() {
    let mut random = Random::new(4706);
    let (mut seen, mut several) = ([0; 2], 0);
    for _ in 0..120 {
        let (bytes, propositions) = of_propositions(&mut random, 6);
        let letters = Rule::take_apart(&bytes).expect("a rule").images.len();
        let least = random.within(1, 3) as u8;
        let text = claim(&bytes, least, propositions);
        let foreign = read(text.as_bytes()).unwrap_or_else(|error| panic!("{error}: {text}"));
        let named = !foreign.propositions.is_empty();
        assert!(!named || foreign.propositions == propositions, "{text}");
        several += usize::from(text.contains("T0_S") && text.contains("accept_S"));
        for _ in 0..16 {
            let lengths = (random.below(4), random.within(1, 4));
            let u = random.word(lengths.0, letters);
            let v = random.word(lengths.1, letters);
            let grade = owned::member(&bytes, &u, &v).expect("a lasso").grade;
            let expected = grade >= least;
            let accepted = named && accepts(&foreign.automaton, &u, &v);
            assert_eq!(accepted, expected, "{u:?} {v:?} least {least}: {text}");
            seen[usize::from(expected)] += 1;
        }
    }
    assert!(
        seen.iter().all(|own| *own > 200) && several > 30,
        "{seen:?} {several}"
    );
}

/// A model whose states show the letters of a lasso, one after another.
fn model(u: &[u8], v: &[u8], propositions: &[&str], claim: &str) -> String {
    let set = |letter: u8| {
        let bits = propositions.iter().enumerate();
        let set = bits.map(|(bit, name)| format!("{name} = {}", letter >> bit & 1));
        format!("d_step {{ {} }};", set.collect::<Vec<_>>().join("; "))
    };
    // The first letter is there before anything happens.
    let (first, start, cycle) = match u.split_first() {
        Some((first, rest)) => (*first, rest.to_vec(), v.to_vec()),
        None => (v[0], Vec::new(), [&v[1..], &v[..1]].concat()),
    };
    let mut text = String::new();
    for (bit, name) in propositions.iter().enumerate() {
        let _ = writeln!(text, "bool {name} = {};", first >> bit & 1);
    }
    let start: Vec<String> = start.into_iter().map(set).collect();
    let cycle: Vec<String> = cycle.into_iter().map(set).collect();
    let (start, cycle) = (start.join(" "), cycle.join(" "));
    let _ = writeln!(
        text,
        "active proctype lasso() {{ {start} do :: {cycle} od }}"
    );
    text + claim
}

fn ended(command: &mut Command) -> Output {
    let output = command.output().expect("it runs");
    assert!(output.status.success(), "{command:?}: {output:?}");
    output
}

/// Whether Spin's verifier finds a run that the claim accepts.
fn found_by_spin(directory: &Path, model: &str) -> bool {
    std::fs::write(directory.join("model.pml"), model).expect("a file of the test");
    let inside = |program: &str| {
        let mut command = Command::new(program);
        command.current_dir(directory);
        command
    };
    ended(inside("spin").args(["-a", "model.pml"]));
    ended(inside("cc").args(["-w", "-O0", "-DNOREDUCE", "-o", "pan", "pan.c"]));
    let output = ended(inside("./pan").arg("-a"));
    let text = String::from_utf8_lossy(&output.stdout).into_owned();
    match (text.contains("errors: 0"), text.contains("errors: 1")) {
        (true, false) => false,
        (false, true) => {
            assert!(text.contains("acceptance cycle"), "{text}");
            true
        }
        _ => panic!("{text}"),
    }
}

#[test]
fn spin_finds_the_same() {
    if Command::new("spin").arg("-V").output().is_err() {
        eprintln!("Spin is not installed, so that its verifier is not asked");
        return;
    }
    let mut random = Random::new(4707);
    let directory = Scrap::free();
    std::fs::create_dir_all(directory.name()).expect("a directory of the test");
    let mut seen = [0; 2];
    while seen.iter().any(|own| *own < 5) {
        let (bytes, propositions) = of_propositions(&mut random, 6);
        let letters = Rule::take_apart(&bytes).expect("a rule").images.len();
        let least = random.within(1, 3) as u8;
        let lengths = (random.below(4), random.within(1, 3));
        let u = random.word(lengths.0, letters);
        let v = random.word(lengths.1, letters);
        let expected = owned::member(&bytes, &u, &v).expect("a lasso").grade >= least;
        let text = claim(&bytes, least, propositions);
        // Claims that accept nothing at all, and more of one kind than of the other, are passed over.
        if !text.contains("accept_S") || seen[usize::from(expected)] >= 5 {
            continue;
        }
        let text = model(&u, &v, propositions, &text);
        let found = found_by_spin(Path::new(directory.name()), &text);
        assert_eq!(found, expected, "{text}");
        seen[usize::from(expected)] += 1;
    }
    let _ = std::fs::remove_dir_all(directory.name());
}

#[test]
fn written_and_refused() {
    let made = run(&["formula", "G F near", "--ap", "near"]);
    let asked = |words: &[&str], bytes: &[u8]| {
        let words = [&["convert", "--to", "never", "-"], words].concat();
        run_with(&words, bytes)
    };
    let expected = "never {
T0_init:
  if
  :: ((near)) -> goto T0_S0
  :: ((!near) || (near)) -> goto T0_init
  :: ((near)) -> goto accept_S2
  fi;
T0_S0:
  if
  :: ((!near) || (near)) -> goto T0_S0
  :: ((!near) || (near)) -> goto T0_init
  :: ((!near) || (near)) -> goto accept_S2
  fi;
accept_S2:
  if
  :: ((near)) -> goto T0_S0
  :: ((!near) || (near)) -> goto T0_init
  :: ((near)) -> goto accept_S2
  fi;
}
";
    let text = asked(&[], made.printed(0).as_bytes());
    assert_eq!(text.printed(0), expected);
    let nothing = run(&["formula", "false", "--ap", "near"]);
    let text = asked(&["--least", "2"], nothing.printed(0).as_bytes());
    assert_eq!(text.printed(0), "never {\nT0_init:\n  false;\n}\n");
    let none = "a never claim is over propositions, and the rule names none";
    asked(&[], W).said(2, none);
    asked(&[], NAMED.as_bytes()).said(2, none);
    asked(&[], NOT_ASSOCIATIVE).said(2, "refusal 5");
    asked(&["--as", "automaton"], AUTOMATON).said(3, "only rules are written as never claims");
    for name in ["skip", "\"2nd\"", "\"a b\"", "størrelse"] {
        let text = made.text().replace("\"near\"", name).replace("near", name);
        let text = text.replacen(&format!("# G F {name}\n"), "", 1);
        asked(&[], text.as_bytes()).said(2, "is no name of a variable in a never claim");
    }
}
