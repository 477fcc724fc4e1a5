//! A step or a word of events with the verdict then.

use super::monitors::{judged, unmoved, MONITOR_SIZES};
use super::{lengths, Comparison};
use crate::definitions::checks::{self, Refusal};
use crate::definitions::rule::Morphism;
use crate::subject::Subject;
use duknavet::{Advanced, Monitor, NotMoved, Verdict, LOG, NONE};

/// What a monitor is advanced by.
#[derive(Clone, Copy)]
pub enum Step<'a> {
    Event(u8),
    Mark,
    Stay,
    Word(&'a [u8]),
}

impl Step<'_> {
    fn call(self) -> &'static str {
        match self {
            Step::Event(_) => "advance_event",
            Step::Mark => "advance_mark",
            Step::Stay => "advance_stay",
            Step::Word(_) => "advance_word",
        }
    }
}

fn ask(
    rule: &[u8],
    monitor: Monitor,
    step: Step,
    scratch: &mut [u8],
) -> Result<Advanced, NotMoved> {
    match step {
        Step::Event(letter) => duknavet::advance_event(rule, monitor, letter, scratch),
        Step::Mark => duknavet::advance_mark(rule, monitor, scratch),
        Step::Stay => duknavet::advance_stay(rule, monitor, scratch),
        Step::Word(word) => duknavet::advance_word(rule, monitor, word, scratch),
    }
}

/// The value of since after some letters; the first that the rule lacks is refused at its position.
pub(super) fn heard(m: &Morphism, since: usize, word: &[u8]) -> Result<usize, Refusal> {
    if let Some(place) = word
        .iter()
        .position(|letter| *letter as usize >= m.letters())
    {
        return Err((10, 1, place as u64));
    }
    Ok(word.iter().fold(since, |since, letter| {
        let image = m.images[*letter as usize];
        match since {
            NONE => image as usize,
            since => m.product(since as u8, image) as usize,
        }
    }))
}

fn stepped(m: &Morphism, monitor: Monitor, step: Step) -> Result<(usize, usize), Refusal> {
    let Monitor { before, since } = monitor;
    Ok(match step {
        Step::Event(letter) => (before, heard(m, since, &[letter])?),
        Step::Stay => (before, since),
        Step::Word(word) if word.len() > LOG => return Err((11, 1, 0)),
        Step::Word(word) => (before, heard(m, since, word)?),
        Step::Mark => match (before, since) {
            (before, NONE) => (before, NONE),
            (NONE, since) => (since, NONE),
            (before, since) => (m.product(before as u8, since as u8) as usize, NONE),
        },
    })
}

impl Comparison {
    /// The monitor after the step, if it was not refused.
    pub fn advance(
        &mut self,
        subject: &Subject,
        monitor: Monitor,
        step: Step,
        sizes: [usize; 1],
    ) -> Option<Monitor> {
        if let Step::Word(word) = step {
            self.feed(subject, monitor, word, sizes);
        }
        let call = step.call();
        let [mut scratch] = self.lend(sizes);
        let answer = ask(&subject.bytes, monitor, step, scratch.slice());
        let mut read = || -> Result<_, Refusal> {
            lengths(sizes, MONITOR_SIZES)?;
            let known = subject.read.as_ref().map_err(|refusal| *refusal)?;
            checks::monitor(known.morphism(), monitor.before, monitor.since)?;
            let known = self.asked_strong(subject)?;
            let (before, since) = stepped(known.morphism(), monitor, step)?;
            let verdict = (since != NONE).then(|| judged(known, before, since));
            Ok((Monitor { before, since }, verdict))
        };
        let expected = read();
        self.count_values(call, subject, &expected);
        let inputs: [&[u8]; 1] = [&subject.bytes];
        let found = self.agreed(
            call,
            &inputs,
            unmoved(answer, monitor),
            expected,
            (&[], &scratch),
        );
        let (answer, (moved, verdict)) = found?;
        assert_eq!(answer.monitor, moved, "{call} of {monitor:?} on {inputs:?}");
        let told = answer
            .verdict
            .map(|Verdict { grade, turns }| (grade, turns));
        assert_eq!(told, verdict, "{call} of {monitor:?} on {inputs:?}");
        match verdict {
            Some(graded) => self.count_graded(call, graded),
            None => self.tally.count(call, "nothing since"),
        }
        Some(moved)
    }

    /// A word at once, letter by letter, and as events with a verdict at the end: one monitor and one verdict.
    pub fn advance_both_ways(&mut self, subject: &Subject, monitor: Monitor, word: &[u8]) {
        let whole = self.advance(subject, monitor, Step::Word(word), MONITOR_SIZES);
        let mut one = Some(monitor);
        for letter in word {
            one = one.and_then(|m| self.advance(subject, m, Step::Event(*letter), MONITOR_SIZES));
        }
        let last = one.and_then(|m| self.advance(subject, m, Step::Stay, MONITOR_SIZES));
        assert_eq!(whole, last, "a word and its letters from {monitor:?}");
        let fed = self.feed(subject, monitor, word, MONITOR_SIZES);
        let mut one = Some(monitor);
        for letter in word {
            one = one.and_then(|m| self.event(subject, m, *letter, MONITOR_SIZES));
        }
        if let (Some(fed), Some(one)) = (fed, one) {
            assert_eq!(
                fed, one,
                "a word that is fed and its letters from {monitor:?}"
            );
            self.tally.count("feed", "as letter by letter");
        }
        if whole.is_some() {
            self.tally.count("advance_word", "as letter by letter");
        }
    }
}
