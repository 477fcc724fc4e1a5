//! Events, marks and verdicts of a monitor.

use super::advances::heard;
use super::markings::outcomes;
use super::{lengths, Comparison};
use crate::definitions::acceptance::grade;
use crate::definitions::checks::{self, Refusal};
use crate::definitions::settling::turns;
use crate::lending::Lent;
use crate::subject::{Known, Subject};
use duknavet::{Monitor, NotMoved, Refused, LOG, NONE, SCRATCH};

pub const MONITOR_SIZES: [usize; 1] = [SCRATCH];

/// The grade of a strong rule's lassos with two values, and the turns of their cycles.
pub(super) fn judged(known: &Known, before: usize, since: usize) -> (u8, usize) {
    let m = known.morphism();
    let grade = match before {
        // The cycle alone: a word with its value, for ever.
        NONE => grade(m, &known.marking, &[], &known.words[since]),
        before => outcomes(known)[before * m.n + since],
    };
    (grade, turns(m, &known.words[since]))
}

/// What a refused call hands back is what it was given.
pub(super) fn unmoved<T>(answer: Result<T, NotMoved>, given: Monitor) -> Result<T, Refused> {
    answer.map_err(|NotMoved { monitor, refused }| {
        assert_eq!(monitor, given, "a refused call changed the monitor");
        refused
    })
}

impl Comparison {
    /// The monitor after the event, if it was not refused; likewise below.
    pub fn event(
        &mut self,
        subject: &Subject,
        monitor: Monitor,
        letter: u8,
        sizes: [usize; 1],
    ) -> Option<Monitor> {
        let [mut scratch] = self.lend(sizes);
        let answer = duknavet::event(&subject.bytes, monitor, letter, scratch.slice());
        let Monitor { before, since } = monitor;
        let read = || -> Result<_, Refusal> {
            lengths(sizes, MONITOR_SIZES)?;
            let known = subject.read.as_ref().map_err(|refusal| *refusal)?;
            let m = known.morphism();
            checks::monitor(m, before, since)?;
            let image = *m.images.get(letter as usize).ok_or((10, 1, 0))?;
            let since = match since {
                NONE => image,
                since => m.product(since as u8, image),
            };
            Ok((before, since as usize))
        };
        self.moved("event", subject, unmoved(answer, monitor), read(), &scratch)
    }

    /// The monitor after a word of events.
    pub fn feed(
        &mut self,
        subject: &Subject,
        monitor: Monitor,
        word: &[u8],
        sizes: [usize; 1],
    ) -> Option<Monitor> {
        let [mut scratch] = self.lend(sizes);
        let answer = duknavet::feed(&subject.bytes, monitor, word, scratch.slice());
        let Monitor { before, since } = monitor;
        let read = || -> Result<_, Refusal> {
            lengths(sizes, MONITOR_SIZES)?;
            let known = subject.read.as_ref().map_err(|refusal| *refusal)?;
            checks::monitor(known.morphism(), before, since)?;
            if word.len() > LOG {
                return Err((11, 1, 0));
            }
            Ok((before, heard(known.morphism(), since, word)?))
        };
        let moved = self.moved("feed", subject, unmoved(answer, monitor), read(), &scratch)?;
        self.tally.count("feed", "moved");
        Some(moved)
    }

    pub fn mark(
        &mut self,
        subject: &Subject,
        monitor: Monitor,
        sizes: [usize; 1],
    ) -> Option<Monitor> {
        let [mut scratch] = self.lend(sizes);
        let answer = duknavet::mark(&subject.bytes, monitor, scratch.slice());
        let Monitor { before, since } = monitor;
        let read = || -> Result<_, Refusal> {
            lengths(sizes, MONITOR_SIZES)?;
            let known = subject.read.as_ref().map_err(|refusal| *refusal)?;
            checks::monitor(known.morphism(), before, since)?;
            Ok(match (before, since) {
                (before, NONE) => (before, NONE),
                (NONE, since) => (since, NONE),
                (before, since) => {
                    let product = known.morphism().product(before as u8, since as u8);
                    (product as usize, NONE)
                }
            })
        };
        self.moved("mark", subject, unmoved(answer, monitor), read(), &scratch)
    }

    fn moved(
        &mut self,
        call: &str,
        subject: &Subject,
        answer: Result<Monitor, Refused>,
        expected: Result<(usize, usize), Refusal>,
        scratch: &Lent,
    ) -> Option<Monitor> {
        self.count_values(call, subject, &expected);
        let inputs: [&[u8]; 1] = [&subject.bytes];
        let found = self.agreed(call, &inputs, answer, expected, (&[], scratch));
        let (answer, expected) = found?;
        assert_eq!(
            (answer.before, answer.since),
            expected,
            "{call} on {inputs:?}"
        );
        self.tally.count(call, "moved");
        Some(answer)
    }

    pub fn verdict(&mut self, subject: &Subject, monitor: Monitor, sizes: [usize; 1]) {
        let [mut scratch] = self.lend(sizes);
        let answer = duknavet::verdict(&subject.bytes, monitor, scratch.slice());
        let Monitor { before, since } = monitor;
        let mut read = || -> Result<_, Refusal> {
            lengths(sizes, MONITOR_SIZES)?;
            let known = subject.read.as_ref().map_err(|refusal| *refusal)?;
            checks::monitor(known.morphism(), before, since)?;
            if since == NONE {
                return Err((11, 1, 0));
            }
            let known = self.asked_strong(subject)?;
            Ok(judged(known, before, since))
        };
        let expected = read();
        self.count_values("verdict", subject, &expected);
        let inputs: [&[u8]; 1] = [&subject.bytes];
        let found = self.agreed("verdict", &inputs, answer, expected, (&[], &scratch));
        let Some((answer, expected)) = found else {
            return;
        };
        let found = (answer.grade, answer.turns);
        assert_eq!(found, expected, "verdict of {monitor:?} on {inputs:?}");
        self.count_graded("verdict", found);
        if before == NONE {
            self.tally.count("verdict", "of a cycle alone");
        }
    }

    /// Counts refusal 3 of a value of a monitor or of a kept name apart from that of a file's entry.
    pub(super) fn count_values<T>(
        &mut self,
        call: &str,
        subject: &Subject,
        expected: &Result<T, Refusal>,
    ) {
        if subject.read.is_ok() && matches!(expected, Err((3, _, _))) {
            self.tally.count(call, "a monitor's value refused");
        }
    }
}
