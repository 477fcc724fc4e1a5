//! Keeps and returns of a monitor's named points.

use super::monitors::unmoved;
use super::{lengths, Comparison};
use crate::definitions::checks::{self, Refusal};
use crate::lending::Lent;
use crate::subject::Subject;
use duknavet::{Monitor, Refused, POINTS, SCRATCH};

pub const POINTS_SIZES: [usize; 2] = [POINTS, SCRATCH];

impl Comparison {
    /// Whether the monitor was kept; the points are then those after the keep.
    pub fn keep(
        &mut self,
        subject: &Subject,
        monitor: Monitor,
        name: usize,
        points: &mut [u8; POINTS],
        sizes: [usize; 2],
    ) -> bool {
        let [mut held, mut scratch] = self.lend(sizes);
        held.begin(points);
        let answer = duknavet::keep(&subject.bytes, monitor, name, held.slice(), scratch.slice());
        let read = || -> Result<_, Refusal> {
            lengths(sizes, POINTS_SIZES)?;
            let known = subject.read.as_ref().map_err(|refusal| *refusal)?;
            checks::name(name)?;
            checks::points(known.morphism(), monitor.before, monitor.since, points)?;
            Ok(monitor)
        };
        let answer = unmoved(answer, monitor);
        let found = self.point("keep", subject, (answer, read()), (&[&held], &scratch));
        if found.is_none() {
            return false;
        }
        points[3 * name] = 1;
        points[3 * name + 1] = monitor.before as u8;
        points[3 * name + 2] = monitor.since as u8;
        assert_eq!(held.written(POINTS), points, "keep under {name}");
        self.tally.count("keep", "kept");
        true
    }

    /// The monitor that is returned to, if it was not refused.
    pub fn return_to(
        &mut self,
        subject: &Subject,
        monitor: Monitor,
        name: usize,
        points: &[u8; POINTS],
        sizes: [usize; 2],
    ) -> Option<Monitor> {
        let [mut held, mut scratch] = self.lend(sizes);
        held.begin(points);
        let answer =
            duknavet::return_to(&subject.bytes, monitor, name, held.slice(), scratch.slice());
        held.kept();
        let read = || -> Result<_, Refusal> {
            lengths(sizes, POINTS_SIZES)?;
            let known = subject.read.as_ref().map_err(|refusal| *refusal)?;
            checks::name(name)?;
            let [kept, before, since] = [0, 1, 2].map(|i| points[3 * name + i] as usize);
            if kept == 0 {
                return Err((16, 1, 0));
            }
            checks::points(known.morphism(), monitor.before, monitor.since, points)?;
            Ok(Monitor { before, since })
        };
        let answer = unmoved(answer, monitor);
        let found = self.point("return_to", subject, (answer, read()), (&[&held], &scratch));
        if found.is_some() {
            self.tally.count("return_to", "returned");
        }
        found
    }

    fn point(
        &mut self,
        call: &str,
        subject: &Subject,
        (answer, expected): (Result<Monitor, Refused>, Result<Monitor, Refusal>),
        buffers: (&[&Lent], &Lent),
    ) -> Option<Monitor> {
        self.count_values(call, subject, &expected);
        let inputs: [&[u8]; 1] = [&subject.bytes];
        let (answer, expected) = self.agreed(call, &inputs, answer, expected, buffers)?;
        assert_eq!(answer, expected, "{call} on {inputs:?}");
        Some(answer)
    }
}
