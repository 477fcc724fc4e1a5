//! A monitor with its rule, its named points and its scratch in one value.

use crate::words::{explain, Asked, Explained};
use crate::{Advanced, Monitor, NotMoved, Verdict, POINTS, SCRATCH};

/// A monitor that follows a rule. It counts nothing, and its memory stays the same however many events come.
///
/// ```
/// use duknavet::RuleMonitor;
///
/// let mut watched = RuleMonitor::new(&[2, 0, 0, 0, 1, 2, 0, 1, 1, 0, 0, 0, 3]);
/// watched.event(1)?;
/// watched.mark()?;
/// watched.event(0)?;
/// assert_eq!(watched.verdict()?.grade, 3);
/// assert_eq!(watched.advance_word(&[1, 1, 0])?.map(|verdict| verdict.grade), Some(3));
/// # Ok::<(), duknavet::words::Explained>(())
/// ```
#[derive(Clone, Debug)]
pub struct RuleMonitor {
    rule: Vec<u8>,
    monitor: Monitor,
    points: [u8; POINTS],
    scratch: Vec<u8>,
}

impl RuleMonitor {
    /// A monitor that has seen nothing, with no name kept.
    pub fn new(rule: &[u8]) -> RuleMonitor {
        RuleMonitor::resumed(rule, crate::fresh(), [0; POINTS])
    }

    /// A monitor as it was left. Values that the rule does not have are refused by the next call.
    pub fn resumed(rule: &[u8], monitor: Monitor, points: [u8; POINTS]) -> RuleMonitor {
        RuleMonitor {
            rule: rule.to_vec(),
            monitor,
            points,
            scratch: vec![0; SCRATCH],
        }
    }

    /// The monitor's two values.
    pub fn monitor(&self) -> Monitor {
        self.monitor
    }

    /// The named points, three bytes for each name.
    pub fn points(&self) -> [u8; POINTS] {
        self.points
    }

    /// An event.
    pub fn event(&mut self, letter: u8) -> Result<Monitor, Explained> {
        let moved = crate::event(&self.rule, self.monitor, letter, &mut self.scratch);
        self.take(moved, |rule| Asked::Event { rule, letter })
    }

    /// A mark: what came since now counts as before.
    pub fn mark(&mut self) -> Result<Monitor, Explained> {
        let moved = crate::mark(&self.rule, self.monitor, &mut self.scratch);
        self.take(moved, Asked::Rule)
    }

    /// Keeps the monitor under a name, 0 to 7.
    pub fn keep(&mut self, name: usize) -> Result<Monitor, Explained> {
        let moved = crate::keep(
            &self.rule,
            self.monitor,
            name,
            &mut self.points,
            &mut self.scratch,
        );
        self.take(moved, |rule| Asked::Point { rule, name })
    }

    /// Goes back to what was kept under a name.
    pub fn return_to(&mut self, name: usize) -> Result<Monitor, Explained> {
        let moved = crate::return_to(
            &self.rule,
            self.monitor,
            name,
            &self.points,
            &mut self.scratch,
        );
        self.take(moved, |rule| Asked::Point { rule, name })
    }

    /// The grade if the events since the last mark come for ever, and the turns of that cycle.
    pub fn verdict(&mut self) -> Result<Verdict, Explained> {
        crate::verdict(&self.rule, self.monitor, &mut self.scratch)
            .map_err(|refused| explain(refused, Asked::Rule(&self.rule)))
    }

    /// An event for each letter of a word, from one check of the rule; where the rule lacks one of them nothing moves.
    pub fn feed<'a>(&'a mut self, word: &'a [u8]) -> Result<(), Explained> {
        match crate::feed(&self.rule, self.monitor, word, &mut self.scratch) {
            Ok(monitor) => {
                self.monitor = monitor;
                Ok(())
            }
            Err(not_moved) => Err(explain(
                not_moved.refused,
                Asked::Events {
                    rule: &self.rule,
                    word,
                },
            )),
        }
    }

    /// An event, and the verdict then.
    pub fn advance_event(&mut self, letter: u8) -> Result<Option<Verdict>, Explained> {
        let advanced = crate::advance_event(&self.rule, self.monitor, letter, &mut self.scratch);
        self.take_advanced(advanced, |rule| Asked::Event { rule, letter })
    }

    /// A mark. Nothing came since, so that there is no verdict; the rule must be strong.
    pub fn advance_mark(&mut self) -> Result<Option<Verdict>, Explained> {
        let advanced = crate::advance_mark(&self.rule, self.monitor, &mut self.scratch);
        self.take_advanced(advanced, Asked::Rule)
    }

    /// The verdict, none where nothing came since the last mark.
    pub fn advance_stay(&mut self) -> Result<Option<Verdict>, Explained> {
        let advanced = crate::advance_stay(&self.rule, self.monitor, &mut self.scratch);
        self.take_advanced(advanced, Asked::Rule)
    }

    /// An event for each letter of a word, and the verdict then; where the rule lacks one of them nothing moves.
    pub fn advance_word<'a>(&'a mut self, word: &'a [u8]) -> Result<Option<Verdict>, Explained> {
        let advanced = crate::advance_word(&self.rule, self.monitor, word, &mut self.scratch);
        self.take_advanced(advanced, |rule| Asked::Events { rule, word })
    }

    fn take_advanced<'a>(
        &'a mut self,
        advanced: Result<Advanced, NotMoved>,
        asked: impl FnOnce(&'a [u8]) -> Asked<'a>,
    ) -> Result<Option<Verdict>, Explained> {
        match advanced {
            Ok(Advanced { monitor, verdict }) => {
                self.monitor = monitor;
                Ok(verdict)
            }
            Err(not_moved) => Err(explain(not_moved.refused, asked(&self.rule))),
        }
    }

    fn take<'a>(
        &'a mut self,
        moved: Result<Monitor, NotMoved>,
        asked: impl FnOnce(&'a [u8]) -> Asked<'a>,
    ) -> Result<Monitor, Explained> {
        match moved {
            Ok(monitor) => {
                self.monitor = monitor;
                Ok(monitor)
            }
            Err(not_moved) => Err(explain(not_moved.refused, asked(&self.rule))),
        }
    }
}
