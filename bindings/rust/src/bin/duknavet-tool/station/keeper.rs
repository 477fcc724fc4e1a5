//! What keeps a state while lines are answered: it is saved when asked, from time to time, and when a signal
//! asks for the end.
//!
//! The thread that answers lines hands over a snapshot whenever it is about to wait for input. Whoever saves
//! takes the mutex and writes the last snapshot, so a save never waits for a line, nor for somebody who does
//! not read the answers.

use super::signals::Ending;
use super::state_file::StateFile;
use crate::command::Failure;
use crate::output;
use std::sync::{Arc, Condvar, Mutex, MutexGuard, PoisonError};
use std::thread;
use std::time::Duration;

/// As long as a signal waits for the lines that were taken from the input to be answered.
const PATIENCE: Duration = Duration::from_millis(500);

/// A state at a moment.
pub trait Snapshot: Send + 'static {
    /// The text of its file.
    fn text(&self) -> String;
    /// What is said where the station ends: which lines were refused or passed over.
    fn last_words(&self) -> Option<String>;
}

pub struct Keeper<S> {
    shared: Arc<Shared<S>>,
}

struct Shared<S> {
    kept: Mutex<Kept<S>>,
    at_rest: Condvar,
}

struct Kept<S> {
    file: StateFile,
    /// None until the lines of `--resume` were passed over: before that there is nothing to save.
    snapshot: Option<S>,
    is_saved: bool,
    /// Whether the lines taken from the input are answered, and their answers written.
    is_at_rest: bool,
    /// Whether a signal asks for the end, so that no more input is to be taken.
    is_ending: bool,
}

impl<S: Snapshot> Kept<S> {
    fn save(&mut self) -> Result<(), Failure> {
        if let Some(snapshot) = &self.snapshot {
            self.file.write(&snapshot.text())?;
            self.is_saved = true;
        }
        Ok(())
    }

    /// Saves, says what is to be said, and has the status of the end. A snapshot that is on the disk already is
    /// not written again.
    fn save_at_signal(&mut self, signal: i32) -> i32 {
        let saved = match self.is_saved {
            true => Ok(()),
            false => self.save(),
        };
        if let Some(words) = self.snapshot.as_ref().and_then(S::last_words) {
            output::complain(&words);
        }
        match saved {
            Ok(()) => 128 + signal,
            Err(failure) => {
                complain_not_saved(&failure);
                3
            }
        }
    }
}

impl<S> Shared<S> {
    /// The state, also where a thread that had it panicked: each field is whole at any time.
    fn lock(&self) -> MutexGuard<'_, Kept<S>> {
        self.kept.lock().unwrap_or_else(PoisonError::into_inner)
    }
}

impl<S: Snapshot> Keeper<S> {
    /// Blocks the signals, then starts the threads that wait for them and for the time of the next save.
    pub fn start(file: StateFile, save_after: Option<Duration>) -> Result<Keeper<S>, Failure> {
        let shared = Arc::new(Shared {
            kept: Mutex::new(Kept {
                file,
                snapshot: None,
                is_saved: false,
                is_at_rest: true,
                is_ending: false,
            }),
            at_rest: Condvar::new(),
        });
        let failed = |what: &str| Failure::Files(format!("{what}: the state would be lost"));
        let ending = Ending::block().ok_or_else(|| failed("signals cannot be blocked"))?;
        let threads = [
            Some(start_thread(&shared, move |shared| {
                end_at_signal(shared, &ending)
            })),
            save_after
                .map(|after| start_thread(&shared, move |shared| save_now_and_then(shared, after))),
        ];
        for started in threads.into_iter().flatten() {
            started.map_err(|error| failed(&error.to_string()))?;
        }
        Ok(Keeper { shared })
    }

    /// Hands over the state as it is now.
    pub fn publish(&self, snapshot: S) {
        let mut kept = self.shared.lock();
        kept.snapshot = Some(snapshot);
        kept.is_saved = false;
    }

    /// Before input is waited for: everything that was taken is answered and handed over. Where a signal asks
    /// for the end this does not return, since the process ends.
    pub fn rest(&self) {
        let mut kept = self.shared.lock();
        kept.is_at_rest = true;
        self.shared.at_rest.notify_all();
        while kept.is_ending {
            kept = wait(&self.shared, kept);
        }
    }

    /// Behind the wait. Where a signal came meanwhile this does not return.
    pub fn work(&self) {
        self.shared.lock().is_at_rest = false;
    }

    pub fn save(&self) -> Result<(), Failure> {
        self.shared.lock().save()
    }
}

fn wait<'a, S>(shared: &Shared<S>, kept: MutexGuard<'a, Kept<S>>) -> MutexGuard<'a, Kept<S>> {
    let waited = shared.at_rest.wait(kept);
    waited.unwrap_or_else(PoisonError::into_inner)
}

fn start_thread<S: Snapshot>(
    shared: &Arc<Shared<S>>,
    work: impl FnOnce(&Shared<S>) + Send + 'static,
) -> std::io::Result<()> {
    let shared = Arc::clone(shared);
    let started = thread::Builder::new().spawn(move || work(&shared));
    started.map(|_| ())
}

/// Waits for a signal, lets the lines that were taken be answered if that is soon, saves, and ends the process.
/// The mutex is not given back, so that nothing happens after the save.
fn end_at_signal<S: Snapshot>(shared: &Shared<S>, ending: &Ending) {
    let Some(signal) = ending.wait() else {
        return output::complain("signals cannot be waited for, and the state is not saved at one");
    };
    let mut kept = shared.lock();
    kept.is_ending = true;
    let waited = shared
        .at_rest
        .wait_timeout_while(kept, PATIENCE, |kept| !kept.is_at_rest);
    let (mut kept, _) = waited.unwrap_or_else(PoisonError::into_inner);
    let status = kept.save_at_signal(signal);
    std::process::exit(status);
}

/// Saves each time so long has passed, also while no line comes, if there is something new.
fn save_now_and_then<S: Snapshot>(shared: &Shared<S>, after: Duration) {
    loop {
        thread::sleep(after);
        let mut kept = shared.lock();
        if !kept.is_saved {
            if let Err(failure) = kept.save() {
                complain_not_saved(&failure);
            }
        }
    }
}

/// Tells that a save failed, which is not the end.
pub fn complain_not_saved(failure: &Failure) {
    if let Failure::Files(message) = failure {
        output::complain(message);
    }
}
