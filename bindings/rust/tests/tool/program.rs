//! Running the tool.

use std::ffi::c_int;
use std::io::Write;
use std::os::unix::process::CommandExt as _;
use std::path::PathBuf;
use std::process::{Command, Stdio};
use std::sync::atomic::{AtomicUsize, Ordering};

/// How a run ended, and what it wrote.
#[derive(Debug)]
pub struct Ran {
    pub status: i32,
    pub out: Vec<u8>,
    pub err: String,
}

impl Ran {
    pub fn text(&self) -> &str {
        std::str::from_utf8(&self.out).expect("the output is text")
    }

    /// The output of a run with this status and nothing on standard error.
    #[track_caller]
    pub fn printed(&self, status: i32) -> &str {
        assert_eq!((self.status, self.err.as_str()), (status, ""), "{self:?}");
        self.text()
    }

    /// The output of a run with this status and just this line on standard error.
    #[track_caller]
    pub fn noted(&self, status: i32, words: &str) -> &str {
        let line = format!("duknavet-tool: {words}\n");
        assert_eq!(
            (self.status, self.err.as_str()),
            (status, line.as_str()),
            "{self:?}"
        );
        self.text()
    }

    /// That a run was refused or failed with such words, and wrote no result.
    #[track_caller]
    pub fn said(&self, status: i32, words: &str) {
        assert_eq!(self.status, status, "{self:?}");
        assert!(self.out.is_empty(), "{self:?}");
        assert!(self.err.starts_with("duknavet-tool: "), "{self:?}");
        assert!(self.err.contains(words), "{self:?} lacks {words}");
    }
}

pub fn tool() -> Command {
    Command::new(env!("CARGO_BIN_EXE_duknavet-tool"))
}

/// The tool with its signals as a terminal has them, whoever runs the tests: SIGINT is ignored by the background jobs
/// of a shell and SIGHUP under nohup, and what is ignored at the start stays so.
pub fn tool_with_signals() -> Command {
    let mut command = tool();
    let as_ever = || {
        for number in [1, 2, 15] {
            // SAFETY: it may be called between fork and exec, and 0 is SIG_DFL.
            unsafe { signal(number, 0) };
        }
        Ok(())
    };
    // SAFETY: what runs between fork and exec calls nothing else and allocates nothing.
    unsafe { command.pre_exec(as_ever) };
    command
}

extern "C" {
    fn signal(number: c_int, handler: usize) -> usize;
}

/// Sends a signal, by its name without SIG, to a process.
#[track_caller]
pub fn send(signal: &str, process: u32) {
    let command = format!("kill -s {signal} {process}");
    let sent = Command::new("sh").args(["-c", &command]).status();
    assert!(sent.expect("a shell").success(), "{command}");
}

pub fn run_with(words: &[&str], input: &[u8]) -> Ran {
    let mut child = tool()
        .args(words)
        .stdin(Stdio::piped())
        .stdout(Stdio::piped())
        .stderr(Stdio::piped())
        .spawn()
        .expect("the tool runs");
    let mut stdin = child.stdin.take().expect("a pipe");
    let input = input.to_vec();
    // The tool may end without reading all of it.
    let writer = std::thread::spawn(move || drop(stdin.write_all(&input)));
    let output = child.wait_with_output().expect("the tool ends");
    writer.join().expect("the input was written");
    Ran {
        status: output.status.code().expect("no signal ended it"),
        out: output.stdout,
        err: String::from_utf8(output.stderr).expect("messages are text"),
    }
}

pub fn run(words: &[&str]) -> Ran {
    run_with(words, b"")
}

/// A file of a test, which is gone when the test ends.
pub struct Scrap(PathBuf);

impl Scrap {
    /// A name that no file has.
    pub fn free() -> Scrap {
        static NEXT: AtomicUsize = AtomicUsize::new(0);
        let number = NEXT.fetch_add(1, Ordering::Relaxed);
        let name = format!("tool-{}-{number}", std::process::id());
        Scrap(PathBuf::from(env!("CARGO_TARGET_TMPDIR")).join(name))
    }

    pub fn holding(bytes: &[u8]) -> Scrap {
        let scrap = Scrap::free();
        std::fs::write(&scrap.0, bytes).expect("a file of the test is written");
        scrap
    }

    pub fn name(&self) -> &str {
        self.0.to_str().expect("a plain name")
    }
}

impl Drop for Scrap {
    fn drop(&mut self) {
        let _ = std::fs::remove_file(&self.0);
        // A state's lock stays where its state stood.
        let _ = std::fs::remove_file(format!("{}.lock", self.name()));
    }
}
