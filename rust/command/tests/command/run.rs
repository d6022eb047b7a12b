//! What the tests of the command share: how it is run, and where it writes.

use std::fs;
use std::io::Write;
use std::path::{Path, PathBuf};
use std::process::{Command, Stdio};
use std::sync::atomic::{AtomicUsize, Ordering};

/// What the command left.
#[derive(Debug, PartialEq, Eq)]
pub struct Ended {
    pub status: i32,
    pub output: String,
    pub error: String,
}

/// The repository's root, in which the command is run.
pub fn root() -> PathBuf {
    Path::new(env!("CARGO_MANIFEST_DIR")).join("../..")
}

/// The bytes of a file below the root.
pub fn file(path: &str) -> Vec<u8> {
    fs::read(root().join(path)).unwrap_or_else(|error| panic!("{path}: {error}"))
}

/// The text of a file below the root.
pub fn text(path: &str) -> String {
    String::from_utf8(file(path)).expect("text")
}

/// A file for a test to write, which is not there yet and which no other test has.
pub fn scratch(name: &str) -> String {
    static FILES: AtomicUsize = AtomicUsize::new(0);
    let number = FILES.fetch_add(1, Ordering::Relaxed);
    let path = Path::new(env!("CARGO_TARGET_TMPDIR")).join(format!("{number}-{name}"));
    // What an earlier run left there.
    let _ = fs::remove_file(&path);
    let _ = fs::remove_dir_all(&path);
    assert!(!path.exists(), "{}", path.display());
    path.to_str().expect("a path that is text").to_string()
}

/// A block of one input and no gates.
pub fn lone_input() -> [u8; 20] {
    std::array::from_fn(|at| match at {
        0 => 1,
        18 => 15,
        _ => 0,
    })
}

/// The command with these arguments, to be run in the repository's root.
pub fn command(arguments: &[&str]) -> Command {
    let mut command = Command::new(env!("CARGO_BIN_EXE_zimgurav"));
    command.args(arguments).current_dir(root());
    command
}

/// Runs the command with these arguments and this standard input.
pub fn run_on(input: &[u8], arguments: &[&str]) -> Ended {
    let mut child = command(arguments)
        .stdin(Stdio::piped())
        .stdout(Stdio::piped())
        .stderr(Stdio::piped())
        .spawn()
        .expect("the command starts");
    let mut stdin = child.stdin.take().expect("a pipe");
    // The command need not read its input.
    let _ = stdin.write_all(input);
    drop(stdin);
    let ended = child.wait_with_output().expect("what was written");
    let [output, error] =
        [ended.stdout, ended.stderr].map(|bytes| String::from_utf8(bytes).expect("text"));
    Ended {
        status: ended.status.code().expect("a status"),
        output,
        error,
    }
}

pub fn run(arguments: &[&str]) -> Ended {
    run_on(b"", arguments)
}

/// What the command prints, where it has an answer.
#[track_caller]
pub fn printed(arguments: &[&str]) -> String {
    let ended = run(arguments);
    assert_eq!((ended.status, &ended.error[..]), (0, ""), "{arguments:?}");
    ended.output
}
