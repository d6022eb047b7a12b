//! An interrupt, Ctrl-C on a terminal, during a search.

use std::fs;
use std::os::unix::process::ExitStatusExt;
use std::process::{Child, Command, Stdio};
use std::thread;
use std::time::{Duration, Instant};

use crate::run::{root, scratch};

/// The number of the signal, and its place among those that a process handles.
const SIGINT: i32 = 2;

/// Whether a process handles interrupts: only while it makes a call, or writes a file.
fn handles_interrupts(child: &Child) -> bool {
    let path = format!("/proc/{}/status", child.id());
    let status = fs::read_to_string(path).expect("a process that runs");
    let mut lines = status.lines();
    let handled = lines.find_map(|line| line.strip_prefix("SigCgt:"));
    let handled = u64::from_str_radix(handled.expect("signals").trim(), 16);
    handled.expect("a number") & 1 << (SIGINT - 1) != 0
}

/// A long search is ended by the interrupt itself, with a sentence, and writes nothing.
#[test]
fn of_a_search() {
    let path = scratch("interrupted.csv");
    let search = ["search", "examples/adder24.blk", "--budget", "10000"];
    // Interrupts are as a person at a terminal has them, even where these tests run in the background.
    let child = Command::new("env")
        .args(["--default-signal=INT", env!("CARGO_BIN_EXE_zimgurav")])
        .args(search)
        .args(["--csv", &path])
        .current_dir(root())
        .stdin(Stdio::null())
        .stdout(Stdio::piped())
        .stderr(Stdio::piped())
        .spawn()
        .expect("the command starts");
    let started = Instant::now();
    while !handles_interrupts(&child) {
        assert!(
            started.elapsed() < Duration::from_secs(60),
            "no call is made"
        );
        thread::sleep(Duration::from_millis(1));
    }
    let interrupt = format!("kill -INT {}", child.id());
    let interrupted = Command::new("sh").args(["-c", &interrupt]).status();
    assert!(interrupted.expect("a shell").success());
    let ended = child.wait_with_output().expect("the command ends");
    assert_eq!(ended.status.signal(), Some(SIGINT));
    assert_eq!(String::from_utf8(ended.stdout).expect("text"), "");
    assert_eq!(
        String::from_utf8(ended.stderr).expect("text"),
        "zimgurav: interrupted; there is no answer, and no file was written\n"
    );
    assert!(!fs::exists(path).expect("a folder"));
}
