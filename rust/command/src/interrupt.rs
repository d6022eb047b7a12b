//! Signals that end the command: Ctrl-C during a call ends it with a sentence, and while a file is written all of them
//! wait until it is whole or given up.

use std::ffi::{c_int, c_void};
use std::io::{self, IsTerminal};
use std::sync::atomic::{AtomicBool, AtomicI32, Ordering};

const STANDARD_ERROR: c_int = 2;

// The numbers of signals on Linux: Ctrl-C, a request to end, a terminal that is closed, and a file above the size that
// is allowed.
const SIGINT: c_int = 2;
const SIGTERM: c_int = 15;
const SIGHUP: c_int = 1;
const SIGXFSZ: c_int = 25;

// What `signal` takes and returns in place of a handler.
const BY_DEFAULT: usize = 0;
const IGNORED: usize = 1;

unsafe extern "C" {
    fn signal(number: c_int, handler: usize) -> usize;
    fn raise(number: c_int) -> c_int;
    fn write(file: c_int, bytes: *const c_void, count: usize) -> isize;
}

/// Whether the sentence begins on a line of its own: a terminal shows `^C`, and perhaps how long the call has run.
static ON_A_TERMINAL: AtomicBool = AtomicBool::new(false);

/// The signal that came while a file was written; 0 for none.
static POSTPONED: AtomicI32 = AtomicI32::new(0);

/// Makes a call of the library. Ctrl-C ends the command.
pub fn during_a_call<Answer>(call: impl FnOnce() -> Answer) -> Answer {
    let before = handle(SIGINT, end_call);
    let answer = call();
    set(SIGINT, before);
    answer
}

/// Writes a file. A signal that would end the command ends it afterwards, and a file that grows above the size that is
/// allowed is a failure like others.
pub fn during_a_write<Answer>(write: impl FnOnce() -> Answer) -> Answer {
    let ending = [SIGINT, SIGTERM, SIGHUP].map(|number| (number, handle(number, postpone)));
    let size = set(SIGXFSZ, IGNORED);
    let answer = write();
    set(SIGXFSZ, size);
    for (number, before) in ending {
        set(number, before);
    }
    match POSTPONED.load(Ordering::SeqCst) {
        0 => {}
        number => end(number, "a file that was not written yet is as it was"),
    }
    answer
}

/// Has a signal handled, and returns what was done with it before. Where it was ignored, as `nohup` asks for, it still
/// is.
fn handle(number: c_int, handler: extern "C" fn(c_int)) -> usize {
    ON_A_TERMINAL.store(io::stderr().is_terminal(), Ordering::SeqCst);
    let before = set(number, handler as *const () as usize);
    if before == IGNORED {
        set(number, IGNORED);
    }
    before
}

/// Sets what is done with a signal, and returns what was done with it before.
fn set(number: c_int, action: usize) -> usize {
    // SAFETY: an action is one of the handlers below, which do nothing but what is allowed in one, or no handler.
    unsafe { signal(number, action) }
}

extern "C" fn end_call(number: c_int) {
    end(number, "there is no answer, and no file was written");
}

/// Keeps a signal for later. A second one ends the command at once.
extern "C" fn postpone(number: c_int) {
    POSTPONED.store(number, Ordering::SeqCst);
    set(number, BY_DEFAULT);
}

/// Says that the command ends and what that leaves, and lets the signal end it, so that a shell and its scripts know.
fn end(number: c_int, left: &str) {
    if ON_A_TERMINAL.load(Ordering::SeqCst) {
        say("\n");
    }
    say("zimgurav: interrupted; ");
    say(left);
    say("\n");
    set(number, BY_DEFAULT);
    // SAFETY: it is allowed in a handler, after which the signal then comes; elsewhere it comes at once.
    unsafe { raise(number) };
}

/// Writes a text to standard error, which may take it or not.
fn say(text: &str) {
    // SAFETY: the pointer is good for as many bytes.
    unsafe { write(STANDARD_ERROR, text.as_ptr().cast(), text.len()) };
}
