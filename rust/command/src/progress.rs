//! How long a call has run, shown while it runs.

use std::io::{self, IsTerminal, Write};
use std::sync::mpsc::{self, RecvTimeoutError};
use std::thread;
use std::time::{Duration, Instant};

use crate::interrupt;

/// Makes a call that may take long, and that an interrupt ends. Where standard error is a terminal, a line there says,
/// second by second, what it does and how long it has run, and is gone when the call returns.
pub fn watched<Answer>(what: &str, call: impl FnOnce() -> Answer) -> Answer {
    interrupt::during_a_call(|| {
        if io::stderr().is_terminal() {
            shown_on(io::stderr(), Duration::from_secs(1), what, call)
        } else {
            call()
        }
    })
}

/// Makes a call, and shows on a terminal, after each interval, how long it has run.
fn shown_on<Answer>(
    mut terminal: impl Write + Send,
    interval: Duration,
    what: &str,
    call: impl FnOnce() -> Answer,
) -> Answer {
    let started = Instant::now();
    let (ended, end) = mpsc::channel::<()>();
    thread::scope(|scope| {
        let showing = move || {
            let mut shown = false;
            while end.recv_timeout(interval) == Err(RecvTimeoutError::Timeout) {
                let seconds = started.elapsed().as_secs();
                // A terminal that takes nothing is no reason to end the call.
                let _ = write!(terminal, "\r{what} for {seconds} s");
                let _ = terminal.flush();
                shown = true;
            }
            if shown {
                let _ = write!(terminal, "\r\x1b[K");
            }
        };
        // Where no thread can be had, the call is made, and nothing is shown.
        let _ = thread::Builder::new().spawn_scoped(scope, showing);
        let answer = call();
        drop(ended);
        answer
    })
}

#[cfg(test)]
mod tests {
    use super::*;
    use std::sync::mpsc::Sender;

    /// A terminal that hands over what is written to it.
    struct Terminal(Sender<String>);

    impl Write for Terminal {
        fn write(&mut self, bytes: &[u8]) -> io::Result<usize> {
            let text = String::from_utf8_lossy(bytes).into_owned();
            self.0.send(text).expect("the test reads");
            Ok(bytes.len())
        }

        fn flush(&mut self) -> io::Result<()> {
            Ok(())
        }
    }

    #[test]
    fn a_long_call_is_shown() {
        let (sender, written) = mpsc::channel();
        let mut shown = String::new();
        let pause = Duration::from_millis(1);
        let answer = shown_on(Terminal(sender), pause, "searching", || {
            while !shown.contains(" s") {
                shown += &written.recv().expect("the time is shown");
            }
            7
        });
        assert_eq!(answer, 7);
        shown.extend(written);
        assert!(shown.starts_with("\rsearching for 0 s"), "{shown:?}");
        assert!(shown.ends_with("\r\x1b[K"), "{shown:?}");
    }

    #[test]
    fn a_short_call_is_not() {
        let (sender, written) = mpsc::channel();
        let hour = Duration::from_secs(3600);
        shown_on(Terminal(sender), hour, "searching", || ());
        assert_eq!(written.iter().count(), 0);
    }
}
