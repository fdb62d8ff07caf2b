//! A line on the terminal that says what a long run does.

use std::fs;
use std::io::{self, Write};
use std::os::unix::fs::FileTypeExt;
use std::sync::mpsc::{self, Receiver, RecvTimeoutError, Sender};
use std::thread::{self, JoinHandle};
use std::time::{Duration, Instant};

const SECOND: Duration = Duration::from_secs(1);

/// Shows the step of the run and its time, from the first second on, while it lives and standard error is a terminal.
pub struct Progress {
    clock: Option<(Sender<&'static str>, JoinHandle<()>)>,
}

impl Progress {
    pub fn start() -> Progress {
        let clock = is_terminal().then(|| {
            let (steps, heard) = mpsc::channel();
            let clock = thread::Builder::new().spawn(move || tick(&heard)).ok()?;
            Some((steps, clock))
        });
        Progress { clock: clock.flatten() }
    }

    /// What the run does from now on.
    pub fn step(&self, label: &'static str) {
        if let Some((steps, _)) = &self.clock {
            // The clock hears until the sender is dropped.
            let _ = steps.send(label);
        }
    }
}

impl Drop for Progress {
    fn drop(&mut self) {
        if let Some((steps, clock)) = self.clock.take() {
            drop(steps);
            let _ = clock.join();
        }
    }
}

fn tick(heard: &Receiver<&'static str>) {
    let (start, mut label, mut shown) = (Instant::now(), "reading", false);
    let mut due = start + SECOND;
    loop {
        match heard.recv_timeout(due.saturating_duration_since(Instant::now())) {
            Ok(next) => label = next,
            Err(RecvTimeoutError::Timeout) => due += SECOND,
            Err(RecvTimeoutError::Disconnected) => break,
        }
        if start.elapsed() >= SECOND {
            let _ = write!(io::stderr(), "\r\x1b[K{}, {} s", label, start.elapsed().as_secs());
            shown = true;
        }
    }
    if shown {
        let _ = write!(io::stderr(), "\r\x1b[K");
    }
}

/// Whether standard error is a character device: a terminal, or a device such as /dev/null that discards what is written.
fn is_terminal() -> bool {
    fs::metadata("/dev/stderr").map_or(false, |data| data.file_type().is_char_device())
}
