//! The terminal: a line of progress on standard error, and interrupts.

use crate::library::Record;
use std::io::{self, IsTerminal, Write};
use std::sync::atomic::{AtomicBool, Ordering};
use std::time::{Duration, Instant};

/// How long a line of progress stands before the next.
const BETWEEN: Duration = Duration::from_millis(100);

/// The line that a run is watched by. Where standard error is no terminal it prints nothing.
pub struct Progress {
    is_terminal: bool,
    begun: Instant,
    steps_at_begin: u64,
    next: Instant,
    is_shown: bool,
}

impl Progress {
    pub fn new(record: &Record) -> Self {
        let begun = Instant::now();
        Progress {
            is_terminal: io::stderr().is_terminal(),
            begun,
            steps_at_begin: record.steps,
            next: begun + BETWEEN,
            is_shown: false,
        }
    }

    /// Shows how far the run has come, if it is time for it.
    pub fn show(&mut self, record: &Record) {
        if !self.is_terminal || Instant::now() < self.next {
            return;
        }
        self.next = Instant::now() + BETWEEN;
        self.is_shown = true;
        let seconds = self.begun.elapsed().as_secs_f64();
        let speed = (record.steps - self.steps_at_begin) as f64 / seconds;
        let line = line(record, speed, system::columns());
        // A terminal that is gone is no reason to end the run.
        let _ = write!(io::stderr(), "\r{line}\x1b[K");
    }

    /// Takes the line away.
    pub fn end(&self) {
        if self.is_shown {
            let _ = write!(io::stderr(), "\r\x1b[K");
        }
    }
}

/// While a run works, no accepted word is shorter than its level. The line stays below so many columns,
/// with what matters most in front.
fn line(record: &Record, speed: f64, columns: usize) -> String {
    let Record {
        level, steps, held, ..
    } = record;
    let line = format!(
        "no word under {level} events; level {level}, {steps} steps, {held} blockers, {speed:.0} steps/s"
    );
    line.chars().take(columns - 1).collect()
}

static INTERRUPTED: AtomicBool = AtomicBool::new(false);

/// Whether the user or the system asked the program to end.
pub fn is_interrupted() -> bool {
    INTERRUPTED.load(Ordering::Relaxed)
}

/// From now on the first interrupt is only noted; the second ends the program as ever.
pub fn note_interrupts() {
    for number in [system::HANG_UP, system::INTERRUPT, system::TERMINATE] {
        system::note(number);
    }
}

/// What Rust's own library has no safe functions for.
mod system {
    use super::INTERRUPTED;
    use std::sync::atomic::Ordering;

    pub const HANG_UP: i32 = 1;
    pub const INTERRUPT: i32 = 2;
    pub const TERMINATE: i32 = 15;

    const DEFAULT: usize = 0;
    const IGNORED: usize = 1;

    const STANDARD_ERROR: i32 = 2;
    /// Linux's TIOCGWINSZ: rows, columns and two numbers more of a terminal.
    const GET_WINDOW_SIZE: u64 = 0x5413;

    extern "C" {
        fn signal(number: i32, handler: usize) -> usize;
        fn ioctl(file: i32, request: u64, ...) -> i32;
    }

    extern "C" fn noted(number: i32) {
        INTERRUPTED.store(true, Ordering::Relaxed);
        // SAFETY: a handler may call signal.
        unsafe { signal(number, DEFAULT) };
    }

    /// Notes a signal, unless whoever started the program has it ignored.
    pub fn note(number: i32) {
        let handler: extern "C" fn(i32) = noted;
        // SAFETY: the handler does only what a handler may: it stores to an atomic and calls signal.
        unsafe {
            if signal(number, handler as usize) == IGNORED {
                signal(number, IGNORED);
            }
        }
    }

    /// The columns of the terminal on standard error; 80 if it does not say.
    pub fn columns() -> usize {
        let mut size = [0_u16; 4];
        // SAFETY: the request writes four numbers of 16 bits, or none.
        let answer = unsafe { ioctl(STANDARD_ERROR, GET_WINDOW_SIZE, size.as_mut_ptr()) };
        match (answer, size[1]) {
            (0, columns @ 1..) => usize::from(columns),
            _ => 80,
        }
    }
}

#[cfg(test)]
mod tests {
    use super::*;

    #[test]
    fn the_line_fits_a_terminal() {
        let record = Record {
            level: 65_536,
            steps: 1_234_567_890,
            held: 65_536,
            ..Record::default()
        };
        let shown =
            "no word under 65536 events; level 65536, 1234567890 steps, 65536 blockers, 12345";
        assert_eq!(line(&record, 123_456.7, 80), shown[..79]);
        let record = Record {
            level: 104,
            steps: 992,
            held: 256,
            ..Record::default()
        };
        let shown = "no word under 104 events; level 104, 992 steps, 256 blockers, 124 steps/s";
        assert_eq!(line(&record, 123.5, 80), shown);
        assert_eq!(line(&record, 123.5, 25), shown[..24]);
        assert_eq!(line(&record, 123.5, 1), "");
    }
}
