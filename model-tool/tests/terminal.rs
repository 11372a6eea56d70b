//! `afa check` on a terminal: the line of progress, and interrupts, with and without a saved run to go on
//! with.

mod common;

use common::json::{object, KEYS};
use common::{program, rings, scratch, Ended};
use std::ffi::{c_char, c_int, CStr};
use std::fs::{self, File, OpenOptions};
use std::io::{self, PipeWriter, Read, Write};
use std::os::fd::{AsRawFd, FromRawFd};
use std::os::unix::fs::OpenOptionsExt;
use std::os::unix::process::{CommandExt, ExitStatusExt};
use std::path::{Path, PathBuf};
use std::process::{Child, Command, Stdio};
use std::thread;
use std::time::{Duration, Instant};

extern "C" {
    fn posix_openpt(flags: c_int) -> c_int;
    fn grantpt(terminal: c_int) -> c_int;
    fn unlockpt(terminal: c_int) -> c_int;
    fn ptsname_r(terminal: c_int, name: *mut c_char, length: usize) -> c_int;
    fn kill(process: c_int, signal: c_int) -> c_int;
    fn signal(number: c_int, handler: usize) -> usize;
    fn fcntl(descriptor: c_int, command: c_int, ...) -> c_int;
}

// As Linux has them.
const READ_AND_WRITE: c_int = 0o2;
const NOT_CONTROLLING: c_int = 0o400;
const CLOSED_ON_EXEC: c_int = 0o2_000_000;
const NOT_WAITING: c_int = 0o4000;
const SET_FLAGS: c_int = 4;

const HANG_UP: c_int = 1;
const INTERRUPT: c_int = 2;
const TERMINATE: c_int = 15;

/// What a signal does by itself.
const DEFAULT: usize = 0;

/// What takes the line of progress away.
const ERASED: &str = "\r\x1b[K";

/// It takes more than half a second.
const LONG: [usize; 4] = [2, 5, 7, 11];

/// It takes more than ten seconds, and is not run to its end here.
const ENDLESS: [usize; 5] = [2, 3, 5, 7, 11];

/// How long what is to come soon may take.
const SOON: Duration = Duration::from_secs(5);

/// A pseudo-terminal: what the program writes to its own side is read from this one.
struct Terminal {
    outer: File,
    inner: File,
}

impl Terminal {
    fn open() -> Self {
        let mut name = [0; 100];
        // SAFETY: the descriptor is nobody else's, and name is good for its length.
        let outer = unsafe {
            let outer = posix_openpt(READ_AND_WRITE | NOT_CONTROLLING | CLOSED_ON_EXEC);
            assert!(outer >= 0, "{}", io::Error::last_os_error());
            assert_eq!((grantpt(outer), unlockpt(outer)), (0, 0));
            assert_eq!(ptsname_r(outer, name.as_mut_ptr(), name.len()), 0);
            File::from_raw_fd(outer)
        };
        // SAFETY: ptsname_r has ended the name with a 0.
        let name = unsafe { CStr::from_ptr(name.as_ptr()) };
        let inner = OpenOptions::new()
            .read(true)
            .write(true)
            .custom_flags(NOT_CONTROLLING)
            .open(name.to_str().unwrap());
        Terminal {
            outer,
            inner: inner.unwrap(),
        }
    }

    /// What is written until nobody has the inner side open any more.
    fn written(self) -> String {
        let Terminal { mut outer, inner } = self;
        drop(inner);
        let mut bytes = Vec::new();
        // Linux tells the end by an error; what was written before it has been read.
        let _ = outer.read_to_end(&mut bytes);
        String::from_utf8(bytes).unwrap()
    }
}

/// A run of the program that is under way.
struct Running {
    child: Child,
    terminal: Option<Terminal>,
}

fn start(mut command: Command, on_terminal: bool) -> Running {
    let terminal = on_terminal.then(Terminal::open);
    let errors = match &terminal {
        Some(terminal) => Stdio::from(terminal.inner.try_clone().unwrap()),
        None => Stdio::piped(),
    };
    command.stdin(Stdio::null()).stdout(Stdio::piped());
    let child = command.stderr(errors).spawn().unwrap();
    Running { child, terminal }
}

/// A check that minds signals, whoever runs the tests: a shell has what it runs in the background ignore
/// interrupts.
fn check(model: &Path, options: &[&str]) -> Command {
    let mut command = program();
    command.arg("check").arg(model).args(options);
    let mind = || {
        for number in [HANG_UP, INTERRUPT, TERMINATE] {
            // SAFETY: signal may be called between fork and exec.
            unsafe { signal(number, DEFAULT) };
        }
        Ok(())
    };
    // SAFETY: what is called does nothing else.
    unsafe { command.pre_exec(mind) };
    command
}

impl Running {
    /// Waits until the program minds the signal. False if it has ended before that.
    fn minds(&mut self, signal: c_int) -> bool {
        let begun = Instant::now();
        while self.child.try_wait().unwrap().is_none() {
            if has_signal(&self.child, "SigCgt:", signal) {
                return true;
            }
            if begun.elapsed() > Duration::from_secs(10) {
                self.child.kill().unwrap();
                panic!("signal {signal} is not minded");
            }
            thread::sleep(Duration::from_millis(1));
        }
        false
    }

    fn send(&self, signal: c_int) {
        // SAFETY: the process was not waited for, so its number is still its own.
        assert_eq!(unsafe { kill(self.child.id() as c_int, signal) }, 0);
    }

    /// How it ends. What stands on the terminal counts as standard error.
    fn end(self) -> Ended {
        let shown = self
            .terminal
            .map(|terminal| thread::spawn(|| terminal.written()));
        let ended = self.child.wait_with_output().unwrap();
        let errors = match shown {
            Some(shown) => shown.join().unwrap(),
            None => String::from_utf8(ended.stderr).unwrap(),
        };
        assert!(!errors.contains("panicked"), "{errors}");
        Ended {
            status: ended.status.code().expect("an exit status"),
            output: String::from_utf8(ended.stdout).unwrap(),
            errors,
        }
    }
}

/// Whether the signal is in this set of the process, as Linux shows it.
fn has_signal(child: &Child, set: &str, signal: c_int) -> bool {
    let status = fs::read_to_string(format!("/proc/{}/status", child.id())).unwrap();
    let line = status.lines().find_map(|line| line.strip_prefix(set));
    let set = u64::from_str_radix(line.unwrap_or("0").trim(), 16).unwrap();
    set >> (signal - 1) & 1 == 1
}

/// A run that is interrupted by the signal once it has come some way. It must end soon.
fn interrupted(mut running: Running, signal: c_int, after: Duration) -> Ended {
    if running.minds(signal) {
        thread::sleep(after);
        running.send(signal);
    }
    let sent = Instant::now();
    let ended = running.end();
    assert!(sent.elapsed() < SOON, "it ends soon");
    ended
}

/// Writes to the pipe until it has no room for a byte more.
fn fill(mut pipe: &PipeWriter) {
    // SAFETY: the descriptor is the pipe's own.
    let set = |flags: c_int| unsafe { fcntl(pipe.as_raw_fd(), SET_FLAGS, flags) };
    assert_eq!(set(NOT_WAITING), 0);
    let bytes = [b'x'; 4096];
    for size in [bytes.len(), 1] {
        while pipe.write(&bytes[..size]).is_ok() {}
    }
    assert_eq!(set(0), 0);
}

/// A file with the model of rings, in a folder of its own.
fn rings_in(folder: &Path, lengths: &[usize]) -> PathBuf {
    let model = folder.join("rings.txt");
    fs::write(&model, rings(lengths)).unwrap();
    model
}

/// The number in front of these words, which follow one another in the text.
fn number_before(text: &str, words: &str) -> u64 {
    let (before, _) = text
        .split_once(words)
        .unwrap_or_else(|| panic!("{words}: {text}"));
    let number = before.rsplit(' ').next().unwrap();
    number.parse().unwrap_or_else(|_| panic!("{words}: {text}"))
}

#[test]
fn a_line_shows_how_far_a_run_has_come() {
    let model = rings_in(&scratch("terminal-progress"), &ENDLESS);
    let options = ["--allowance", "9000"];
    let plain = start(check(&model, &options), false).end();
    assert_eq!(plain.errors, "", "no terminal, no line");
    assert_eq!(plain.status, 2);
    let shown_at_last = number_before(&plain.output, " events\n");
    let watched = start(check(&model, &options), true).end();
    assert_eq!((watched.status, &watched.output), (2, &plain.output));

    let shown = watched.errors.strip_suffix(ERASED);
    let shown = shown.unwrap_or_else(|| panic!("the line stays: {:?}", watched.errors));
    let lines = shown.strip_prefix('\r').unwrap().split('\r');
    let lines: Vec<&str> = lines
        .map(|line| line.strip_suffix("\x1b[K").expect(line))
        .collect();
    let mut steps = Vec::new();
    let mut least = Vec::new();
    for line in &lines {
        assert!(line.chars().count() <= 79, "{line}");
        assert!(!line.contains(char::is_control), "{line:?}");
        least.push(number_before(line, " events;"));
        assert!(line.starts_with("no word under "), "{line}");
        let level = number_before(line, ", ");
        assert!(line.contains(&format!("; level {level}, ")), "{line}");
        assert_eq!(least.last(), Some(&level), "{line}");
        steps.push(number_before(line, " steps,"));
        assert!(number_before(line, " blockers,") > 0, "{line}");
        assert!(number_before(line, " steps/s") > 0, "{line}");
    }
    assert!(lines.len() >= 2, "{lines:?}");
    assert!(least.is_sorted() && least[0] < least[least.len() - 1]);
    assert!(least.iter().all(|&least| least <= shown_at_last));
    assert!(steps.is_sorted_by(|one, next| one < next), "{lines:?}");
}

#[test]
fn a_short_run_shows_no_line() {
    let model = common::root().join("models/stall.txt");
    let watched = start(check(&model, &[]), true).end();
    assert_eq!((watched.status, watched.errors.as_str()), (1, ""));
}

#[test]
fn a_terminal_that_goes_away_ends_no_run() {
    let model = rings_in(&scratch("terminal-gone"), &LONG);
    let expected = start(check(&model, &["--way", "1"]), false).end();
    let mut running = start(check(&model, &["--way", "1"]), true);
    running.terminal = None;
    assert_eq!(running.end(), expected);
}

/// What an interrupted run says of itself.
fn assert_interrupted(ended: &Ended) {
    assert_eq!(ended.status, 2, "{ended:?}");
    let lines: Vec<&str> = ended.output.lines().collect();
    assert_eq!(lines[0], "stopped: it was interrupted");
    let level = lines[2].split(", ").nth(1);
    let level = level.and_then(|word| word.strip_prefix("level "));
    let level: u64 = level.and_then(|level| level.parse().ok()).expect(lines[2]);
    let shown = format!("no forbidden event sequence has fewer than {level} events");
    assert_eq!(lines[1], shown);
    assert!(level > 1 && number_before(lines[2], " steps, ") > level);
}

#[test]
fn interrupts_end_a_run_with_what_it_has_shown() {
    let model = rings_in(&scratch("terminal-interrupts"), &ENDLESS);
    for signal in [INTERRUPT, TERMINATE, HANG_UP] {
        let running = start(check(&model, &[]), false);
        let ended = interrupted(running, signal, Duration::from_millis(150));
        assert_interrupted(&ended);
        assert_eq!(ended.output.lines().count(), 3);
        assert_eq!(ended.errors, "");
    }
}

#[test]
fn an_interrupt_takes_the_line_away() {
    let model = rings_in(&scratch("terminal-interrupt-shown"), &ENDLESS);
    let running = start(check(&model, &[]), true);
    let ended = interrupted(running, INTERRUPT, Duration::from_millis(350));
    assert_interrupted(&ended);
    assert!(ended.errors.starts_with("\rno word under "), "{ended:?}");
    assert!(ended.errors.ends_with(ERASED), "{ended:?}");
}

#[test]
fn programs_are_told_of_an_interrupt_by_its_number() {
    let model = rings_in(&scratch("terminal-interrupt-json"), &ENDLESS);
    let running = start(check(&model, &["--json"]), false);
    let ended = interrupted(running, INTERRUPT, Duration::from_millis(100));
    assert_eq!((ended.status, ended.errors.as_str()), (2, ""));
    let value = object(&ended.output);
    assert_eq!(value.keys(), KEYS);
    assert_eq!(value.get("verdict").text(), "stopped");
    assert_eq!(value.get("sentence").text(), "it was interrupted");
    let number = |key: &str| value.get(key).number();
    assert_eq!((number("number"), number("hints")), (6, 0));
    assert_eq!(number("least"), number("level"));
    assert!(number("level") > 1, "{value:?}");
    assert!(number("steps") > number("blockers") && number("blockers") > 0);
    for key in ["word", "run", "frame"] {
        assert!(value.get(key).is_null(), "{key}");
    }
}

/// The first interrupt is noted, and the run ends; but its report does not, as nobody reads what it is
/// written to. So the program is there for the second.
#[test]
fn the_second_interrupt_ends_the_program_as_ever() {
    let model = rings_in(&scratch("terminal-second"), &ENDLESS);
    let (unread, full) = io::pipe().unwrap();
    let mut command = check(&model, &[]);
    command.stdin(Stdio::null()).stderr(Stdio::piped());
    fill(&full);
    command.stdout(full);
    let child = command.spawn().unwrap();
    drop(command);
    let mut running = Running {
        child,
        terminal: None,
    };
    assert!(running.minds(INTERRUPT));
    running.send(INTERRUPT);
    let sent = Instant::now();
    while has_signal(&running.child, "SigCgt:", INTERRUPT) && sent.elapsed() < SOON {
        thread::sleep(Duration::from_millis(1));
    }
    thread::sleep(Duration::from_millis(300));
    assert_eq!(running.child.try_wait().unwrap(), None);
    running.send(INTERRUPT);
    let (sent, mut status) = (Instant::now(), None);
    while status.is_none() && sent.elapsed() < SOON {
        thread::sleep(Duration::from_millis(1));
        status = running.child.try_wait().unwrap();
    }
    running.child.kill().unwrap();
    assert_eq!(status.and_then(|status| status.signal()), Some(INTERRUPT));
    drop(unread);
}

#[test]
fn signals_that_are_ignored_stay_ignored() {
    let model = rings_in(&scratch("terminal-ignored"), &LONG);
    let expected = start(check(&model, &[]), false).end();
    let mut command = Command::new("sh");
    command.args(["-c", "trap '' INT HUP; exec \"$0\" check \"$1\""]);
    command.arg(env!("CARGO_BIN_EXE_afa")).arg(&model);
    let mut running = start(command, false);
    // The last signal that the program sees to: the others have been seen to then.
    assert!(running.minds(TERMINATE));
    for signal in [INTERRUPT, HANG_UP] {
        assert!(has_signal(&running.child, "SigIgn:", signal));
        running.send(signal);
        running.send(signal);
    }
    assert_eq!(running.end(), expected);
}

/// Interrupts a run some time after each beginning, and goes on with what was saved, to the verdict. The
/// time is a part of what the run takes as a whole, so that there are some interruptions on any machine.
fn interrupt_to_the_end(name: &str, on_terminal: bool, options: &[&str]) {
    let folder = scratch(name);
    let model = rings_in(&folder, &LONG);
    let save = folder.join("saved.run");
    let path = save.to_str().unwrap();
    let begun = Instant::now();
    let expected = start(check(&model, options), false).end();
    assert_eq!(expected.status, 1);
    let after = begun.elapsed() / 6;
    let mut interruptions = 0;
    let last = loop {
        let mut command = check(&model, options);
        command.args(["--save", path]);
        if save.exists() {
            command.args(["--resume", path]);
        }
        let running = start(command, on_terminal);
        let ended = interrupted(running, INTERRUPT, after);
        let names = fs::read_dir(&folder).unwrap();
        let names = names.map(|entry| entry.unwrap().file_name().into_string().unwrap());
        let names: Vec<String> = names.filter(|name| name.contains("part")).collect();
        assert!(names.is_empty(), "{names:?}");
        if ended.status != 2 {
            break ended;
        }
        assert_interrupted(&ended);
        let said = format!("saved: it goes on with --resume {path}");
        assert_eq!(ended.output.lines().nth(3), Some(said.as_str()));
        interruptions += 1;
        assert!(interruptions < 1000, "it comes no further");
    };
    assert!(interruptions >= 2, "{interruptions}");
    assert_eq!((last.status, last.output), (1, expected.output));
}

#[test]
fn an_interrupted_run_goes_on_to_the_same_end() {
    interrupt_to_the_end("terminal-again", false, &["--way", "1"]);
}

#[test]
fn an_interrupted_run_on_a_terminal_goes_on_to_the_same_end() {
    interrupt_to_the_end("terminal-again-shown", true, &[]);
}
