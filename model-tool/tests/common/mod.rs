//! What the tests of the program share. Each uses some of it.
#![allow(dead_code, unused_imports)]

pub mod json;
mod random;
pub mod reader;

pub use random::Random;

use std::fs;
use std::io::Write;
use std::ops::Deref;
use std::path::{Path, PathBuf};
use std::process::{Command, Output, Stdio};
use std::thread::sleep;
use std::time::{Duration, Instant};

/// The repository's root, from which every command is run.
pub fn root() -> PathBuf {
    let package = Path::new(env!("CARGO_MANIFEST_DIR"));
    package.parent().expect("a folder above").to_owned()
}

/// A folder of its own for a test, empty.
pub fn scratch(name: &str) -> PathBuf {
    let folder = Path::new(env!("CARGO_TARGET_TMPDIR")).join(name);
    if folder.exists() {
        fs::remove_dir_all(&folder).unwrap();
    }
    fs::create_dir_all(&folder).unwrap();
    folder
}

/// A folder of its own outside the repository, empty, that goes with the test. For links and for the files
/// of crates: the gate refuses both wherever they lie below the repository's root, also in what cargo made.
pub struct Outside(PathBuf);

impl Outside {
    pub fn new(name: &str) -> Self {
        let folder = std::env::temp_dir().join(format!("afa-{name}-{}", std::process::id()));
        if folder.exists() {
            fs::remove_dir_all(&folder).unwrap();
        }
        fs::create_dir_all(&folder).unwrap();
        Outside(folder)
    }
}

impl Deref for Outside {
    type Target = Path;

    fn deref(&self) -> &Path {
        &self.0
    }
}

impl Drop for Outside {
    fn drop(&mut self) {
        let _ = fs::remove_dir_all(&self.0);
    }
}

/// How a command ended: its exit status, standard output and standard error.
#[derive(Clone, Debug, PartialEq, Eq)]
pub struct Ended {
    pub status: i32,
    pub output: String,
    pub errors: String,
}

/// Runs a command to its end. It must exit, with text on both outputs, and say nothing of a panic.
pub fn run(command: &mut Command) -> Ended {
    let output = command.stdin(Stdio::null()).output().expect("it starts");
    ended(command, output)
}

fn ended(command: &Command, ended: Output) -> Ended {
    let text = |bytes| String::from_utf8(bytes).expect("text");
    let (output, errors) = (text(ended.stdout), text(ended.stderr));
    assert!(!errors.contains("panicked"), "{command:?}: {errors}");
    let status = ended.status.code();
    Ended {
        status: status.unwrap_or_else(|| panic!("{command:?}: no exit status: {errors}")),
        output,
        errors,
    }
}

/// Like [`run`], but the command must end within so many seconds.
pub fn run_within(seconds: u64, command: &mut Command) -> Ended {
    let begun = Instant::now();
    command.stdin(Stdio::null());
    command.stdout(Stdio::piped()).stderr(Stdio::piped());
    let mut child = command.spawn().expect("it starts");
    while child.try_wait().unwrap().is_none() {
        if begun.elapsed() > Duration::from_secs(seconds) {
            child.kill().unwrap();
            child.wait().unwrap();
            panic!("{command:?} ran for over {seconds} seconds");
        }
        sleep(Duration::from_millis(5));
    }
    ended(command, child.wait_with_output().unwrap())
}

/// The program, from the repository's root.
pub fn program() -> Command {
    let mut command = Command::new(env!("CARGO_BIN_EXE_afa"));
    command.current_dir(root());
    command
}

/// The program with these words.
pub fn afa<Word: AsRef<std::ffi::OsStr>>(words: &[Word]) -> Ended {
    run(program().args(words))
}

/// The program with these words, and these bytes on its standard input.
pub fn afa_reading(words: &[&str], input: &[u8]) -> Ended {
    let mut command = program();
    command.args(words);
    command.stdin(Stdio::piped());
    command.stdout(Stdio::piped()).stderr(Stdio::piped());
    let mut child = command.spawn().expect("it starts");
    // It may end before it has read all: then there is nobody to write to.
    let _ = child.stdin.take().expect("a pipe").write_all(input);
    ended(&command, child.wait_with_output().expect("it ends"))
}

/// A file of this name and with these contents in a folder. Its path.
pub fn file(folder: &Path, name: &str, contents: impl AsRef<[u8]>) -> String {
    let path = folder.join(name);
    fs::write(&path, contents).unwrap();
    path.into_os_string().into_string().unwrap()
}

/// The text of a model in `models/`, by its path from the repository's root.
pub fn text_of(model: &str) -> String {
    fs::read_to_string(root().join(model)).unwrap()
}

/// The files of `models/`, as `models/NAME`, in their order.
pub fn models() -> Vec<String> {
    let entries = fs::read_dir(root().join("models")).expect("the folder models");
    let names = entries.map(|entry| entry.unwrap().file_name().into_string().unwrap());
    let mut models: Vec<String> = names.map(|name| format!("models/{name}")).collect();
    models.sort();
    assert!(models.len() >= 11);
    models
}

/// A model of rings, one for each length: an event moves each ring on, and all must stand in their last
/// states. For coprime lengths the shortest word has one event less than their product.
pub fn rings(lengths: &[usize]) -> String {
    let name = |ring: usize, place: usize| format!("r{ring}-{place}");
    let names = |ring: usize| (0..lengths[ring]).map(move |place| name(ring, place));
    let all = 0..lengths.len();
    let spaced = |names: Vec<String>| names.join(" ");
    let mut text = format!(
        "states {}\nevents move\n",
        spaced(all.clone().flat_map(names).collect())
    );
    for ring in all.clone() {
        text += &format!("part r{ring} : {}\n", spaced(names(ring).collect()));
    }
    let first = all.clone().map(|ring| name(ring, 0));
    let last = all.clone().map(|ring| name(ring, lengths[ring] - 1));
    text += &format!("initial {}\n", spaced(first.collect()));
    text += &format!("final {}\n", spaced(last.collect()));
    for ring in all {
        for place in 0..lengths[ring] {
            let next = name(ring, (place + 1) % lengths[ring]);
            text += &format!("row {} move : {next}\n", name(ring, place));
        }
    }
    text
}

/// Does the work for every place below `count` on two threads. It is told the thread's number, 0 or 1, so
/// that each thread may have files of its own, and the place.
pub fn on_two_threads(count: usize, work: impl Fn(usize, usize) + Sync) {
    let work = &work;
    std::thread::scope(|scope| {
        for thread in 0..2 {
            scope.spawn(move || {
                (thread..count)
                    .step_by(2)
                    .for_each(|place| work(thread, place))
            });
        }
    });
}

/// The lines of a saved run with their digest as the last: FNV-1a in 64 bits.
pub fn with_digest(lines: &str) -> String {
    let mut digest: u64 = 0xcbf2_9ce4_8422_2325;
    for byte in lines.bytes() {
        digest = (digest ^ u64::from(byte)).wrapping_mul(0x0000_0100_0000_01b3);
    }
    format!("{lines}digest {digest:016x}\n")
}

/// That a file was refused: exit status 3, and nothing but one harmless message, which names the file.
pub fn assert_refused(ended: &Ended, file: &str, context: &str) {
    let Ended {
        status,
        output,
        errors,
    } = ended;
    let context = format!("{context}: {ended:?}");
    assert_eq!((*status, output.as_str()), (3, ""), "{context}");
    let message = errors.strip_prefix(&format!("afa: {file}:"));
    let message = message.and_then(|message| message.strip_suffix('\n'));
    let message = message.unwrap_or_else(|| panic!("no message that names {file}: {context}"));
    assert!(!message.contains(char::is_control), "{context}");
    assert!(message.len() > 10 && errors.len() < 2000, "{context}");
}
