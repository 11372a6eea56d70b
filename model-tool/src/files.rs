//! Files: what is read of one, and one that is written whole or not at all.

use std::fs::{self, File};
use std::io::{self, ErrorKind, Read, Write};
use std::path::{Path, PathBuf};
use std::sync::atomic::{AtomicBool, Ordering};

/// No text that the tool reads is longer: a model with 4,096 rows of 64 long names is far below.
const MOST_READ: u64 = 1 << 26;

/// Whether standard input was read: there is nothing behind it.
static INPUT_IS_READ: AtomicBool = AtomicBool::new(false);

/// The bytes of a file, or of standard input for `-`.
pub fn read(path: &str) -> Result<Vec<u8>, String> {
    if path == "-" && INPUT_IS_READ.swap(true, Ordering::Relaxed) {
        return Err("standard input stands for two files: expected one".to_owned());
    }
    let mut bytes = Vec::new();
    let read = match path {
        "-" => io::stdin().take(MOST_READ + 1).read_to_end(&mut bytes),
        _ => File::open(path).and_then(|file| file.take(MOST_READ + 1).read_to_end(&mut bytes)),
    };
    read.map_err(|error| format!("{}: {error}", named(path)))?;
    if bytes.len() as u64 > MOST_READ {
        let path = named(path);
        return Err(format!("{path}: expected at most {MOST_READ} bytes"));
    }
    Ok(bytes)
}

/// How a message names the file.
pub fn named(path: &str) -> &str {
    match path {
        "-" => "standard input",
        _ => path,
    }
}

/// A file to be written at the end of a run. That it can be is seen at the run's start; until the end it
/// stands beside the place where it belongs, so that an older one is kept if the run does not get there.
pub struct Output {
    /// As the user wrote it.
    name: String,
    /// Where it belongs: behind links, if there are any.
    path: PathBuf,
    file: File,
    /// Where it stands until it is finished; nowhere else for what is no plain file, as a terminal.
    beside: Option<PathBuf>,
}

impl Output {
    pub fn create(name: &str) -> Result<Self, String> {
        let failed = |error| format!("{name}: {error}");
        let path = place(Path::new(name)).map_err(failed)?;
        let is_plain = fs::symlink_metadata(&path).map_or(true, |found| found.is_file());
        let (file, beside) = match is_plain {
            true => beside(&path).map(|(file, path)| (file, Some(path))),
            false => File::options()
                .write(true)
                .open(&path)
                .map(|file| (file, None)),
        }
        .map_err(failed)?;
        Ok(Output {
            name: name.to_owned(),
            path,
            file,
            beside,
        })
    }

    pub fn finish(mut self, bytes: &[u8]) -> Result<(), String> {
        let written = self.file.write_all(bytes).and_then(|()| self.file.flush());
        let placed = written.and_then(|()| match &self.beside {
            Some(beside) => fs::rename(beside, &self.path),
            None => Ok(()),
        });
        match placed {
            Ok(()) => {
                self.beside = None;
                Ok(())
            }
            Err(error) => Err(format!("{}: {error}", self.name)),
        }
    }

    /// Both belong in the same place.
    pub fn is_same(&self, other: &Output) -> bool {
        self.path == other.path && self.beside.is_some()
    }
}

impl Drop for Output {
    fn drop(&mut self) {
        if let Some(beside) = &self.beside {
            // It is empty or was not finished: nothing is lost if it stays.
            let _ = fs::remove_file(beside);
        }
    }
}

/// Where a file of this name stands or will stand, without links.
fn place(name: &Path) -> io::Result<PathBuf> {
    match (fs::canonicalize(name), name.parent(), name.file_name()) {
        (Ok(path), _, _) => Ok(path),
        (Err(error), Some(folder), Some(file)) if error.kind() == ErrorKind::NotFound => {
            let folder = match folder.as_os_str().is_empty() {
                true => Path::new("."),
                false => folder,
            };
            fs::canonicalize(folder).map(|folder| folder.join(file))
        }
        (Err(error), _, _) => Err(error),
    }
}

/// A new file beside the one at the path, under a name that nothing has.
fn beside(path: &Path) -> io::Result<(File, PathBuf)> {
    let mut number = 0;
    loop {
        let mut name = path.as_os_str().to_owned();
        name.push(format!(".{number}.part"));
        match File::create_new(&name) {
            Err(error) if error.kind() == ErrorKind::AlreadyExists => number += 1,
            made => return made.map(|file| (file, PathBuf::from(name))),
        }
    }
}

/// Writes to standard output.
pub fn print(bytes: &[u8]) -> Result<(), String> {
    let mut output = io::stdout();
    let written = output.write_all(bytes).and_then(|()| output.flush());
    written.map_err(|error| format!("standard output: {error}"))
}
