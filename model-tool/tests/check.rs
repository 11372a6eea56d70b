//! The scripts `check` and `afa`: README's first command as it stands there, what they build and when, and
//! that nothing that fails passes for an answer.

mod common;

use common::{root, run, Ended, Outside};
use std::fs;
use std::os::unix::fs::PermissionsExt;
use std::path::Path;
use std::process::Command;

/// The first command, and behind it what it prints.
#[test]
fn first_command_of_the_readme() {
    let readme = fs::read_to_string(root().join("README.md")).unwrap();
    let indented = |line: &str| line.is_empty() || line.starts_with("    ");
    let mut lines = readme.lines();
    let first = lines.find_map(|line| line.strip_prefix("    "));
    let first = first.expect("a command");
    assert_eq!(first, "bash model-tool/check models/stall.txt");
    let printed = lines.skip_while(|line| !line.ends_with("It prints"));
    let printed = printed.skip(1).take_while(|line| indented(line));
    let printed: Vec<&str> = printed
        .map(|line| line.strip_prefix("    ").unwrap_or(""))
        .collect();
    let ended = run(Command::new("bash").args(["-c", first]).current_dir(root()));
    assert_eq!(ended.output.trim(), printed.join("\n").trim());
    assert_eq!((ended.status, ended.errors.as_str()), (1, ""));
}

/// Both scripts are the program, with its words and its status, from whatever folder.
#[test]
fn words_and_statuses() {
    let script = |name: &str, words: &[&str]| {
        let mut command = Command::new("bash");
        let script = root().join("model-tool").join(name);
        run(command.arg(script).args(words).current_dir(root()))
    };
    for words in [
        &["models/a.txt"][..],
        &["models/c.txt", "--json"],
        &["models/c.txt", "--allowance", "3"],
        &["models/none.txt"],
        &["--help"],
        &[],
    ] {
        let whole = [&["check"], words].concat();
        let expected = common::afa(&whole);
        assert_eq!(script("check", words), expected, "{words:?}");
        assert_eq!(script("afa", &whole), expected, "{words:?}");
    }
    let mut command = Command::new("bash");
    let elsewhere = run(command
        .arg(root().join("model-tool/check"))
        .arg(root().join("models/a.txt"))
        .current_dir("/"));
    assert_eq!(elsewhere, common::afa(&["check", "models/a.txt"]));
}

/// A repository with a script in place of `rt` and of `cargo`. `rt` writes its words and the crate that it
/// works in to the file `calls`, its version where it is asked for that, the archive where it is to build it,
/// and ends with the status in the file `rt-status`; `cargo` ends with that in `cargo-status`.
struct Repository {
    folder: Outside,
}

impl Repository {
    fn new(name: &str) -> Self {
        let repository = Repository {
            folder: Outside::new(name),
        };
        repository.write("crates.txt", "lists:\nexports staticlib: lists\n");
        repository.write("crates/lists/src/lib.rt", "fn first() {\n}\n");
        repository.write("crates/lists/specs/Lists.antt", "first : ℕ\n");
        repository.write("crates/exports/src/lib.rt", "use lists;\n");
        for script in ["afa", "check"] {
            let path = Path::new(env!("CARGO_MANIFEST_DIR")).join(script);
            let text = fs::read_to_string(path).unwrap();
            repository.write(&format!("model-tool/{script}"), &text);
        }
        repository.script("model-tool/target/release/afa", "echo \"$*\"; exit 1");
        repository.script("bin/cargo", "exit \"$(cat cargo-status)\"");
        repository.script(
            "bin/rt",
            "root=$(dirname \"$0\")/..\n\
             echo \"rt $*\" >>\"$root/calls\"\n\
             [ \"$1\" != version ] || exec cat \"$root/kit\"\n\
             [ \"$(basename \"$PWD\")\" = exports ] || exit 2\n\
             mkdir -p out\n\
             echo archive >out/libexports.a\n\
             echo 'rt: exports: begins with what a check kept in /a/copy/crates/exports'\n\
             echo 'rt: chose --jobs 2 for lists'\n\
             echo 'so far: 1 of 2 functions checked; the verdict comes last'\n\
             echo 'fn lists::first: proved'\n\
             echo 'struct masks::State: proved'\n\
             echo 'logic /a/kit/antt-project.json: libraries=16 files=2756'\n\
             echo 'statements std: modules loaded=21 checked=0'\n\
             echo 'library lists: modules loaded=25 checked=0'\n\
             echo 'crate exports: modules loaded=0 checked=34'\n\
             echo 'axioms std: none reached of the 2 declared'\n\
             echo 'only=0 proved=0'\n\
             echo 'logic=proved functions=1 incremental=trusted'\n\
             echo '/a/file.antt:39:5: note: large solution'\n\
             echo 'rt: news' >&2\n\
             exit \"$(cat \"$root/rt-status\")\"",
        );
        repository.write("kit", "a kit\n");
        repository.write("rt-status", "0");
        repository.write("cargo-status", "0");
        repository
    }

    fn write(&self, name: &str, text: &str) {
        let path = self.folder.join(name);
        fs::create_dir_all(path.parent().unwrap()).unwrap();
        fs::write(path, text).unwrap();
    }

    fn remove(&self, name: &str) {
        fs::remove_file(self.folder.join(name)).unwrap();
    }

    fn script(&self, name: &str, text: &str) {
        self.write(name, &format!("#!/bin/sh\n{text}\n"));
        let path = self.folder.join(name);
        fs::set_permissions(path, fs::Permissions::from_mode(0o755)).unwrap();
    }

    fn check(&self) -> Ended {
        let path = std::env::var("PATH").unwrap();
        let path = format!("{}:{path}", self.folder.join("bin").display());
        let mut command = Command::new("bash");
        command.args(["model-tool/check", "a model.txt", "--json"]);
        run(command.env("PATH", path).current_dir(&*self.folder))
    }

    /// What `rt` was called with since the last time.
    fn calls(&self) -> String {
        let path = self.folder.join("calls");
        let calls = fs::read_to_string(&path).unwrap_or_default();
        let _ = fs::remove_file(path);
        calls
    }
}

const ARCHIVE: &str = "crates/exports/out/libexports.a";

#[test]
fn what_is_built_and_when() {
    let repository = Repository::new("rebuilt");
    let answer = Ended {
        status: 1,
        output: "check a model.txt --json\n".to_owned(),
        errors: String::new(),
    };
    let anew = Ended {
        errors: "rt: news\n".to_owned(),
        ..answer.clone()
    };
    let first = "afa: the library is proved and built first, which takes some minutes\n";
    let from_nothing = Ended {
        errors: format!("{first}rt: news\n"),
        ..answer.clone()
    };
    let (nothing, all) = ("rt version\n", "rt version\nrt lib\n");
    assert_eq!(repository.check(), from_nothing);
    assert_eq!(repository.calls(), all);
    let is_as_it_was = || {
        assert_eq!(repository.check(), answer);
        assert_eq!(repository.calls(), nothing);
    };
    // Nothing is missing or old.
    is_as_it_was();
    // What has changed is proved and compiled anew, once; so is what another kit built, and another archive.
    for (name, text) in [
        ("crates/lists/src/lib.rt", "fn last() {\n}\n"),
        ("crates/lists/specs/Lists.antt", "last : ℕ\n"),
        (
            "crates/lists/proofs/last/Answers.antt",
            "returns : goal.returns\n",
        ),
        ("crates/exports/src/lib.rt", "use lists::last;\n"),
        (
            "crates.txt",
            "lists:\nchains:\nexports staticlib: lists chains\n",
        ),
        ("kit", "another kit\n"),
        (ARCHIVE, "another archive\n"),
    ] {
        repository.write(name, text);
        assert_eq!(repository.check(), anew, "{name}");
        assert_eq!(repository.calls(), all, "{name}");
        is_as_it_was();
    }
    repository.remove("crates/lists/proofs/last/Answers.antt");
    assert_eq!(repository.check(), anew);
    assert_eq!(repository.calls(), all);
    is_as_it_was();
    // The library is made of nothing else.
    for name in [
        "crates/lists/must-fail/first.edit",
        "crates/exports/out/incremental/kept.antt",
        "docs/LISTS.md",
    ] {
        repository.write(name, "more\n");
        is_as_it_was();
    }
    repository.remove(ARCHIVE);
    assert_eq!(repository.check(), from_nothing);
    assert_eq!(repository.calls(), all);
    is_as_it_was();
}

#[test]
fn nothing_that_fails_passes_for_an_answer() {
    let repository = Repository::new("failing");
    assert_eq!(repository.check().status, 1);
    let fails = || {
        let ended = repository.check();
        assert_eq!((ended.status, ended.output.as_str()), (3, ""), "{ended:?}");
        ended.errors
    };
    // An archive is there, but of what was before.
    repository.write("crates/lists/src/lib.rt", "fn last() {\n}\n");
    for status in ["1", "2", "3"] {
        repository.write("rt-status", status);
        for _ in 0..2 {
            let errors = fails();
            assert!(errors.contains("rt: news\n"), "{errors}");
            assert!(errors.contains("could not be proved and built"), "{errors}");
        }
    }
    repository.write("rt-status", "0");
    assert_eq!(repository.check().status, 1);
    let rt = fs::read_to_string(repository.folder.join("bin/rt")).unwrap();
    // The archive cannot be written, or is not, or the kit does not tell its version.
    for script in ["[ \"$1\" = version ]", "exit 0", "[ \"$1\" = lib ]"] {
        if script == "exit 0" {
            repository.remove(ARCHIVE);
        }
        repository.write("crates/lists/src/lib.rt", script);
        repository.script("bin/rt", script);
        assert!(
            fails().contains("could not be proved and built"),
            "{script}"
        );
    }
    repository.script("bin/rt", &rt);
    assert_eq!(repository.check().status, 1);
    repository.write("cargo-status", "101");
    assert!(fails().contains("could not be built"));
    repository.write("cargo-status", "0");
    assert_eq!(repository.check().status, 1);
}
