//! Output that cannot be written, and files that must not be lost.

use super::*;

/// A model whose run takes long.
fn long(folder: &Path) -> String {
    file(folder, "long.txt", rings(&[2, 3, 5, 7, 11, 13]))
}

#[test]
fn a_file_in_no_folder_is_noticed_before_the_run() {
    let folder = scratch("commands-no-folder");
    let (model, none) = (long(&folder), folder.join("none/file"));
    let none = none.to_str().unwrap();
    for option in ["--html", "--save"] {
        for more in [&[][..], &["--json"]] {
            let ended = run_within(
                5,
                program().args(["check", &model, option, none]).args(more),
            );
            assert_eq!(ended.status, 3, "{ended:?}");
            assert!(
                ended.errors.starts_with(&format!("afa: {none}: ")),
                "{ended:?}"
            );
            assert_eq!(ended.output.is_empty(), more.is_empty(), "{ended:?}");
        }
    }
    assert_eq!(fs::read_dir(&folder).unwrap().count(), 1);
}

#[test]
fn a_folder_in_the_place_of_a_file() {
    let folder = scratch("commands-folder");
    let model = long(&folder);
    for option in ["--html", "--save"] {
        let place = folder.to_str().unwrap();
        let ended = run_within(5, program().args(["check", &model, option, place]));
        assert_no_answer(&ended, &[place]);
    }
}

#[test]
fn a_file_without_a_name_is_noticed_before_the_run() {
    let folder = scratch("commands-no-name");
    let model = long(&folder);
    for option in ["--html=", "--save="] {
        let mut command = program();
        command
            .current_dir(&folder)
            .args(["check", &model, option, "--allowance", "2000"]);
        let ended = run_within(5, &mut command);
        assert_no_answer(&ended, &["expected a file"]);
        assert_eq!(
            fs::read_dir(&folder).unwrap().count(),
            1,
            "a file is left behind"
        );
    }
}

#[test]
fn no_other_file_is_lost() {
    let folder = scratch("commands-beside-page");
    let names = ["page.html.part", "page.html.0.part", "page.html.1.part"];
    let others = names.map(|name| file(&folder, name, "mine"));
    let page = folder.join("page.html");
    let ended = afa(&["check", "models/b.txt", "--html", page.to_str().unwrap()]);
    assert_eq!(ended.status, 1);
    for other in others {
        assert_eq!(fs::read_to_string(other).ok().as_deref(), Some("mine"));
    }
    assert_eq!(fs::read_dir(&folder).unwrap().count(), 4);
}

#[test]
fn one_file_for_the_page_and_for_the_run() {
    let folder = scratch("commands-one-file");
    let path = folder.join("both");
    let path = path.to_str().unwrap();
    let ended = afa(&[
        "check",
        "models/screen.txt",
        "--allowance",
        "5",
        "--html",
        path,
        "--save",
        path,
    ]);
    assert_no_answer(&ended, &["expected"]);
    assert_eq!(
        fs::read_dir(&folder).unwrap().count(),
        0,
        "a file is left behind"
    );
}

#[test]
fn a_page_that_cannot_be_finished_does_not_cost_the_verdict() {
    let ended = afa(&["check", "models/b.txt", "--html", "/dev/full"]);
    assert_eq!(ended.status, 3, "{ended:?}");
    assert!(ended.errors.starts_with("afa: /dev/full: "), "{ended:?}");
    assert_eq!(ended.output, afa(&["check", "models/b.txt"]).output);
}

/// A command of each kind that prints.
const PRINTING: [&[&str]; 10] = [
    &["check", "models/b.txt"],
    &["check", "models/a.txt", "--json"],
    &["check", "models/none.txt", "--json"],
    &["check", "models/b.txt", "--way", "2", "--json"],
    &["image", "models/b.txt"],
    &["text", "models/b.image"],
    &["test", "models/b.txt"],
    &["run", "models/b.txt", "0"],
    &["why", "models/b.txt", "--level", "1", "0"],
    &["check", "--help"],
];

/// How the command ends whose standard output is this: its status, and what it says.
fn printing_to(output: impl Into<Stdio>, words: &[&str]) -> (i32, String) {
    let mut command = program();
    command
        .args(words)
        .stdout(output)
        .stdin(Stdio::null())
        .stderr(Stdio::piped());
    let ended = command.spawn().unwrap().wait_with_output().unwrap();
    let errors = String::from_utf8(ended.stderr).unwrap();
    assert!(!errors.contains("panicked"), "{words:?}: {errors}");
    (ended.status.code().expect("an exit status"), errors)
}

fn full() -> File {
    File::options().write(true).open("/dev/full").unwrap()
}

/// The command, with a file for the image that it reads.
fn prepared(words: &[&str], folder: &Path) -> Vec<String> {
    let image = program()
        .args(["image", "models/b.txt"])
        .output()
        .unwrap()
        .stdout;
    let path = file(folder, "b.image", image);
    let word = |word: &&str| word.replace("models/b.image", &path);
    words.iter().map(word).collect()
}

#[test]
fn standard_output_is_full() {
    let folder = scratch("commands-full");
    for words in PRINTING {
        let words = prepared(words, &folder);
        let (status, errors) = printing_to(full(), &with(&[], &words));
        assert_eq!(status, 3, "{words:?}: {errors}");
        assert!(
            errors.starts_with("afa: standard output: "),
            "{words:?}: {errors}"
        );
    }
}

#[test]
fn nobody_reads_standard_output() {
    let folder = scratch("commands-unread");
    for words in PRINTING {
        let words = prepared(words, &folder);
        let (reader, writer) = io::pipe().unwrap();
        drop(reader);
        let (status, errors) = printing_to(writer, &with(&[], &words));
        assert_eq!(status, 3, "{words:?}: {errors}");
        assert!(
            errors.starts_with("afa: standard output: "),
            "{words:?}: {errors}"
        );
    }
}

#[test]
fn standard_output_is_closed() {
    let program = env!("CARGO_BIN_EXE_afa");
    for (words, status) in [
        ("check models/a.txt", 0),
        ("check models/b.txt", 1),
        ("test models/b.txt 0", 1),
    ] {
        let mut command = Command::new("sh");
        command.current_dir(common::root());
        let ended = run(command.args(["-c", &format!("exec {program} {words} >&-")]));
        // Rust opens /dev/null in its place, so to the program it is written.
        assert!([status, 3].contains(&ended.status), "{words}: {ended:?}");
    }
}

#[test]
fn standard_error_is_full() {
    for (words, output) in [
        (&["chekc"][..], Stdio::piped()),
        (&["check", "models/none.txt"], Stdio::piped()),
        (&["check", "models/b.txt"], full().into()),
    ] {
        let mut command = program();
        command.args(words).stdin(Stdio::null());
        let child = command.stdout(output).stderr(full()).spawn();
        let ended = child.unwrap().wait_with_output().unwrap();
        let told = (ended.status.code(), ended.stdout);
        assert_eq!(told, (Some(3), Vec::new()), "{words:?}");
    }
}
