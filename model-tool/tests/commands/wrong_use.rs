//! Words that are no command, no option, no number or no text.

use super::*;

#[test]
fn no_command() {
    let ended = run(&mut program());
    assert_no_answer(&ended, &["expected a command", "usage: afa COMMAND"]);
    for command in COMMANDS {
        assert!(
            ended.errors.contains(&format!("\n  {command} ")),
            "{command}"
        );
    }
}

#[test]
fn an_unknown_command() {
    for (word, near) in [
        ("chekc", "check"),
        ("Check", "check"),
        ("imag", "image"),
        ("tst", "test"),
        ("wyh", "why"),
    ] {
        let expected = [
            &format!("'{word}' is no command"),
            &format!("did you mean '{near}'?"),
            "check, image, text, test, run, why",
        ];
        assert_no_answer(&afa(&[word, "models/b.txt"]), &expected);
        assert_no_answer(&afa(&[word, "--help"]), &expected);
        assert_no_answer(&afa(&["help", word]), &expected);
    }
    let ended = afa(&["frobnicate"]);
    assert_no_answer(
        &ended,
        &["'frobnicate' is no command: expected one of check, "],
    );
    assert_no_answer(&afa(&[""]), &["'' is no command: expected one of check, "]);
}

#[test]
fn an_unknown_option() {
    for (word, near) in [
        ("--alowance", "--allowance"),
        ("--blocker", "--blockers"),
        ("--JSON", "--json"),
        ("--htlm=x", "--html"),
        ("--hnits", "--hints"),
    ] {
        let name = word.split('=').next().unwrap();
        let ended = afa(&["check", "models/b.txt", word, "1"]);
        assert_no_answer(
            &ended,
            &[&format!(
                "'{name}' is no option here; did you mean '{near}'? Expected one of "
            )],
        );
    }
    let ended = afa(&["check", "models/b.txt", "--frobnicate"]);
    assert_no_answer(
        &ended,
        &[
            "'--frobnicate' is no option here: expected one of --blockers, ",
            "--save",
        ],
    );
    assert_no_answer(
        &afa(&["why", "models/b.txt", "--levl", "1"]),
        &["did you mean '--level'?"],
    );
    assert_no_answer(
        &afa(&["why", "models/b.txt", "--level", "1", "--json"]),
        &["'--json' is no option here"],
    );
}

#[test]
fn an_option_where_there_is_none() {
    for command in ["image", "text", "test", "run"] {
        let ended = afa(&[command, "models/b.txt", "--json"]);
        assert_no_answer(&ended, &["'--json' is no option here"]);
        let line = ended.errors.trim_end_matches('\n');
        assert!(!line.ends_with(' '), "a list without an end: {ended:?}");
    }
}

#[test]
fn an_option_twice() {
    for (option, value) in [
        ("--word", "1"),
        ("--hints", "/dev/null"),
        ("--html", "/dev/null"),
    ] {
        let ended = afa(&["check", "models/b.txt", option, value, option, value]);
        assert_no_answer(
            &ended,
            &[&format!("{option} stands twice: expected it once")],
        );
    }
    assert_no_answer(
        &afa(&["check", "models/b.txt", "--json", "--json"]),
        &["--json stands twice"],
    );
    assert_no_answer(
        &afa(&["check", "models/b.txt", "--way=1", "--way", "0"]),
        &["--way stands twice"],
    );
}

#[test]
fn an_option_without_its_value() {
    for (option, what) in [
        ("--allowance", "a number of steps"),
        ("--blockers", "a number of places"),
        ("--word", "a number of places"),
        ("--hints", "a file"),
        ("--html", "a file"),
        ("--save", "a file"),
        ("--resume", "a file"),
        ("--way", "0 or 1"),
        ("--edition", "1 or 2"),
    ] {
        let ended = afa(&["check", "models/b.txt", option]);
        assert_no_answer(&ended, &[&format!("{option}: expected {what} behind it")]);
    }
    assert_no_answer(
        &afa(&["why", "models/b.txt", "--level"]),
        &["--level: expected a level behind it"],
    );
    assert_no_answer(
        &afa(&["check", "models/b.txt", "--json=yes"]),
        &["--json takes no value"],
    );
}

#[test]
fn a_value_that_is_no_number() {
    for option in ["--allowance", "--blockers", "--word", "--way", "--edition"] {
        for value in [
            "",
            "-1",
            "+1",
            "1x",
            "x",
            " 1",
            "1.0",
            "0x1",
            "18446744073709551616",
            "\u{661}",
        ] {
            let expected = format!("{option} '{value}': expected a number from 0 to 2^64 - 1");
            let ended = afa(&["check", "models/b.txt", option, value]);
            assert_no_answer(&ended, &[&expected]);
        }
    }
    let ended = afa(&["why", "models/b.txt", "--level", "-1"]);
    assert_no_answer(
        &ended,
        &["--level '-1': expected a number from 0 to 2^64 - 1"],
    );
}

#[test]
fn too_few_or_too_many_words() {
    for (words, usage) in [
        (&["check"][..], "check MODEL [OPTION].."),
        (
            &["check", "models/b.txt", "models/b.txt"],
            "check MODEL [OPTION]..",
        ),
        (&["image"], "image MODEL"),
        (&["image", "models/b.txt", "models/b.txt"], "image MODEL"),
        (&["text"], "text IMAGE"),
        (&["text", "models/b.txt", "x"], "text IMAGE"),
        (&["test"], "test MODEL EVENT.."),
        (&["run"], "run MODEL EVENT.."),
        (&["why"], "why MODEL --level N STATE.."),
        (&["why", "models/b.txt", "0"], "why MODEL --level N STATE.."),
        (&["why", "--level", "1"], "why MODEL --level N STATE.."),
    ] {
        assert_no_answer(&afa(words), &[&format!("afa: expected: afa {usage}")]);
    }
}

#[test]
fn words_behind_a_page_of_help() {
    assert_no_answer(&afa(&["help", "check", "image"]), &["expected"]);
    assert_no_answer(&afa(&["--help", "check", "image"]), &["expected"]);
}

#[test]
fn help_misspelt() {
    let ended = afa(&["check", "models/b.txt", "--hlep"]);
    assert_no_answer(&ended, &["did you mean '--help'?"]);
}

#[test]
fn words_that_are_not_text() {
    let bad = OsStr::from_bytes(b"mod\xffel");
    for words in [
        vec![bad],
        vec![OsStr::new("check"), bad],
        vec![OsStr::new("check"), OsStr::new("--html"), bad],
        vec![OsStr::new("test"), OsStr::new("models/b.txt"), bad],
    ] {
        assert_no_answer(&afa(&words), &["'mod\u{fffd}el': expected words in UTF-8"]);
    }
}

#[test]
fn a_message_obeys_nothing_that_a_word_has_in_it() {
    let ended = afa(&["test", "models/b.txt", "\u{1b}[2J\n"]);
    assert_no_answer(&ended, &["'\\u{1b}[2J\\n' is no event"]);
    assert_eq!(ended.errors.lines().count(), 1);
    let ended = afa(&["test", "models/b.txt", &"x".repeat(10_000)]);
    assert!(ended.errors.len() < 200, "{ended:?}");
}
