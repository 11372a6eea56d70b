//! What the comments of `models/` and `docs/FORMAT.md` say that the program prints is what it prints.

mod common;

use common::{afa, models, root};
use std::fs;

/// A command and the lines that are said to follow.
#[derive(Debug)]
struct Transcript {
    command: String,
    said: Vec<String>,
}

/// The commands `$ afa ..` in these lines, each with what stands below it, as far as it is indented as
/// much or empty; empty lines at its end are left out.
fn transcripts<'a>(lines: impl Iterator<Item = &'a str>) -> Vec<Transcript> {
    let mut found: Vec<Transcript> = Vec::new();
    let mut margin = None;
    for line in lines {
        if let Some((before, command)) = line.split_once("$ afa ") {
            margin = Some(before.to_owned());
            found.push(Transcript {
                command: command.to_owned(),
                said: Vec::new(),
            });
        } else if let Some(indent) = &margin {
            let said = line.strip_prefix(indent.as_str());
            match said.or(line.trim().is_empty().then_some("")) {
                Some(said) => found.last_mut().unwrap().said.push(said.to_owned()),
                None => margin = None,
            }
        }
    }
    for transcript in &mut found {
        while transcript.said.last().is_some_and(String::is_empty) {
            transcript.said.pop();
        }
    }
    found
}

/// The lines that are said are those printed, where `..` stands for any that were left out.
fn agree(said: &[String], printed: &[&str]) -> bool {
    match said.split_first() {
        None => printed.is_empty(),
        Some((line, rest)) if line == ".." => {
            (0..=printed.len()).any(|left_out| agree(rest, &printed[left_out..]))
        }
        Some((line, rest)) => printed
            .split_first()
            .is_some_and(|(first, behind)| line == first && agree(rest, behind)),
    }
}

fn hold(origin: &str, transcripts: &[Transcript]) {
    for Transcript { command, said } in transcripts {
        let words: Vec<&str> = command.split_whitespace().collect();
        let ended = afa(&words);
        let printed: Vec<&str> = ended.output.lines().collect();
        assert!(
            agree(said, &printed) && ended.errors.is_empty(),
            "{origin}: afa {command}\nsaid:\n{}\nprinted: {ended:?}\n{}",
            said.join("\n"),
            ended.output
        );
    }
}

#[test]
fn comments_of_models() {
    for path in models() {
        let text = fs::read_to_string(root().join(&path)).unwrap();
        let comment = text.lines().map_while(|line| line.strip_prefix('#'));
        let transcripts = transcripts(comment.collect::<Vec<_>>().into_iter());
        let first = transcripts.first().expect("a command in the comment");
        assert_eq!(first.command, format!("check {path}"));
        assert!(transcripts
            .iter()
            .all(|transcript| !transcript.said.is_empty()));
        hold(&path, &transcripts);
    }
}

#[test]
fn page_of_formats() {
    let path = "docs/FORMAT.md";
    let text = fs::read_to_string(root().join(path)).unwrap();
    let transcripts = transcripts(text.lines());
    assert!(transcripts.len() >= 3, "{transcripts:?}");
    hold(path, &transcripts);
}

#[test]
fn what_agrees() {
    let lines = |text: &str| text.lines().map(str::to_owned).collect::<Vec<_>>();
    for (said, printed, expected) in [
        ("a\nb", "a\nb", true),
        ("a", "a\nb", false),
        ("a\nb", "a", false),
        ("a\n..", "a\nb\nc", true),
        ("a\n..\nc", "a\nc", true),
        ("..\nb", "a\nb\nc", false),
        ("a\n..\nc\nd", "a\nc\nb\nc\nd", true),
    ] {
        let printed: Vec<&str> = printed.lines().collect();
        assert_eq!(
            agree(&lines(said), &printed),
            expected,
            "{said:?} {printed:?}"
        );
    }
}
