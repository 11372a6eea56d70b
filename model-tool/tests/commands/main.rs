//! Every command on every model of `models/`, with its options; and what the program says of wrong use, of
//! faults in a text and of output that cannot be written.

#[path = "../common/mod.rs"]
mod common;

mod check;
mod faults;
mod help;
mod image_and_text;
mod options;
mod output_that_cannot_be_written;
mod parts;
mod test_and_run;
mod why;
mod wrong_use;

use common::json::{self, Value};
use common::reader::{Model, Set};
use common::{
    afa, afa_reading, file, models, program, rings, run, run_within, scratch, text_of, Ended,
    Random,
};
use std::collections::BTreeSet;
use std::ffi::OsStr;
use std::fs::{self, File};
use std::io;
use std::os::unix::ffi::OsStrExt;
use std::path::Path;
use std::process::{Command, Stdio};

const COMMANDS: [&str; 6] = ["check", "image", "text", "test", "run", "why"];

/// Fixed words and then more of them.
fn with<'a>(words: &[&'a str], more: impl IntoIterator<Item = &'a String>) -> Vec<&'a str> {
    let more = more.into_iter().map(String::as_str);
    words.iter().copied().chain(more).collect()
}

/// The object that `check` prints with these words.
fn found(words: &[&str]) -> Value {
    let ended = afa(&[&["check", "--json"], words].concat());
    json::object(&ended.output)
}

/// A shortest word of the model by its names, as `check` finds it.
fn word_of(model: &str) -> Option<Vec<String>> {
    let word = found(&[model]).get("word").clone();
    (!word.is_null()).then(|| word.texts())
}

fn verdict(ended: &Ended) -> &str {
    ended.output.split(':').next().unwrap()
}

/// There is no answer: status 3, nothing on standard output, and a message with each of these.
fn assert_no_answer(ended: &Ended, expected: &[&str]) {
    assert_eq!(ended.status, 3, "{ended:?}");
    assert_eq!(ended.output, "", "{ended:?}");
    assert!(ended.errors.starts_with("afa: "), "{ended:?}");
    for expected in expected {
        assert!(ended.errors.contains(expected), "{expected}: {ended:?}");
    }
}

/// How many events the shortest accepted word has, by the definition: the final set is taken back by all
/// words, the shorter first.
fn shortest(model: &Model) -> Option<usize> {
    let mut seen = BTreeSet::from([model.final_set.clone()]);
    let mut newest = vec![model.final_set.clone()];
    for length in 0.. {
        if newest.iter().any(|set| model.initial.is_subset(set)) {
            return Some(length);
        }
        let mut next = Vec::new();
        for set in &newest {
            let back = (0..model.events.len()).map(|event| model.backward(event, set));
            next.extend(back.filter(|back| seen.insert(back.clone())));
        }
        if next.is_empty() {
            return None;
        }
        newest = next;
    }
    unreachable!()
}
