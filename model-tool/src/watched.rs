//! A run on a model with what the command line says of it: begun or taken up again, watched, and broken
//! off by an interrupt.

use crate::confirm::{confirm, confirm_paused};
use crate::files;
use crate::finding::Outcome;
use crate::library::{MOST_PLACES, WORKING};
use crate::model::Model;
use crate::numbers::Failure;
use crate::options::{Known, Words};
use crate::run::{Run, Settings};
use crate::save::{self, Saved};
use crate::terminal::{is_interrupted, note_interrupts, Progress};
use crate::text;
use std::ops::ControlFlow;

/// The options that say how a run is made.
pub const OPTIONS: [Known; 7] = [
    ("--blockers", Some("a number of places")),
    ("--word", Some("a number of places")),
    ("--allowance", Some("a number of steps")),
    ("--hints", Some("a file")),
    ("--way", Some("0 or 1")),
    ("--edition", Some("1 or 2")),
    ("--resume", Some("a file")),
];

/// Runs until the run has ended or the user has had enough.
pub fn run(model: &Model, image: &[u8], words: &Words) -> Result<(Run, Outcome), Failure> {
    let allowance = words.number("--allowance")?.unwrap_or(u64::MAX);
    let Some(path) = words.value("--resume") else {
        return watch(begin(model, image, words)?, image, allowance);
    };
    let run = resumed(model, image, words, path)?;
    let path = files::named(path);
    let watched = watch(run, image, allowance);
    let (run, outcome) = watched.map_err(|failure| failure.in_file(path))?;
    let confirmed = confirm(model, &outcome, &run.blockers());
    confirmed.map_err(|why| no_run(path, why))?;
    Ok((run, outcome))
}

fn watch(mut run: Run, image: &[u8], allowance: u64) -> Result<(Run, Outcome), Failure> {
    note_interrupts();
    let mut progress = Progress::new(&run.record);
    let ended = run.go_on(image, allowance, |record| {
        progress.show(record);
        match is_interrupted() {
            true => ControlFlow::Break(()),
            false => ControlFlow::Continue(()),
        }
    });
    progress.end();
    ended?;
    let outcome = Outcome::of(image, &run, allowance)?;
    Ok((run, outcome))
}

fn begin(model: &Model, image: &[u8], words: &Words) -> Result<Run, Failure> {
    let places = |given: Option<u64>| given.map_or(MOST_PLACES, at_most_one_too_many);
    let blocker_places = places(words.number("--blockers")?);
    let word_places = places(words.number("--word")?);
    let settings = Settings {
        hints: hints(model, words)?.unwrap_or_default(),
        edition: words.number("--edition")?.unwrap_or(1),
        way: words.number("--way")?.unwrap_or(0),
    };
    Ok(Run::begin(image, blocker_places, word_places, settings)?)
}

/// So many places, but no more of those that the library refuses than one.
fn at_most_one_too_many(places: u64) -> usize {
    places.min(MOST_PLACES as u64 + 1) as usize
}

fn hints(model: &Model, words: &Words) -> Result<Option<Vec<u64>>, String> {
    let Some(path) = words.value("--hints") else {
        return Ok(None);
    };
    let sets = text::read_sets(model, &files::read(path)?);
    let sets = sets.map_err(|fault| format!("{}:{fault}", files::named(path)))?;
    Ok(Some(sets.iter().map(|case| case.0).collect()))
}

/// The run that the file holds, in its rooms or larger ones, in its edition; with its hints and its way,
/// if no others are given.
fn resumed(model: &Model, image: &[u8], words: &Words, path: &str) -> Result<Run, Failure> {
    let saved = save::read(&files::read(path)?);
    let path = files::named(path);
    let saved = saved.map_err(|fault| format!("{path}:{fault}"))?;
    if saved.image != image {
        return Err(format!(
            "{path}:2:7: the run was made on another model, or the model has changed since: expected \
             the image of this one"
        )
        .into());
    }
    let edition = saved.settings.edition;
    if words
        .number("--edition")?
        .is_some_and(|given| given != edition)
    {
        let what = format!("{path}: the run was begun in edition {edition}: expected no other");
        return Err(what.into());
    }
    let [blocker_places, word_places] = saved.places;
    let blocker_places = larger(words, "--blockers", blocker_places, path)?;
    let word_places = larger(words, "--word", word_places, path)?;
    let settings = Settings {
        hints: hints(model, words)?.unwrap_or(saved.settings.hints),
        edition,
        way: words.number("--way")?.unwrap_or(saved.settings.way),
    };
    let mut run = Run::begin(image, blocker_places, word_places, settings)?;
    if run.record.answer != WORKING {
        return Err(no_run(path, "the start is final already"));
    }
    confirm_paused(model, &saved.paused).map_err(|why| no_run(path, why))?;
    run.put_to(&saved.paused);
    Ok(run)
}

/// A room's places: those that the run has, or as many more as are given.
fn larger(words: &Words, option: &str, places: usize, path: &str) -> Result<usize, String> {
    match words.number(option)?.map(at_most_one_too_many) {
        Some(given) if given < places => Err(format!(
            "{path}: the run has {places} places: expected {option} {places} or more"
        )),
        given => Ok(given.unwrap_or(places)),
    }
}

fn no_run(path: &str, why: &str) -> Failure {
    let what = format!("{path}: no run of this model was ever as this file has it: {why}");
    Failure::from(what)
}

/// What is saved of a run, if it can go on.
pub fn saved(image: &[u8], run: &Run) -> Option<String> {
    let saved = run.paused().map(|paused| Saved {
        image: image.to_owned(),
        places: run.places(),
        settings: run.settings.clone(),
        paused,
    });
    saved.map(|saved| save::write(&saved))
}
