//! The commands. Each answers its exit status, or an error to be told.

use crate::fault::{expected_one_of, harmless, quoted, unknown, unknown_with_parts};
use crate::files::{self, Output};
use crate::finding::accepting_run;
use crate::library::{self, Why};
use crate::model::{states_of, Case, Event, Model, State};
use crate::numbers::{Failure, Refusal};
use crate::options::{asks_for_help, Known, Words};
use crate::run::Run;
use crate::{help, html, image, json, report, text, watched};
use std::ffi::OsString;
use std::io::{self, Write};

/// The exit status where there is no answer.
const NO_ANSWER: u8 = 3;

/// Runs the command that the words of the command line say. Answers its exit status.
pub fn command(words: impl Iterator<Item = OsString>) -> u8 {
    let words: Result<Vec<String>, OsString> = words.map(OsString::into_string).collect();
    let done = match &words {
        Ok(words) => dispatch(words),
        Err(word) => {
            let word = quoted(&word.to_string_lossy());
            Err(format!("{word}: expected words in UTF-8").into())
        }
    };
    done.unwrap_or_else(|failure| {
        // Where it cannot be told, the status still says it.
        let _ = writeln!(io::stderr(), "afa: {}", harmless(&failure.what));
        NO_ANSWER
    })
}

fn dispatch(words: &[String]) -> Result<u8, Failure> {
    let Some((name, words)) = words.split_first() else {
        let overview = help::OVERVIEW.trim_end();
        return Err(format!("expected a command\n\n{overview}").into());
    };
    match name.as_str() {
        "--help" | "help" => match words {
            [] => say(help::OVERVIEW, 0),
            [name] => say(page(name)?, 0),
            _ => Err("expected: afa help COMMAND".to_owned().into()),
        },
        _ if asks_for_help(words) => say(page(name)?, 0),
        "check" => check(words),
        "image" => write_image(words),
        "text" => write_text(words),
        "test" => test(words),
        "run" => run(words),
        "why" => why(words),
        _ => Err(unknown_command(name).into()),
    }
}

fn page(command: &str) -> Result<&'static str, String> {
    help::page(command).ok_or_else(|| unknown_command(command))
}

fn unknown_command(command: &str) -> String {
    let expected = expected_one_of(command, help::COMMANDS.to_vec());
    let command = quoted(command);
    format!("{command} is no command{expected}; afa --help says what they do")
}

/// Prints what a command has to say. The status is passed on.
fn say(text: &str, status: u8) -> Result<u8, Failure> {
    files::print(text.as_bytes())?;
    Ok(status)
}

/// Reads a model, and makes its image.
fn read_model(path: &str) -> Result<(Model, Vec<u8>), String> {
    let model = text::read(&files::read(path)?);
    let model = model.map_err(|fault| format!("{}:{fault}", files::named(path)))?;
    let image = image::write(&model);
    Ok((model, image))
}

fn usage(name: &str) -> String {
    let page = help::page(name).unwrap_or(help::OVERVIEW);
    let usage = page.lines().next().unwrap_or_default();
    format!("expected: {}", usage.trim_start_matches("usage: "))
}

fn check(words: &[String]) -> Result<u8, Failure> {
    let mut known = watched::OPTIONS.to_vec();
    known.extend::<[Known; 3]>([
        ("--json", None),
        ("--html", Some("a file")),
        ("--save", Some("a file")),
    ]);
    let words = Words::parse(words, &known)?;
    let [path] = &words.others[..] else {
        return Err(usage("check").into());
    };
    let checked = check_model(path, &words);
    if let (Err(failure), true) = (&checked, words.has("--json")) {
        files::print(json::write_failure(files::named(path), failure).as_bytes())?;
    }
    let Checked {
        said,
        status,
        written,
    } = checked?;
    // What was found is said, whatever becomes of the files.
    files::print(said.as_bytes())?;
    written?;
    Ok(status)
}

struct Checked {
    said: String,
    status: u8,
    /// Whether page and saved run could be written.
    written: Result<(), String>,
}

fn check_model(path: &str, words: &Words) -> Result<Checked, Failure> {
    let (model, image) = read_model(path)?;
    let (page, save) = (output(words, "--html")?, output(words, "--save")?);
    if page
        .iter()
        .zip(&save)
        .any(|(page, save)| page.is_same(save))
    {
        let what = "--html and --save name the same file: expected two";
        return Err(what.to_owned().into());
    }
    let name = files::named(path);
    let (run, outcome) = watched::run(&model, &image, words)?;
    let mut said = match words.has("--json") {
        true => json::write(name, &model, &outcome),
        false => report::write(&model, &outcome),
    };
    let mut written = Ok(());
    if let (Some(save), Some(saved)) = (save, watched::saved(&image, &run)) {
        written = save.finish(saved.as_bytes());
        if written.is_ok() && !words.has("--json") {
            let path = words.value("--save").unwrap_or_default();
            said += &format!("saved: it goes on with --resume {path}\n");
        }
    }
    if let Some(page) = page {
        written = written.and(page.finish(html::write(name, &model, &outcome).as_bytes()));
    }
    Ok(Checked {
        said,
        status: outcome.status(),
        written,
    })
}

/// The file that an option names, to be written at the end.
fn output(words: &Words, option: &str) -> Result<Option<Output>, String> {
    match words.value(option) {
        Some("") => Err(format!("{option}: expected a file")),
        path => path.map(Output::create).transpose(),
    }
}

fn write_image(words: &[String]) -> Result<u8, Failure> {
    let words = Words::parse(words, &[])?;
    let [path] = &words.others[..] else {
        return Err(usage("image").into());
    };
    let (_, image) = read_model(path)?;
    files::print(&image)?;
    Ok(0)
}

fn write_text(words: &[String]) -> Result<u8, Failure> {
    let words = Words::parse(words, &[])?;
    let [path] = &words.others[..] else {
        return Err(usage("text").into());
    };
    let model = image::read(&files::read(path)?);
    let model = model.map_err(|refusal| Failure::from(refusal).in_file(files::named(path)))?;
    say(&text::write(&model), 0)
}

/// A model with its image, and events of it by their names or numbers.
fn events(words: &[String], command: &str) -> Result<(Model, Vec<u8>, Vec<Event>), String> {
    let words = Words::parse(words, &[])?;
    let Some((path, names)) = words.others.split_first() else {
        return Err(usage(command));
    };
    let (model, image) = read_model(path)?;
    let event = |name: &String| {
        let unknown = || unknown(name, "event", &model.events);
        let event = model.events.find(name).map(Event);
        event.ok_or_else(|| format!("{}: {}", files::named(path), unknown()))
    };
    let events = names.iter().map(event).collect::<Result<_, _>>()?;
    Ok((model, image, events))
}

fn test(words: &[String]) -> Result<u8, Failure> {
    let (_, image, events) = events(words, "test")?;
    let symbols: Vec<u8> = events.iter().map(|event| event.0).collect();
    match library::accepts(&image, &symbols) {
        number @ (0 | 1) => say(accepted(events.len(), number == 1), number as u8),
        number => Err(Refusal(number).into()),
    }
}

/// What the word test says of so many events.
fn accepted(length: usize, is_accepted: bool) -> &'static str {
    match (is_accepted, length) {
        (true, 0) => "accepted: the forbidden picture is there from the start\n",
        (true, _) => "accepted: these events lead to the forbidden picture\n",
        (false, 0) => "not accepted: the forbidden picture is not there from the start\n",
        (false, _) => "not accepted: these events do not lead to the forbidden picture\n",
    }
}

fn run(words: &[String]) -> Result<u8, Failure> {
    let (model, image, events) = events(words, "run")?;
    match accepting_run(&image, &events)? {
        None => say(accepted(events.len(), false), 0),
        Some(run) => {
            let said = accepted(events.len(), true).to_owned();
            say(&(said + &report::accepting_run(&model, &run)), 1)
        }
    }
}

fn why(words: &[String]) -> Result<u8, Failure> {
    let mut known = watched::OPTIONS.to_vec();
    known.push(("--level", Some("a level")));
    let words = Words::parse(words, &known)?;
    let (Some((path, names)), Some(level)) = (words.others.split_first(), words.number("--level")?)
    else {
        return Err(usage("why").into());
    };
    let (model, image) = read_model(path)?;
    let case = states(&model, names, path)?;
    let (run, outcome) = watched::run(&model, &image, &words)?;
    let why = run.why(model.initial, level, case);
    let reason = reason(&model, &run, why, level, &model.set(case));
    let (verdict, counts) = (outcome.verdict(), outcome.counts());
    let status = u8::from(why == Why::Not);
    say(
        &format!("{reason}\nafter a run, {verdict}: {counts}\n"),
        status,
    )
}

/// The case of these states, by names of states or parts, or by numbers.
fn states(model: &Model, names: &[String], path: &str) -> Result<Case, String> {
    let mut case = Case::default();
    for name in names {
        let unknown = || unknown_with_parts(name, "state", &model.states, &model.parts);
        let states = states_of(name, &model.states, &model.parts);
        let states = states.ok_or_else(|| format!("{}: {}", files::named(path), unknown()))?;
        case = case.union(states);
    }
    Ok(case)
}

fn reason(model: &Model, run: &Run, why: Why, level: u64, set: &str) -> String {
    match why {
        Why::Not if level == 0 => format!("not blocked: {set} contains the initial case"),
        Why::Not => format!("not blocked: no blocker of level {level} or more contains {set}"),
        Why::Start { state } => {
            let state = model.state_name(State(state as u8));
            format!("blocked: {set} lacks the initial state {state}")
        }
        Why::Blocker { place, level } => {
            let blocker = run.blockers()[place as usize];
            let (cover, step) = (model.set(blocker.case), blocker.entered);
            format!(
                "blocked: {set} lies in {cover}, the blocker at place {place} of level {level}, which \
                 step {step} made"
            )
        }
    }
}
