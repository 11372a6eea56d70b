//! An outcome as one JSON object, for programs.

use crate::finding::{Finding, Outcome};
use crate::model::{Case, Model};
use crate::numbers::Failure;

/// The object of an outcome, on one line.
pub fn write(name: &str, model: &Model, outcome: &Outcome) -> String {
    let names = |case: Case| list(model.names_of(case).into_iter().map(string));
    let null = || "null".to_owned();
    let (mut word, mut run, mut frame, mut least) = (null(), null(), null(), null());
    match &outcome.finding {
        Finding::Empty { frame: held } => {
            frame = list(held.iter().map(|blocker| names(blocker.case)));
        }
        Finding::Nonempty { run: moments, .. } => {
            let event = |event| string(model.event_name(event));
            word = list(moments.iter().filter_map(|moment| moment.event.map(event)));
            run = list(moments.iter().map(|moment| {
                object(&[
                    ("event", moment.event.map_or_else(null, event)),
                    ("case", names(moment.case)),
                ])
            }));
            least = (moments.len() - 1).to_string();
        }
        Finding::Stopped { least: shown, .. } => least = shown.to_string(),
    }
    let [number, steps, level, blockers, hints] = outcome.numbers.map(|number| number.to_string());
    object(&[
        ("model", string(name)),
        ("verdict", string(outcome.verdict())),
        ("sentence", string(&outcome.sentence())),
        ("number", number),
        ("steps", steps),
        ("level", level),
        ("blockers", blockers),
        ("hints", hints),
        ("least", least),
        ("word", word),
        ("run", run),
        ("frame", frame),
    ]) + "\n"
}

/// The object where there is no answer.
pub fn write_failure(name: &str, failure: &Failure) -> String {
    let verdict = failure.refusal.map_or("unreadable", |_| "refused");
    let number = failure.refusal.map(|refusal| refusal.0.to_string());
    let null = || "null".to_owned();
    let mut fields = vec![
        ("model", string(name)),
        ("verdict", string(verdict)),
        ("sentence", string(&failure.what)),
        ("number", number.unwrap_or_else(null)),
    ];
    let counts = ["steps", "level", "blockers", "hints"];
    fields.extend(counts.map(|count| (count, "0".to_owned())));
    fields.extend(["least", "word", "run", "frame"].map(|name| (name, null())));
    object(&fields) + "\n"
}

fn object(fields: &[(&str, String)]) -> String {
    let fields = fields
        .iter()
        .map(|(name, value)| format!("\"{name}\": {value}"));
    format!("{{{}}}", fields.collect::<Vec<_>>().join(", "))
}

fn list(values: impl Iterator<Item = String>) -> String {
    format!("[{}]", values.collect::<Vec<_>>().join(", "))
}

fn string(text: &str) -> String {
    let mut written = "\"".to_owned();
    for letter in text.chars() {
        match letter {
            '"' | '\\' => written.extend(['\\', letter]),
            '\u{0}'..='\u{1f}' | '\u{7f}' => written += &format!("\\u{:04x}", u32::from(letter)),
            _ => written.push(letter),
        }
    }
    written + "\""
}
