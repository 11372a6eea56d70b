//! An outcome as one page for a browser, which needs nothing but itself.

use crate::finding::{shown, Finding, Moment, Outcome};
use crate::model::{Case, Model};
use crate::report::{forbidden, FRAME};
use crate::run::Blocker;
use crate::table::{columns, Line, Table};
use std::path::Path;

const STYLE: &str = "\
:root { color-scheme: light dark; --ink: #1c2128; --soft: #5b6470; --paper: #fff; --line: #d9dee4; --bad: #b3261e; --good: #1a7f4b; --open: #9a6700; --mark: #fff3c4; --last: #fde7e5 }
@media (prefers-color-scheme: dark) { :root { --ink: #e6e9ee; --soft: #9aa4b0; --paper: #14181d; --line: #333b45; --bad: #ff8a80; --good: #6fd39c; --open: #e8b339; --mark: #4a3f12; --last: #4a1f1d } }
body { margin: 0; background: var(--paper); color: var(--ink); font: 16px/1.5 system-ui, sans-serif }
main { max-width: 60rem; margin: 0 auto; padding: 2.5rem 1.5rem }
h1 { margin: 0; font-size: 1.1rem; font-weight: 600; color: var(--soft) }
.verdict { margin: .2rem 0 0; font-size: 2.4rem; font-weight: 700; line-height: 1.2 }
.empty { color: var(--good) } .nonempty { color: var(--bad) } .stopped { color: var(--open) }
.sentence { margin: .3rem 0 2rem; font-size: 1.2rem }
table { border-collapse: collapse; width: 100% }
th, td { padding: .45rem .8rem; text-align: left; border-bottom: 1px solid var(--line) }
thead th { color: var(--soft); font-weight: 600; font-size: .9rem }
tbody th { font-weight: 600 }
td.number { color: var(--soft); width: 1.5rem; text-align: right }
td.changed { background: var(--mark); font-weight: 600 }
tr.last td, tr.last th { background: var(--last); border-bottom: 2px solid var(--bad) }
tr.last td.changed { color: var(--bad) }
.picture { margin: 1rem 0 0; color: var(--bad); font-weight: 600 }
.key { display: inline-block; background: var(--mark); padding: 0 .5rem; font-weight: 600; color: var(--ink) }
td.any, th.start { color: var(--soft); font-weight: 400 } td.some { font-weight: 600 }
div { overflow-x: auto }
footer { margin-top: 2rem; padding-top: .8rem; border-top: 1px solid var(--line); color: var(--soft); font-size: .9rem }
";

pub fn write(path: &str, model: &Model, outcome: &Outcome) -> String {
    let name = Path::new(path).file_name();
    let name = escaped(&name.map_or(path.into(), |name| name.to_string_lossy()));
    let verdict = outcome.verdict();
    let sentence = escaped(&outcome.sentence());
    let body = body(model, outcome);
    let counts = outcome.counts();
    format!(
        "<!DOCTYPE html>\n<html lang=\"en\">\n<head>\n<meta charset=\"utf-8\">\n\
         <meta name=\"viewport\" content=\"width=device-width, initial-scale=1\">\n\
         <title>{name}: {verdict}</title>\n<style>\n{STYLE}</style>\n</head>\n<body>\n<main>\n\
         <h1>{name}</h1>\n<p class=\"verdict {verdict}\">{verdict}</p>\n\
         <p class=\"sentence\">{sentence}</p>\n{body}\
         <footer>{counts}. Every answer is the proved library's.</footer>\n</main>\n</body>\n</html>\n"
    )
}

fn body(model: &Model, outcome: &Outcome) -> String {
    match &outcome.finding {
        Finding::Empty { frame } => frame_table(model, frame),
        Finding::Nonempty { run, .. } => accepting_run(model, run),
        Finding::Stopped { least, .. } => {
            format!(
                "<p class=\"sentence\">{}.</p>\n",
                capitalized(&shown(*least))
            )
        }
    }
}

fn accepting_run(model: &Model, run: &[Moment]) -> String {
    let table = Table::of(model, run);
    let heads: String = table.heads.iter().map(|name| head(name)).collect();
    let last_line = table.lines.len() - 1;
    let lines = table.lines.iter().enumerate();
    let lines: String = lines
        .map(|(number, line)| table_line(number, line, number == last_line))
        .collect();
    let last = run.last().map_or(Case::default(), |moment| moment.case);
    format!(
        "<div><table>\n<thead><tr><th></th><th>event</th>{heads}</tr></thead>\n<tbody>\n{lines}</tbody>\n\
         </table></div>\n<p class=\"picture\">{}</p>\n\
         <p><span class=\"key\">marked</span> what an event has changed</p>\n",
        escaped(&forbidden(model, last))
    )
}

/// The blockers of a frame, with a column for each part. Where a blocker has all states of a part, that part
/// does not matter.
fn frame_table(model: &Model, frame: &[Blocker]) -> String {
    let columns = columns(model, frame.iter().map(|blocker| blocker.case));
    let heads: String = columns.iter().map(|(name, _)| head(name)).collect();
    let cell = |case: Case, states: Case| {
        let names = model.names_of(case.intersection(states));
        match states.is_subset(case) && names.len() > 1 {
            true => format!("<td class=\"any\">{}</td>", escaped(&names.join(" "))),
            false => format!("<td class=\"some\">{}</td>", or_dash(&names.join(" "))),
        }
    };
    let line = |(number, blocker): (usize, &Blocker)| {
        let cells = columns
            .iter()
            .map(|&(_, states)| cell(blocker.case, states));
        let cells: String = cells.collect();
        format!("<tr><td class=\"number\">{number}</td>{cells}</tr>\n")
    };
    let lines: String = frame.iter().enumerate().map(line).collect();
    let why = capitalized(FRAME);
    format!(
        "<p>{why}. Events lead into a set if all states that are then reached together are in it; a part \
         with all of its states in it, in grey, does not matter.</p>\n<div><table>\n\
         <thead><tr><th></th>{heads}</tr></thead>\n<tbody>\n{lines}</tbody>\n</table></div>\n"
    )
}

fn head(name: &str) -> String {
    format!("<th>{}</th>", escaped(name))
}

/// A cell without a state is a dash.
fn or_dash(names: &str) -> String {
    match names {
        "" => "\u{2013}".to_owned(),
        _ => escaped(names),
    }
}

fn capitalized(sentence: &str) -> String {
    let (first, rest) = sentence.split_at(1);
    first.to_uppercase() + rest
}

fn table_line(number: usize, line: &Line, is_last: bool) -> String {
    let event = match number {
        0 => "<th class=\"start\">start</th>".to_owned(),
        _ => head(&line.event),
    };
    let cells = line.cells.iter().map(|cell| {
        let class = class("changed", cell.is_changed);
        format!("<td{class}>{}</td>", or_dash(&cell.names))
    });
    let cells: String = cells.collect();
    let class = class("last", is_last);
    format!("<tr{class}><td class=\"number\">{number}</td>{event}{cells}</tr>\n")
}

fn class(name: &str, is_so: bool) -> String {
    match is_so {
        true => format!(" class=\"{name}\""),
        false => String::new(),
    }
}

fn escaped(text: &str) -> String {
    let mut written = String::new();
    for letter in text.chars() {
        match letter {
            '&' => written += "&amp;",
            '<' => written += "&lt;",
            '>' => written += "&gt;",
            '"' => written += "&quot;",
            _ => written.push(letter),
        }
    }
    written
}
