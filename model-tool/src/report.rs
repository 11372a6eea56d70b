//! An outcome as text for a terminal.

use crate::finding::{shown, Finding, Moment, Outcome};
use crate::model::{Case, Model};
use crate::table::Table;

pub fn write(model: &Model, outcome: &Outcome) -> String {
    let mut text = format!("{}: {}\n", outcome.verdict(), outcome.sentence());
    match &outcome.finding {
        Finding::Empty { frame } => {
            text += &format!("{FRAME}:\n");
            for blocker in frame {
                text += &format!("  {}\n", model.set(blocker.case));
            }
        }
        Finding::Nonempty { run, .. } => text += &accepting_run(model, run),
        Finding::Stopped { least, .. } => text += &format!("{}\n", shown(*least)),
    }
    text + &outcome.counts() + "\n"
}

/// What the blockers of a frame show. Each is as good as the final set: its backward sets lie in blockers
/// too, and the initial case in none.
pub const FRAME: &str =
    "no sequence of events leads into any of these sets, and the final set lies in one of them";

/// The table of a run, and what its last case has to do with the final set.
pub fn accepting_run(model: &Model, run: &[Moment]) -> String {
    let table = Table::of(model, run).text();
    let last = run.last().map_or(Case::default(), |moment| moment.case);
    format!("\n{table}\n{}\n", forbidden(model, last))
}

/// Why the last case is the forbidden picture.
pub fn forbidden(model: &Model, last: Case) -> String {
    if last.is_empty() {
        return "forbidden: nothing is left, and the empty case is final".to_owned();
    }
    format!(
        "forbidden: all of it is in the final set {}",
        model.set(model.final_set)
    )
}
