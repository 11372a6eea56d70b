//! Whether the tables that a run stands in or ends with bear out what it claims, by the definitions alone. Of
//! a run from its begin on this is proved; a saved run may have been written by anyone.

#[cfg(test)]
mod tests;

use crate::finding::{Finding, Outcome};
use crate::model::{Case, Model};
use crate::run::{Blocker, Paused};

/// What the blockers held do not bear out, if anything. That a word is accepted is borne out by the
/// library's print of its run.
pub fn confirm(model: &Model, outcome: &Outcome, held: &[Blocker]) -> Result<(), &'static str> {
    let (is_borne_out, why) = match &outcome.finding {
        Finding::Empty { frame } => (is_closed(model, frame), "its frame is not closed"),
        Finding::Nonempty { run, .. } => {
            let length = run.len() as u64 - 1;
            (exclude(model, held, length), "its word may not be shortest")
        }
        Finding::Stopped { least, .. } => (exclude(model, held, *least), NOT_SO_FAR),
    };
    is_borne_out.then_some(()).ok_or(why)
}

/// What a run claims that is to go on: no word is shorter than its level; and the final set is blocked at the
/// level, or is the first of the cases that are pending for it to be.
pub fn confirm_paused(model: &Model, paused: &Paused) -> Result<(), &'static str> {
    let Paused {
        record,
        blockers,
        pending,
    } = paused;
    let is_blocked = || is_blocked(model, blockers, model.final_set, record.level);
    let is_under_way = match (record.open, pending.first()) {
        (1.., Some(first)) => first.case == model.final_set,
        _ => record.level == 0 || is_blocked(),
    };
    let is_borne_out = is_under_way && exclude(model, blockers, record.level);
    is_borne_out.then_some(()).ok_or(NOT_SO_FAR)
}

const NOT_SO_FAR: &str = "it has not come so far";

/// A frame shows by itself that no word is accepted: the final set lies in one of its blockers, the
/// initial case in none, and every backward set of a blocker in a blocker.
fn is_closed(model: &Model, frame: &[Blocker]) -> bool {
    let covered = |case: Case| frame.iter().any(|blocker| case.is_subset(blocker.case));
    let backward_covered = |blocker: &Blocker| {
        let mut events = model.all_events();
        events.all(|event| covered(model.backward(event, blocker.case)))
    };
    covered(model.final_set) && !covered(model.initial) && frame.iter().all(backward_covered)
}

/// The blockers exclude accepted words with fewer events than `least`: the final set is blocked at the level
/// below it, and every blocker passes the block test at its level. By induction on the level, no word of as
/// many symbols as a level, or fewer, leads into a case that is blocked there.
fn exclude(model: &Model, blockers: &[Blocker], least: u64) -> bool {
    let passes = |blocker: &Blocker| {
        let below = u64::from(blocker.level).saturating_sub(1);
        let mut events = model.all_events();
        !model.initial.is_subset(blocker.case)
            && events.all(|event| {
                let backward = model.backward(event, blocker.case);
                is_blocked(model, blockers, backward, below)
            })
    };
    least == 0
        || is_blocked(model, blockers, model.final_set, least - 1) && blockers.iter().all(passes)
}

/// At level 0 a case is blocked if it does not contain the initial case, at others if it lies in a blocker
/// of that level or more.
fn is_blocked(model: &Model, blockers: &[Blocker], case: Case, level: u64) -> bool {
    let covers =
        |blocker: &Blocker| u64::from(blocker.level) >= level && case.is_subset(blocker.case);
    match level {
        0 => !model.initial.is_subset(case),
        _ => blockers.iter().any(covers),
    }
}
