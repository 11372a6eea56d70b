//! The sentences for each number, in the smallest rooms too.

use super::*;
use crate::image;
use crate::model::Model;
use crate::report;
use crate::run::Settings;
use crate::text;
use std::ops::ControlFlow;

fn model(text: &str) -> Model {
    text::read(text.as_bytes()).unwrap_or_else(|fault| panic!("{fault}"))
}

/// What is said of a run in these rooms, broken off before so many steps.
fn said(text: &str, places: [usize; 2], allowance: u64, edition: u64, most: u64) -> String {
    let model = model(text);
    let image = image::write(&model);
    let settings = Settings {
        hints: Vec::new(),
        edition,
        way: 0,
    };
    let mut run = Run::begin(&image, places[0], places[1], settings).unwrap();
    let watch = |record: &library::Record| match record.steps < most {
        true => ControlFlow::Continue(()),
        false => ControlFlow::Break(()),
    };
    run.go_on(&image, allowance, watch).unwrap();
    let outcome =
        Outcome::of(&image, &run, allowance).unwrap_or_else(|failure| panic!("{failure:?}"));
    let statuses = [("empty", 0), ("nonempty", 1), ("stopped", 2)];
    assert!(statuses.contains(&(outcome.verdict(), outcome.status())));
    report::write(&model, &outcome)
}

const C: &str = "states 3\nevents 2\ninitial 0\nfinal\nrow 0 0 : 1 2\nrow 1 1 :\nrow 2 1 :\n";

#[test]
fn stops() {
    let most = u64::MAX;
    for (places, allowance, most, expected) in [
        (
            [9, 9],
            0,
            most,
            "stopped: for want of steps, with 0 steps allowed\n\
             nothing is shown yet of any event sequence\n\
             0 steps, level 0, 0 blockers held, 0 hints accepted\n",
        ),
        (
            [9, 9],
            1,
            most,
            "stopped: for want of steps, with 1 step allowed\n\
             no forbidden event sequence has fewer than 1 event\n\
             1 step, level 1, 0 blockers held, 0 hints accepted\n",
        ),
        (
            [0, 9],
            9,
            most,
            "stopped: for want of blocker room, with 0 places\n\
             no forbidden event sequence has fewer than 1 event\n\
             1 step, level 1, 0 blockers held, 0 hints accepted\n",
        ),
        (
            [9, 0],
            9,
            most,
            "stopped: for want of word room, with 0 places\n\
             no forbidden event sequence has fewer than 1 event\n\
             0 steps, level 0, 0 blockers held, 0 hints accepted\n",
        ),
        (
            [9, 1],
            9,
            most,
            "stopped: for want of word room, with 1 place\n\
             no forbidden event sequence has fewer than 2 events\n\
             3 steps, level 1, 1 blocker held, 0 hints accepted\n",
        ),
        (
            [9, 9],
            9,
            0,
            "stopped: it was interrupted\n\
             nothing is shown yet of any event sequence\n\
             0 steps, level 0, 0 blockers held, 0 hints accepted\n",
        ),
        (
            [9, 9],
            9,
            4,
            "stopped: it was interrupted\n\
             no forbidden event sequence has fewer than 2 events\n\
             4 steps, level 2, 1 blocker held, 0 hints accepted\n",
        ),
    ] {
        assert_eq!(said(C, places, allowance, 1, most), expected);
    }
}

#[test]
fn verdicts() {
    let named = "states shown stale\nevents tick\ninitial shown\n";
    let nonempty = format!("{named}final stale\nrow shown tick : stale\n");
    assert_eq!(
        said(&nonempty, [9, 9], 99, 1, 99),
        "nonempty: 1 event leads to the forbidden picture\n\n     event  case\n  0         shown\n  \
         1  tick   stale\n\nforbidden: all of it is in the final set {stale}\n\
         2 steps, level 1, 0 blockers held, 0 hints accepted\n"
    );
    let empty = format!("{named}final stale\nrow shown tick : shown\n");
    assert_eq!(
        said(&empty, [9, 9], 99, 1, 99),
        "empty: no sequence of events leads to the forbidden picture\n\
         no sequence of events leads into any of these sets, and the final set lies in one of them:\n  \
         {stale}\n3 steps, level 1, 1 blocker held, 0 hints accepted\n"
    );
    let at_once = format!("{named}final shown stale\n");
    let table = "\n\n     event  case\n  0         shown\n\n\
                 forbidden: all of it is in the final set {shown, stale}\n\
                 0 steps, level 0, 0 blockers held, 0 hints accepted\n";
    let sentence = "nonempty: the forbidden picture is there before any event";
    assert_eq!(
        said(&at_once, [0, 0], 0, 1, 0),
        format!("{sentence}{table}")
    );
    let slip = ", which edition 2 takes for a slip of the model";
    assert_eq!(
        said(&at_once, [0, 0], 0, 2, 0),
        format!("{sentence}{slip}{table}")
    );
}
