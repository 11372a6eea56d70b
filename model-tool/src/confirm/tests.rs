//! What makes a frame closed and lengths excluded; every run bears out what it claims.

use super::*;
use crate::image;
use crate::library::Record;
use crate::run::{Pending, Run, Settings};
use crate::text;
use std::fs;
use std::ops::ControlFlow;
use std::path::Path;

fn blockers(numbers: &[(u64, u32)]) -> Vec<Blocker> {
    let blocker = |&(mask, level)| Blocker {
        case: Case(mask),
        level,
        entered: 1,
    };
    numbers.iter().map(blocker).collect()
}

/// Event 0 leads from 1 to 2 and from 2 to 1, and 2 is final.
fn swapping() -> Model {
    let text = "states 3\nevents 1\ninitial 0\nfinal 2\nrow 1 0 : 2\nrow 2 0 : 1\n";
    text::read(text.as_bytes()).unwrap()
}

/// Each of the three conditions broken alone.
#[test]
fn closed_frames() {
    let closed = |masks: &[u64]| {
        let frame: Vec<(u64, u32)> = masks.iter().map(|&mask| (mask, 1)).collect();
        is_closed(&swapping(), &blockers(&frame))
    };
    assert!(closed(&[2, 4]));
    assert!(closed(&[6]));
    assert!(!closed(&[]), "the final set is in none");
    assert!(!closed(&[2]), "the final set is in none");
    assert!(!closed(&[7]), "the initial case is in one");
    assert!(!closed(&[4]), "a backward set is in none");
}

#[test]
fn excluded_lengths() {
    let exclude = |numbers: &[(u64, u32)], least| exclude(&swapping(), &blockers(numbers), least);
    assert!(exclude(&[], 0));
    assert!(exclude(&[], 1), "the start is not final");
    assert!(!exclude(&[], 2));
    assert!(exclude(&[(4, 1)], 2));
    assert!(!exclude(&[(4, 1)], 3), "the final set is not blocked at 2");
    assert!(!exclude(&[(2, 1)], 2), "the final set is in none");
    assert!(!exclude(&[(4, 2)], 3), "a backward set is not blocked at 1");
    assert!(exclude(&[(4, 2), (2, 1)], 3));
    assert!(exclude(&[(4, 3), (2, 2), (6, 1)], 4));
    assert!(!exclude(&[(4, 1), (7, 1)], 2), "the initial case is in one");
    assert!(
        !exclude(&[(4, 1), (2, 9)], 2),
        "one that is not needed is none"
    );
}

#[test]
fn runs_that_are_not_under_way() {
    let paused = |level, open, masks: &[(u64, u32)], pending: &[u64]| {
        let pending = pending.iter().map(|&mask| Pending {
            case: Case(mask),
            symbol: 0,
        });
        let paused = Paused {
            record: Record {
                level,
                open,
                ..Record::default()
            },
            blockers: blockers(masks),
            pending: pending.collect(),
        };
        confirm_paused(&swapping(), &paused).is_ok()
    };
    assert!(paused(0, 0, &[], &[]));
    assert!(paused(1, 1, &[], &[4]));
    assert!(!paused(1, 1, &[], &[2]), "another case is pending");
    assert!(!paused(1, 1, &[], &[]), "nothing is pending or blocked");
    assert!(
        !paused(1, 0, &[], &[]),
        "nothing is blocked at a closed level"
    );
    assert!(
        !paused(1, 0, &[], &[4]),
        "nothing is blocked at a closed level"
    );
    assert!(paused(1, 0, &[(4, 1)], &[]));
    assert!(paused(1, 1, &[(4, 1)], &[]));
    assert!(
        !paused(2, 1, &[(2, 1)], &[4]),
        "words of one symbol are not excluded"
    );
    assert!(paused(2, 1, &[(4, 1)], &[4]));
}

/// Runs of every model are broken off before every step, and stopped for want of anything.
#[test]
fn runs_are_borne_out() {
    let mut count = 0;
    for name in [
        "a",
        "c",
        "screen",
        "screen-mended",
        "rings-2-3-5",
        "stall",
        "stall-mended",
    ] {
        let path = format!("../models/{name}.txt");
        let path = Path::new(env!("CARGO_MANIFEST_DIR")).join(path);
        let model = text::read(&fs::read(path).unwrap()).unwrap();
        let image = image::write(&model);
        for (way, places, most) in (0..300).flat_map(|most| {
            let few = most as usize % 40;
            [
                (0, [64, 64], most),
                (1, [64, 64], most),
                (0, [few, 64], u64::MAX),
                (1, [64, few], u64::MAX),
            ]
        }) {
            let settings = Settings {
                hints: Vec::new(),
                edition: 1,
                way,
            };
            let mut run = Run::begin(&image, places[0], places[1], settings).unwrap();
            let watch = |record: &Record| match record.steps < most {
                true => ControlFlow::Continue(()),
                false => ControlFlow::Break(()),
            };
            run.go_on(&image, u64::MAX, watch).unwrap();
            let outcome = Outcome::of(&image, &run, u64::MAX);
            let outcome = outcome.unwrap_or_else(|failure| panic!("{failure:?}"));
            let case = format!("{name}, way {way}, {places:?}, {most}");
            let confirmed = confirm(&model, &outcome, &run.blockers());
            assert_eq!(confirmed, Ok(()), "{case}");
            if let Some(paused) = run.paused() {
                assert_eq!(confirm_paused(&model, &paused), Ok(()), "{case}");
            }
            count += 1;
        }
    }
    assert_eq!(count, 7 * 300 * 4);
}
