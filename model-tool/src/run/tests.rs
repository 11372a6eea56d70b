//! Runs by steps against runs at once, and runs that are paused after every step.

use super::*;
use crate::image;
use crate::text;
use std::fs;
use std::path::Path;

fn image(name: &str) -> Vec<u8> {
    let path = Path::new(env!("CARGO_MANIFEST_DIR"))
        .join("../models")
        .join(name);
    image::write(&text::read(&fs::read(path).unwrap()).unwrap())
}

fn settings(hints: &[u64], way: u64) -> Settings {
    Settings {
        hints: hints.to_vec(),
        edition: 1,
        way,
    }
}

/// All that a run leaves behind.
type Left = ([u64; 5], Vec<Blocker>, Vec<u8>);

fn left(run: &Run) -> Left {
    (run.numbers(), run.blockers(), run.symbols.clone())
}

fn at_once(image: &[u8], places: [usize; 2], settings: &Settings, allowance: u64) -> Left {
    let mut run = Run::begin(image, places[0], places[1], settings.clone()).unwrap();
    let (rooms, terms, _) = run.lent(allowance);
    let [answer, steps, level, held, accepted] = library::run(image, rooms, terms);
    run.record = Record {
        answer,
        steps,
        level,
        held,
        accepted,
        ..Record::default()
    };
    left(&run)
}

fn by_steps(image: &[u8], places: [usize; 2], settings: &Settings, allowance: u64) -> Run {
    let mut run = Run::begin(image, places[0], places[1], settings.clone()).unwrap();
    run.go_on(image, allowance, |_| ControlFlow::Continue(()))
        .unwrap();
    run
}

/// Paused after each step and put into rooms anew.
fn by_pauses(image: &[u8], places: [usize; 2], settings: &Settings, allowance: u64) -> Run {
    let mut run = Run::begin(image, places[0], places[1], settings.clone()).unwrap();
    while let Some(paused) = run.paused().filter(|_| run.record.answer == WORKING) {
        run = Run::begin(image, places[0], places[1], settings.clone()).unwrap();
        run.put_to(&paused);
        let mut steps = 0;
        let watch = |_: &Record| {
            steps += 1;
            match steps {
                1 => ControlFlow::Continue(()),
                _ => ControlFlow::Break(()),
            }
        };
        run.go_on(image, allowance, watch).unwrap();
    }
    run
}

#[test]
fn by_steps_and_at_once() {
    let hints = [2, 30, 230, 214, u64::MAX];
    let mut numbers = Vec::new();
    for name in [
        "a.txt",
        "c.txt",
        "d.txt",
        "screen.txt",
        "screen-mended.txt",
        "stall.txt",
    ] {
        let image = image(name);
        for (hints, way) in [(&[][..], 0), (&[], 1), (&hints, 0)] {
            let settings = settings(hints, way);
            for places in [[64, 64], [2, 64], [64, 2], [0, 0]] {
                for allowance in [0, 1, 5, 17, u64::MAX] {
                    let expected = at_once(&image, places, &settings, allowance);
                    let run = by_steps(&image, places, &settings, allowance);
                    assert_eq!(left(&run), expected, "{name} {settings:?} {places:?}");
                    let run = by_pauses(&image, places, &settings, allowance);
                    assert_eq!(left(&run), expected, "{name} {settings:?} {places:?}");
                    numbers.push(expected.0[0]);
                }
            }
        }
    }
    for number in 0..=4 {
        assert!(numbers.contains(&number), "{number}");
    }
}

/// After a stop a run goes on from before it, with more steps or in larger rooms, as if it had had them
/// from its begin on.
#[test]
fn after_a_stop() {
    let mut stops = [0; 5];
    for name in [
        "c.txt",
        "screen.txt",
        "screen-mended.txt",
        "stall.txt",
        "stall-mended.txt",
    ] {
        let image = image(name);
        for way in [0, 1] {
            let settings = settings(&[], way);
            let expected = at_once(&image, [64, 64], &settings, u64::MAX);
            for few in 0..20 {
                for (places, allowance) in [
                    ([64, 64], few),
                    ([few as usize, 64], u64::MAX),
                    ([64, few as usize], u64::MAX),
                ] {
                    let run = by_steps(&image, places, &settings, allowance);
                    let stopped = run.record.answer;
                    let Some(paused) = run.paused() else {
                        assert_eq!(left(&run).0, expected.0);
                        continue;
                    };
                    stops[stopped as usize] += 1;
                    assert_eq!(paused.record.answer, WORKING);
                    let mut again =
                        Run::begin(&image, places[0], places[1], settings.clone()).unwrap();
                    again.put_to(&paused);
                    again
                        .go_on(&image, allowance, |_| ControlFlow::Continue(()))
                        .unwrap();
                    assert_eq!(left(&again), left(&run), "{name} {places:?} {allowance}");
                    let mut larger = Run::begin(&image, 64, 64, settings.clone()).unwrap();
                    larger.put_to(&paused);
                    larger
                        .go_on(&image, u64::MAX, |_| ControlFlow::Continue(()))
                        .unwrap();
                    assert_eq!(left(&larger), expected, "{name} {places:?} {allowance}");
                }
            }
        }
    }
    assert!(stops[2..].iter().all(|&count| count > 5), "{stops:?}");
}

#[test]
fn refused() {
    let image = image("c.txt");
    let plain = settings(&[], 0);
    assert_eq!(
        Run::begin(&image, 65_537, 1, plain.clone()).err(),
        Some(Refusal(31))
    );
    assert_eq!(
        Run::begin(&image, 1, 65_537, plain.clone()).err(),
        Some(Refusal(31))
    );
    assert_eq!(
        Run::begin(&image[1..], 1, 1, plain.clone()).err(),
        Some(Refusal(24))
    );
    assert_eq!(
        Run::begin(&image, 1, 1, settings(&[], 2)).err(),
        Some(Refusal(37))
    );
    let mut run = Run::begin(&image, 1, 1, plain).unwrap();
    run.record.level = 2;
    assert_eq!(
        run.go_on(&image, 9, |_| ControlFlow::Continue(())),
        Err(Refusal(33))
    );
}
