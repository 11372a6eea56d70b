//! How the time of runs grows with the length of the word and with the number of rows, and how long one step
//! takes on large tables, as tables in Markdown: `cargo bench --bench sizes`, after the library was built as
//! for the tests.
//!
//! `afa_tests::measure` says how each is measured against the machine written in Rust. Runs have no hints
//! and edition 1. A difference between the two sides ends the program with an error.

use afa_tests::compare::steps::Standing;
use afa_tests::generate::ways::mostly_large_cases;
use afa_tests::generate::{blocks, closes};
use afa_tests::image::{rings, Model};
use afa_tests::machine;
use afa_tests::measure::{ended, grouped, measure, time_of_step, Asked, Setting};
use afa_tests::random::Random;
use afa_tests::tables::{Tables, Terms, WAYS};
use std::process::ExitCode;
use std::time::Duration;

/// Three rings each, of which the word is one symbol shorter than the product of their sizes.
const RINGS: [[usize; 3]; 6] = [
    [2, 3, 5],
    [3, 4, 5],
    [3, 5, 8],
    [5, 6, 7],
    [5, 7, 12],
    [7, 8, 15],
];

const ROWS: [usize; 7] = [64, 128, 256, 512, 1_024, 2_048, 4_096];

/// Of each run on so many rows.
const STEPS: u64 = 40;

/// How many models of each number of rows.
const MODELS: usize = 5;

const TURNS: usize = 7;

fn main() -> ExitCode {
    ended(
        print_words()
            .and_then(|()| print_rows())
            .and_then(|()| print_steps()),
    )
}

/// A size and a time.
type Point = (f64, f64);

/// The power of the size with which the time grows: the slope of the line through their logarithms, by least
/// squares.
fn exponent(points: &[Point]) -> f64 {
    let logarithms = points.iter().map(|(size, time)| (size.ln(), time.ln()));
    let logarithms: Vec<Point> = logarithms.collect();
    let count = points.len() as f64;
    let mean_size = logarithms.iter().map(|(size, _)| size).sum::<f64>() / count;
    let mean_time = logarithms.iter().map(|(_, time)| time).sum::<f64>() / count;
    let both = |(size, time): &Point| (size - mean_size) * (time - mean_time);
    let own = |(size, _): &Point| (size - mean_size).powi(2);
    logarithms.iter().map(both).sum::<f64>() / logarithms.iter().map(own).sum::<f64>()
}

/// Runs to the end on rings of a growing product.
fn print_words() -> Result<(), String> {
    println!(
        "| rings | word | way | answer | library | Rust | library / Rust: median (least to most) |"
    );
    println!("|---|---|---|---|---|---|---|");
    for way in WAYS {
        let mut points = [Vec::new(), Vec::new()];
        for sizes in RINGS {
            let length = sizes.iter().product::<usize>() - 1;
            let setting = Setting {
                places: 4_096,
                rounds: if length < 300 { 11 } else { 3 },
            };
            let terms = Terms {
                way,
                ..Terms::plain(1 << 22)
            };
            let measured = measure(&rings(&sizes).image(), &Asked::Run(terms), setting)?;
            assert_eq!(measured.answer.level as usize, length);
            println!(
                "| {sizes:?} | {length} | {way} | {} | {:.1?} | {:.1?} | {} |",
                measured.answer,
                measured.library_time(),
                measured.rust_time(),
                measured.ratio()
            );
            for (points, time) in points.iter_mut().zip(measured.times()) {
                points.push((length as f64, time.as_secs_f64()));
            }
        }
        let [library, rust] = points.map(|points| exponent(&points));
        println!(
            "| time grows with the word's length to the power of | | {way} | | {library:.2} | {rust:.2} \
             | |"
        );
    }
    Ok(())
}

/// Runs of so many steps on models of 64 states and a growing number of rows.
fn print_rows() -> Result<(), String> {
    println!("\n| rows | way | a step, library | Rust | library / Rust |");
    println!("|---|---|---|---|---|");
    let seeds = seeds();
    for way in WAYS {
        let mut points = [Vec::new(), Vec::new()];
        for rows in ROWS {
            let mut sums = [0.0; 2];
            for &seed in &seeds {
                let terms = Terms {
                    way,
                    ..Terms::plain(STEPS)
                };
                let setting = Setting {
                    places: 1_024,
                    rounds: 5,
                };
                let measured = measure(&model(seed, rows).image(), &Asked::Run(terms), setting)?;
                let steps = measured.answer.steps as f64;
                let times = measured.times().map(|time| time.as_secs_f64() / steps);
                for (side, time) in times.into_iter().enumerate() {
                    points[side].push((rows as f64, time));
                    sums[side] += time;
                }
            }
            let [library, rust] = sums.map(|sum| Duration::from_secs_f64(sum / MODELS as f64));
            let ratio = sums[0] / sums[1];
            println!(
                "| {} | {way} | {library:.1?} | {rust:.1?} | {ratio:.2} |",
                grouped(rows)
            );
        }
        let [library, rust] = points.map(|points| exponent(&points));
        println!(
            "| time grows with the rows to the power of | {way} | {library:.2} | {rust:.2} | |"
        );
    }
    println!(
        "\nThe mean of {MODELS} models, each run for {STEPS} steps; n is 64, and the cases of all rows but 64 \
         are large."
    );
    Ok(())
}

fn model(seed: u64, rows: usize) -> Model {
    mostly_large_cases(&mut Random::seeded(seed), 1, rows)
}

/// The first seeds of which the models make all steps, whatever the rows and the way.
fn seeds() -> Vec<u64> {
    let makes_all = |&seed: &u64| {
        ROWS.iter().all(|&rows| {
            WAYS.iter().all(|&way| {
                let mut tables = Tables::cleared(1_024, 1_024);
                let terms = Terms::<&[u64]> {
                    way,
                    ..Terms::plain(STEPS)
                };
                let image = model(seed, rows).image();
                machine::run(&image, tables.lend(), terms).steps == STEPS
            })
        })
    };
    (0..).filter(makes_all).take(MODELS).collect()
}

/// One step by `afa_step` on invented tables.
fn print_steps() -> Result<(), String> {
    println!("\n| one step | blockers | after it | library | Rust | library / Rust |");
    println!("|---|---|---|---|---|---|");
    for held in [5_000, 60_000] {
        for (name, model, standing, way) in standings(held) {
            let terms = Terms::<&[u64]> {
                way,
                ..Terms::plain(u64::MAX)
            };
            let image = model.image();
            let mut after = standing.clone();
            machine::step(&image, after.tables.lend(), terms, &mut after.record);
            let [library, rust] = time_of_step(&image, &standing, terms, TURNS)?;
            println!(
                "| {name} | {} | {} | {library:.1?} | {rust:.1?} | {:.2} |",
                grouped(held),
                outcome(&standing, &after),
                library.as_secs_f64() / rust.as_secs_f64()
            );
        }
    }
    println!("\nThe least of {TURNS} times each, record and tables made anew before each.");
    Ok(())
}

/// The blockers held after the step, and what a block has grown.
fn outcome(before: &Standing, after: &Standing) -> String {
    let held = after.record.held as usize;
    if after.record.blocks == before.record.blocks {
        return grouped(held);
    }
    let (case, _) = blocks::lowest_pending(before);
    let blocker = after.tables.masks[held - 1];
    let [case, blocker] = [case, blocker].map(u64::count_ones);
    format!("{}, {case} states grown to {blocker}", grouped(held))
}

/// A close, and blocks by each way.
fn standings(held: usize) -> Vec<(String, Model, Standing, u64)> {
    let mut random = Random::seeded(0);
    let close = closes::Wanted {
        states: 40,
        symbols: 2,
        held,
        room: held,
        top: 40,
        vacant: None,
        leads: 20,
        lowest: 1,
        level_0: false,
    };
    let name = format!("close, N {}", close.top);
    let standing = close.standing(&mut random);
    let mut standings = vec![(name, close.model(), standing, 0)];
    for (lacking, which) in [(6, "many"), (20, "few")] {
        let block = blocks::Wanted {
            states: 64,
            symbols: 8,
            rows: 600,
            held,
            room: held + 1,
            below: 10,
            lacking,
        };
        let model = block.model(&mut random);
        let standing = block.standing(&mut random, &model, blocks::Aim::Block);
        for way in WAYS {
            let name = format!("block by way {way}, {}, {which} cover", model.sizes());
            standings.push((name, model.clone(), standing.clone(), way));
        }
    }
    standings
}
