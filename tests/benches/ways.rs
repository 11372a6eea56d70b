//! Runs by way 0, which grows a blocker state by state, beside runs by way 1, which grows it through a
//! hitting set; and runs by way 0 of one automaton whose states are numbered in different ways, without and
//! with hints; as tables in Markdown: `cargo bench --bench ways`, after the library was built as for the
//! tests.
//!
//! `afa_tests::measure` says how each is measured against the machine written in Rust. Runs have edition 1
//! and, but for the second table, no hints. A difference between the two sides ends the program with an
//! error.

use afa_tests::generate::copies::{
    copies, first_mended, made_alone, made_backwards, mended_stall, numbered_backwards,
    set_backwards, side_by_side, stall,
};
use afa_tests::generate::runs::long_runs;
use afa_tests::generate::ways::{counters, largest, primes, worst};
use afa_tests::image::{rings, Model};
use afa_tests::machine;
use afa_tests::measure::{ended, measure, Asked, Measured, Setting, USUAL};
use afa_tests::random::Random;
use afa_tests::tables::{Tables, Terms, WAYS};
use std::process::ExitCode;

const PRIMES: [usize; 6] = [2, 3, 5, 7, 11, 13];

/// As many places as there can be, for runs of seconds and more.
const LONG: Setting = Setting {
    places: 65_536,
    rounds: 1,
};

struct Subject {
    name: String,
    model: Model,
    allowance: u64,
    /// For each way.
    settings: [Setting; 2],
}

fn main() -> ExitCode {
    ended(print())
}

/// The table and what stands below it, or in what the two sides differ.
fn print() -> Result<(), String> {
    println!(
        "| model | way 0: answer | library | library / Rust | way 1: answer | library | library / Rust | \
         way 1 / way 0 |"
    );
    println!("|---|---|---|---|---|---|---|---|");
    for subject in subjects() {
        println!("{}", line(&subject)?);
    }
    println!(
        "\n{} rounds each where a line does not say otherwise; times are those of one run, the median of \
         the rounds. The fourth number of an answer is that of the blockers held.",
        USUAL.rounds
    );
    println!("{}", one_block()?);
    print_numberings()
}

fn subjects() -> Vec<Subject> {
    let of = |name: String, model: Model, allowance: u64| Subject {
        name,
        model,
        allowance,
        settings: [USUAL; 2],
    };
    let mut subjects = Vec::new();
    for sizes in [&[2, 3, 5][..], &[2, 3, 5, 7]] {
        subjects.push(of(format!("rings {sizes:?}"), rings(sizes), 1 << 22));
    }
    let setting = Setting {
        places: 4_096,
        ..LONG
    };
    subjects.push(Subject {
        name: "rings [3, 5, 7, 11], 4,096 places, 1 round".into(),
        model: rings(&[3, 5, 7, 11]),
        allowance: 1 << 22,
        settings: [setting; 2],
    });
    for count in 2..=PRIMES.len() {
        let (taken, last) = (&PRIMES[..count], count - 1);
        for (branch, which) in [(0, "first"), (last, "last")] {
            let name = format!("primes {taken:?}, the {which} exit not final");
            subjects.push(of(name, primes(taken, Some(branch)), 1 << 22));
        }
    }
    for count in 2..=4 {
        let taken = &PRIMES[..count];
        let name = format!("primes {taken:?}, all exits final");
        subjects.push(of(name, primes(taken, None), 1 << 22));
    }
    for sizes in [&[2; 6][..], &[3; 4], &[4; 3], &[5; 3], &[2, 3, 4, 5]] {
        for (is_empty, which) in [(false, "nonempty"), (true, "empty")] {
            let name = format!("counters {sizes:?}, {which}");
            subjects.push(of(name, counters(sizes, is_empty), 1 << 22));
        }
    }
    subjects.extend(copy_subjects());
    for (seed, model) in long_runs() {
        let name = format!("seed {seed}: {}", model.sizes());
        subjects.push(of(name, model, 4_000));
    }
    let model = largest(&mut Random::seeded(0), 2);
    let name = format!("largest: {}, 40 steps", model.sizes());
    subjects.push(of(name, model, 40));
    let model = worst();
    let name = format!("one growth at worst: {}", model.sizes());
    subjects.push(of(name, model, 1 << 22));
    subjects
}

/// The feed that stalls, two to four times side by side. Of four, way 0 holds 17,504 blockers at most, and
/// way 1 more than any room has places for.
fn copy_subjects() -> [Subject; 3] {
    let some_rounds = Setting { rounds: 3, ..LONG };
    let half_the_places = Setting {
        places: 32_768,
        ..LONG
    };
    let subjects = [
        (2, [USUAL; 2], ""),
        (3, [some_rounds, LONG], ", 65,536 places, 3 rounds and 1"),
        (4, [half_the_places; 2], ", 32,768 places, 1 round"),
    ];
    subjects.map(|(count, settings, said)| {
        let model = copies(count);
        Subject {
            name: format!("{count} copies of stall: {}{said}", model.sizes()),
            model,
            allowance: u64::MAX,
            settings,
        }
    })
}

fn measured(model: &Model, terms: Terms, setting: Setting) -> Result<Measured, String> {
    let way = terms.way;
    let measured = measure(&model.image(), &Asked::Run(terms), setting);
    measured.map_err(|difference| format!("{model}, way {way}: {difference}"))
}

fn line(subject: &Subject) -> Result<String, String> {
    let mut line = format!("| {} |", subject.name);
    let mut times = [0.0; 2];
    for (way, time) in WAYS.into_iter().zip(&mut times) {
        let terms = Terms {
            way,
            ..Terms::plain(subject.allowance)
        };
        let setting = subject.settings[way as usize];
        let measured = measured(&subject.model, terms, setting)?;
        let library = measured.library_time();
        line += &format!(" {} | {library:.1?} |", measured.answer);
        line += &format!(" {} |", measured.ratio());
        *time = library.as_secs_f64();
    }
    Ok(line + &format!(" {} |", rounded(times[1] / times[0])))
}

/// A ratio from very small to very large, with two digits or more that count.
fn rounded(ratio: f64) -> String {
    match ratio {
        ..0.1 => format!("{ratio:.5}"),
        ..10.0 => format!("{ratio:.2}"),
        _ => format!("{ratio:.0}"),
    }
}

/// What one block takes by way 1 where it takes most: the run that makes it, less the one that ends
/// before.
fn one_block() -> Result<String, String> {
    let model = worst();
    let [before, after] = [1, 2].map(|allowance| {
        let terms = Terms {
            way: 1,
            ..Terms::plain(allowance)
        };
        measured(&model, terms, USUAL)
    });
    let (before, after) = (before?, after?);
    Ok(format!(
        "A block by way 1 at worst ({}, 4,097 forbidden sets, 63 picks) takes {:.1?}, in Rust {:.1?}.",
        model.sizes(),
        after.library_time().saturating_sub(before.library_time()),
        after.rust_time().saturating_sub(before.rust_time())
    ))
}

/// One automaton, and hints for it from other numberings of its states.
struct Numbered {
    name: &'static str,
    model: Model,
    hints: Vec<u64>,
    setting: Setting,
}

/// The table of numberings, by way 0.
fn print_numberings() -> Result<(), String> {
    println!(
        "\n| four copies of stall, one mended, way 0 | hints | answer | library | library / Rust |"
    );
    println!("|---|---|---|---|---|");
    for numbered in numberings() {
        let terms = Terms {
            hints: numbered.hints,
            ..Terms::plain(u64::MAX)
        };
        let hint_count = terms.hints.len();
        let measured = measured(&numbered.model, terms, numbered.setting)?;
        println!(
            "| {} | {hint_count} | {} | {:.1?} | {} |",
            numbered.name,
            measured.answer,
            measured.library_time(),
            measured.ratio()
        );
    }
    println!(
        "\nIn rooms of 65,536 places, which a run clears. The fifth number of an answer is that of the hints \
         accepted."
    );
    Ok(())
}

fn numberings() -> Vec<Numbered> {
    let model = first_mended(4);
    let backwards = numbered_backwards(&model);
    let last = side_by_side(&[stall(), stall(), stall(), mended_stall()]);
    let (made, alone) = (made_backwards(&model), made_alone(&model));
    let frame = frame(&backwards).into_iter();
    let frame = frame.map(|set| set_backwards(model.states, set)).collect();
    let of = |name, model: &Model, hints: Vec<u64>, setting| Numbered {
        name,
        model: model.clone(),
        hints,
        setting,
    };
    let short = Setting {
        rounds: USUAL.rounds,
        ..LONG
    };
    vec![
        of("the first is mended, 1 round", &model, vec![], LONG),
        of("the same numbered backwards", &backwards, vec![], short),
        of("the last is mended", &last, vec![], short),
        of(
            "the first, hints the frame of those numbered backwards, 1 round",
            &model,
            frame,
            LONG,
        ),
        of(
            "the first, hints all blockers made there, in that order",
            &model,
            made,
            short,
        ),
        of(
            "the first, hints all that it makes alone, each with the states of the others",
            &model,
            alone,
            short,
        ),
    ]
}

/// The blockers that a run by way 0 ends with.
fn frame(model: &Model) -> Vec<u64> {
    let mut tables = Tables::cleared(4_096, 4_096);
    let answer = machine::run(&model.image(), tables.lend(), Terms::plain(u64::MAX));
    tables.masks.truncate(answer.blockers as usize);
    tables.masks
}
