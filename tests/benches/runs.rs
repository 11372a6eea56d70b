//! `afa_run`, `afa_accepts` and `afa_print_run` against the machine, the word test and the print written
//! in Rust, and runs by `afa_begin` and `afa_step` against `afa_run`, as tables in Markdown: `cargo bench
//! --bench runs`, after the library was built as for the tests.
//!
//! `afa_tests::measure` says how. Runs have no hints, edition 1 and way 0. What comes first is the demand of
//! `afa_tests::demand`. A difference between the two sides ends the program with an error.

use afa_tests::demand;
use afa_tests::generate::prints::{accept, fill_up, mixing};
use afa_tests::generate::runs::long_runs;
use afa_tests::generate::ways::largest;
use afa_tests::image::{all_states, rings, Model, Row};
use afa_tests::measure::{
    ended, grouped, measure, measure_steps, time_of_checks, Asked, Measured, Setting, USUAL,
};
use afa_tests::random::Random;
use afa_tests::tables::Terms;
use std::process::ExitCode;

const WORD_LENGTH: usize = 10_000;

/// Of words over the rings of 2, 3 and 5 states that are printed: 29 and a multiple of 30, by which they
/// are accepted. The library keeps 65,536 backward sets at a time, so the last goes another way.
const PRINTED: [usize; 3] = [29 + 30 * 21, 29 + 30 * 2_183, 29 + 30 * 21_844];

/// The rings that runs are measured on. The last take seconds, and hold over 2,000 blockers.
const RINGS: [(&[usize], Setting); 3] = [
    (&[2, 3, 5], USUAL),
    (&[2, 3, 5, 7], USUAL),
    (
        &[3, 5, 7, 11],
        Setting {
            places: 4_096,
            rounds: 3,
        },
    ),
];

struct Subject {
    name: String,
    model: Model,
    asked: Asked,
    setting: Setting,
}

fn main() -> ExitCode {
    ended(print())
}

fn print() -> Result<(), String> {
    println!("{}\n", demanded()?);
    print_table()?;
    print_steps()
}

/// The demand, what was measured and whether it is met; or in what the two sides differ.
fn demanded() -> Result<String, String> {
    let setting = Setting {
        places: demand::PLACES,
        ..USUAL
    };
    let asked = Asked::Run(demand::terms());
    let measured = measure(&demand::model().image(), &asked, setting)?;
    let [median, _, most] = measured.ratios();
    let met = match demand::MOST {
        bound if most <= bound => "It is met in every round.",
        bound if median <= bound => "It is met by the median, and not in every round.",
        _ => "It is not met.",
    };
    Ok(format!(
        "The demand: coprime rings of 2, 3 and 5 states, optimised builds, tables of {} places cleared \
         before each run, no hints, edition 1, way 0 and 4^11 steps take at most twice the time of Rust, \
         with the same five numbers, masks, levels and word. Both sides give {}. The library takes {:.1?} \
         and Rust {:.1?}; library / Rust is {}, in {} rounds. {met}",
        grouped(setting.places),
        measured.answer,
        measured.library_time(),
        measured.rust_time(),
        measured.ratio(),
        setting.rounds
    ))
}

fn print_table() -> Result<(), String> {
    println!("| model | answer | library | Rust | library / Rust: median (least to most) |");
    println!("|---|---|---|---|---|");
    let mut print_times = Vec::new();
    for subject in subjects() {
        let measured = measure(&subject.model.image(), &subject.asked, subject.setting);
        let measured = measured
            .map_err(|difference| format!("{}: {difference}\n{}", subject.name, subject.model))?;
        println!("{}", line(&subject, &measured));
        if let Asked::Print(_) = subject.asked {
            print_times.push(measured.library_time());
        }
    }
    println!(
        "\n{} rounds each where a line does not say otherwise; times are those of one run, word or print, \
         the median of the rounds.",
        USUAL.rounds
    );
    println!(
        "Of the library's prints over rings, one of {} events takes {:.1} times one of {}.",
        grouped(PRINTED[1]),
        print_times[1].as_secs_f64() / print_times[0].as_secs_f64(),
        grouped(PRINTED[0])
    );
    Ok(())
}

/// The table of runs by steps and what stands below it, or in what they differ from the run in one call.
fn print_steps() -> Result<(), String> {
    println!(
        "\n| run by steps | answer | begin and steps | one call | steps / one call: median (least to \
         most) | added by a step | its checks |"
    );
    println!("|---|---|---|---|---|---|---|");
    for (sizes, setting) in RINGS {
        let image = rings(sizes).image();
        let measured = measure_steps(&image, Terms::plain(1 << 22), setting)?;
        let [by_steps, in_one_call] = measured.times();
        // The begin checks too.
        let calls = measured.answer.steps as u32 + 1;
        println!(
            "| {} | {} | {by_steps:.1?} | {in_one_call:.1?} | {} | {:.1?} | {:.1?} |",
            ring_name(sizes, setting),
            measured.answer,
            measured.ratio(),
            by_steps.saturating_sub(in_one_call) / calls,
            time_of_checks(&image)
        );
    }
    let model = largest(&mut Random::seeded(0), 2);
    println!(
        "\nThe checks of a step are those of a begin and of its record; on the largest image ({}) they \
         take {:.1?}.",
        model.sizes(),
        time_of_checks(&model.image())
    );
    Ok(())
}

/// The subject's line of the table.
fn line(subject: &Subject, measured: &Measured) -> String {
    format!(
        "| {} | {} | {:.1?} | {:.1?} | {} |",
        subject.name,
        shown(&subject.asked, measured),
        measured.library_time(),
        measured.rust_time(),
        measured.ratio()
    )
}

/// The five numbers of a run, whether the word is accepted, or that and the length of its print.
fn shown(asked: &Asked, measured: &Measured) -> String {
    let answer = &measured.answer;
    let number = answer.number;
    match asked {
        Asked::Run(_) => answer.to_string(),
        Asked::Word(_) => number.to_string(),
        Asked::Print(_) => format!("{number}, {} bytes", grouped(answer.steps as usize)),
    }
}

fn subjects() -> Vec<Subject> {
    let rings = RINGS.map(|(sizes, setting)| Subject {
        name: ring_name(sizes, setting),
        model: rings(sizes),
        asked: Asked::Run(Terms::plain(1 << 22)),
        setting,
    });
    let runs = rings.into_iter().chain(random_subjects());
    let words = runs.chain(word_subjects());
    words.chain(print_subjects()).collect()
}

/// With the places and the rounds where they are not the usual.
fn ring_name(sizes: &[usize], setting: Setting) -> String {
    let Setting { places, rounds } = setting;
    match rounds == USUAL.rounds {
        true => format!("rings {sizes:?}"),
        false => format!(
            "rings {sizes:?}, {} places, {rounds} rounds",
            grouped(places)
        ),
    }
}

fn random_subjects() -> Vec<Subject> {
    let subject = |(seed, model): (u64, Model)| Subject {
        name: format!("seed {seed}: {}", model.sizes()),
        model,
        asked: Asked::Run(Terms::plain(4_000)),
        setting: USUAL,
    };
    long_runs().into_iter().map(subject).collect()
}

/// Words over models of two symbols whose first rows, one for each state, bring all states in from every
/// case; and over one that lacks the rows of a state, so that all rows must be walked.
fn word_subjects() -> Vec<Subject> {
    let mut random = Random::seeded(0);
    // 60 rows cannot bring 64 states in.
    let sizes = [(16, 60), (32, 60), (48, 60), (64, 240), (16, 60)];
    let mut subjects = sizes.map(|(states, rows)| {
        let mut model = Model::plain(states, 2, 0);
        model.initial = all_states(states);
        for symbol_rows in &mut model.rows {
            let first = (0..states as u8).map(|state| Row { state, case: 0 });
            let others = (states..rows).map(|_| Row {
                state: random.below(states) as u8,
                case: random.number() & model.initial,
            });
            symbol_rows.extend(first.chain(others));
        }
        Subject {
            name: format!("word, n {states}, {rows} rows a symbol, all in after {states}"),
            model,
            asked: Asked::Word((0..WORD_LENGTH).map(|_| random.below(2) as u8).collect()),
            setting: USUAL,
        }
    });
    let [.., never] = &mut subjects;
    never.name = "word, n 16, 60 rows a symbol, never all in".into();
    for row in never.model.rows.iter_mut().flatten() {
        row.state %= 15;
    }
    subjects.into()
}

/// Words over rings, and one over as many states and rows as there can be, all rows being those of one
/// symbol: which of them fit depends on all that remains of the word, and most never do.
fn print_subjects() -> Vec<Subject> {
    let rings = PRINTED.map(|length| Subject {
        name: format!("print, rings [2, 3, 5], {} events", grouped(length)),
        model: rings(&[2, 3, 5]),
        asked: Asked::Print(vec![0; length]),
        setting: USUAL,
    });
    let mut random = Random::seeded(0);
    let mut model = mixing(&mut random, 31, 1);
    fill_up(&mut random, &mut model, 4_096);
    let word = vec![0; 4_096];
    accept(&mut random, &mut model, &word);
    let largest = Subject {
        name: "print, n 64, 4,096 rows a symbol, 4,096 events".into(),
        model,
        asked: Asked::Print(word),
        setting: USUAL,
    };
    rings.into_iter().chain([largest]).collect()
}
