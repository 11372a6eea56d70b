//! The time of the library beside that of the machine, the word test and the print written in Rust, and
//! that of its runs by begin and steps beside its runs in one call: what the benchmarks share.
//!
//! Both sides go in one process and in turn, on the same image. Runs are lent rooms that are cleared
//! before each; prints are lent a room of just their length, cleared too; clearing and comparing are not
//! timed. Times are the processor's for this thread, so that what else the machine does counts little.
//! The machine here has no table of when blockers entered. The numbers, all other tables and the prints
//! are compared after each turn. A single step is lent a record and tables that are made anew before
//! each, and both sides have all of them.

use crate::afa;
use crate::compare::steps::Standing;
use crate::machine;
use crate::record::{Record, WORKING};
use crate::tables::{Answer, Tables, Terms};
use std::ffi::c_int;
use std::hint::black_box;
use std::process::ExitCode;
use std::time::Duration;

extern "C" {
    fn clock_gettime(clock: c_int, time: *mut Time) -> c_int;
}

/// The C library's `struct timespec` on x86-64.
#[repr(C)]
struct Time {
    seconds: u64,
    nanoseconds: u64,
}

const CLOCK_THREAD_CPUTIME_ID: c_int = 3;

/// A round has one turn of either side or more, so that it lasts at least so long.
const ROUND: Duration = Duration::from_millis(40);

/// How large the rooms are, and how many rounds there are.
#[derive(Clone, Copy)]
pub struct Setting {
    /// Of each room.
    pub places: usize,
    /// A single one has one turn of either side and no other before it.
    pub rounds: usize,
}

/// Where a run is not so long that it needs more places, or is measured less often.
pub const USUAL: Setting = Setting {
    places: 1_024,
    rounds: 11,
};

pub enum Asked {
    Run(Terms),
    Word(Vec<u8>),
    Print(Vec<u8>),
}

/// What either side works in.
struct Lent {
    tables: Tables,
    /// For a print.
    room: Vec<u8>,
}

/// What both sides answered, and how long it took them: of the rounds, in order.
pub struct Measured {
    pub answer: Answer,
    times: [Vec<Duration>; 2],
    ratios: Vec<f64>,
}

impl Measured {
    /// The median of each side: the library and Rust, or steps and one call.
    pub fn times(&self) -> [Duration; 2] {
        [0, 1].map(|side: usize| {
            let times = &self.times[side];
            times[times.len() / 2]
        })
    }

    pub fn library_time(&self) -> Duration {
        self.times()[0]
    }

    pub fn rust_time(&self) -> Duration {
        self.times()[1]
    }

    /// The first side's time by that of the second: the median, the least and the most.
    pub fn ratios(&self) -> [f64; 3] {
        let rounds = self.ratios.len();
        [rounds / 2, 0, rounds - 1].map(|place| self.ratios[place])
    }

    /// The same as text.
    pub fn ratio(&self) -> String {
        let [median, least, most] = self.ratios();
        format!("{median:.2} ({least:.2} to {most:.2})")
    }
}

/// The number with commas.
pub fn grouped(number: usize) -> String {
    match number {
        0..1_000 => number.to_string(),
        _ => format!("{},{:03}", grouped(number / 1_000), number % 1_000),
    }
}

/// The library's answer. That of a print has the length where that of a run has the steps.
fn ask_library(image: &[u8], asked: &Asked, lent: &mut Lent) -> Answer {
    match asked {
        Asked::Run(terms) => {
            let mut counts = [0; 4];
            let number = afa::run::run(image, lent.tables.lend(), terms.lend(), &mut counts);
            let [steps, level, blockers, hints_accepted] = counts;
            Answer::of_numbers([number, steps, level, blockers, hints_accepted])
        }
        Asked::Word(word) => Answer::of_numbers([afa::accepts(image, word), 0, 0, 0, 0]),
        Asked::Print(word) => {
            let mut length = [0];
            let number = afa::print::print_run(image, word, &mut lent.room, &mut length);
            Answer::of_numbers([number, length[0], 0, 0, 0])
        }
    }
}

/// The same in Rust.
fn ask_rust(image: &[u8], asked: &Asked, lent: &mut Lent) -> Answer {
    match asked {
        Asked::Run(terms) => machine::run_without_entered(image, lent.tables.lend(), terms.lend()),
        Asked::Word(word) => Answer::of_numbers([machine::accepts(image, word), 0, 0, 0, 0]),
        Asked::Print(word) => {
            let (number, length) = machine::print::print_run(image, word, &mut lent.room);
            Answer::of_numbers([number, length, 0, 0, 0])
        }
    }
}

/// A print's room is as long as the print, which is made once with room enough for any to know that.
fn lent_for(image: &[u8], asked: &Asked, places: usize) -> Lent {
    let mut room = Vec::new();
    if let Asked::Print(word) = asked {
        room.resize(21 + 24 * word.len(), 0);
        let (_, length) = machine::print::print_run(image, word, &mut room);
        room.truncate(length as usize);
    }
    let tables = Tables::cleared(places, places);
    Lent { tables, room }
}

/// The library and Rust: what was measured, or in what the two sides differ.
pub fn measure(image: &[u8], asked: &Asked, setting: Setting) -> Result<Measured, String> {
    let library = |lent: &mut Lent| ask_library(black_box(image), black_box(asked), lent);
    let rust = |lent: &mut Lent| ask_rust(black_box(image), black_box(asked), lent);
    let mut both = [0, 1].map(|_| lent_for(image, asked, setting.places));
    in_turn(&mut both, setting.rounds, library, rust, "in Rust")
}

/// The library's run by begin and steps, and its run in one call.
pub fn measure_steps(image: &[u8], terms: Terms, setting: Setting) -> Result<Measured, String> {
    let asked = &Asked::Run(terms);
    let by_steps = |lent: &mut Lent| run_by_steps(black_box(image), black_box(asked), lent);
    let in_one_call = |lent: &mut Lent| ask_library(black_box(image), black_box(asked), lent);
    let mut both = [0, 1].map(|_| lent_for(image, asked, setting.places));
    in_turn(
        &mut both,
        setting.rounds,
        by_steps,
        in_one_call,
        "in one call",
    )
}

fn run_by_steps(image: &[u8], asked: &Asked, lent: &mut Lent) -> Answer {
    let Asked::Run(terms) = asked else {
        unreachable!("only runs are made of steps")
    };
    let mut record = [0; 8];
    let mut answer = afa::step::begin(image, lent.tables.lend(), terms.lend(), &mut record);
    while answer == WORKING {
        answer = afa::step::step(image, lent.tables.lend(), terms.lend(), &mut record);
    }
    Record::of_numbers(record).five_numbers()
}

/// How long a step takes on a record that is finished, which is nothing but the checks: the median of the
/// rounds.
pub fn time_of_checks(image: &[u8]) -> Duration {
    const REPEATS: u32 = 1_000;
    let mut tables = Tables::cleared(USUAL.places, USUAL.places);
    let mut record = Record::begun(0).numbers();
    let mut times = [0; USUAL.rounds].map(|_| {
        let start = processor_time();
        for _ in 0..REPEATS {
            let terms = black_box(Terms::plain(1));
            let answer = afa::step::step(black_box(image), tables.lend(), terms, &mut record);
            assert_eq!(answer, 0);
        }
        (processor_time() - start) / REPEATS
    });
    times.sort();
    times[USUAL.rounds / 2]
}

/// How long one step takes the library and Rust on a record and tables as they stand: the least of so many
/// turns, or in what the two sides differ.
pub fn time_of_step(
    image: &[u8],
    before: &Standing,
    terms: Terms<&[u64]>,
    turns: usize,
) -> Result<[Duration; 2], String> {
    let mut least = [Duration::MAX; 2];
    for _ in 0..turns {
        let (mut library, mut rust) = (before.clone(), before.clone());
        let mut numbers = before.record.numbers();
        let start = processor_time();
        afa::step::step(
            black_box(image),
            library.tables.lend(),
            black_box(terms),
            &mut numbers,
        );
        least[0] = least[0].min(processor_time() - start);
        library.record = Record::of_numbers(numbers);
        let start = processor_time();
        machine::step(
            black_box(image),
            rust.tables.lend(),
            black_box(terms),
            &mut rust.record,
        );
        least[1] = least[1].min(processor_time() - start);
        if library != rust {
            let (record, in_rust) = (library.record, rust.record);
            return Err(format!("a step to {record}, but in Rust to {in_rust}"));
        }
    }
    Ok(least)
}

/// The rounds of two sides, or in what the first differs from the second, which has a name.
fn in_turn(
    both: &mut [Lent; 2],
    rounds: usize,
    run_first: impl Fn(&mut Lent) -> Answer,
    run_second: impl Fn(&mut Lent) -> Answer,
    second_side: &str,
) -> Result<Measured, String> {
    let [first_lent, second_lent] = both;

    // A turn of either side before the rounds tells how many make one.
    let mut repeats = 1;
    if rounds > 1 {
        let (time, _) = timed(second_lent, &run_second);
        timed(first_lent, &run_first);
        repeats = ROUND.as_nanos().div_ceil(2 * time.as_nanos().max(1)) as u32;
    }

    let (mut side_times, mut ratios) = ([Vec::new(), Vec::new()], Vec::new());
    let mut answer = None;
    for _ in 0..rounds {
        let mut times = [Duration::ZERO; 2];
        for repeat in 0..repeats {
            let (first, second);
            if repeat % 2 == 0 {
                first = timed(first_lent, &run_first);
                second = timed(second_lent, &run_second);
            } else {
                second = timed(second_lent, &run_second);
                first = timed(first_lent, &run_first);
            }
            if first.1 != second.1 {
                return Err(format!("{:?} but {second_side} {:?}", first.1, second.1));
            }
            if compared(&first_lent.tables) != compared(&second_lent.tables) {
                return Err(format!(
                    "{:?} with other tables than {second_side}",
                    first.1
                ));
            }
            if first_lent.room != second_lent.room {
                return Err(format!(
                    "{:?} with another print than {second_side}",
                    first.1
                ));
            }
            answer = Some(first.1);
            times[0] += first.0;
            times[1] += second.0;
        }
        for (side, time) in side_times.iter_mut().zip(times) {
            side.push(time / repeats);
        }
        ratios.push(times[0].as_secs_f64() / times[1].as_secs_f64());
    }
    side_times.iter_mut().for_each(|times| times.sort());
    ratios.sort_by(f64::total_cmp);
    Ok(Measured {
        answer: answer.expect("a round"),
        times: side_times,
        ratios,
    })
}

/// The tables that both sides have.
fn compared(tables: &Tables) -> (&[u64], &[u32], &[u64], &[u8]) {
    (
        &tables.masks,
        &tables.levels,
        &tables.cases,
        &tables.symbols,
    )
}

/// One turn in cleared tables and room.
fn timed(lent: &mut Lent, run: impl Fn(&mut Lent) -> Answer) -> (Duration, Answer) {
    lent.tables.masks.fill(0);
    lent.tables.levels.fill(0);
    lent.tables.entered.fill(0);
    lent.tables.cases.fill(0);
    lent.tables.symbols.fill(0);
    lent.room.fill(0);
    let start = processor_time();
    let answer = black_box(run(black_box(lent)));
    (processor_time() - start, answer)
}

fn processor_time() -> Duration {
    let mut time = Time {
        seconds: 0,
        nanoseconds: 0,
    };
    // SAFETY: the time is written to a place of its own.
    let done = unsafe { clock_gettime(CLOCK_THREAD_CPUTIME_ID, &mut time) };
    assert_eq!(done, 0, "clock_gettime");
    Duration::from_secs(time.seconds) + Duration::from_nanos(time.nanoseconds)
}

/// How a benchmark ends: with an error where the two sides differ.
pub fn ended(printed: Result<(), String>) -> ExitCode {
    match printed {
        Ok(()) => ExitCode::SUCCESS,
        Err(difference) => {
            eprintln!("{difference}");
            ExitCode::FAILURE
        }
    }
}
