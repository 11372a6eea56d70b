//! Models whose runs take some steps, and what their runs are lent.

use super::hints::hints;
use super::{
    case_by_chance, large_cases, near_permutations, scattered, several_each, size, small_case,
};
use crate::image::Model;
use crate::machine::{observed_run, run_without_entered, Event};
use crate::random::Random;
use crate::tables::{Answer, Lent, Tables, Terms, CHOICES, EDITIONS, WAYS};

pub fn run_model(random: &mut Random) -> Model {
    if random.below(1_000) == 0 {
        return run_model_of(random, 64, 64);
    }
    let states = match random.below(10) {
        0..=5 => random.within(2..=12),
        _ => size(random),
    };
    let symbols = match random.below(20) {
        0 => size(random),
        1..=10 => random.within(1..=2),
        _ => random.within(1..=6),
    };
    run_model_of(random, states, symbols)
}

pub fn run_model_of(random: &mut Random, states: usize, symbols: usize) -> Model {
    let rows = match random.below(10) {
        0 => scattered(random, states, symbols),
        1..=5 => near_permutations(random, states, symbols),
        6..=8 => several_each(random, states, symbols),
        _ => large_cases(random, states, symbols),
    };
    let percent = random.pick(&[20, 50, 80]);
    let mut final_set = match random.below(4) {
        0 => small_case(random, states, 3),
        _ => case_by_chance(random, states, percent),
    };
    let initial = match random.below(8) {
        0 => small_case(random, states, 1),
        1 => case_by_chance(random, states, 50),
        _ => small_case(random, states, 5),
    };
    // Otherwise a run ends before its first step.
    if initial != 0 && random.chance(95) {
        let members: Vec<u32> = (0..64).filter(|state| initial >> state & 1 == 1).collect();
        final_set &= !(1 << random.pick(&members));
    }
    Model {
        states,
        initial,
        final_set,
        rows,
    }
}

/// Of the models of 24 to 64 states and 1 to 8 symbols that the seeds 0, 1, 2, .. give, the first 20,
/// with their seeds, whose runs make 1,000 steps or more of the 4,000 allowed, in rooms of 1,024
/// places. At most 8 may end by the same number, as most would else fill blocker room.
pub fn long_runs() -> Vec<(u64, Model)> {
    let mut models = Vec::new();
    let mut by_number = [0; 5];
    for seed in 0.. {
        let mut random = Random::seeded(seed);
        let (states, symbols) = (random.within(24..=64), random.within(1..=8));
        let model = run_model_of(&mut random, states, symbols);
        let mut tables = Tables::cleared(1024, 1024);
        let answer = run_without_entered(&model.image(), tables.lend(), Terms::plain(4_000));
        let ended_so = &mut by_number[answer.number as usize];
        if answer.steps < 1_000 || *ended_so == 8 {
            continue;
        }
        *ended_so += 1;
        models.push((seed, model));
        if models.len() == 20 {
            break;
        }
    }
    models
}

/// An edition that there is not. Cut down to its lowest bits, it often is one that there is.
pub fn unknown_edition(random: &mut Random) -> u64 {
    let known = random.pick(&EDITIONS);
    match random.below(8) {
        0 => 0,
        1 => 3,
        2 | 3 => known | 1 << random.within(2..=63),
        4 | 5 => known | random.number() << random.pick(&[8, 16, 32]) | 1 << 63,
        _ => random.number() | 4,
    }
}

/// A way that there is not. Cut down to its lowest bits, it often is one that there is.
pub fn unknown_way(random: &mut Random) -> u64 {
    let known = random.pick(&WAYS);
    match random.below(8) {
        0 => 2,
        1 => 3,
        2 | 3 => known | 1 << random.within(1..=63),
        4 | 5 => known | random.number() << random.pick(&[8, 16, 32]) | 1 << 63,
        _ => random.number() | 2,
    }
}

/// Each edition with each way that there is, and such as there are not with the number that they give.
pub fn choices(random: &mut Random) -> [([u64; 2], Option<u64>); 7] {
    let (edition, way) = (random.pick(&EDITIONS), random.pick(&WAYS));
    let [plain, edition_2, way_1, both] = CHOICES.map(|choice| (choice, None));
    [
        plain,
        edition_2,
        way_1,
        both,
        ([unknown_edition(random), way], Some(36)),
        ([unknown_edition(random), unknown_way(random)], Some(36)),
        ([edition, unknown_way(random)], Some(37)),
    ]
}

/// A number of steps that does not take long: a block tries each state with each row.
pub fn affordable_steps(model: &Model, row_tests: usize) -> u64 {
    let block = model.states * model.row_count().max(16);
    (row_tests / block).max(8) as u64
}

/// What a run of the machine was like.
pub struct Earlier {
    pub way: u64,
    pub answer: Answer,
    /// The case and the blocker of each block in turn.
    pub blocks: Vec<(u64, u64)>,
    /// How many places of blocker room were in use at once.
    pub most_held: usize,
}

impl Earlier {
    /// With places enough.
    pub fn new(image: &[u8], terms: Terms<&[u64]>) -> Self {
        let mut tables = Tables::cleared(4096, 4096);
        let (mut blocks, mut held, mut most_held) = (Vec::new(), 0, 0);
        let answer = observed_run(image, tables.lend(), terms, |event| match event {
            Event::Blocked {
                pending,
                blocker,
                left,
                ..
            } => {
                blocks.push((pending, blocker));
                held = held + 1 - left;
                most_held = most_held.max(held);
            }
            Event::Rose {
                left_before,
                left_behind,
            } => held -= left_before + left_behind,
            _ => {}
        });
        Earlier {
            way: terms.way,
            answer,
            blocks,
            most_held,
        }
    }

    /// The same without hints and by either way.
    pub fn of_either_way(random: &mut Random, image: &[u8], allowance: u64) -> Self {
        let terms = Terms {
            way: random.pick(&WAYS),
            ..Terms::plain(allowance)
        };
        Self::new(image, terms)
    }
}

/// Rooms, hints and an allowance about those that the earlier run used, either edition, and mostly the
/// way of the earlier run. No run with these takes much longer than `affordable` steps.
pub fn lent(random: &mut Random, model: &Model, earlier: &Earlier, affordable: u64) -> Lent {
    let blocker_room = room(random, earlier.most_held);
    let word_room = room(random, earlier.answer.level as usize);
    let hints = hints(random, model, &earlier.blocks);
    let any_way = random.pick(&WAYS);
    let way = random.pick(&[earlier.way, any_way]);
    let as_before = hints.is_empty() && way == earlier.way;
    let ends = earlier.answer.is_verdict() && as_before || blocker_room.min(word_room) < 8;
    let steps = earlier.answer.steps;
    let allowance = match random.below(8) {
        0 => random.below(6) as u64,
        1 | 2 => random.below(steps as usize + 1) as u64,
        3 => steps.saturating_sub(1),
        4 => steps,
        5 => steps + 1,
        _ if ends => random.pick(&[1 << 32, u64::MAX - 1, u64::MAX]),
        _ => affordable,
    };
    let edition = random.pick(&EDITIONS);
    Lent {
        before: Tables::filled(random, blocker_room, word_room),
        terms: Terms {
            hints,
            allowance,
            edition,
            way,
        },
    }
}

fn room(random: &mut Random, used: usize) -> usize {
    match random.below(24) {
        0 => 0,
        1 => 1,
        2 => random.within(2..=5),
        3 | 4 => used.saturating_sub(1),
        5 => used / 2,
        6 => random.within(0..=used),
        7..=11 => used,
        12 => used + 1,
        _ => random.within(used..=used + 40),
    }
}
