//! Records and tables that no run has made: from nothing, and out of those of a run between its steps.
//! None is broken, and all are lent with a valid image.

use super::blockers::BLOCKER_LEVELS;
use super::small_case;
use crate::acceptance::backward_set;
use crate::compare::steps::Standing;
use crate::image::{all_states, Model};
use crate::machine::{begin, step};
use crate::random::Random;
use crate::record::{Record, WORKING};
use crate::tables::{Tables, Terms, EDITIONS, WAYS};

/// Numbers in `open` that are read as 1. Some are 0 when cut down to 1, 8, 32 or 63 bits.
pub const ODD_OPEN: [u64; 8] = [
    2,
    3,
    1 << 8,
    1 << 31,
    1 << 32,
    (1 << 32) + 1,
    1 << 63,
    u64::MAX,
];

/// Of a room for records and tables that are made up.
fn places(random: &mut Random) -> usize {
    match random.below(20) {
        0 => 0,
        1 => 1,
        2..=15 => random.within(2..=8),
        16..=18 => random.within(9..=24),
        _ => random.within(60..=80),
    }
}

/// A number up to the bound: often the bound itself or near it, or nothing.
fn up_to(random: &mut Random, bound: usize) -> usize {
    match random.below(6) {
        0 => 0,
        1 | 2 => bound,
        3 => bound - bound.min(1),
        _ => random.within(0..=bound),
    }
}

fn open(random: &mut Random) -> u64 {
    match random.below(4) {
        0 => random.pick(&ODD_OPEN),
        1 => 0,
        _ => 1,
    }
}

/// Few, or about where some width ends.
fn steps(random: &mut Random) -> u64 {
    let few = random.below(6) as u64;
    match random.below(8) {
        0 => u64::MAX - few,
        1 => u64::MAX - 60 - few,
        2 => (1 << 32) - 3 + few,
        3 => (1 << 63) - 3 + few,
        4 => random.number(),
        _ => random.below(100) as u64,
    }
}

/// Blocks or hints accepted, not above the steps: few, so that there are hints for them, or any.
fn counted(random: &mut Random, steps: u64) -> u64 {
    let few = random.below(4) as u64;
    let any = match steps {
        u64::MAX => random.number(),
        _ => random.number() % (steps + 1),
    };
    let cut = few | 1 << random.pick(&[8, 16, 32]);
    let count = random.pick(&[few, few, few, few, cut, any, steps]);
    count.min(steps)
}

/// Sets that tell something about the model: F, I, what lies before and behind them, few states or
/// many.
fn set(random: &mut Random, model: &Model) -> u64 {
    let states = all_states(model.states);
    let one = 1 << random.below(model.states);
    let symbol = random.below(model.symbols()) as u8;
    let any = random.number() & states;
    match random.below(12) {
        0 => model.final_set,
        1 => model.final_set | one,
        2 => backward_set(model, symbol, model.final_set),
        3 => backward_set(model, symbol, any),
        4 => small_case(random, model.states, 2),
        5 | 6 => any,
        7 | 8 => states & !one,
        9 => states & !(model.initial & any),
        10 => model.initial | any,
        _ => 0,
    }
}

/// The same, and now and then with a bit at n or above, if there is any.
fn any_set(random: &mut Random, model: &Model) -> u64 {
    let set = set(random, model);
    if random.chance(8) {
        return set | 1 << random.within(model.states.min(63)..=63);
    }
    set
}

/// Levels about those up to N, and such as no run has.
fn blocker_level(random: &mut Random, level: usize) -> u32 {
    match random.below(20) {
        0 => random.pick(&BLOCKER_LEVELS),
        1 => 0,
        2 => u32::MAX,
        3 => level as u32 + 5,
        _ => random.within(1..=level + 1) as u32,
    }
}

fn symbol(random: &mut Random, model: &Model) -> u8 {
    match random.below(8) {
        0 => random.byte(),
        _ => random.below(model.symbols()) as u8,
    }
}

/// A working record and tables of so many places made up from nothing. What is not in use has anything in it.
pub fn made_up(
    random: &mut Random,
    model: &Model,
    blocker_room: usize,
    word_room: usize,
) -> Standing {
    let mut tables = Tables::filled(random, blocker_room, word_room);
    let held = up_to(random, blocker_room);
    let level = up_to(random, word_room);
    let pending = up_to(random, level);
    let pending = random.pick(&[0, 1.min(level), pending, pending]);
    for place in 0..held {
        tables.masks[place] = any_set(random, model);
        tables.levels[place] = match place {
            // Often each level has one, so that a close finds none vacant.
            _ if place < level && random.chance(60) => place as u32 + 1,
            _ => blocker_level(random, level),
        };
    }
    for place in 0..pending {
        tables.cases[place] = any_set(random, model);
        tables.symbols[place] = symbol(random, model);
    }
    let steps = steps(random);
    let record = Record {
        answer: WORKING,
        steps,
        level: level as u64,
        open: open(random),
        held: held as u64,
        pending: pending as u64,
        blocks: counted(random, steps),
        accepted: counted(random, steps),
    };
    Standing { record, tables }
}

/// A working record and tables of a run after some steps, of which a few numbers are changed.
fn changed(random: &mut Random, model: &Model) -> Standing {
    let image = model.image();
    let (blocker_room, word_room) = (2 + places(random), 2 + places(random));
    let mut tables = Tables::filled(random, blocker_room, word_room);
    let terms = Terms {
        way: random.pick(&WAYS),
        ..Terms::plain(u64::MAX)
    };
    let mut record = begin(&image, tables.lend(), terms);
    for _ in 0..random.below(40) {
        step(&image, tables.lend(), terms, &mut record);
    }
    record.answer = WORKING;
    for _ in 0..random.pick(&[1, 1, 2, 4]) {
        change(random, model, &mut record, &mut tables);
    }
    // What a step has not used is 0, and stays what it is.
    if random.chance(50) {
        let filled = Tables::filled(random, blocker_room, word_room);
        let (held, pending) = (record.held as usize, record.pending as usize);
        tables.masks[held..].copy_from_slice(&filled.masks[held..]);
        tables.levels[held..].copy_from_slice(&filled.levels[held..]);
        tables.entered[held..].copy_from_slice(&filled.entered[held..]);
        tables.cases[pending..].copy_from_slice(&filled.cases[pending..]);
        tables.symbols[pending..].copy_from_slice(&filled.symbols[pending..]);
    }
    Standing { record, tables }
}

fn change(random: &mut Random, model: &Model, record: &mut Record, tables: &mut Tables) {
    let place = random.below(tables.masks.len());
    let word_place = random.below(tables.cases.len());
    match random.below(12) {
        0 => record.open = open(random),
        1 => record.held = up_to(random, tables.masks.len()) as u64,
        2 => {
            let level = random.within(record.pending as usize..=tables.cases.len());
            record.level = level as u64;
        }
        3 | 4 => record.pending = up_to(random, record.level as usize) as u64,
        5 => {
            record.steps = steps(random);
            record.blocks = counted(random, record.steps);
            record.accepted = counted(random, record.steps);
        }
        6 | 7 => tables.masks[place] = any_set(random, model),
        8 => tables.levels[place] = blocker_level(random, record.level as usize),
        9 | 10 => tables.cases[word_place] = any_set(random, model),
        _ => tables.symbols[word_place] = symbol(random, model),
    }
}

/// A working record that is not broken, in rooms of any size, with tables that hold anything.
pub fn invented(random: &mut Random, model: &Model) -> Standing {
    let standing = match random.below(3) {
        0 => changed(random, model),
        _ => {
            let (blocker_room, word_room) = (places(random), places(random));
            made_up(random, model, blocker_room, word_room)
        }
    };
    let [blocker_room, _, _, word_room, _] = standing.tables.lengths();
    assert!(!standing.record.is_broken(blocker_room, word_room));
    standing
}

/// Terms for a step of the record: mostly an allowance above its steps, and for the next block a hint that
/// often passes.
pub fn terms_for(random: &mut Random, model: &Model, standing: &Standing) -> Terms {
    let Record {
        steps,
        pending,
        blocks,
        ..
    } = standing.record;
    let mut hints = Vec::new();
    if blocks < 600 && random.chance(60) {
        let count = random.within(0..=blocks as usize + 2);
        hints.resize_with(count, || any_set(random, model));
        if let (Some(hint), true) = (hints.get_mut(blocks as usize), pending > 0) {
            let case = standing.tables.cases[pending as usize - 1];
            let one = 1 << random.below(64);
            *hint = random.pick(&[case, case, case | one, case | *hint, *hint]);
        }
    }
    let above = steps.saturating_add(random.within(1..=3) as u64);
    let allowance = match random.below(64) {
        0 => 0,
        1 => steps,
        2 => steps - steps.min(1),
        3 => random.number() % steps.saturating_add(1),
        4..=24 => above,
        _ => u64::MAX,
    };
    Terms {
        hints,
        allowance,
        edition: random.pick(&EDITIONS),
        way: random.pick(&WAYS),
    }
}
