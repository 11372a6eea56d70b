//! Blockers that cover a case at a level and such that just do not, and levels and cases to ask about.

use crate::random::Random;

/// Levels of blockers: none that counts, low ones, and those about where a sign or 32 bits end.
pub const BLOCKER_LEVELS: [u32; 10] = [
    0,
    1,
    2,
    3,
    (1 << 31) - 1,
    1 << 31,
    (1 << 31) + 1,
    u32::MAX - 2,
    u32::MAX - 1,
    u32::MAX,
];

/// Levels to ask about: the same, and those that no blocker has, of which some are a blocker's level if
/// they are cut down to 32 bits.
pub const ASKED_LEVELS: [u64; 20] = [
    0,
    1,
    2,
    3,
    4,
    (1 << 31) - 1,
    1 << 31,
    (1 << 31) + 1,
    (1 << 32) - 2,
    (1 << 32) - 1,
    1 << 32,
    (1 << 32) + 1,
    (1 << 32) + 2,
    3 << 31,
    1 << 33,
    (1 << 63) - 1,
    1 << 63,
    (1 << 63) + 1,
    u64::MAX - 1,
    u64::MAX,
];

/// A mask and a level.
type Entry = (u64, u32);

/// One of the case's states alone: the first from anywhere on, and from the lowest again after the
/// highest. The case has some.
pub(super) fn one_of(random: &mut Random, case: u64) -> u64 {
    let from = random.below(64) as u32;
    let turned = case.rotate_right(from);
    1_u64.rotate_left(from + turned.trailing_zeros())
}

/// A blocker that covers the case at the level, by little or by much.
pub fn covering(random: &mut Random, case: u64, level: u32) -> Entry {
    let (one, any) = (1 << random.below(64), random.number());
    let mask = random.pick(&[case, case | one, case | any, u64::MAX]);
    let above = level + (random.number() % (u64::from(u32::MAX - level) + 1)) as u32;
    let levels = [level, level, level.saturating_add(1), above, u32::MAX];
    (mask, random.pick(&levels))
}

/// A blocker that does not: for want of level alone, of one state alone, of several states, or of both
/// level and state. The level is 1 or more.
fn not_covering(random: &mut Random, case: u64, level: u32) -> Entry {
    let below = (random.number() % u64::from(level)) as u32;
    let low = random.pick(&[0, level - 1, level - 1, below]);
    let (mask, high) = covering(random, case, level);
    if case == 0 {
        return (mask, low);
    }
    let one = one_of(random, case);
    match random.below(6) {
        0 | 1 => (mask, low),
        2 | 3 => (mask & !one, high),
        // A part of the case: this one is in the case, and not the case in it.
        4 => (case & random.number() & !one, high),
        _ => (mask & !one, low),
    }
}

/// Masks and levels of so many blockers, of which the one at the place is the first that covers, if it
/// is there, and others behind it do by the chance.
pub fn first_at(
    random: &mut Random,
    count: usize,
    place: usize,
    percent: usize,
    case: u64,
    level: u32,
) -> (Vec<u64>, Vec<u32>) {
    let entry = |at| {
        if at == place || at > place && random.chance(percent) {
            covering(random, case, level)
        } else {
            not_covering(random, case, level)
        }
    };
    (0..count).map(entry).unzip()
}

fn blocker_level(random: &mut Random) -> u32 {
    match random.below(8) {
        0..=4 => random.within(0..=6) as u32,
        5 | 6 => random.pick(&BLOCKER_LEVELS),
        _ => random.number() as u32,
    }
}

/// So many masks, of few states or of many.
pub fn masks(random: &mut Random, count: usize) -> Vec<u64> {
    let states = u64::MAX >> random.pick(&[0, 0, 32, 55, 60]);
    let dense = random.below(4);
    let mask = |_| (0..dense).fold(random.number(), |mask, _| mask | random.number()) & states;
    (0..count).map(mask).collect()
}

pub fn levels(random: &mut Random, count: usize) -> Vec<u32> {
    if random.chance(25) {
        let highest = random.within(1..=300);
        return (0..count)
            .map(|_| random.within(1..=highest) as u32)
            .collect();
    }
    (0..count).map(|_| blocker_level(random)).collect()
}

/// A level to ask about: any, one that is known for trouble, or one about a blocker's.
pub fn asked_level(random: &mut Random, levels: &[u32]) -> u64 {
    let own = match levels {
        [] => u64::from(blocker_level(random)),
        _ => u64::from(random.pick(levels)),
    };
    match random.below(16) {
        0 => random.number(),
        1..=3 => random.pick(&ASKED_LEVELS),
        4..=7 => random.within(0..=7) as u64,
        8..=10 => own,
        11 | 12 => own.saturating_sub(1),
        13 => own + 1,
        14 => own + (1 << 32),
        _ => own | random.number() << 32,
    }
}

/// A case to ask about: any, the smallest, the largest, or one about a blocker's mask.
pub fn asked_case(random: &mut Random, masks: &[u64]) -> u64 {
    let own = match masks {
        [] => random.number(),
        _ => random.pick(masks),
    };
    let one = 1 << random.below(64);
    match random.below(16) {
        0 => 0,
        1 => u64::MAX,
        2 => random.number(),
        3 => one,
        4 => one | 1 << random.below(64),
        5..=7 => own,
        8 | 9 => own & random.number(),
        10 | 11 => own & random.number() & random.number(),
        12 => own & !one,
        13 | 14 => own | one,
        _ => own & random.number() | one,
    }
}
