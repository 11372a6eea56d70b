//! Good and bad hints for a model's runs.

use super::runs::Earlier;
use crate::image::{all_states, Model};
use crate::random::Random;
use crate::tables::{Terms, WAYS};

/// Hints for the blocks that an earlier run of the model made: case and blocker of each.
pub fn hints(random: &mut Random, model: &Model, blocks: &[(u64, u64)]) -> Vec<u64> {
    let good_percent = match random.below(6) {
        0 | 1 => return Vec::new(),
        2 => 0,
        3 => 100,
        _ => random.pick(&[30, 70, 95]),
    };
    let count = random.within(0..=blocks.len() + 2);
    let hint = |block| match blocks.get(block) {
        Some(&(case, blocker)) if random.chance(good_percent) => good_hint(random, case, blocker),
        _ => bad_hint(random, model, blocks),
    };
    (0..count).map(hint).collect()
}

/// Hints that pass all, each made for the run that those before it lead to, until that run ends. They
/// pass by either way, as no blocker is grown before the last of them is taken.
pub fn passing_hints(random: &mut Random, image: &[u8], most: usize) -> Vec<u64> {
    let mut hints = Vec::new();
    while hints.len() < most {
        let terms = Terms {
            hints: &hints[..],
            way: random.pick(&WAYS),
            ..Terms::plain(u64::MAX)
        };
        let earlier = Earlier::new(image, terms);
        assert_eq!(earlier.answer.hints_accepted as usize, hints.len());
        match earlier.blocks.get(hints.len()) {
            Some(&(case, blocker)) => hints.push(good_hint(random, case, blocker)),
            None => break,
        }
    }
    hints
}

/// The case, the blocker, or a set between the two: one at which growth state by state came by, or of a
/// blocker grown through a hitting set any. Each passes at its block.
fn good_hint(random: &mut Random, case: u64, blocker: u64) -> u64 {
    let tried = u64::MAX >> random.below(64);
    random.pick(&[case, blocker, blocker, case | blocker & tried])
}

/// Mostly one that does not pass, by one of its demands alone or by several.
fn bad_hint(random: &mut Random, model: &Model, blocks: &[(u64, u64)]) -> u64 {
    let any = random.number() & all_states(model.states);
    let (case, blocker) = match blocks.len() {
        0 => (any, any),
        count => blocks[random.below(count)],
    };
    let member = 1 << random.below(model.states);
    match random.below(9) {
        0 => random.number(),
        1 => any,
        2 => case | any,
        3 => case | member,
        4 => blocker | member,
        5 => blocker & !member,
        6 => blocker | model.initial,
        7 => blocker | 1 << random.below(64),
        _ => blocker,
    }
}
