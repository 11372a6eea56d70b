//! Closes of tables that no run has made, small to large: "on others a step still does the machine's step
//! for the places in use as they stand; the rest stay."

use afa_tests::acceptance::backward_set;
use afa_tests::compare::steps::{Comparison, Standing};
use afa_tests::generate::closes::{
    lead_mask, nearly_covering, opened, turning, without_one, Entry, Wanted,
};
use afa_tests::image::Model;
use afa_tests::one_step::assert_one_step;
use afa_tests::random::Random;
use afa_tests::tables::{Blocker, Terms, EDITIONS, WAYS};

/// Numbers of blockers about those at which a close may go another way.
const HELD: [usize; 15] = [
    15, 16, 17, 31, 32, 33, 63, 64, 65, 1_023, 1_024, 1_025, 4_095, 4_096, 4_097,
];

/// One step of a level that is open with nothing pending: a close, whatever the terms. Answers what it
/// leaves.
fn close(
    comparison: &mut Comparison,
    random: &mut Random,
    model: &Model,
    before: &Standing,
    shown: &str,
) -> Standing {
    let terms = Terms::<&[u64]> {
        edition: random.pick(&EDITIONS),
        way: random.pick(&WAYS),
        ..Terms::plain(u64::MAX)
    };
    let closed = comparison.seen.closed;
    let mut after = before.clone();
    comparison.step(&model.image(), &mut after, terms, &shown);
    assert_eq!(comparison.seen.closed, closed + 1, "{shown}");
    assert_one_step(before, &after, terms.allowance);
    after
}

/// A close of what is wanted. Where each level has one that does not rise, but for one level, what becomes
/// of it is known. In large tables some rise, and some leave with them.
fn close_wanted(comparison: &mut Comparison, random: &mut Random, wanted: &Wanted) {
    let before = wanted.standing(random);
    let shown = format!("{wanted:?}");
    let has_level_0 = before.tables.levels[..wanted.held].contains(&0);
    let is_large = wanted.held >= 5_000;
    assert!(wanted.level_0 || !has_level_0, "{shown}");
    assert!(has_level_0 || !wanted.level_0 || !is_large, "{shown}");
    let seen = comparison.seen.clone();
    let after = close(comparison, random, &wanted.model(), &before, &shown);
    let levels = &after.tables.levels[..after.record.held as usize];
    match wanted.vacant {
        _ if wanted.held < wanted.top as usize => assert_eq!(after.record.answer, 0, "{shown}"),
        None => {
            assert_eq!(after.record.answer, 6, "{shown}");
            assert!((1..=wanted.top).all(|level| levels.contains(&level)));
        }
        Some(vacant) => {
            assert_eq!(after.record.answer, 0, "{shown}");
            assert!(levels.iter().all(|&level| level > vacant), "{shown}");
        }
    }
    if is_large {
        let now = &comparison.seen;
        assert!(now.rose > seen.rose, "{shown}");
        let left = [now.left_before, now.left_behind].iter().sum::<usize>();
        assert!(left > seen.left_before + seen.left_behind, "{shown}");
    }
}

/// A level from 1 to N: the first, the last or another.
fn any_level(random: &mut Random, top: u32) -> u32 {
    let another = random.within(1..=top as usize) as u32;
    random.pick(&[1, top, another])
}

/// So many blockers rose at least, and at so many rises some left from before and from behind; and of the
/// closes a fifth or more ended with a frame, and a fifth or more without.
fn assert_reached(comparison: &Comparison, rises: usize, with_leavers: usize) {
    let seen = &comparison.seen;
    let (closes, frames) = (seen.closed, comparison.times(0));
    println!("{closes} closes, {frames} with a frame: {seen}");
    assert_eq!(comparison.times(6) + frames, closes);
    assert!(frames >= closes / 5 && frames <= closes - closes / 5);
    assert!(seen.rose >= rises);
    assert!(seen.left_before >= with_leavers && seen.left_behind >= with_leavers);
}

#[test]
fn tables_of_many_sizes() {
    let mut random = Random::seeded(280);
    let mut comparison = Comparison::default();
    for held in HELD {
        for top in [1, 2, 7, 15, 16, 17, 33] {
            for (is_vacant, level_0) in [(false, false), (false, true), (true, false), (true, true)]
            {
                let fits = held >= top as usize;
                let wanted = Wanted {
                    states: random.pick(&[12, 33, 34, 35, 40, 63, 64]),
                    symbols: random.pick(&[1, 1, 2, 3, 64]),
                    held,
                    room: held + random.pick(&[0, 1, 16, 100]),
                    top,
                    vacant: (is_vacant && fits).then(|| any_level(&mut random, top)),
                    leads: random.pick(&[2, 5, 20]),
                    lowest: random.within(1..=top as usize) as u32,
                    level_0,
                };
                close_wanted(&mut comparison, &mut random, &wanted);
            }
        }
    }
    assert_reached(&comparison, 5_000, 500);
}

/// As many levels as a table of marks may have, and some more: each has a blocker, but for one or for most.
#[test]
fn many_levels() {
    let mut random = Random::seeded(281);
    let mut comparison = Comparison::default();
    for top in [4_095, 4_096, 4_097] {
        let exact = top as usize;
        for held in [64, 1_025, exact, exact + 1, 5_000] {
            for is_vacant in [false, true] {
                let fits = held >= exact;
                let wanted = Wanted {
                    states: 40,
                    symbols: random.within(1..=2),
                    held,
                    room: held + random.below(10),
                    top,
                    vacant: (is_vacant && fits).then(|| any_level(&mut random, top)),
                    leads: 12,
                    lowest: top - random.pick(&[5, 30]),
                    level_0: random.chance(40),
                };
                close_wanted(&mut comparison, &mut random, &wanted);
            }
        }
    }
    assert_reached(&comparison, 20_000, 50);
}

#[test]
fn large_tables() {
    let mut random = Random::seeded(282);
    let mut comparison = Comparison::default();
    // The reference asks one by one, so there are few leads where there are many blockers.
    for (held, tops, leads) in [(5_000, &[3, 16, 40][..], 25), (60_000, &[17], 6)] {
        for &top in tops {
            for vacant in [None, Some(1 + top / 2)] {
                for level_0 in [false, true] {
                    let wanted = Wanted {
                        states: random.pick(&[40, 64]),
                        symbols: random.within(1..=2),
                        held,
                        room: random.pick(&[held, 65_536]),
                        top,
                        vacant,
                        leads,
                        lowest: 1,
                        level_0,
                    };
                    close_wanted(&mut comparison, &mut random, &wanted);
                }
            }
        }
    }
    let every_level = Wanted {
        states: 40,
        symbols: 1,
        held: 60_000,
        room: 60_001,
        top: 4_097,
        vacant: None,
        leads: 10,
        lowest: 4_090,
        level_0: false,
    };
    close_wanted(&mut comparison, &mut random, &every_level);
    assert_reached(&comparison, 5_000, 100);
}

/// Known blockers at known places among so many others, of which each level from 1 to N has one that does
/// not rise, and all others are above N and lack a state of each set that is sought.
struct Among {
    model: Model,
    held: usize,
    top: u32,
}

impl Among {
    /// One symbol turns the states about, of which there are more than 32.
    fn new(random: &mut Random, held: usize, top: u32) -> Self {
        let states = random.pick(&[35, 40, 48, 63, 64]);
        let model = turning(states, 1);
        Among { model, held, top }
    }

    /// What a close leaves of the known blockers, each by its place in what is given: its level, or none if
    /// it has left.
    fn close(
        &self,
        comparison: &mut Comparison,
        random: &mut Random,
        sought: &[u64],
        known: &[(usize, Entry)],
    ) -> Vec<Option<u32>> {
        let states = self.model.states;
        let other = || nearly_covering(random, states, self.top, sought);
        let mut entries = Vec::new();
        entries.resize_with(self.held, other);
        let mut free: Vec<usize> = (0..self.held).collect();
        free.retain(|place| known.iter().all(|(at, _)| at != place));
        for level in 1..=self.top {
            let place = free.swap_remove(random.below(free.len()));
            entries[place] = (1 << (states - 2), level);
        }
        for &(place, entry) in known {
            entries[place] = entry;
        }
        let room = self.held + random.below(3);
        let before = opened(random, &entries, room, self.top);
        let shown = format!("{known:x?} among {}, N {}", self.held, self.top);
        let after = close(comparison, random, &self.model, &before, &shown);
        assert_eq!(after.record.answer, 6, "{shown}");
        let kept: Vec<Blocker> = after.tables.blockers(after.record.held);
        let level = |&(place, _): &(usize, Entry)| {
            let entered = before.tables.entered[place];
            let kept = kept.iter().find(|blocker| blocker.entered == entered);
            kept.map(|blocker| blocker.level)
        };
        known.iter().map(level).collect()
    }
}

/// Places of a table about those at which a search may go on otherwise.
fn places(random: &mut Random, held: usize) -> Vec<usize> {
    let any = random.below(held);
    let about = [
        15, 16, 17, 31, 32, 63, 64, 1_023, 1_024, 4_095, 4_096, 4_097,
    ];
    let edges = [0, 1, any, held - 2, held - 1];
    let mut places: Vec<usize> = edges.into_iter().chain(about).collect();
    places.retain(|&place| place < held);
    places.sort_unstable();
    places.dedup();
    places
}

/// A place that is not the other one.
fn elsewhere(random: &mut Random, held: usize, other: usize) -> usize {
    (other + random.within(1..=held - 1)) % held
}

/// A blocker's backward set is covered by one blocker alone, wherever that stands and however many are of
/// its level or more; and by none if that one lacks a state, in the low half or in the high one, or is a level
/// short.
#[test]
fn one_cover_anywhere() {
    const TOP: u32 = 3;
    let mut random = Random::seeded(283);
    let mut comparison = Comparison::default();
    let (mut rose, mut stayed, mut low_halves_agree) = (0, 0, 0);
    for held in [&HELD[..], &[5_000, 60_000]].concat() {
        for cover_place in places(&mut random, held) {
            let among = Among::new(&mut random, held, TOP);
            let lead_place = elsewhere(&mut random, held, cover_place);
            let lead = lead_mask(&mut random, among.model.states);
            let backward = backward_set(&among.model, 0, lead);
            let level = random.pick(&[2, 2, TOP]);
            let lacking = without_one(&mut random, backward);
            low_halves_agree += usize::from(lacking as u32 == backward as u32);
            let high = random.pick(&[level, TOP + 1, u32::MAX]);
            for (cover, expected) in [
                // The cover stands where it is, so that the other rises above it and no further.
                ((backward, level), level + 1),
                ((backward, TOP + 1), TOP + 1),
                ((backward, u32::MAX), TOP + 1),
                ((backward, level - 1), level),
                ((lacking, high), level),
            ] {
                let known = [(lead_place, (lead, level)), (cover_place, cover)];
                let levels = among.close(&mut comparison, &mut random, &[backward], &known);
                // The cover itself is covered by none.
                assert_eq!(levels, [Some(expected), Some(cover.1)], "{known:x?}");
                match expected > level {
                    true => rose += 1,
                    false => stayed += 1,
                }
            }
        }
    }
    println!(
        "{rose} rose, {stayed} stayed, {low_halves_agree} agreed with a cover in the low half: {}",
        comparison.seen
    );
    assert!(rose > 400 && stayed > 250 && low_halves_agree > 50);
}

/// What covers a backward set may have risen in the same close, one level before; wherever the two and what
/// covers the first of them stand.
#[test]
fn covers_that_rise_first() {
    let mut random = Random::seeded(284);
    let mut comparison = Comparison::default();
    for held in [&HELD[..], &[5_000]].concat() {
        for _ in 0..12 {
            let top = random.pick(&[2, 3, 17]);
            let held = held.max(top as usize + 3);
            let among = Among::new(&mut random, held, top);
            let lead = lead_mask(&mut random, among.model.states);
            let cover = backward_set(&among.model, 0, lead);
            let behind = backward_set(&among.model, 0, cover);
            let mut places: Vec<usize> = (0..held).collect();
            random.shuffle(&mut places);
            let level = random.within(2..=top as usize) as u32;
            for (behind_level, [lead_level, cover_level]) in [
                (u32::MAX, [top + 1, top + 1]),
                (level - 1, [level + 1, level]),
                (level - 2, [level, level - 1]),
            ] {
                // There is none of level 0 here.
                if behind_level == 0 {
                    continue;
                }
                let known = [
                    (places[0], (lead, level)),
                    (places[1], (cover, level - 1)),
                    (places[2], (behind, behind_level)),
                ];
                let sought = [cover, behind];
                let levels = among.close(&mut comparison, &mut random, &sought, &known);
                let expected = [lead_level, cover_level, behind_level].map(Some);
                assert_eq!(levels, expected, "{known:x?}");
            }
        }
    }
}

/// "Other subsets of it of level <= j+1 leave": before it or behind it, equal to it or smaller. Of equal
/// blockers of one level the first rises and the others leave.
#[test]
fn subsets_and_equal_masks() {
    const TOP: u32 = 5;
    let mut random = Random::seeded(285);
    let mut comparison = Comparison::default();
    for held in [&HELD[..], &[5_000]].concat() {
        for subset_place in places(&mut random, held) {
            let among = Among::new(&mut random, held, TOP);
            let lead = lead_mask(&mut random, among.model.states);
            let backward = backward_set(&among.model, 0, lead);
            let smaller = without_one(&mut random, lead);
            let sought = backward_set(&among.model, 0, smaller);
            let subset = random.pick(&[lead, smaller, 0]);
            let lead_place = elsewhere(&mut random, held, subset_place);
            let cover_place = loop {
                let place = random.below(held);
                if place != lead_place && place != subset_place {
                    break place;
                }
            };
            // At 2 the lead rises to 3, above its cover, and stays there. At 3 and above it is not covered.
            for (level, expected) in [
                (1, [Some(3), None]),
                (2, [Some(3), None]),
                (3, [Some(3), None]),
                (4, [Some(3), Some(4)]),
                (u32::MAX, [Some(3), Some(u32::MAX)]),
            ] {
                let known = [
                    (lead_place, (lead, 2)),
                    (subset_place, (subset, level)),
                    (cover_place, (backward, 2)),
                ];
                let levels = among.close(&mut comparison, &mut random, &[sought], &known);
                // Of two equal ones the first that is asked rises, and the other leaves.
                let is_asked_first = level == 1 || level == 2 && subset_place < lead_place;
                let expected = match subset {
                    _ if subset == lead && is_asked_first => [None, Some(3)],
                    // The empty set is covered by any.
                    0 if level == 4 => [Some(3), Some(TOP + 1)],
                    _ => expected,
                };
                assert_eq!(levels[..2], expected, "{known:x?}");
            }
        }
    }
    let seen = &comparison.seen;
    assert!(seen.left_before > 100 && seen.left_behind > 100, "{seen}");
}
