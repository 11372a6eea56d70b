//! Blocks and extends on tables that no run has made, small to large, and on models of few rows to most: "on
//! others a step still does the machine's step for the places in use as they stand; the rest stay."

use afa_tests::acceptance::backward_set;
use afa_tests::compare::steps::{Comparison, Standing};
use afa_tests::generate::blocks::{covers, lowest_pending, one_more, Aim, Wanted};
use afa_tests::generate::closes::{opened, Entry};
use afa_tests::image::{all_states, Model, Row};
use afa_tests::one_step::assert_one_step;
use afa_tests::random::Random;
use afa_tests::tables::{Terms, EDITIONS, WAYS};

/// Steps of standings, and what was seen of them.
struct Steps {
    random: Random,
    comparison: Comparison,
    /// By each way, blockers that have more states than X and lack some beside those of I: at level 1, and
    /// above.
    grown_in_part: [[usize; 2]; 2],
    /// Those that are X itself.
    not_grown: [usize; 2],
    /// How many blockers cover one backward set of an X that is blocked.
    most_covers: usize,
}

impl Steps {
    fn seeded(seed: u64) -> Self {
        Steps {
            random: Random::seeded(seed),
            comparison: Comparison::default(),
            grown_in_part: [[0; 2]; 2],
            not_grown: [0; 2],
            most_covers: 0,
        }
    }

    /// One step by the way, with a hint for the next block or without. Answers what it leaves.
    fn step(
        &mut self,
        model: &Model,
        before: &Standing,
        way: u64,
        hint: Option<u64>,
        shown: &str,
    ) -> Standing {
        let blocks = before.record.blocks as usize;
        let mut hints = Vec::new();
        if let Some(hint) = hint {
            hints.resize(blocks, !hint);
            hints.push(hint);
        }
        let terms = Terms {
            hints: &hints[..],
            edition: self.random.pick(&EDITIONS),
            way,
            ..Terms::plain(u64::MAX)
        };
        let mut after = before.clone();
        self.comparison
            .step(&model.image(), &mut after, terms, &shown);
        assert_one_step(before, &after, terms.allowance);
        after
    }

    /// The steps of a standing like this, of which X is blocked.
    fn blocks(&mut self, wanted: &Wanted) {
        let model = wanted.model(&mut self.random);
        let before = wanted.standing(&mut self.random, &model, Aim::Block);
        self.steps(&model, &before, &format!("{wanted:?}"));
    }

    /// A step by each way without hints, and by one with hints: X itself, what was grown, and each with one
    /// state more. Answers what the first leaves.
    fn steps(&mut self, model: &Model, before: &Standing, shown: &str) -> Standing {
        let (case, _) = lowest_pending(before);
        let [by_states, _] = WAYS.map(|way| {
            let after = self.step(model, before, way, None, shown);
            self.observe_growth(model, before, &after, way);
            after
        });
        if by_states.record.blocks > before.record.blocks {
            let grown = by_states.tables.masks[by_states.record.held as usize - 1];
            let more = one_more(&mut self.random, model.states, grown);
            let little_more = case | one_more(&mut self.random, model.states, case);
            let hint = self.random.pick(&[case, grown, grown | more, little_more]);
            let way = self.random.pick(&WAYS);
            self.step(model, before, way, Some(hint), shown);
        }
        by_states
    }

    fn observe_growth(&mut self, model: &Model, before: &Standing, after: &Standing, way: u64) {
        if after.record.blocks == before.record.blocks {
            return;
        }
        let (case, below) = lowest_pending(before);
        let blocker = after.tables.masks[after.record.held as usize - 1];
        let lacking = all_states(model.states) & !blocker & !model.initial;
        let (way, level) = (way as usize, below.min(1) as usize);
        self.not_grown[way] += usize::from(blocker == case);
        self.grown_in_part[way][level] += usize::from(blocker != case && lacking != 0);
        if below > 0 {
            let symbols = 0..model.symbols() as u8;
            let backward = symbols.map(|symbol| backward_set(model, symbol, case));
            let counts = backward.map(|set| covers(before, set, below));
            self.most_covers = counts.fold(self.most_covers, usize::max);
        }
    }

    fn print(&self, what: &str) {
        println!(
            "{what}: {:?} grown in part, {:?} not at all, at most {} covers: {}",
            self.grown_in_part, self.not_grown, self.most_covers, self.comparison.seen
        );
    }
}

/// Numbers of rows about those at which a growth may go another way.
const ROWS: [usize; 7] = [127, 128, 129, 511, 512, 513, 4_096];

/// With few symbols or as many as there can be, and with few blockers or some hundreds.
#[test]
fn rows_from_few_to_most() {
    let mut steps = Steps::seeded(290);
    for rows in [&[1][..], &ROWS].concat() {
        for symbols in [1, 2, 3, 8, 63, 64] {
            for below in [0, 0, 0, 1, 1, 2, 2, 3, 7, 7] {
                let random = &mut steps.random;
                let held = random.pick(&[0, 1, 15, 16, 17, 31, 32, 33, 63, 64, 65, 300]);
                let wanted = Wanted {
                    states: random.pick(&[13, 33, 40, 63, 64]),
                    symbols,
                    rows,
                    held,
                    room: held + random.pick(&[0, 1, 20]),
                    below,
                    lacking: random.pick(&[2, 6, 20]),
                };
                steps.blocks(&wanted);
            }
        }
    }
    steps.print("rows from few to most");
    let seen = &steps.comparison.seen;
    assert!(seen.blocked > 1_000 && seen.by_hint > 200 && seen.left > 500);
    assert!(steps.comparison.times(3) > 20 && seen.room_by_leaving > 100);
    let grown = steps.grown_in_part.as_flattened();
    assert!(grown.iter().all(|&count| count > 50));
    assert!(steps.not_grown.iter().all(|&count| count > 10));
}

/// Many blockers, of which most cover what a growth comes to, or few.
#[test]
fn large_tables() {
    let mut steps = Steps::seeded(291);
    for (held, lackings) in [
        (5_000, &[2, 4, 6, 8, 12, 20, 24, 40][..]),
        (60_000, &[3, 8, 24]),
    ] {
        for (rows, symbols) in [
            (100, 1),
            (129, 3),
            (400, 2),
            (600, 8),
            (2_000, 20),
            (4_096, 2),
            (4_096, 64),
        ] {
            for &lacking in lackings {
                let random = &mut steps.random;
                let wanted = Wanted {
                    states: random.pick(&[40, 64]),
                    symbols,
                    rows,
                    held,
                    room: random.pick(&[held, held + 1, 65_536]),
                    below: random.pick(&[0, 1, 1, 2, 15]),
                    lacking,
                };
                steps.blocks(&wanted);
            }
        }
    }
    steps.print("large tables");
    let seen = &steps.comparison.seen;
    assert!(seen.blocked > 200 && seen.by_hint > 30 && seen.left > 100);
    let [by_states, by_sets] = steps.grown_in_part;
    assert!(by_states.iter().chain(&by_sets).all(|&count| count > 4));
    assert!(by_states[1] > 30 && steps.most_covers > 20_000);
}

/// The states that are to fire in a telling growth, and a cover of state 1 and of what they bring in.
const FIRE: [usize; 3] = [4, 9, 17];
const COVER: u64 = 1 << 1 | 1 << 24 | 1 << 29 | 1 << 37;

/// So many blockers cover the one state of X's backward set by each symbol, and only one of them what it
/// grows to: wherever that one stands, however many are before it, the growth goes on by it and no further.
#[test]
fn one_of_many_covers() {
    let mut steps = Steps::seeded(292);
    for (cover_count, symbols) in [
        (1, 1),
        (2, 64),
        (3, 64),
        (4, 64),
        (5, 64),
        (127, 2),
        (128, 2),
        (129, 2),
        (85, 3),
        (86, 3),
        (255, 1),
        (256, 1),
        (257, 1),
        (258, 1),
        (1_000, 1),
        (1_000, 5),
        (5_000, 1),
    ] {
        for place in [0, cover_count / 2, cover_count - 1] {
            for telling in [0, symbols - 1] {
                let model = telling_model([symbols, telling, 200]);
                let before = covered(&mut steps.random, cover_count, place);
                let shown = format!("{place} of {cover_count} covers, {}", model.sizes());
                steps.telling_growth(&model, &before, &shown);
            }
        }
    }
    steps.print("one of many covers");
    assert!(steps.comparison.seen.by_hint > 10 && steps.most_covers == 5_000);
}

/// The row that refuses the last state stands behind all others.
#[test]
fn every_row_counts() {
    let mut steps = Steps::seeded(295);
    for rows in ROWS {
        for symbols in [1, 2, 64] {
            for cover_count in [1, 40, 300] {
                let model = telling_model([symbols, symbols - 1, rows]);
                let place = steps.random.below(cover_count);
                let before = covered(&mut steps.random, cover_count, place);
                let shown = format!("{cover_count} covers, {}", model.sizes());
                steps.telling_growth(&model, &before, &shown);
            }
        }
    }
    steps.print("every row counts");
}

/// Only one blocker covers X's backward set, wherever it stands among others; or none does, and X is extended.
#[test]
fn one_cover_anywhere() {
    let mut steps = Steps::seeded(296);
    let model = telling_model([2, 1, 200]);
    for held in [1, 17, 33, 65, 1_025, 4_097, 5_000, 60_000] {
        for place in [
            0,
            15,
            16,
            31,
            32,
            63,
            64,
            1_023,
            1_024,
            4_095,
            4_096,
            held - 1,
        ] {
            if place >= held {
                continue;
            }
            let mut entries = Vec::new();
            entries.resize_with(held, || not_covering(&mut steps.random));
            entries[place] = (COVER, 3);
            let before = pending(&mut steps.random, &entries);
            steps.telling_growth(&model, &before, &format!("{place} of {held}"));
            entries[place] = steps.random.pick(&[(COVER, 2), (COVER & !2, 3)]);
            let before = pending(&mut steps.random, &entries);
            let after = steps.steps(&model, &before, &format!("not at {place} of {held}"));
            assert_eq!(after.record.pending, 2);
        }
    }
    steps.print("one cover anywhere");
    assert!(steps.most_covers == 1 && steps.comparison.seen.extended > 50);
}

impl Steps {
    /// What X is grown to by way 0 is known: all states but I and those of 2 to 19 that do not fire.
    fn telling_growth(&mut self, model: &Model, before: &Standing, shown: &str) {
        let after = self.steps(model, before, shown);
        let refused = (2..20).filter(|state| !FIRE.contains(state));
        let grown = refused.fold(u64::MAX >> 1, |grown, state| grown & !(1 << state));
        let last = after.record.held as usize - 1;
        assert_eq!(after.tables.masks[last], grown, "{shown}");
    }
}

/// By each symbol state 1 is in the backward set of X, which is {0}. By the telling one, each of the states 2
/// to 19 brings in the state 20 above it, which is tried after it: its last rows do. I is {63}, and in the
/// case of all other rows.
fn telling_model([symbols, telling, row_count]: [usize; 3]) -> Model {
    let mut model = Model::plain(64, symbols, 0);
    model.initial = 1 << 63;
    for rows in &mut model.rows {
        rows.push(Row { state: 1, case: 1 });
    }
    let bring_in = (2..20).map(|state| Row {
        state: state as u8 + 20,
        case: 1 << state,
    });
    let idle = (symbols + bring_in.len()..row_count).map(|number| Row {
        state: (number % 64) as u8,
        case: 1 << 63 | number as u64,
    });
    model.rows[telling].extend(idle.chain(bring_in));
    assert_eq!(model.row_count(), row_count);
    model
}

/// So many covers of state 1, of which the one at the place among them covers also what those that fire bring
/// in. Others stand between them.
fn covered(random: &mut Random, count: usize, place: usize) -> Standing {
    let mut entries = Vec::new();
    for number in 0..count {
        // States that no row brings in.
        let more = random.number() & 0x1fff << 45;
        let mask = if number == place { COVER } else { 2 | more };
        entries.push((mask, random.pick(&[3, 4, u32::MAX])));
        if random.chance(30) {
            entries.push(not_covering(random));
        }
    }
    let before = pending(random, &entries);
    assert_eq!(covers(&before, 1 << 1, 3), count);
    before
}

/// For want of state 1 or of level.
fn not_covering(random: &mut Random) -> Entry {
    let short = random.pick(&[0, 1, 2]);
    let enough = random.pick(&[3, 4, u32::MAX]);
    random.pick(&[(!2, enough), (COVER & !2, enough), (u64::MAX, short)])
}

/// X is pending, alone, at level 4.
fn pending(random: &mut Random, entries: &[Entry]) -> Standing {
    let mut standing = opened(random, entries, entries.len() + 1, 4);
    standing.record.pending = 1;
    standing.record.blocks = random.below(5) as u64;
    standing.tables.cases[0] = 1;
    standing
}

/// "Has no bit at n or above", "does not contain I": where X itself fails at one of these, nothing passes, so
/// that by way 0 the blocker is X, and by way 1 what was not picked, which are n states at most.
#[test]
fn cases_that_do_not_pass() {
    let mut steps = Steps::seeded(293);
    for (rows, symbols, held) in [
        (60, 1, 10),
        (128, 2, 33),
        (513, 3, 1_025),
        (4_096, 64, 5_000),
    ] {
        for states in [13, 33, 40, 63] {
            for below in [0, 1, 6] {
                let random = &mut steps.random;
                let wanted = Wanted {
                    states,
                    symbols,
                    rows,
                    held,
                    room: held + 1,
                    below,
                    lacking: 3,
                };
                let model = wanted.model(random);
                let mut before = wanted.standing(random, &model, Aim::Block);
                let pending = before.record.pending as usize;
                let stray = 1 << random.within(states..=63);
                let beside = random.pick(&[stray, stray, model.initial]);
                before.tables.cases[pending - 1] |= beside;
                let (case, _) = lowest_pending(&before);
                for way in WAYS {
                    let hint = random_hint(&mut steps.random, case);
                    let after = steps.step(&model, &before, way, hint, &format!("{wanted:?}"));
                    steps.observe_growth(&model, &before, &after, way);
                    if after.record.blocks > before.record.blocks {
                        let blocker = after.tables.masks[after.record.held as usize - 1];
                        match way {
                            0 => assert_eq!(blocker, case),
                            _ => assert_eq!(blocker & !all_states(states), 0),
                        }
                        assert_eq!(after.record.accepted, before.record.accepted);
                    }
                }
            }
        }
    }
    steps.print("cases that do not pass");
    assert!(steps.not_grown[0] > 30 && steps.comparison.seen.grown[1] > 30);
}

fn random_hint(random: &mut Random, case: u64) -> Option<u64> {
    let more = case | random.number();
    random.pick(&[None, Some(case), Some(more)])
}

/// The backward sets of all symbols but one are settled, which no run meets so, and that one is taken: it
/// becomes pending, or contains I.
#[test]
fn extends() {
    let mut steps = Steps::seeded(294);
    let mut late = 0;
    for (rows, symbols) in [(60, 1), (128, 3), (513, 8), (4_096, 2), (4_096, 64)] {
        for held in [0, 16, 64, 1_025, 4_097, 5_000, 60_000] {
            for below in [0, 1, 1, 2, 9] {
                let random = &mut steps.random;
                let wanted = Wanted {
                    states: random.pick(&[40, 64]),
                    symbols,
                    rows,
                    held,
                    room: held + random.below(2),
                    below,
                    // Few states are left in each, so that few cover.
                    lacking: 250,
                };
                let mut model = wanted.model(random);
                let before = wanted.standing(random, &model, Aim::Extend);
                let (case, _) = lowest_pending(&before);
                if random.chance(30) {
                    let symbol = random.below(symbols) as u8;
                    model.initial = backward_set(&model, symbol, case);
                }
                let after = steps.steps(&model, &before, &format!("{wanted:?}"));
                if after.record.pending > before.record.pending {
                    let symbol = after.tables.symbols[before.record.pending as usize];
                    late += usize::from(symbol > 0);
                }
            }
        }
    }
    steps.print("extends");
    let seen = &steps.comparison.seen;
    println!("{late} by another symbol than the first");
    assert!(seen.extended > 100 && steps.comparison.times(1) > 20 && late > 20);
}
