//! The ways to grow a blocker: state by state, and through a hitting set. Runs by either way agree on
//! their verdicts, and what the second grows is what its sentences say and passes the block test. Lines
//! that are known beforehand, by either way, are in `run_examples`; every other way is refused, in
//! `run_choices`.

use afa_tests::compare::run::Comparison;
use afa_tests::generate::aim;
use afa_tests::generate::runs::{affordable_steps, lent, run_model, Earlier};
use afa_tests::generate::ways::{counters, largest, one_in_all, primes, worst};
use afa_tests::hitting::Growth;
use afa_tests::image::{all_states, Model};
use afa_tests::machine::{observed_run, Event};
use afa_tests::random::Random;
use afa_tests::search::{assert_right, shortest_word};
use afa_tests::tables::{Answer, Lent, Tables, Terms, CHOICES, EDITIONS, WAYS};

const MODELS: usize = 4_000;

/// What was seen of growths.
#[derive(Debug, Default)]
struct Grown {
    /// By each way.
    growths: [usize; 2],
    /// By the second, those that gave X itself.
    case_alone: usize,
    most_forbidden: usize,
    most_picked: u32,
}

impl Grown {
    /// A run of the machine, in which each blocker that is grown passes, and by the second way is the one
    /// that its sentences give.
    fn observe(&mut self, model: &Model, lent: &Lent) {
        let mut tables = lent.before.clone();
        let terms = lent.terms.lend();
        observed_run(&model.image(), tables.lend(), terms, |event| {
            if let Event::Grown {
                pending: case,
                level,
                masks,
                levels,
                blocker,
            } = event
            {
                let growth = Growth {
                    model,
                    masks,
                    levels,
                    level,
                    case,
                };
                self.growth(&growth, blocker, terms.way);
            }
        });
    }

    fn growth(&mut self, growth: &Growth, blocker: u64, way: u64) {
        let shown = || {
            format!(
                "{}\nX {} at level {}, masks {:?}, levels {:?}, grown to {blocker} by way {way}",
                growth.model, growth.case, growth.level, growth.masks, growth.levels
            )
        };
        assert!(growth.passes(growth.case), "X itself: {}", shown());
        assert!(growth.passes(blocker), "{}", shown());
        self.growths[way as usize] += 1;
        if way == 1 {
            let (expected, forbidden) = growth.through_a_hitting_set();
            assert_eq!(blocker, expected, "{}", shown());
            self.case_alone += usize::from(blocker == growth.case);
            self.most_forbidden = self.most_forbidden.max(forbidden);
            let picked = growth.model.states as u32 - blocker.count_ones();
            self.most_picked = self.most_picked.max(picked);
        }
    }
}

/// Blockers as mask, level and the step at which each entered.
type Entries = &'static [(u64, u32, u64)];

/// n, I, F and the rows of each symbol.
type Given = (usize, u64, u64, &'static [&'static [(u8, u64)]]);

/// A misreading that gives other blockers, a model, and what it holds after so many steps by the second
/// way.
const TELLING: [(&str, Given, u64, Entries); 26] = [
    ("I is not forbidden", (1, 1, 0, &[&[]]), 2, &[(0, 1, 2)]),
    (
        "ties go to the highest number",
        (2, 3, 0, &[&[]]),
        2,
        &[(2, 1, 2)],
    ),
    (
        "X's states are not taken away",
        (2, 3, 1, &[&[]]),
        2,
        &[(1, 1, 2)],
    ),
    (
        "equal sets count as often as they stand",
        (3, 3, 0, &[&[(2, 4), (1, 4), (2, 6)]]),
        2,
        &[(1, 1, 2)],
    ),
    (
        "a set counts again if another stands between",
        (3, 6, 0, &[&[(1, 5), (1, 6), (1, 1)]]),
        2,
        &[(4, 1, 2)],
    ),
    (
        "sets that X's states make equal count as two",
        (4, 12, 1, &[&[(3, 8), (1, 6), (3, 9)]]),
        2,
        &[(3, 1, 2)],
    ),
    (
        "sets that were met count on",
        (3, 6, 0, &[&[(2, 5), (1, 1)]]),
        2,
        &[(4, 1, 2)],
    ),
    (
        "one pick is enough",
        (2, 2, 0, &[&[(1, 1)]]),
        2,
        &[(0, 1, 2)],
    ),
    (
        "a hitting set for each symbol",
        (2, 3, 0, &[&[(1, 2)], &[]]),
        2,
        &[(1, 1, 2)],
    ),
    (
        "the last symbol's rows are left out",
        (2, 3, 0, &[&[], &[(1, 2)]]),
        2,
        &[(1, 1, 2)],
    ),
    (
        "the sets of an earlier growth stay",
        (2, 3, 1, &[&[(1, 0)]]),
        6,
        &[(1, 1, 2), (2, 1, 6)],
    ),
    (
        "states that would still pass are put back",
        (2, 1, 0, &[&[(1, 2)]]),
        2,
        &[(0, 1, 2)],
    ),
    (
        "b is not X where the backward set lies in X",
        (2, 3, 0, &[&[(1, 2)]]),
        2,
        &[(1, 1, 2)],
    ),
    (
        "b is X throughout",
        (2, 1, 0, &[&[(1, 2), (1, 0)]]),
        2,
        &[(2, 1, 2)],
    ),
    (
        "b is the backward set",
        (3, 1, 0, &[&[(1, 0), (2, 4)]]),
        2,
        &[(6, 1, 2)],
    ),
    (
        "at level 0 all but the highest absent initial state",
        (3, 7, 4, &[&[(0, 0), (1, 2)]]),
        2,
        &[(5, 1, 2)],
    ),
    (
        "at level 0 all but the absent initial states",
        (3, 7, 0, &[&[(2, 6), (1, 0)]]),
        2,
        &[(6, 1, 2)],
    ),
    (
        "at level 0 all but the lowest initial state",
        (2, 3, 0, &[&[(0, 2), (0, 0)]]),
        2,
        &[(2, 1, 2)],
    ),
    (
        "at level 0 all but the lowest absent state",
        (3, 6, 0, &[&[(1, 0), (0, 4)]]),
        2,
        &[(5, 1, 2)],
    ),
    (
        "at level 0 all states",
        (2, 3, 0, &[&[(0, 0), (1, 2)]]),
        2,
        &[(1, 1, 2)],
    ),
    (
        "a blocker of any level covers",
        (3, 7, 1, &[&[(1, 4), (2, 1)]]),
        10,
        &[(3, 2, 5), (6, 2, 9), (5, 3, 10)],
    ),
    (
        "only a blocker of just the level below covers",
        (3, 7, 3, &[&[(0, 4), (2, 2)]]),
        11,
        &[(6, 1, 6), (3, 2, 7), (5, 2, 11)],
    ),
    (
        "the last covering blocker",
        (3, 5, 1, &[&[(2, 1)], &[(1, 1), (2, 2)]]),
        7,
        &[(3, 1, 2), (6, 1, 6), (1, 2, 7)],
    ),
    (
        "the covering blocker of the lowest level",
        (3, 3, 2, &[&[(2, 4), (0, 2)], &[(2, 2)]]),
        12,
        &[(6, 1, 2), (1, 3, 6), (5, 2, 11), (2, 3, 12)],
    ),
    (
        "the covering blocker of the most states",
        (3, 3, 1, &[&[(1, 0)], &[(2, 0), (1, 4)]]),
        7,
        &[(5, 1, 2), (6, 1, 6), (1, 2, 7)],
    ),
    (
        "the first blocker that covers X",
        (2, 3, 0, &[&[(0, 0), (0, 2)]]),
        7,
        &[(1, 1, 6), (2, 2, 7)],
    ),
];

/// The blockers after so many steps by the second way, all other places 0.
fn expect_blockers(model: &Model, steps: u64, entries: Entries, reason: &str) {
    let mut expected = Tables::cleared(8, 8);
    for (place, &(mask, level, entered)) in entries.iter().enumerate() {
        expected.masks[place] = mask;
        expected.levels[place] = level;
        expected.entered[place] = entered;
    }
    for edition in EDITIONS {
        let lent = Lent {
            before: Tables::filled(&mut Random::seeded(111), 8, 8),
            terms: Terms {
                edition,
                way: 1,
                ..Terms::plain(steps)
            },
        };
        let (answer, after) = Comparison::default().run(&model.image(), &lent, model);
        assert_eq!(
            (answer.number, answer.steps),
            (2, steps),
            "{reason}: {model}"
        );
        assert_eq!(after, expected, "{reason}: {model}");
    }
}

#[test]
fn lines_that_misreadings_change() {
    for (misreading, given, steps, entries) in TELLING {
        let (states, initial, final_set, rows) = given;
        let model = Model::new(states, initial, final_set, rows);
        expect_blockers(&model, steps, entries, misreading);
    }
}

/// A row beside which another of its state has a smaller case changes no backward set, and yet the
/// blocker: here it makes state 1 meet as many sets as state 2.
#[test]
fn idle_rows_are_forbidden_too() {
    let with = Model::new(3, 3, 0, &[&[(0, 4), (0, 6)]]);
    let without = Model::new(3, 3, 0, &[&[(0, 4)]]);
    expect_blockers(&with, 2, &[(1, 1, 2)], "with an idle row");
    expect_blockers(&without, 2, &[(2, 1, 2)], "without it");
}

/// 4,096 rows of 64 states, no two alike and none like I: as many sets as there can be, of which each
/// pick meets few. Then without the last row, and with I like the first.
#[test]
fn growth_at_worst() {
    let model = worst();
    let (mut shorter, mut like_a_row) = (model.clone(), model.clone());
    shorter.rows[0].pop();
    like_a_row.initial = model.rows[0][0].case;
    for (model, forbidden, frame) in [
        (model, 4_097, 1 << 52),
        (shorter, 4_096, 1 << 54),
        (like_a_row, 4_096, 1 << 53),
    ] {
        let lent = Lent {
            before: Tables::filled(&mut Random::seeded(112), 8, 8),
            terms: Terms {
                way: 1,
                ..Terms::plain(100)
            },
        };
        let (answer, after) = Comparison::default().run(&model.image(), &lent, &"at worst");
        assert_eq!(answer, Answer::of_numbers([0, 3, 1, 1, 0]));
        assert_eq!(after.masks[0], frame);
        assert_eq!((after.levels[0], after.entered[0]), (2, 2));
        let mut grown = Grown::default();
        grown.observe(&model, &lent);
        assert_eq!((grown.most_forbidden, grown.most_picked), (forbidden, 63));
    }
}

/// A state that is in 4,096 sets, or with I in 4,097, is picked first, and meets them all.
#[test]
fn one_state_meets_all() {
    let mut random = Random::seeded(118);
    let mut comparison = Comparison::default();
    for state in [0, 5, 62, 63] {
        let other = (state + 40) % 64;
        for (initial, picked) in [
            (1 << state, 1 << state),
            (1 << other, 1 << state | 1 << other),
        ] {
            for symbols in [1, 2, 64] {
                let mut model = one_in_all(state, symbols);
                model.initial = initial;
                let lent = Lent {
                    before: Tables::filled(&mut random, 8, 8),
                    terms: Terms {
                        way: 1,
                        ..Terms::plain(100)
                    },
                };
                let (answer, after) = comparison.run(&model.image(), &lent, &"one in all");
                assert_eq!(answer, Answer::of_numbers([0, 3, 1, 1, 0]), "state {state}");
                assert_eq!(after.masks[0], !picked, "state {state}");
            }
        }
    }
}

/// Each blocker that is grown passes, and by the second way it is the one that the sentences give. The
/// library leaves the same as the machine in which this is seen.
#[test]
fn growths_of_random_models() {
    let mut random = Random::seeded(113);
    let mut comparison = Comparison::default();
    let mut grown = Grown::default();
    let mut models = 0;
    while models < MODELS {
        let model = run_model(&mut random);
        let affordable = affordable_steps(&model, 20_000).min(120);
        let earlier = Earlier::of_either_way(&mut random, &model.image(), affordable);
        if earlier.blocks.len() < 2 {
            continue;
        }
        models += 1;
        let mut lent = lent(&mut random, &model, &earlier, affordable);
        lent.terms.allowance = lent.terms.allowance.min(affordable);
        comparison.run(&model.image(), &lent, &model);
        grown.observe(&model, &lent);
    }
    println!("{MODELS} models: {grown:?}: {}", comparison.seen);
    assert!(grown.growths.iter().all(|&count| count > 8_000));
    assert!(grown.case_alone > 1_000 && grown.most_picked > 40);
}

/// As many states and rows as there can be.
#[test]
fn growths_of_the_largest_models() {
    let mut random = Random::seeded(114);
    let mut comparison = Comparison::default();
    let mut grown = Grown::default();
    for moving in [1, 1, 2, 3, 8, 63] {
        let model = largest(&mut random, moving);
        assert_eq!((model.states, model.row_count()), (64, 4_096));
        let lent = Lent {
            before: Tables::filled(&mut random, 64, 64),
            terms: Terms {
                way: 1,
                ..Terms::plain(16)
            },
        };
        comparison.run(&model.image(), &lent, &model);
        grown.observe(&model, &lent);
    }
    println!("largest models: {grown:?}: {}", comparison.seen);
    assert!(grown.growths[1] > 30 && grown.most_forbidden > 3_500);
}

/// Runs by either way, lent other hints, rooms and allowances: of those in one edition, all that have a
/// verdict have the same, and words of one length.
/// From few rows to many, each case once or each twice, so that tables are nearly full, full and over.
#[test]
fn growths_by_number_of_rows() {
    let mut random = Random::seeded(119);
    let mut comparison = Comparison::default();
    let mut grown = Grown::default();
    for rows in [
        65, 128, 255, 256, 257, 510, 511, 512, 513, 514, 1_023, 1_024, 1_025, 2_048, 4_095,
    ] {
        for times in [1, 2] {
            let mut model = largest(&mut random, 1);
            let others = (rows - model.rows[0].len()) / times;
            model.rows[1].truncate(others);
            model.rows[1] = model.rows[1].repeat(times);
            assert!(model.row_count() == rows || times == 2);
            let lent = Lent {
                before: Tables::filled(&mut random, 64, 64),
                terms: Terms {
                    way: 1,
                    ..Terms::plain(12)
                },
            };
            comparison.run(&model.image(), &lent, &model);
            grown.observe(&model, &lent);
        }
    }
    println!("by number of rows: {grown:?}: {}", comparison.seen);
    assert!(grown.growths[1] > 60 && grown.most_forbidden > 3_500);
}

#[test]
fn runs_by_both_ways_agree() {
    let mut random = Random::seeded(115);
    let mut comparison = Comparison::default();
    let (mut agreed, mut differing) = ([0_usize; 6], 0);
    for number in 0..MODELS {
        let mut model = run_model(&mut random);
        if number % 20 == 0 {
            aim(&mut random, &mut model, &[]);
        }
        let affordable = affordable_steps(&model, 50_000);
        let edition = random.pick(&EDITIONS);
        let [state_by_state, by_hitting_sets] = WAYS.map(|way| {
            let terms = Terms {
                way,
                ..Terms::plain(affordable)
            };
            let earlier = Earlier::new(&model.image(), terms);
            [0; 2].map(|_| {
                let mut lent = lent(&mut random, &model, &earlier, affordable);
                (lent.terms.edition, lent.terms.way) = (edition, way);
                lent.terms.allowance = lent.terms.allowance.min(4 * affordable);
                comparison.run(&model.image(), &lent, &model).0
            })
        });
        for one in &state_by_state {
            for other in &by_hitting_sets {
                if let (Some(verdict), Some(other_verdict)) = (one.verdict(), other.verdict()) {
                    assert_eq!(verdict, other_verdict, "{model}");
                    agreed[verdict.0 as usize] += 1;
                    differing += usize::from(one != other);
                }
            }
        }
    }
    println!(
        "{MODELS} models by both ways: {agreed:?} pairs of runs with a verdict, by number, {differing} \
         of them with other steps or blockers: {}",
        comparison.seen
    );
    assert!(agreed[0] > 1_000 && agreed[1] > 1_000 && agreed[5] > 50 && differing > 300);
}

/// The same verdict by both ways, which is the one that a search gives, and a word of this length if any.
fn expect_verdict(comparison: &mut Comparison, model: &Model, length: Option<usize>) {
    assert_eq!(shortest_word(model), length, "{model}");
    for [edition, way] in CHOICES {
        let lent = Lent {
            before: Tables::filled(&mut Random::seeded(119), 1_024, 1_024),
            terms: Terms {
                edition,
                way,
                ..Terms::plain(1 << 22)
            },
        };
        let (answer, after) = comparison.run(&model.image(), &lent, model);
        assert_right(model, edition, &answer, &after);
    }
}

/// The models of the benchmark whose verdicts are known, in small.
#[test]
fn branches_and_counters() {
    let mut comparison = Comparison::default();
    for taken in [&[2, 3][..], &[3, 5], &[2, 3, 5]] {
        for branch in 0..taken.len() {
            expect_verdict(&mut comparison, &primes(taken, Some(branch)), None);
        }
        let length = taken.iter().product();
        expect_verdict(&mut comparison, &primes(taken, None), Some(length));
    }
    for sizes in [&[2; 5][..], &[3; 3], &[5, 2], &[2, 3, 4]] {
        let length = sizes.iter().product::<usize>() - 1;
        expect_verdict(&mut comparison, &counters(sizes, false), Some(length));
        expect_verdict(&mut comparison, &counters(sizes, true), None);
    }
    println!("branches and counters: {}", comparison.seen);
}

/// The blocks of a run by the second way without hints: the step of each, and X.
fn blocks(model: &Model, affordable: u64) -> Vec<(u64, u64)> {
    let mut tables = Tables::cleared(256, 256);
    let terms = Terms {
        way: 1,
        ..Terms::plain(affordable)
    };
    let (mut steps, mut blocks) = (0, Vec::new());
    observed_run(&model.image(), tables.lend(), terms, |event| match event {
        Event::Rose { .. } | Event::Grown { .. } => {}
        Event::Blocked { pending, .. } => {
            steps += 1;
            blocks.push((steps, pending));
        }
        _ => steps += 1,
    });
    blocks
}

/// "Hints go first in both." By the second way too a hint that passes is taken, here X itself, and one
/// that does not is not, and the growth follows as without. The second is for the second block,
/// whatever became of the first.
#[test]
fn hints_go_first() {
    let mut random = Random::seeded(116);
    let mut comparison = Comparison::default();
    let (mut models, mut unlike, mut seconds) = (0, 0, 0);
    while models < MODELS / 4 {
        let model = run_model(&mut random);
        let affordable = affordable_steps(&model, 20_000);
        let blocks = blocks(&model, affordable);
        let Some(&(step, case)) = blocks.first() else {
            continue;
        };
        models += 1;
        let before = Tables::filled(&mut random, 256, 256);
        let mut run = |hints: &[u64], allowance| {
            let terms = Terms {
                hints: hints.to_vec(),
                way: 1,
                ..Terms::plain(allowance)
            };
            let before = before.clone();
            comparison.run(&model.image(), &Lent { before, terms }, &model)
        };
        let refused = all_states(model.states);
        let plain = run(&[], affordable);
        assert_eq!(run(&[refused; 300], affordable), plain, "{model}");
        let (answer, grown) = run(&[refused, case], step);
        assert_eq!((answer.blockers, answer.hints_accepted), (1, 0), "{model}");
        let (answer, after) = run(&[case, refused], step);
        assert_eq!((answer.blockers, answer.hints_accepted), (1, 1), "{model}");
        assert_eq!(after.masks[0], case, "{model}");
        unlike += usize::from(grown.masks[0] != case);
        if let Some(&(step, case)) = blocks.get(1) {
            let (answer, after) = run(&[refused, case], step);
            let last = after.blockers(answer.blockers).pop().unwrap();
            assert_eq!((answer.hints_accepted, last.mask), (1, case), "{model}");
            seconds += 1;
        }
    }
    println!(
        "{models} models with hints that pass and that do not, {unlike} with another blocker by \
         growth, {seconds} with a second block"
    );
    assert!(unlike > 500 && seconds > 300);
}
