//! "The former run must equal begin, then steps": after every call the record and each place of the tables
//! are those of the machine, and at the end they are what the run in one call leaves. "Between calls of a
//! working run the rooms stand as 01's machine has them."

use afa_tests::compare::steps::{Comparison, Standing};
use afa_tests::compare::{run, steps};
use afa_tests::generate::runs::{affordable_steps, lent, run_model, Earlier};
use afa_tests::generate::two_states;
use afa_tests::image::{model_a, model_b, model_c, model_d, rings, Model};
use afa_tests::random::Random;
use afa_tests::record::Record;
use afa_tests::tables::{Answer, Lent, Tables, Terms, CHOICES, EDITIONS, WAYS};

/// Both ways to make a run, in the same tables and on the same terms.
#[derive(Default)]
struct Both {
    steps: steps::Comparison,
    run: run::Comparison,
}

impl Both {
    /// Begin, then steps until the run ends, and the run in one call. Answers the record.
    fn run(&mut self, model: &Model, lent: &Lent) -> Record {
        let image = model.image();
        let terms = lent.terms.lend();
        let Standing { record, tables } = self.steps.run(&image, &lent.before, terms, model);
        let (answer, after) = self.run.run(&image, lent, model);
        assert_eq!(record.five_numbers(), answer, "{model}");
        assert!(tables == after, "{model}");
        assert_eq!(record.pending, 0, "{model}");
        record
    }
}

/// A record, and what the first places of masks, levels, entered, cases and symbols hold. All else is 0.
type Known = (
    [u64; 8],
    &'static [u64],
    &'static [u32],
    &'static [u64],
    &'static [u64],
    &'static [u8],
);

const NOTHING: Known = ([6, 0, 0, 0, 0, 0, 0, 0], &[], &[], &[], &[], &[]);

/// What the begin and each step leave, in rooms of 3 places.
fn expect(model: &Model, terms: &Terms, known: &[Known]) {
    let mut comparison = Comparison::default();
    let image = model.image();
    let before = Tables::filled(&mut Random::seeded(120), 3, 3);
    let mut standing = comparison.begin(&image, &before, terms.lend(), model);
    for (number, &(numbers, masks, levels, entered, cases, symbols)) in known.iter().enumerate() {
        if number > 0 {
            let answer = comparison.step(&image, &mut standing, terms.lend(), model);
            assert_eq!(answer, numbers[0], "{model}, step {number}");
        }
        let mut expected = Tables::cleared(3, 3);
        expected.masks[..masks.len()].copy_from_slice(masks);
        expected.levels[..levels.len()].copy_from_slice(levels);
        expected.entered[..entered.len()].copy_from_slice(entered);
        expected.cases[..cases.len()].copy_from_slice(cases);
        expected.symbols[..symbols.len()].copy_from_slice(symbols);
        assert_eq!(standing.record.numbers(), numbers, "{model}, step {number}");
        assert_eq!(standing.tables, expected, "{model}, step {number}");
    }
}

/// Of A: open, block by F itself, and a close at which the blocker rises and level 1 is vacant.
#[test]
fn a_step_by_step() {
    for [edition, way] in CHOICES {
        let terms = Terms {
            edition,
            way,
            ..Terms::plain(3)
        };
        expect(
            &model_a(),
            &terms,
            &[
                NOTHING,
                ([6, 1, 1, 1, 0, 1, 0, 0], &[], &[], &[], &[4], &[]),
                ([6, 2, 1, 1, 1, 0, 1, 0], &[4], &[1], &[2], &[], &[]),
                ([0, 3, 1, 0, 1, 0, 1, 0], &[4], &[2], &[2], &[], &[]),
            ],
        );
    }
}

/// Of B: open, and an extend that finds the word.
#[test]
fn b_step_by_step() {
    for [edition, way] in CHOICES {
        let terms = Terms {
            edition,
            way,
            ..Terms::plain(2)
        };
        expect(
            &model_b(),
            &terms,
            &[
                NOTHING,
                ([6, 1, 1, 1, 0, 1, 0, 0], &[], &[], &[], &[2], &[]),
                ([1, 2, 1, 1, 0, 0, 0, 0], &[], &[], &[], &[], &[0]),
            ],
        );
    }
}

/// The six steps of C, as `docs/FORMAT.md` tells them: by way 0, with the hint 4, which is taken, and by
/// way 1, whose blocker is 4 too. The symbol that led to {1, 2} is 1.
#[test]
fn c_step_by_step() {
    for (hints, way, blocker, accepted) in [
        (&[][..], 0, &[2], 0),
        (&[6], 0, &[2], 0),
        (&[4], 0, &[4], 1),
        (&[], 1, &[4], 0),
        (&[2], 1, &[2], 1),
    ] {
        let terms = Terms {
            hints: hints.to_vec(),
            way,
            ..Terms::plain(6)
        };
        let a = accepted;
        expect(
            &model_c(),
            &terms,
            &[
                NOTHING,
                ([6, 1, 1, 1, 0, 1, 0, 0], &[], &[], &[], &[0], &[]),
                ([6, 2, 1, 1, 1, 0, 1, a], blocker, &[1], &[2], &[], &[]),
                ([6, 3, 1, 0, 1, 0, 1, a], blocker, &[1], &[2], &[], &[]),
                ([6, 4, 2, 1, 1, 1, 1, a], blocker, &[1], &[2], &[0], &[]),
                (
                    [6, 5, 2, 1, 1, 2, 1, a],
                    blocker,
                    &[1],
                    &[2],
                    &[0, 6],
                    &[0, 1],
                ),
                ([1, 6, 2, 1, 1, 0, 1, a], blocker, &[1], &[2], &[], &[0, 1]),
            ],
        );
    }
}

/// Stops of A and of C: with 2 and with 3 a case is pending until then, and with 4 none is. As a begin has no
/// allowance, a run with an allowance of 0 is a begin that answers 6, and a step that answers 2.
#[test]
fn stops_step_by_step() {
    let [a, c] = [model_a(), model_c()];
    expect(
        &a,
        &Terms::plain(0),
        &[NOTHING, ([2, 0, 0, 0, 0, 0, 0, 0], &[], &[], &[], &[], &[])],
    );
    expect(
        &a,
        &Terms::plain(1),
        &[
            NOTHING,
            ([6, 1, 1, 1, 0, 1, 0, 0], &[], &[], &[], &[4], &[]),
            ([2, 1, 1, 1, 0, 0, 0, 0], &[], &[], &[], &[], &[]),
        ],
    );
    expect(
        &c,
        &Terms::plain(5),
        &[
            NOTHING,
            ([6, 1, 1, 1, 0, 1, 0, 0], &[], &[], &[], &[0], &[]),
            ([6, 2, 1, 1, 1, 0, 1, 0], &[2], &[1], &[2], &[], &[]),
            ([6, 3, 1, 0, 1, 0, 1, 0], &[2], &[1], &[2], &[], &[]),
            ([6, 4, 2, 1, 1, 1, 1, 0], &[2], &[1], &[2], &[0], &[]),
            ([6, 5, 2, 1, 1, 2, 1, 0], &[2], &[1], &[2], &[0, 6], &[0, 1]),
            ([2, 5, 2, 1, 1, 0, 1, 0], &[2], &[1], &[2], &[], &[]),
        ],
    );
    let mut both = Both::default();
    for (model, rooms, numbers) in [
        (&a, (0, 4), [3, 1, 1, 1, 0, 0, 0, 0]),
        (&a, (4, 0), [4, 0, 0, 0, 0, 0, 0, 0]),
        (&c, (4, 1), [4, 3, 1, 0, 1, 0, 1, 0]),
    ] {
        let lent = Lent {
            before: Tables::filled(&mut Random::seeded(121), rooms.0, rooms.1),
            terms: Terms::plain(100),
        };
        assert_eq!(both.run(model, &lent).numbers(), numbers, "{model}");
    }
}

/// D's start is final: the begin answers 1 in edition 1 and 5 in edition 2, and there is no step to make.
#[test]
fn d_ends_with_its_begin() {
    for (edition, number) in [(1, 1), (2, 5)] {
        for way in WAYS {
            let terms = Terms {
                edition,
                way,
                ..Terms::plain(0)
            };
            let record = [number, 0, 0, 0, 0, 0, 0, 0];
            let known = (
                record, NOTHING.1, NOTHING.2, NOTHING.3, NOTHING.4, NOTHING.5,
            );
            expect(&model_d(), &terms, &[known, known, known]);
        }
    }
}

#[test]
fn coprime_rings() {
    let mut random = Random::seeded(122);
    let mut both = Both::default();
    for (sizes, way, numbers) in [
        (&[2, 3, 5][..], 0, [1, 219, 29, 61, 0]),
        (&[2, 3, 5], 1, [1, 168, 29, 34, 0]),
        (&[2, 3, 5, 7], 0, [1, 1901, 209, 490, 0]),
    ] {
        for edition in EDITIONS {
            let before = Tables::filled(&mut random, 512, 256);
            let terms = Terms {
                edition,
                way,
                ..Terms::plain(1 << 22)
            };
            let record = both.run(&rings(sizes), &Lent { before, terms });
            let shown = format!("rings {sizes:?}, edition {edition}, way {way}");
            assert_eq!(
                record.five_numbers(),
                Answer::of_numbers(numbers),
                "{shown}"
            );
            assert_eq!(record.open, 1, "{shown}");
        }
    }
}

/// Rooms and allowances that end runs anywhere, good and bad hints, both editions and both ways.
#[test]
fn random_models() {
    const MODELS: usize = 4_000;
    let mut random = Random::seeded(123);
    let mut both = Both::default();
    let mut models = 0;
    while models < MODELS {
        let model = run_model(&mut random);
        let affordable = affordable_steps(&model, 100_000).min(300);
        let earlier = Earlier::of_either_way(&mut random, &model.image(), affordable);
        if earlier.answer.steps < 4 && random.chance(80) {
            continue;
        }
        models += 1;
        for _ in 0..2 {
            let mut lent = lent(&mut random, &model, &earlier, affordable);
            lent.terms.allowance = lent.terms.allowance.min(2 * affordable);
            both.run(&model, &lent);
        }
    }
    let seen = both.steps.seen;
    println!("{MODELS} models by begin and steps: {seen}");
    seen.assert_each_number(100);
    assert!(seen.times(5) > 4 && seen.by_hint > 1_000);
    assert!(seen.left_before > 20 && seen.left_behind > 20 && seen.room_by_leaving > 20);
    assert!(seen.grown.iter().all(|&count| count > 4_000));
    // What is blocked last at a level is F.
    assert_eq!(seen.pending_again, 0);
}

/// Every model of two states and one symbol, with 2^2 places a room and 4^3 steps, and in rooms that are
/// too short.
#[test]
fn two_state_models() {
    let mut random = Random::seeded(124);
    for [edition, way] in CHOICES {
        let mut both = Both::default();
        for i in 0..4096 {
            let model = two_states(i);
            let terms = Terms {
                edition,
                way,
                ..Terms::plain(64)
            };
            let short = (random.below(3), random.below(3));
            for rooms in [(4, 4), short] {
                let before = Tables::filled(&mut random, rooms.0, rooms.1);
                let terms = terms.clone();
                both.run(&model, &Lent { before, terms });
            }
        }
        println!(
            "models of two states, edition {edition}, way {way}: {}",
            both.steps.seen
        );
    }
}

/// With as many places as there can be, in the first of which the run works.
#[test]
fn most_places() {
    let mut random = Random::seeded(125);
    let mut both = Both::default();
    for way in WAYS {
        let before = Tables::filled(&mut random, 65_536, 65_536);
        let hints: Vec<u64> = (0..65_536).map(|_| random.number()).collect();
        let terms = Terms {
            hints,
            way,
            ..Terms::plain(100)
        };
        let record = both.run(&model_c(), &Lent { before, terms });
        assert_eq!(record.numbers(), [1, 6, 2, 1, 1, 0, 1, 0]);
    }
}
