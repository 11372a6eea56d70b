//! Records that no begin and no step has made: "on others a step still does the machine's step for the
//! places in use as they stand; the rest stay."

use afa_tests::compare::steps::{Comparison, Standing};
use afa_tests::generate::records::{invented, made_up, terms_for, ODD_OPEN};
use afa_tests::generate::runs::{affordable_steps, run_model, run_model_of};
use afa_tests::image::{model_c, model_d, Model};
use afa_tests::one_step::assert_one_step;
use afa_tests::random::Random;
use afa_tests::record::Record;
use afa_tests::tables::{Tables, Terms, EDITIONS, WAYS};

/// Records and tables of every kind, and up to 50 steps of each, on terms that change. What a step leaves is
/// never broken.
#[test]
fn random_records() {
    const RECORDS: usize = 80_000;
    let mut random = Random::seeded(140);
    let mut comparison = Comparison::default();
    let (mut ended, mut last_steps) = (0, 0);
    for number in 0..RECORDS {
        let model = if number % 20 == 0 {
            run_model(&mut random)
        } else {
            let (states, symbols) = (random.within(1..=7), random.within(1..=3));
            run_model_of(&mut random, states, symbols)
        };
        let image = model.image();
        let mut standing = invented(&mut random, &model);
        for _ in 0..affordable_steps(&model, 100_000).min(50) {
            let terms = terms_for(&mut random, &model, &standing);
            let before = standing.clone();
            let answer = comparison.step(&image, &mut standing, terms.lend(), &model);
            assert_eq!(answer, standing.record.answer, "{model}");
            assert!(
                answer <= 6,
                "{model}\n{}\nto {}",
                before.record,
                standing.record
            );
            assert_one_step(&before, &standing, terms.allowance);
            last_steps += usize::from(standing.record.steps == u64::MAX);
            if answer != 6 {
                ended += 1;
                let ended = standing.clone();
                comparison.step(&image, &mut standing, terms.lend(), &model);
                assert!(standing == ended, "{model}");
                break;
            }
        }
    }
    let seen = &comparison.seen;
    println!(
        "{RECORDS} invented records, {ended} ended, {last_steps} steps were the last that can be \
         counted, {} blocks left F pending: {seen}",
        seen.pending_again
    );
    seen.assert_each_number(3_000);
    assert!(comparison.times(33) == 0 && last_steps > 1_000);
    assert!(seen.pending_again > 1_000 && seen.by_hint > 2_000 && seen.room_by_leaving > 2_000);
    assert!(seen.rose > 20_000 && seen.left_before > 2_000 && seen.left_behind > 2_000);
    assert!(seen.grown.iter().all(|&count| count > 10_000));
}

/// The same with some hundreds of blockers, of which some are of level 0 or none is.
#[test]
fn random_records_of_many_blockers() {
    const RECORDS: usize = 2_000;
    let mut random = Random::seeded(141);
    let mut comparison = Comparison::default();
    let mut ended = 0;
    for number in 0..RECORDS {
        let (states, symbols) = (random.within(6..=40), random.within(1..=3));
        let model = run_model_of(&mut random, states, symbols);
        let image = model.image();
        let (blocker_room, word_room) = (random.within(17..=700), random.within(1..=40));
        let mut standing = made_up(&mut random, &model, blocker_room, word_room);
        if number % 2 == 0 {
            let levels = standing.tables.levels.iter_mut();
            levels.for_each(|level| *level = (*level).max(1));
        }
        for _ in 0..20 {
            let terms = terms_for(&mut random, &model, &standing);
            let before = standing.clone();
            let answer = comparison.step(&image, &mut standing, terms.lend(), &model);
            assert_one_step(&before, &standing, terms.allowance);
            if answer != 6 {
                ended += 1;
                break;
            }
        }
    }
    let seen = &comparison.seen;
    println!("{RECORDS} invented records of many blockers, {ended} ended: {seen}");
    assert!(seen.closed > 1_000 && seen.extended > 500 && seen.blocked > 2_000);
    assert!(seen.by_hint > 100 && seen.room_by_leaving > 100 && comparison.times(0) > 500);
    assert!(seen.rose > 100_000 && seen.left_before > 10_000 && seen.left_behind > 10_000);
}

/// Places in use, and what stands in the others: `STALE` in each.
struct Given {
    record: [u64; 8],
    blockers: &'static [(u64, u32, u64)],
    pending: &'static [(u64, u8)],
}

const STALE: u8 = 0xee;

/// In rooms of 4 places.
fn standing(given: &Given) -> Standing {
    let mut tables = Tables {
        masks: vec![STALE.into(); 4],
        levels: vec![STALE.into(); 4],
        entered: vec![STALE.into(); 4],
        cases: vec![STALE.into(); 4],
        symbols: vec![STALE; 4],
    };
    for (place, &(mask, level, entered)) in given.blockers.iter().enumerate() {
        tables.masks[place] = mask;
        tables.levels[place] = level;
        tables.entered[place] = entered;
    }
    for (place, &(case, symbol)) in given.pending.iter().enumerate() {
        tables.cases[place] = case;
        tables.symbols[place] = symbol;
    }
    let record = Record::of_numbers(given.record);
    Standing { record, tables }
}

/// One step from what is given to what is expected, each place said. Of both, places that are not in use
/// have to be said where they are not stale.
fn expect(model: &Model, way: u64, hints: &[u64], before: Given, after: Given) {
    let terms = Terms {
        hints,
        way,
        ..Terms::plain(u64::MAX)
    };
    let mut stepped = standing(&before);
    Comparison::default().step(&model.image(), &mut stepped, terms, model);
    assert_eq!(stepped, standing(&after), "{model}, way {way}");
}

/// "After an open, or a block that leaves nothing pending, the first not blocked at N becomes pending (no
/// step)." C's F is empty, so that any blocker of level N covers it, and nothing is pending.
#[test]
fn nothing_pending_after_a_block() {
    for way in WAYS {
        expect(
            &model_c(),
            way,
            &[2],
            Given {
                record: [6, 7, 1, 1, 0, 1, 0, 0],
                blockers: &[],
                pending: &[(2, 9)],
            },
            Given {
                record: [6, 8, 1, 1, 1, 0, 1, 1],
                blockers: &[(2, 1, 8)],
                pending: &[(0, 0)],
            },
        );
    }
}

/// F is {1} and no blocker has it: the block of another case leaves F pending at N, with 0 for its symbol.
#[test]
fn f_is_pending_again() {
    let model = Model::new(3, 1, 2, &[&[(0, 3)]]);
    for (open, read) in [(0, 0), (1, 1), (2, 1), (u64::MAX, 1)] {
        for way in WAYS {
            // The case {2} at level 2 of 2; the blocker is the hint, {2} alone.
            expect(
                &model,
                way,
                &[0, 0, 4],
                Given {
                    record: [6, 5, 2, open, 0, 1, 2, 0],
                    blockers: &[],
                    pending: &[(4, 7)],
                },
                Given {
                    record: [6, 6, 2, read, 1, 1, 3, 1],
                    blockers: &[(4, 2, 6)],
                    pending: &[(2, 0)],
                },
            );
            // The same where F is blocked at N by another blocker, or only at a lower level.
            expect(
                &model,
                way,
                &[0, 0, 4],
                Given {
                    record: [6, 5, 2, open, 1, 1, 2, 0],
                    blockers: &[(2, u32::MAX, 9)],
                    pending: &[(4, 7)],
                },
                Given {
                    record: [6, 6, 2, read, 2, 0, 3, 1],
                    blockers: &[(2, u32::MAX, 9), (4, 2, 6)],
                    pending: &[(0, 0)],
                },
            );
            expect(
                &model,
                way,
                &[0, 0, 4],
                Given {
                    record: [6, 5, 2, open, 1, 1, 2, 0],
                    blockers: &[(2, 1, 9)],
                    pending: &[(4, 7)],
                },
                Given {
                    record: [6, 6, 2, read, 2, 1, 3, 1],
                    blockers: &[(2, 1, 9), (4, 2, 6)],
                    pending: &[(2, 0)],
                },
            );
        }
    }
}

/// The word of a hit is as long as the pending cases, whatever the level: the symbol taken, then those that
/// led to the pending cases from the lowest up, whatever they are; not that of the first.
#[test]
fn words_as_long_as_the_pending_cases() {
    // By symbol 1 the empty case leads to I.
    let model = Model::new(2, 1, 2, &[&[], &[(0, 0)]]);
    for way in WAYS {
        expect(
            &model,
            way,
            &[],
            Given {
                record: [6, 9, 4, 2, 0, 3, 0, 0],
                blockers: &[],
                pending: &[(7, 200), (5, 255), (0, 64)],
            },
            Given {
                record: [1, 10, 4, 1, 0, 0, 0, 0],
                blockers: &[],
                pending: &[(0, 1), (0, 64), (0, 255)],
            },
        );
        expect(
            &model,
            way,
            &[],
            Given {
                record: [6, 9, 4, 0, 0, 1, 9, 9],
                blockers: &[],
                pending: &[(0, 64)],
            },
            Given {
                record: [1, 10, 4, 0, 0, 0, 9, 9],
                blockers: &[],
                pending: &[(0, 1)],
            },
        );
        expect(
            &model,
            way,
            &[],
            Given {
                record: [6, 9, 4, 0, 0, 4, 0, 9],
                blockers: &[],
                pending: &[(7, 3), (7, 4), (7, 5), (0, 6)],
            },
            Given {
                record: [1, 10, 4, 0, 0, 0, 0, 9],
                blockers: &[],
                pending: &[(0, 1), (0, 6), (0, 5), (0, 4)],
            },
        );
    }
}

/// A case with a bit at n or above, which no set passes beside: by way 0 it stays as it is, and by way 1
/// the blocker is "the states not picked", of which there are n. So it does with a case that contains I.
#[test]
fn cases_that_no_set_passes_beside() {
    let model = Model::new(2, 1, 2, &[&[]]);
    for (case, way, blocker, final_pending) in [
        (8, 0, 8, true),
        (8, 1, 2, false),
        (8 | 2, 0, 8 | 2, false),
        (8 | 2, 1, 2, false),
        (1 << 63, 0, 1 << 63, true),
        (1 << 63, 1, 2, false),
        (1, 0, 1, true),
        (1, 1, 3, false),
        (3, 0, 3, false),
        (3, 1, 3, false),
    ] {
        let before = Standing {
            record: Record::of_numbers([6, 0, 1, 1, 0, 1, 0, 0]),
            tables: Tables {
                masks: vec![STALE.into(); 2],
                levels: vec![STALE.into(); 2],
                entered: vec![STALE.into(); 2],
                cases: vec![case, STALE.into()],
                symbols: vec![STALE; 2],
            },
        };
        let again = u64::from(final_pending);
        let expected = Standing {
            record: Record::of_numbers([6, 1, 1, 1, 1, again, 1, 0]),
            tables: Tables {
                masks: vec![blocker, STALE.into()],
                levels: vec![1, STALE.into()],
                entered: vec![1, STALE.into()],
                cases: vec![2 * again, STALE.into()],
                symbols: vec![0, STALE],
            },
        };
        for hints in [&[][..], &[case], &[case | 2], &[u64::MAX]] {
            // A hint with that bit, or with I, does not pass either.
            let terms = Terms {
                hints,
                way,
                ..Terms::plain(1)
            };
            let mut stepped = before.clone();
            Comparison::default().step(&model.image(), &mut stepped, terms, &model);
            assert_eq!(stepped, expected, "X {case:x}, way {way}, {hints:x?}");
        }
    }
}

/// Blockers of levels that no run has. One of level 0 covers nothing and does not rise, but leaves with
/// others; one above N covers and stays where it is.
#[test]
fn blockers_of_any_level() {
    let model = Model::new(2, 1, 2, &[&[]]);
    for way in WAYS {
        // A close at N 2: level 1 has one that rises to 2 and then to 3, and takes its subsets along, that
        // of level 0 too. The others are no subsets. Level 1 is then vacant, and those above it are kept.
        expect(
            &model,
            way,
            &[],
            Given {
                record: [6, 50, 2, 1, 4, 0, 0, 0],
                blockers: &[(0, 0, 1), (3, 0, 2), (2, 1, 3), (1, u32::MAX, 4)],
                pending: &[],
            },
            Given {
                record: [0, 51, 2, 0, 2, 0, 0, 0],
                blockers: &[(2, 3, 3), (1, u32::MAX, 4), (0, 0, 0), (0, 0, 0)],
                pending: &[],
            },
        );
        // A block at level 2: of its subsets those up to that level leave, that of level 0 too.
        expect(
            &model,
            way,
            &[2],
            Given {
                record: [6, 50, 2, 1, 4, 1, 0, 0],
                blockers: &[(0, 0, 1), (0, 3, 2), (2, 2, 3), (1, 0, 4)],
                pending: &[(2, 0)],
            },
            Given {
                record: [6, 51, 2, 1, 3, 0, 1, 1],
                blockers: &[(0, 3, 2), (1, 0, 4), (2, 2, 51), (0, 0, 0)],
                pending: &[(0, 0)],
            },
        );
        // An open: F is not blocked by one of level 0, nor by one below N, but by one of N or more.
        for (level, blocked) in [
            (0, false),
            (1, false),
            (2, true),
            (7, true),
            (u32::MAX, true),
        ] {
            let mut standing = standing(&Given {
                record: [6, 50, 1, 0, 1, 0, 0, 0],
                blockers: &[(3, 1, 1)],
                pending: &[],
            });
            standing.tables.levels[0] = level;
            let mut expected = standing.clone();
            expected.record = Record::of_numbers([6, 51, 2, 1, 1, u64::from(!blocked), 0, 0]);
            if !blocked {
                expected.tables.cases[0] = 2;
                expected.tables.symbols[0] = 0;
            }
            let terms = Terms::plain(u64::MAX);
            Comparison::default().step(&model.image(), &mut standing, terms, &model);
            assert_eq!(standing, expected, "level {level}");
        }
    }
}

/// With nothing pending an open level is closed, and N may be 0: no level is vacant then. What is not open is
/// opened, though cases were pending before at a level that was not.
#[test]
fn levels_that_are_open_or_not() {
    let model = Model::new(2, 1, 2, &[&[]]);
    for open in ODD_OPEN {
        expect(
            &model,
            0,
            &[],
            Given {
                record: [6, 3, 0, open, 0, 0, 3, 3],
                blockers: &[],
                pending: &[],
            },
            Given {
                record: [6, 4, 0, 0, 0, 0, 3, 3],
                blockers: &[],
                pending: &[],
            },
        );
    }
    let opened = Given {
        record: [6, 4, 4, 1, 0, 1, 3, 3],
        blockers: &[],
        pending: &[(2, 0)],
    };
    let closed = Given {
        record: [6, 3, 3, 0, 0, 0, 3, 3],
        blockers: &[],
        pending: &[],
    };
    expect(&model, 0, &[], closed, opened);
    // A block at a level that is not open, of which F is left blocked.
    expect(
        &model,
        0,
        &[],
        Given {
            record: [6, 3, 4, 0, 0, 1, 3, 3],
            blockers: &[],
            pending: &[(2, 5)],
        },
        Given {
            record: [6, 4, 4, 0, 1, 0, 4, 3],
            blockers: &[(2, 4, 4)],
            pending: &[(0, 0)],
        },
    );
}

/// A working record on a model whose start is final, which no begin makes, is stepped like others in either
/// edition. D is then blocked by F itself or by all states, and that rises.
#[test]
fn final_starts_are_stepped() {
    for (way, blocker) in [(0, 0), (1, 1)] {
        for edition in EDITIONS {
            let terms = Terms::<&[u64]> {
                edition,
                way,
                ..Terms::plain(3)
            };
            let mut comparison = Comparison::default();
            let mut stepped = standing(&Given {
                record: [6, 0, 0, 0, 0, 0, 0, 0],
                blockers: &[],
                pending: &[],
            });
            for record in [
                [6, 1, 1, 1, 0, 1, 0, 0],
                [6, 2, 1, 1, 1, 0, 1, 0],
                [0, 3, 1, 0, 1, 0, 1, 0],
            ] {
                comparison.step(&model_d().image(), &mut stepped, terms, &"D");
                assert_eq!(stepped.record.numbers(), record, "way {way}");
            }
            let Tables { masks, levels, .. } = &stepped.tables;
            assert_eq!((masks[0], levels[0]), (blocker, 2), "way {way}");
        }
    }
}

/// Steps that stop keep all but the answer and what is pending, and say whether the level is open by 0 or 1.
#[test]
fn stops_of_invented_records() {
    let model = Model::new(2, 1, 2, &[&[]]);
    for (open, read) in [(0, 0), (1, 1), (2, 1), (1 << 32, 1), (u64::MAX, 1)] {
        let pending: &[(u64, u8)] = &[(2, 5), (2, 6)];
        let cleared: &[(u64, u8)] = &[(0, 0), (0, 0)];
        // 3: the table is full of what is no subset of the blocker {1}.
        let blockers: &[(u64, u32, u64)] = &[(4, 1, 9), (5, 1, 9), (6, 1, 9), (1, 1, 9)];
        expect(
            &model,
            0,
            &[2],
            Given {
                record: [6, 8, 3, open, 4, 2, 0, 8],
                blockers,
                pending,
            },
            Given {
                record: [3, 8, 3, read, 4, 0, 0, 8],
                blockers,
                pending: cleared,
            },
        );
        // 2 comes before it.
        let mut stopped = standing(&Given {
            record: [6, 8, 3, open, 4, 2, 0, 8],
            blockers,
            pending,
        });
        let terms = Terms::plain(8);
        Comparison::default().step(&model.image(), &mut stopped, terms, &model);
        let expected = standing(&Given {
            record: [2, 8, 3, read, 4, 0, 0, 8],
            blockers,
            pending: cleared,
        });
        assert_eq!(stopped, expected);
    }
    // 4, with all places of word room stale.
    let before = Given {
        record: [6, 8, 4, 0, 0, 0, 7, 8],
        blockers: &[],
        pending: &[],
    };
    let after = Given {
        record: [4, 8, 4, 0, 0, 0, 7, 8],
        blockers: &[],
        pending: &[],
    };
    expect(&model, 0, &[], before, after);
}

/// The last step that can be counted is made, and after it there is none. The hint tried is the one whose
/// number is the blocks made, however many.
#[test]
fn numbers_as_large_as_can_be() {
    const LAST: u64 = u64::MAX - 1;
    let model = Model::new(2, 1, 2, &[&[]]);
    for (blocks, accepted_before, hints, accepted) in [
        (LAST, LAST, &[2][..], 0),
        (LAST, 0, &[], 0),
        (1 << 32, LAST, &[2; 5], 0),
        (1 << 8, 3, &[2; 256], 0),
        (1 << 8, 3, &[2; 257], 1),
        (0, LAST, &[2], 1),
    ] {
        for pending in [1, 2, 3, 4] {
            let mut stepped = standing(&Given {
                record: [6, LAST, 4, 1, 0, pending, blocks, accepted_before],
                blockers: &[],
                pending: &[(2, 0), (2, 0), (2, 0), (2, 0)],
            });
            let terms = Terms {
                hints,
                ..Terms::plain(u64::MAX)
            };
            let mut comparison = Comparison::default();
            comparison.step(&model.image(), &mut stepped, terms, &model);
            let expected = [
                6,
                u64::MAX,
                4,
                1,
                1,
                // At N the blocker covers F, and else another case is pending.
                pending - 1,
                blocks + 1,
                accepted_before + accepted,
            ];
            assert_eq!(stepped.record.numbers(), expected);
            assert_eq!(stepped.tables.entered[0], u64::MAX);
            comparison.step(&model.image(), &mut stepped, terms, &model);
            assert_eq!(stepped.record.numbers()[..2], [2, u64::MAX]);
        }
    }
}

/// As many places, levels, pending cases and blockers as there can be: one step of C each, and the record
/// after it. All pending cases are F, which is empty, and all blockers too, of the level given.
#[test]
fn most_places() {
    const MOST: u64 = 65_536;
    let mut comparison = Comparison::default();
    let model = model_c();
    for (before, blocker_level, after) in [
        // The last place of word room comes into use, and then the word takes all of it.
        (
            [6, 7, MOST, 1, 0, MOST - 1, 0, 0],
            0,
            [6, 8, MOST, 1, 0, MOST, 0, 0],
        ),
        // The blocker {1} takes the place of all others, or finds none as they are above its level.
        (
            [6, 7, MOST, 0, MOST, MOST, 0, 0],
            1,
            [6, 8, MOST, 0, 1, MOST - 1, 1, 0],
        ),
        (
            [6, 7, MOST, 0, MOST, MOST, 0, 0],
            2,
            [3, 7, MOST, 0, MOST, 0, 0, 0],
        ),
        // As many levels as places, and one less.
        ([6, 7, MOST, 0, 0, 0, 0, 0], 0, [4, 7, MOST, 0, 0, 0, 0, 0]),
        (
            [6, 7, MOST - 1, 0, 9, 0, 0, 0],
            u32::MAX,
            [6, 8, MOST, 1, 9, 0, 0, 0],
        ),
        // Level 1 is vacant, and what is above it is kept. At level 0 none is.
        (
            [6, 7, MOST, 1, 9, 0, 0, 0],
            u32::MAX,
            [0, 8, MOST, 0, 9, 0, 0, 0],
        ),
        ([6, 7, MOST, 1, 9, 0, 0, 0], 0, [0, 8, MOST, 0, 0, 0, 0, 0]),
        ([6, 7, 0, 1, MOST, 0, 0, 0], 7, [6, 8, 0, 0, MOST, 0, 0, 0]),
    ] {
        let mut tables = Tables::cleared(MOST as usize, MOST as usize);
        tables.levels.fill(blocker_level);
        tables.symbols.fill(1);
        let record = Record::of_numbers(before);
        let mut standing = Standing { record, tables };
        let terms = Terms::plain(u64::MAX);
        comparison.step(&model.image(), &mut standing, terms, &record);
        assert_eq!(standing.record.numbers(), after, "{record}");
        if standing.record.pending == MOST {
            // {1, 2} is pending at level 1, and leads to I.
            comparison.step(&model.image(), &mut standing, terms, &record);
            assert_eq!(standing.record.answer, 1);
            assert_eq!(standing.tables.symbols[..3], [0, 1, 1]);
        }
    }
}
