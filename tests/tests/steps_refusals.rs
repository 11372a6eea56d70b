//! Begins and steps that are refused, records that are broken, and records that are finished. A refused
//! begin leaves its number and seven 0 in the record; "a refused step changes nothing either, the record
//! included"; "after the checks a finished record (0 to 5) gives its answer again and nothing changes".

use afa_tests::afa::step::{begin_untouchable, step_untouchable};
use afa_tests::compare::steps::{Comparison, Standing};
use afa_tests::damage::damage;
use afa_tests::generate::records::{invented, terms_for, ODD_OPEN};
use afa_tests::generate::runs::{choices, run_model, run_model_of, unknown_edition, unknown_way};
use afa_tests::guarded::{Untouchable, EDGES};
use afa_tests::image::{broken_model_c, model_a, model_c, model_d};
use afa_tests::random::Random;
use afa_tests::record::Record;
use afa_tests::tables::{Tables, Terms, CHOICES};

/// Lengths of masks, levels, entered, cases, symbols and hints, and the number that they give on a valid
/// image.
const LENGTHS: [([usize; 6], Option<u64>); 16] = [
    ([4, 4, 4, 4, 4, 2], None),
    ([0, 0, 0, 0, 0, 0], None),
    ([5, 4, 4, 4, 4, 0], Some(30)),
    ([4, 5, 4, 4, 4, 0], Some(30)),
    ([4, 4, 5, 4, 4, 0], Some(30)),
    ([4, 4, 3, 4, 4, 0], Some(30)),
    ([4, 4, 4, 5, 4, 0], Some(30)),
    ([4, 4, 4, 4, 5, 0], Some(30)),
    ([1, 0, 0, 0, 0, 0], Some(30)),
    ([0, 0, 0, 0, 1, 0], Some(30)),
    ([65_537, 65_537, 65_537, 4, 4, 0], Some(31)),
    ([4, 4, 4, 65_537, 65_537, 0], Some(31)),
    ([4, 4, 4, 4, 4, 65_537], Some(31)),
    // Both, of which unlike lengths come first.
    ([65_537, 65_537, 65_537, 4, 5, 0], Some(30)),
    ([4, 4, 5, 4, 4, 65_537], Some(30)),
    ([65_536, 65_537, 65_536, 4, 4, 0], Some(30)),
];

fn terms(random: &mut Random, hints: usize, [edition, way]: [u64; 2]) -> Terms {
    Terms {
        hints: (0..hints).map(|_| random.number()).collect(),
        allowance: random.pick(&[0, 1, 100_000, u64::MAX]),
        edition,
        way,
    }
}

/// The number and seven 0, and every table as it was. A step on that record, with what no check before
/// refuses, gives 33.
fn expect_refused_begin(
    comparison: &mut Comparison,
    image: &[u8],
    before: &Tables,
    terms: &Terms,
    number: u64,
) {
    let origin = format!("expected to be refused under {number}");
    let standing = comparison.begin(image, before, terms.lend(), &origin);
    let expected = [number, 0, 0, 0, 0, 0, 0, 0];
    assert_eq!(standing.record.numbers(), expected);
    assert!(standing.tables == *before);
    let mut later = Standing {
        record: standing.record,
        tables: Tables::cleared(2, 2),
    };
    let unchanged = later.clone();
    let answer = comparison.step(&model_c().image(), &mut later, Terms::plain(9), &origin);
    assert_eq!(answer, 33);
    assert!(later == unchanged);
}

/// The number, and record and tables as they were.
fn expect_refused_step(
    comparison: &mut Comparison,
    image: &[u8],
    before: &Standing,
    terms: &Terms,
    number: u64,
) {
    let mut standing = before.clone();
    let origin = format!("expected to be refused under {number}");
    let answer = comparison.step(image, &mut standing, terms.lend(), &origin);
    assert_eq!(answer, number, "{}", before.record);
    assert!(
        standing == *before,
        "{}\n{}",
        before.record,
        standing.record
    );
}

/// Records that are broken in rooms of any size, of each answer.
fn broken_record(random: &mut Random) -> Record {
    let mut record = Record::begun(random.below(7) as u64);
    match random.below(4) {
        0 => record.answer = random.pick(&[7, 20, 33, 1 << 32, u64::MAX]),
        1 => record.pending = 1,
        2 => record.blocks = 1,
        _ => record.accepted = 1,
    }
    record
}

/// Each check of an image broken or not, in all ways, with rooms, editions and ways of growing that are
/// refused and those that are not; for the step also with records that are working, finished and broken.
#[test]
fn order_of_checks() {
    let mut random = Random::seeded(150);
    let mut comparison = Comparison::default();
    let mut beside_broken = [0_usize; 40];
    // Valid images some more often.
    for broken in (0..1 << 8).chain([0; 20]) {
        let is_broken = |number: u64| broken >> (number - 20) & 1 == 1;
        let mask_at = random.pick(&[4, 12]);
        let (n, k) = (random.pick(&[0, 65]), random.pick(&[0, 65]));
        let mut image = broken_model_c(is_broken, mask_at, n, k);
        if is_broken(20) {
            image.truncate(19);
        }
        let first = (20..=27).find(|&number| is_broken(number));
        for (lengths, of_lengths) in LENGTHS {
            // Long tables take long, and a few of them do.
            let long = lengths.iter().any(|&length| length > 1_000);
            let [masks, levels, entered, cases, symbols, hints] = lengths;
            let lengths = [masks, levels, entered, cases, symbols];
            for (choice, of_choice) in choices(&mut random) {
                if long && !random.chance(if first.is_some() { 1 } else { 10 }) {
                    continue;
                }
                let tables = Tables::filled_unevenly(&mut random, lengths);
                let terms = terms(&mut random, hints, choice);
                let number = first.or(of_lengths).or(of_choice);
                if let Some(number) = number {
                    expect_refused_begin(&mut comparison, &image, &tables, &terms, number);
                }
                let finished = random.below(6) as u64;
                for (record, of_record) in [
                    (broken_record(&mut random), Some(33)),
                    (Record::begun(6), None),
                    (Record::begun(finished), None),
                ] {
                    let tables = tables.clone();
                    let standing = Standing { record, tables };
                    if let Some(number) = number.or(of_record) {
                        expect_refused_step(&mut comparison, &image, &standing, &terms, number);
                        beside_broken[number as usize] += usize::from(of_record.is_some());
                    }
                }
            }
        }
    }
    println!("beside a broken record: {:?}", &beside_broken[20..]);
    assert!(beside_broken[20..28].iter().all(|&count| count > 40));
    let others = [30, 33, 36, 37];
    assert!(others.iter().all(|&number| beside_broken[number] > 40));
    assert!(beside_broken[31] > 20);
    assert!((20..28).all(|number| comparison.seen.times(number) > 40));
}

/// Numbers above the limit: just above, and such as are the limit or less when cut down to 8, 16, 32 or 63
/// bits.
fn above(limit: u64) -> Vec<u64> {
    let mut numbers = vec![u64::MAX - 1, u64::MAX];
    numbers.extend([1, 2].map(|more| limit.saturating_add(more)));
    for low in [0, limit / 2, limit] {
        let cut = [8, 16, 31, 32, 33, 62, 63].map(|bit| low.saturating_add(1 << bit));
        numbers.extend(cut);
        numbers.push(low | u64::MAX << 32);
    }
    numbers.retain(|&number| number > limit);
    numbers
}

/// A record that is not broken in rooms of 5 and 6 places, each of its numbers at the limit.
const AT_LIMITS: Record = Record {
    answer: 6,
    steps: 9,
    level: 6,
    open: 1,
    held: 5,
    pending: 6,
    blocks: 9,
    accepted: 9,
};

/// Whether a step of the record is refused under 33, and then changes nothing, in rooms of 5 and 6 places
/// and on any terms.
fn is_refused(comparison: &mut Comparison, random: &mut Random, record: Record) -> bool {
    let tables = Tables::filled(random, 5, 6);
    let before = Standing { record, tables };
    let refused = CHOICES.map(|choice| {
        let mut after = before.clone();
        let terms = terms(random, 2, choice);
        let answer = comparison.step(&model_a().image(), &mut after, terms.lend(), &record);
        assert!(answer <= 6 || answer == 33 && after == before, "{record}");
        answer == 33
    });
    assert!(refused.iter().all(|&other| other == refused[0]), "{record}");
    refused[0]
}

/// "A record with an answer above 6, more blockers than room, a level above the word room, more pending than
/// levels, or more blocks or hints accepted than steps gives 33", by 64 bits; at the limit it does not.
#[test]
fn each_way_to_be_broken() {
    let mut random = Random::seeded(151);
    let mut comparison = Comparison::default();
    let mut refused = |record| is_refused(&mut comparison, &mut random, record);
    for answer in 0..=6 {
        let at_limits = Record {
            answer,
            ..AT_LIMITS
        };
        assert!(!refused(at_limits), "{at_limits}");
        for held in above(5) {
            assert!(refused(Record { held, ..at_limits }), "held {held}");
        }
        for level in above(6) {
            assert!(refused(Record { level, ..at_limits }), "level {level}");
            let pending = level;
            let both = Record {
                level,
                pending,
                ..at_limits
            };
            assert!(refused(both), "level and pending {level}");
        }
        for level in 0..=6 {
            let at_level = Record { level, ..at_limits };
            for pending in 0..=level {
                assert!(
                    !refused(Record {
                        pending,
                        ..at_level
                    }),
                    "{pending} of {level}"
                );
            }
            for pending in above(level) {
                assert!(
                    refused(Record {
                        pending,
                        ..at_level
                    }),
                    "{pending} of {level}"
                );
            }
        }
        for steps in [0, 1, 9, 255, 256, 1 << 16, 1 << 32, (1 << 32) + 1, 1 << 63] {
            let at_steps = Record {
                steps,
                blocks: steps,
                accepted: steps,
                ..at_limits
            };
            assert!(!refused(at_steps), "{at_steps}");
            for count in above(steps) {
                let blocks = Record {
                    blocks: count,
                    ..at_steps
                };
                assert!(refused(blocks), "{blocks}");
                let accepted = Record {
                    accepted: count,
                    ..at_steps
                };
                assert!(refused(accepted), "{accepted}");
            }
            for count in [0, 1, steps / 2, steps - steps.min(1)] {
                let count = count.min(steps);
                // Blocks and hints accepted are held against the steps and not against each other.
                assert!(
                    !refused(Record {
                        blocks: count,
                        ..at_steps
                    }),
                    "{count}"
                );
                assert!(
                    !refused(Record {
                        accepted: count,
                        ..at_steps
                    }),
                    "{count}"
                );
            }
        }
        for steps in [u64::MAX - 1, u64::MAX] {
            for count in [0, 1, 1 << 63, u64::MAX - 1] {
                let record = Record {
                    steps,
                    blocks: count,
                    accepted: count,
                    ..at_limits
                };
                assert!(!refused(record), "{record}");
            }
        }
        for open in ODD_OPEN {
            assert!(!refused(Record { open, ..at_limits }), "open {open}");
        }
    }
    for answer in above(6).into_iter().chain(7..=300) {
        assert!(
            refused(Record {
                answer,
                ..AT_LIMITS
            }),
            "answer {answer}"
        );
        assert!(refused(Record::begun(answer)), "answer {answer}");
    }
}

/// Rooms of other sizes, with nothing in them and with as many places as there can be.
#[test]
fn rooms_of_other_sizes() {
    let mut comparison = Comparison::default();
    for (blocker_room, word_room) in [(0, 0), (0, 9), (9, 0), (1, 1), (65_536, 3), (3, 65_536)] {
        let tables = Tables::cleared(blocker_room, word_room);
        for (held, held_above) in [(blocker_room, 0), (blocker_room, 1)] {
            for (level, level_above) in [(word_room, 0), (word_room, 1)] {
                let record = Record {
                    level: level as u64 + level_above,
                    held: held as u64 + held_above,
                    ..Record::begun(3)
                };
                let tables = tables.clone();
                let before = Standing { record, tables };
                let expected = if held_above + level_above > 0 { 33 } else { 3 };
                let mut after = before.clone();
                let image = model_c().image();
                let answer = comparison.step(&image, &mut after, Terms::plain(1), &record);
                assert_eq!(
                    answer, expected,
                    "rooms of {blocker_room} and {word_room}: {record}"
                );
                assert!(after == before);
            }
        }
    }
}

/// A record within all bounds is never refused, and one that is beyond one of them always is.
#[test]
fn random_records() {
    const RECORDS: usize = 40_000;
    let mut random = Random::seeded(152);
    let mut comparison = Comparison::default();
    for _ in 0..RECORDS {
        let (states, symbols) = (random.within(1..=4), random.within(1..=2));
        let model = run_model_of(&mut random, states, symbols);
        let image = model.image();
        let mut standing = invented(&mut random, &model);
        standing.record.answer = random.below(7) as u64;
        let terms = terms_for(&mut random, &model, &standing);
        let mut after = standing.clone();
        let answer = comparison.step(&image, &mut after, terms.lend(), &model);
        assert!(answer <= 6, "{model}\n{}", standing.record);
        let Standing { record, tables } = &mut standing;
        let beyond = |random: &mut Random, limit: u64| random.pick(&above(limit));
        let [blocker_room, _, _, word_room, _] = tables.lengths();
        match random.below(6) {
            0 => record.answer = beyond(&mut random, 6),
            1 => record.held = beyond(&mut random, blocker_room as u64),
            2 => record.level = beyond(&mut random, word_room as u64),
            3 => record.pending = beyond(&mut random, record.level),
            number => {
                record.steps = record.steps.min(u64::MAX - 1);
                record.blocks = record.blocks.min(record.steps);
                record.accepted = record.accepted.min(record.steps);
                let above_steps = beyond(&mut random, record.steps);
                match number {
                    4 => record.blocks = above_steps,
                    _ => record.accepted = above_steps,
                }
            }
        }
        expect_refused_step(&mut comparison, &image, &standing, &terms, 33);
    }
}

/// Finished records of any numbers within the bounds, in tables of any content: the answer again, and
/// nothing changes, whatever the terms are. But the checks come first.
#[test]
fn finished_records() {
    const RECORDS: usize = 20_000;
    let mut random = Random::seeded(153);
    let mut comparison = Comparison::default();
    for number in 0..RECORDS {
        let model = match number % 20 {
            0 => run_model(&mut random),
            1 => model_d(),
            _ => run_model_of(&mut random, 3, 2),
        };
        let image = model.image();
        let mut standing = invented(&mut random, &model);
        let answer = random.below(6) as u64;
        standing.record.answer = answer;
        let mut terms = terms_for(&mut random, &model, &standing);
        for allowance in [0, terms.allowance, u64::MAX] {
            terms.allowance = allowance;
            let mut after = standing.clone();
            let answered = comparison.step(&image, &mut after, terms.lend(), &model);
            assert_eq!(answered, answer, "{model}\n{}", standing.record);
            assert!(after == standing, "{model}\n{}", standing.record);
        }
        let known = (terms.edition, terms.way);
        terms.way = unknown_way(&mut random);
        expect_refused_step(&mut comparison, &image, &standing, &terms, 37);
        terms.edition = unknown_edition(&mut random);
        expect_refused_step(&mut comparison, &image, &standing, &terms, 36);
        (terms.edition, terms.way) = known;
        expect_refused_step(&mut comparison, &image[..19], &standing, &terms, 20);
        expect_refused_step(
            &mut comparison,
            &image[..image.len() - 1],
            &standing,
            &terms,
            24,
        );
        standing.record.pending = standing.record.level + 1;
        expect_refused_step(&mut comparison, &image, &standing, &terms, 33);
    }
}

/// Images damaged in any way, in small rooms whose tables are now and then unlike, with records of any kind.
#[test]
fn damaged_images() {
    let mut random = Random::seeded(154);
    let mut comparison = Comparison::default();
    for _ in 0..20_000 {
        let model = run_model_of(&mut random, 4, 2);
        let mut image = model.image();
        let damages = random.pick(&[1, 1, 2, 3]);
        let origin = damage(&mut image, &mut random, damages);
        let mut standing = invented(&mut random, &model);
        let mut terms = terms_for(&mut random, &model, &standing);
        let choices = choices(&mut random);
        ([terms.edition, terms.way], _) = random.pick(&choices);
        match random.below(20) {
            0 => standing.tables.masks.push(7),
            1 => standing.tables.levels.push(7),
            2 => standing.tables.entered.push(7),
            3 => standing.tables.cases.push(7),
            4 => standing.tables.symbols.push(7),
            5..=8 => standing.record = broken_record(&mut random),
            9 | 10 => standing.record.answer = random.below(6) as u64,
            _ => {}
        }
        let begun = comparison.begin(&image, &standing.tables, terms.lend(), &origin);
        if begun.record.answer >= 20 {
            assert!(begun.tables == standing.tables, "{origin}");
            assert_eq!(begun.record, Record::begun(begun.record.answer), "{origin}");
        }
        let before = standing.clone();
        let answer = comparison.step(&image, &mut standing, terms.lend(), &origin);
        if answer >= 20 {
            assert!(standing == before, "{origin}");
            assert!(answer == 33 || answer == begun.record.answer, "{origin}");
        } else {
            assert!(begun.record.answer < 20, "{origin}");
        }
    }
    println!("damaged images, numbers of steps: {:?}", comparison.steps);
    assert!((20..28).all(|number| comparison.times(number) > 100));
    assert!([30, 33, 36, 37]
        .iter()
        .all(|&number| comparison.times(number) > 50));
}

/// Refused calls and finished records touch no table and no hint, nor do lengths that would fit if they
/// were cut down to 32 bits.
#[test]
fn tables_are_not_touched() {
    const LONG: usize = (1 << 32) + 4;
    let mut random = Random::seeded(155);
    let memory = Untouchable::with_room(LONG * size_of::<u64>());
    let image = model_c().image();
    let begun = Record::begun;
    for (lengths, of_lengths) in [
        ([LONG, LONG, LONG, 4, 4, 4], Some(31)),
        ([4, 4, 4, LONG, LONG, 4], Some(31)),
        ([4, 4, 4, 4, 4, LONG], Some(31)),
        ([LONG, 4, 4, 4, 4, 4], Some(30)),
        ([4, LONG, 4, 4, 4, 4], Some(30)),
        ([4, 4, LONG, 4, 4, 4], Some(30)),
        ([4, 4, 4, LONG, 4, 4], Some(30)),
        ([4, 4, 4, 4, LONG, 4], Some(30)),
        ([4; 6], None),
        ([65_536; 6], None),
    ] {
        for (choice, of_choice) in choices(&mut random) {
            let of_terms = of_lengths.or(of_choice);
            for edge in EDGES {
                let shown = format!("{lengths:?}, edition and way {choice:?}");
                if let Some(number) = of_terms {
                    let mut record = [7; 8];
                    let answer =
                        begin_untouchable(&image, lengths, choice, &memory, edge, &mut record);
                    let expected = (number, begun(number).numbers());
                    assert_eq!((answer, record), expected, "{shown}");
                }
                for (record, of_record) in [
                    (begun(6), None),
                    (begun(7), Some(33)),
                    (broken_record(&mut random), Some(33)),
                    (begun(0), Some(0)),
                    (begun(1), Some(1)),
                    (begun(2), Some(2)),
                    (begun(3), Some(3)),
                    (begun(4), Some(4)),
                    (
                        Record {
                            pending: 2,
                            level: 4,
                            held: 4,
                            ..begun(5)
                        },
                        Some(5),
                    ),
                ] {
                    let Some(number) = of_terms.or(of_record) else {
                        continue;
                    };
                    let before = record.numbers();
                    let mut record = before;
                    let answer =
                        step_untouchable(&image, lengths, choice, &memory, edge, &mut record);
                    assert_eq!((answer, record), (number, before), "{shown}");
                }
            }
        }
    }
}
