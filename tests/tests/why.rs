//! Why a case is blocked at a level: the first covering blocker in table order, or at level 0 the lowest
//! initial state absent, against the tests' own answer.

use afa_tests::afa;
use afa_tests::compare::{run, why};
use afa_tests::generate::blockers::{
    asked_case, asked_level, covering, first_at, levels, masks, ASKED_LEVELS, BLOCKER_LEVELS,
};
use afa_tests::generate::runs::{affordable_steps, lent, run_model, Earlier};
use afa_tests::guarded::{ReadOnly, Writable, EDGES};
use afa_tests::image::{all_states, model_a, model_b, model_c, rings, Model};
use afa_tests::machine;
use afa_tests::random::Random;
use afa_tests::tables::{Answer, Lent, Tables, Terms};
use afa_tests::why::Question;

/// A level of 1 or more that blockers can have.
fn level(random: &mut Random) -> u32 {
    match random.below(3) {
        0 => random.within(1..=4) as u32,
        1 => random.pick(&BLOCKER_LEVELS[1..]),
        _ => (random.number() as u32).max(1),
    }
}

fn case(random: &mut Random) -> u64 {
    asked_case(random, &[])
}

#[test]
fn answers_known_beforehand() {
    let mut comparison = why::Comparison::default();
    let masks = [6, 4, 7, 12, 4, 0, u64::MAX];
    let levels = [1, 2, 1, 3, 5, 9, 0];
    for (level, case, number, found) in [
        (1, 2, 1, [0, 1]),
        (1, 4, 1, [0, 1]),
        (1, 1, 1, [2, 1]),
        (1, 9, 0, [0, 0]),
        (1, 8, 1, [3, 3]),
        (2, 4, 1, [1, 2]),
        (2, 2, 0, [0, 0]),
        (3, 4, 1, [3, 3]),
        (4, 4, 1, [4, 5]),
        (6, 4, 0, [0, 0]),
        (6, 0, 1, [5, 9]),
        (10, 0, 0, [0, 0]),
        (1, 0, 1, [0, 1]),
        (0, 0, 2, [0, 0]),
        (0, 1, 2, [2, 0]),
        (0, 2, 2, [0, 0]),
        (0, 4, 2, [0, 0]),
        (0, 5, 2, [63, 0]),
        (0, 5 | 1 << 63, 0, [0, 0]),
        (0, u64::MAX, 0, [0, 0]),
    ] {
        let question = Question {
            initial: 5 | 1 << 63,
            masks: &masks,
            levels: &levels,
            level,
            case,
        };
        comparison.expect(&question, number, found);
    }
}

/// What docs/FORMAT.md says of the blockers that the run of its example leaves.
#[test]
fn the_example_of_the_format() {
    let mut comparison = why::Comparison::default();
    for (level, case, number, found) in [(1, 2, 1, [0, 1]), (1, 6, 0, [0, 0]), (0, 6, 2, [0, 0])] {
        let question = Question {
            initial: 1,
            masks: &[2],
            levels: &[1],
            level,
            case,
        };
        comparison.expect(&question, number, found);
    }
}

/// Asks of a table in which the blocker at the place is the first that covers, if it is there, and so
/// many of a hundred behind it cover too.
fn ask_first_at(
    comparison: &mut why::Comparison,
    random: &mut Random,
    size: usize,
    first: usize,
    others: usize,
) {
    let (level, case) = (level(random), case(random));
    let (masks, levels) = first_at(random, size, first, others, case, level);
    let question = Question {
        initial: random.number(),
        masks: &masks,
        levels: &levels,
        level: u64::from(level),
        case,
    };
    comparison.expect_blocker(&question, (first < size).then_some(first));
}

/// Sizes up to 40 and about multiples of 8, the first covering blocker at every place or at none, and
/// others behind it or not.
#[test]
fn the_first_covering_blocker_at_every_place() {
    let mut random = Random::seeded(81);
    let mut comparison = why::Comparison::default();
    let about_eights = [47, 48, 49, 55, 56, 57, 63, 64, 65, 127, 128, 129];
    for size in (0..=40).chain(about_eights) {
        for first in 0..=size {
            for round in 0..21 {
                let others = [0, 30, 100][round % 3];
                ask_first_at(&mut comparison, &mut random, size, first, others);
            }
        }
    }
    println!("the first at every place: {}", comparison.seen);
}

/// The blockers from every place on cover, and those before it lack one state of the case or all.
#[test]
fn every_state_at_every_place() {
    let mut comparison = why::Comparison::default();
    for state in 0..64 {
        let one = 1_u64 << state;
        for size in [1, 2, 3, 4, 5, 7, 8, 9, 16, 19] {
            for place in 0..=size {
                for (case, covering, others) in [
                    (one, one, !one),
                    (one, u64::MAX, 0),
                    (u64::MAX, u64::MAX, !one),
                    (!one, !one, one),
                ] {
                    let mut masks = vec![others; size];
                    masks[place..].fill(covering);
                    let question = Question {
                        initial: !case,
                        masks: &masks,
                        levels: &vec![7; size],
                        level: 7,
                        case,
                    };
                    comparison.expect_blocker(&question, (place < size).then_some(place));
                }
            }
        }
    }
    println!("every state at every place: {}", comparison.seen);
}

/// Each level asked against each level of a blocker, at every place among blockers of level 0.
#[test]
fn every_level_against_every_level() {
    let mut random = Random::seeded(82);
    let mut comparison = why::Comparison::default();
    for level in ASKED_LEVELS {
        for its_level in BLOCKER_LEVELS {
            for size in [1, 2, 4, 5, 8, 9, 12, 17] {
                for place in 0..size {
                    let case = case(&mut random);
                    let mut levels = vec![0; size];
                    levels[place] = its_level;
                    let question = Question {
                        initial: case,
                        masks: &vec![case | random.number(); size],
                        levels: &levels,
                        level,
                        case,
                    };
                    // Level 0 does not ask the table, and the case has I.
                    let covers = level > 0 && u64::from(its_level) >= level;
                    comparison.expect_blocker(&question, covers.then_some(place));
                }
            }
        }
    }
    println!("every level against every level: {}", comparison.seen);
}

/// Asks of tables of these lengths. What the shorter cuts off would cover, and before that the one at
/// the place is the first to do so, if it is there.
fn ask_unlike(
    comparison: &mut why::Comparison,
    random: &mut Random,
    [masks_length, levels_length]: [usize; 2],
    place: usize,
) {
    let (level, case) = (level(random), case(random));
    let shorter = masks_length.min(levels_length);
    let (mut masks, mut levels) = first_at(random, shorter, place, 50, case, level);
    masks.resize_with(masks_length, || covering(random, case, level).0);
    levels.resize_with(levels_length, || covering(random, case, level).1);
    for (level, initial) in [(u64::from(level), random.number()), (0, case)] {
        let question = Question {
            initial,
            masks: &masks,
            levels: &levels,
            level,
            case,
        };
        // Level 0 does not ask the table, and the case has I.
        let covers = level > 0 && place < shorter;
        comparison.expect_blocker(&question, covers.then_some(place));
    }
}

#[test]
fn the_shorter_table_says_how_many() {
    let mut random = Random::seeded(83);
    let mut comparison = why::Comparison::default();
    for shorter in (0..=40).chain([63, 64, 65]) {
        for more in (1..=18).chain([64, 1_000]) {
            let longer = shorter + more;
            for lengths in [[shorter, longer], [longer, shorter]] {
                // Nowhere, at the last place or anywhere.
                let anywhere = random.within(0..=shorter);
                for place in [shorter, shorter.saturating_sub(1), anywhere] {
                    ask_unlike(&mut comparison, &mut random, lengths, place);
                }
            }
        }
    }
    for (shorter, longer) in [
        (0_usize, 65_536),
        (3, 65_536),
        (65_529, 65_536),
        (65_535, 65_536),
    ] {
        for lengths in [[shorter, longer], [longer, shorter]] {
            for place in [shorter, shorter.saturating_sub(1)] {
                ask_unlike(&mut comparison, &mut random, lengths, place);
            }
        }
    }
    println!("tables of unlike length: {}", comparison.seen);
    assert!(comparison.seen.unlike == comparison.seen.asked);
}

/// One table is said to be longer than 32 bits tell: cut down to them it would have no place, or too
/// few. What may be touched of it is a page, in which all would cover but for the first five.
#[test]
fn lengths_that_are_too_short_when_cut() {
    const LONG: usize = 1 << 32;
    let masks = [1, 2, 3, 7, 15];
    let levels = [1, 2, 3, 4, 5];
    let (mut more_masks, mut more_levels) = ([u64::MAX; 512], [u32::MAX; 1024]);
    more_masks[..5].copy_from_slice(&masks);
    more_levels[..5].copy_from_slice(&levels);
    let [mut masks_memory, mut levels_memory] = [0; 2].map(|_| ReadOnly::with_room(4096));
    let mut found_memory = Writable::with_room(16);
    for long in [LONG, LONG + 1, LONG + 3] {
        for (masks, levels, lengths) in [
            (&more_masks[..], &levels[..], [long, 5]),
            (&masks, &more_levels, [5, long]),
        ] {
            for (level, case, number, expected) in [
                (1, 4, 1, [3, 4]),
                (5, 4, 1, [4, 5]),
                (5, 8, 1, [4, 5]),
                (6, 8, 0, [0, 0]),
                (1, 16, 0, [0, 0]),
            ] {
                for edge in EDGES {
                    let question = Question {
                        initial: 0,
                        masks: masks_memory.lend(masks, edge),
                        levels: levels_memory.lend(levels, edge),
                        level,
                        case,
                    };
                    let found = found_memory.lend(&[7, 7], edge);
                    let found: &mut [u64; 2] = found.try_into().unwrap();
                    let answered = afa::why::why_said_longer(&question, lengths, found);
                    assert_eq!((answered, *found), (number, expected), "{lengths:?}");
                }
            }
        }
    }
}

/// Asks at level 0, which does not ask the table: so many blockers that cover the case.
fn ask_level_0(
    comparison: &mut why::Comparison,
    random: &mut Random,
    size: usize,
    (initial, case): (u64, u64),
    absent: Option<u64>,
) {
    let question = Question {
        initial,
        masks: &vec![random.pick(&[case, u64::MAX]); size],
        levels: &vec![random.pick(&BLOCKER_LEVELS); size],
        level: 0,
        case,
    };
    match absent {
        Some(state) => comparison.expect(&question, 2, [state, 0]),
        None => comparison.expect(&question, 0, [0, 0]),
    }
}

/// Two initial states absent, each pair of them, and the lowest with any others above it. The case may
/// have more than I, and the tables, which are not asked, may cover it.
#[test]
fn the_lowest_initial_state_absent() {
    let mut random = Random::seeded(84);
    let mut comparison = why::Comparison::default();
    for state in 0..64 {
        let lowest = 1_u64 << state;
        let above = !(lowest | (lowest - 1));
        let pairs = (state..64).map(|other| 1 << other);
        let many: Vec<u64> = (0..64).map(|_| random.number() & above).collect();
        for others in pairs.chain(many).chain([0, above]) {
            let absent = lowest | others;
            for initial in [absent, absent | random.number(), u64::MAX] {
                let case = (initial | random.number()) & !absent;
                for size in [0, 1, random.within(2..=20)] {
                    let asked = (initial, case);
                    ask_level_0(&mut comparison, &mut random, size, asked, Some(state));
                }
            }
        }
    }
    println!("the lowest initial state absent: {}", comparison.seen);
}

/// I is nothing, all that the case has, or some of it.
#[test]
fn no_initial_state_absent() {
    let mut random = Random::seeded(85);
    let mut comparison = why::Comparison::default();
    for _ in 0..4_000 {
        let case = case(&mut random);
        let size = random.within(0..=12);
        for initial in [0, case, case & random.number(), case & 1 << 63] {
            ask_level_0(&mut comparison, &mut random, size, (initial, case), None);
        }
    }
    println!("no initial state absent: {}", comparison.seen);
}

/// Tables of unlike length now and then, and questions of all kinds.
fn ask_at_random(comparison: &mut why::Comparison, random: &mut Random, size: usize, asked: usize) {
    let other = match random.below(4) {
        0 => random.within(0..=size),
        _ => size,
    };
    let lengths = random.pick(&[[size, other], [other, size]]);
    let (masks, levels) = (masks(random, lengths[0]), levels(random, lengths[1]));
    for number in 0..asked {
        let case = asked_case(random, &masks);
        let any = random.number();
        let question = Question {
            initial: random.pick(&[any, case & any, case | any, 1 << (any % 64), 0]),
            masks: &masks,
            levels: &levels,
            level: asked_level(random, &levels),
            case,
        };
        let origin = format!("random table of {lengths:?} places, question {number}");
        comparison.ask(&question, &origin);
    }
}

#[test]
fn random_tables() {
    let mut random = Random::seeded(86);
    let mut comparison = why::Comparison::default();
    for _ in 0..120 {
        for size in 0..=40 {
            ask_at_random(&mut comparison, &mut random, size, 12);
        }
    }
    for _ in 0..300 {
        let size = 8 * random.within(5..=60) + random.pick(&[0, 1, 7]);
        ask_at_random(&mut comparison, &mut random, size, 12);
    }
    println!("random tables: {}", comparison.seen);
    comparison.seen.assert_each_number(2_000);
    assert!(comparison.seen.by_the_last > 500 && comparison.seen.unlike > 5_000);
}

/// Up to 65,536 places, which is all that a run may have, and beyond: no length is refused.
#[test]
fn large_tables() {
    let mut random = Random::seeded(87);
    let mut comparison = why::Comparison::default();
    let mut sizes = vec![
        255, 256, 257, 1_023, 1_024, 4_095, 4_097, 65_528, 65_535, 65_536, 65_537, 131_073,
    ];
    sizes.extend((0..10).map(|_| random.within(500..=65_536)));
    for size in sizes {
        ask_at_random(&mut comparison, &mut random, size, 8);
        for first in [size, size - 1, size - 2, size - 9, size / 2, 0] {
            let others = random.pick(&[0, 50]);
            ask_first_at(&mut comparison, &mut random, size, first, others);
        }
    }
    println!("large tables: {}", comparison.seen);
    assert_eq!(comparison.seen.highest_place, 131_072);
}

/// Asks of the tables that a run has left: its blockers alone, or the room whole, in which no place
/// after them covers. Every level up to one above N is asked, about so many cases. The machine knows
/// what is blocked as well.
fn ask_of_a_run(
    comparison: &mut why::Comparison,
    random: &mut Random,
    model: &Model,
    (answer, tables): &(Answer, Tables),
    cases: usize,
) {
    let held = answer.blockers as usize;
    let blockers = &tables.masks[..held];
    let mut asked = vec![0, all_states(model.states), model.final_set, model.initial];
    asked.resize_with(cases.max(4), || {
        let case = asked_case(random, blockers);
        random.pick(&[case, case & all_states(model.states)])
    });
    let levels = 0..=answer.level as u32 + 1;
    let asked: Vec<(u64, u32)> = levels
        .flat_map(|level| asked.iter().map(move |&case| (case, level)))
        .collect();
    let mut machine_tables = tables.clone();
    let blocked = machine::blocked(model.initial, machine_tables.lend(), held, &asked);
    for (&(case, level), blocked) in asked.iter().zip(blocked) {
        let places = random.pick(&[held, held, tables.masks.len()]);
        let question = Question {
            initial: model.initial,
            masks: &tables.masks[..places],
            levels: &tables.levels[..places],
            level: u64::from(level),
            case,
        };
        let found = comparison.ask(&question, model);
        assert_eq!(
            found.number > 0,
            blocked,
            "{model}\n{answer:?}\n{}\nthe machine knows otherwise",
            question.shown()
        );
    }
}

/// After every step, or with the larger rings after every few.
#[test]
fn blockers_of_known_models_step_by_step() {
    let mut random = Random::seeded(88);
    let mut runs = run::Comparison::default();
    let mut comparison = why::Comparison::default();
    for (model, every) in [
        (model_a(), 1),
        (model_b(), 1),
        (model_c(), 1),
        (rings(&[2, 3]), 1),
        (rings(&[2, 3, 5]), 3),
        (rings(&[2, 3, 5, 7]), 400),
    ] {
        for allowance in (0..).step_by(every) {
            let lent = Lent {
                before: Tables::filled(&mut random, 500, 500),
                terms: Terms::plain(allowance),
            };
            let left = runs.run(&model.image(), &lent, &model);
            ask_of_a_run(&mut comparison, &mut random, &model, &left, 24);
            if left.0.number != 2 {
                break;
            }
        }
    }
    println!("known models step by step: {}", comparison.seen);
    comparison.seen.assert_each_number(1_000);
}

#[test]
fn blockers_of_random_models() {
    let mut random = Random::seeded(89);
    let mut runs = run::Comparison::default();
    let mut comparison = why::Comparison::default();
    let mut models = 0;
    while models < 250 {
        let model = run_model(&mut random);
        let affordable = affordable_steps(&model, 100_000);
        let earlier = Earlier::of_either_way(&mut random, &model.image(), affordable);
        if earlier.answer.steps < 12 {
            continue;
        }
        models += 1;
        for _ in 0..3 {
            let lent = lent(&mut random, &model, &earlier, affordable);
            let left = runs.run(&model.image(), &lent, &model);
            ask_of_a_run(&mut comparison, &mut random, &model, &left, 20);
        }
    }
    println!("{models} random models: {}", comparison.seen);
    println!("{}", runs.seen);
    runs.seen.assert_each_number(20);
    comparison.seen.assert_each_number(1_000);
}
