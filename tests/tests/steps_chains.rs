//! Chains: a begin and steps, each on terms of its own, with record and rooms as the call before left
//! them. "The verdict rules speak of records made by begin and steps on one image, in the same rooms
//! throughout"; they judge a chain "once its answer is no longer 6, under its begin's edition".

use afa_tests::compare::run;
use afa_tests::compare::steps::{Comparison, Standing};
use afa_tests::generate::hints::hints;
use afa_tests::generate::runs::{run_model_of, unknown_edition, unknown_way, Earlier};
use afa_tests::image::{model_c, rings, Model};
use afa_tests::random::Random;
use afa_tests::record::Record;
use afa_tests::search::assert_right;
use afa_tests::tables::{Lent, Tables, Terms, EDITIONS, WAYS};

/// 4^(n+1).
fn enough(model: &Model) -> u64 {
    4 << (2 * model.states)
}

/// A model of up to 6 states whose runs mostly take some steps, and one of its runs.
fn model_and_run(random: &mut Random) -> (Model, Earlier) {
    loop {
        let (states, symbols) = (random.within(1..=6), random.within(1..=3));
        let model = run_model_of(random, states, symbols);
        let earlier = Earlier::of_either_way(random, &model.image(), u64::MAX);
        if earlier.answer.steps >= 4 || random.chance(10) {
            return (model, earlier);
        }
    }
}

/// Other hints, and any edition and way.
fn other_terms(random: &mut Random, model: &Model, earlier: &Earlier, allowance: u64) -> Terms {
    Terms {
        hints: hints(random, model, &earlier.blocks),
        allowance,
        edition: random.pick(&EDITIONS),
        way: random.pick(&WAYS),
    }
}

/// A step that is refused, for one reason or another, with what it is lent otherwise. Nothing changes.
fn refused_step(
    comparison: &mut Comparison,
    random: &mut Random,
    model: &Model,
    standing: &Standing,
    terms: &Terms,
) {
    let mut image = model.image();
    let mut terms = terms.clone();
    let mut after = standing.clone();
    let number = match random.below(7) {
        0 => {
            image.pop();
            24
        }
        1 => {
            image[0] = random.pick(&[0, 65]);
            21
        }
        2 => {
            terms.hints = vec![0; 65_537];
            31
        }
        3 => {
            terms.edition = unknown_edition(random);
            36
        }
        4 => {
            terms.way = unknown_way(random);
            37
        }
        5 => {
            after.tables.entered.push(1);
            30
        }
        _ => {
            after.record.pending = after.record.level + 1;
            33
        }
    };
    let before = after.clone();
    let answer = comparison.step(&image, &mut after, terms.lend(), model);
    assert_eq!(answer, number, "{model}\n{}", standing.record);
    assert!(after == before, "{model}\n{number}");
}

/// With 2^n places in each room and at least 4^(n+1) steps allowed each time, a chain ends after at most so
/// many by the verdict that a search gives, and its word is a shortest: whatever hints, ways and editions
/// the steps get, and though others between them are refused. So it agrees with every run. Once it has
/// ended nothing changes it.
#[test]
fn changing_terms() {
    const MODELS: usize = 2_500;
    let mut random = Random::seeded(130);
    let mut comparison = Comparison::default();
    let mut runs = run::Comparison::default();
    let (mut refused, mut other_than_run) = (0, 0);
    for _ in 0..MODELS {
        let (model, earlier) = model_and_run(&mut random);
        let image = model.image();
        let places = 1 << model.states;
        let allowance = |random: &mut Random| {
            let more = random.pick(&[0, 1, u64::MAX >> 1]);
            enough(&model) + more
        };
        let before = Tables::filled(&mut random, places, places);
        let begun = other_terms(&mut random, &model, &earlier, 0);
        let edition = begun.edition;
        let mut standing = comparison.begin(&image, &before, begun.lend(), &model);
        let mut steps = 0;
        while standing.record.is_working() {
            assert!(steps < enough(&model), "{model}\n{}", standing.record);
            assert_eq!(standing.record.steps, steps, "{model}");
            let allowance = allowance(&mut random);
            let terms = other_terms(&mut random, &model, &earlier, allowance);
            if random.chance(20) {
                refused_step(&mut comparison, &mut random, &model, &standing, &terms);
                refused += 1;
            }
            comparison.step(&image, &mut standing, terms.lend(), &model);
            steps += 1;
        }
        let Standing { record, tables } = &standing;
        assert_right(&model, edition, &record.five_numbers(), tables);
        let terms = Terms {
            edition,
            ..other_terms(&mut random, &model, &earlier, enough(&model))
        };
        let (answer, _) = runs.run(&image, &Lent { before, terms }, &model);
        assert_eq!(record.five_numbers().verdict(), answer.verdict(), "{model}");
        other_than_run += usize::from(record.five_numbers() != answer);
        for _ in 0..3 {
            let mut after = standing.clone();
            let allowance = random.pick(&[0, record.steps, u64::MAX]);
            let terms = other_terms(&mut random, &model, &earlier, allowance);
            let again = comparison.step(&image, &mut after, terms.lend(), &model);
            assert_eq!(again, record.answer, "{model}");
            assert!(after == standing, "{model}");
            refused_step(&mut comparison, &mut random, &model, &standing, &terms);
        }
    }
    println!(
        "{MODELS} chains with {refused} refused steps, {other_than_run} with other steps or blockers \
         than a run: {}",
        comparison.seen
    );
    let seen = comparison.seen;
    assert!(seen.times(0) > 500 && seen.times(1) > 500 && seen.times(5) > 5);
    assert!(seen.by_hint > 500 && refused > 2_000 && other_than_run > 300);
    assert_eq!(seen.pending_again, 0);
}

/// In rooms of any size and with allowances of any size no chain still works after 4^(n+1) steps. One that
/// ends by a verdict agrees with the search, and one that does not says why: steps that have reached the
/// allowance, full blocker room, or as many levels as places.
#[test]
fn any_rooms_and_allowances() {
    const CHAINS: usize = 6_000;
    let mut random = Random::seeded(131);
    let mut comparison = Comparison::default();
    for _ in 0..CHAINS {
        let (model, earlier) = model_and_run(&mut random);
        let image = model.image();
        let rooms = [earlier.most_held, earlier.answer.level as usize].map(|used| {
            let more = used + random.below(10);
            random.pick(&[used / 2, used - used.min(1), more, more, more])
        });
        let before = Tables::filled(&mut random, rooms[0], rooms[1]);
        let begun = other_terms(&mut random, &model, &earlier, 0);
        let edition = begun.edition;
        let mut standing = comparison.begin(&image, &before, begun.lend(), &model);
        let (mut steps, mut allowance) = (0, u64::MAX);
        let stop_percent = random.pick(&[0, 0, 5]);
        while standing.record.is_working() {
            assert!(steps < enough(&model), "{model}\n{}", standing.record);
            let small = random.below(earlier.answer.steps as usize + 1) as u64;
            allowance = match random.chance(stop_percent) {
                true => small,
                false => u64::MAX - small,
            };
            let terms = other_terms(&mut random, &model, &earlier, allowance);
            comparison.step(&image, &mut standing, terms.lend(), &model);
            steps += 1;
        }
        let Standing { record, tables } = &standing;
        let answer = record.five_numbers();
        match record.answer {
            2 => assert!(record.steps >= allowance, "{model}\n{record}"),
            3 => assert_eq!(record.held, rooms[0] as u64, "{model}"),
            4 => assert_eq!(record.level, rooms[1] as u64, "{model}"),
            _ => assert_right(&model, edition, &answer, tables),
        }
    }
    println!("{CHAINS} chains in any rooms: {}", comparison.seen);
    comparison.seen.assert_each_number(200);
    assert!(comparison.seen.times(5) > 10);
}

/// "A working record whose steps have reached or passed the step's allowance gets 2", whatever the
/// allowance was before; and as that ends the run, no larger one makes it go on.
#[test]
fn allowances_that_shrink_and_grow() {
    let mut comparison = Comparison::default();
    let model = rings(&[2, 3]);
    let image = model.image();
    let before = Tables::filled(&mut Random::seeded(132), 16, 16);
    let with = |allowance| Terms::<&[u64]>::plain(allowance);
    for made in 0..12 {
        let mut standing = comparison.begin(&image, &before, with(0), &model);
        for steps in 0..made {
            // One more than the steps that were made is enough for one more.
            let allowance = [steps + 1, u64::MAX, steps + 2][steps as usize % 3];
            assert_eq!(
                comparison.step(&image, &mut standing, with(allowance), &model),
                6
            );
        }
        for allowance in 0..=made {
            let mut stopped = standing.clone();
            let answer = comparison.step(&image, &mut stopped, with(allowance), &model);
            let expected = Record {
                answer: 2,
                pending: 0,
                ..standing.record
            };
            assert_eq!((answer, stopped.record), (2, expected), "{made} steps");
            assert_eq!(stopped.tables.cases, [0; 16]);
            assert_eq!(stopped.tables.symbols, [0; 16]);
            assert_eq!(stopped.tables.masks, standing.tables.masks);
            for allowance in [0, made, made + 1, u64::MAX] {
                let before = stopped.clone();
                let answer = comparison.step(&image, &mut stopped, with(allowance), &model);
                assert_eq!((answer, &stopped), (2, &before), "{made} steps");
            }
        }
        assert_eq!(
            comparison.step(&image, &mut standing, with(made + 1), &model),
            6
        );
    }
}

/// A hint and a way count at the step that they are lent to: C's block is the second step, and takes the
/// hint of that step alone, or grows its blocker by that step's way.
#[test]
fn terms_of_the_step_that_blocks() {
    let mut comparison = Comparison::default();
    let model = model_c();
    let image = model.image();
    let before = Tables::filled(&mut Random::seeded(133), 4, 4);
    let terms = |hints: &'static [u64], way| Terms {
        hints,
        way,
        ..Terms::plain(100)
    };
    for (others, of_block, blocker, accepted) in [
        (terms(&[4], 0), terms(&[], 0), 2, 0),
        (terms(&[], 0), terms(&[4], 0), 4, 1),
        (terms(&[], 1), terms(&[], 0), 2, 0),
        (terms(&[], 0), terms(&[], 1), 4, 0),
        (terms(&[4], 1), terms(&[2], 0), 2, 1),
        (terms(&[], 0), terms(&[2], 1), 2, 1),
        (terms(&[4, 4], 0), terms(&[6, 4], 0), 2, 0),
    ] {
        let mut standing = comparison.begin(&image, &before, others, &model);
        for step in 1..=6 {
            let terms = if step == 2 { of_block } else { others };
            comparison.step(&image, &mut standing, terms, &model);
        }
        let numbers = [1, 6, 2, 1, 1, 0, 1, accepted];
        let shown = format!("{of_block:?} after {others:?}");
        assert_eq!(standing.record.numbers(), numbers, "{shown}");
        assert_eq!(standing.tables.masks, [blocker, 0, 0, 0], "{shown}");
    }
}

/// Steps of another edition than the begin's: that of the begin alone says what a final start is worth.
#[test]
fn editions_of_steps() {
    let mut random = Random::seeded(134);
    let mut comparison = Comparison::default();
    for _ in 0..2_000 {
        let (model, _) = model_and_run(&mut random);
        let image = model.image();
        let before = Tables::filled(&mut random, 64, 64);
        let edition = random.pick(&EDITIONS);
        let terms = |edition| Terms::<&[u64]> {
            edition,
            ..Terms::plain(u64::MAX)
        };
        let expected = comparison.run(&image, &before, terms(edition), &model);
        let mut standing = comparison.begin(&image, &before, terms(edition), &model);
        while standing.record.is_working() {
            comparison.step(&image, &mut standing, terms(3 - edition), &model);
        }
        let mut again = standing.clone();
        comparison.step(&image, &mut again, terms(3 - edition), &model);
        assert!(standing == expected && again == expected, "{model}");
    }
}
