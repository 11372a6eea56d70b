//! The machine alone, without the library: numbers and blockers that are known beforehand, the machine
//! without the table of when blockers entered, begin and steps, what an edition changes, and verdicts by
//! the search.

use afa_tests::generate::aim;
use afa_tests::generate::hints::hints;
use afa_tests::generate::runs::{
    affordable_steps, lent, run_model, run_model_of, unknown_edition, unknown_way, Earlier,
};
use afa_tests::image::{model_a, model_b, model_c, model_d, rings};
use afa_tests::machine::{begin, run, run_without_entered, step};
use afa_tests::random::Random;
use afa_tests::search::assert_right;
use afa_tests::tables::{Answer, Blocker, Tables, Terms, EDITIONS, WAYS};

#[test]
fn known_numbers() {
    for (way, model, hints, numbers) in [
        (0, model_a(), &[][..], [0, 3, 1, 1, 0]),
        (0, model_b(), &[], [1, 2, 1, 0, 0]),
        (0, model_c(), &[], [1, 6, 2, 1, 0]),
        (0, model_c(), &[6], [1, 6, 2, 1, 0]),
        (0, model_c(), &[4], [1, 6, 2, 1, 1]),
        (0, rings(&[2, 3, 5]), &[], [1, 219, 29, 61, 0]),
        (0, rings(&[2, 3, 5, 7]), &[], [1, 1901, 209, 490, 0]),
        (1, model_a(), &[], [0, 3, 1, 1, 0]),
        (1, model_b(), &[], [1, 2, 1, 0, 0]),
        (1, model_c(), &[], [1, 6, 2, 1, 0]),
        (1, model_c(), &[6], [1, 6, 2, 1, 0]),
        (1, model_c(), &[2], [1, 6, 2, 1, 1]),
        (1, rings(&[2, 3, 5]), &[], [1, 168, 29, 34, 0]),
    ] {
        for edition in EDITIONS {
            let mut tables = Tables::cleared(1024, 1024);
            let terms = Terms {
                hints,
                edition,
                way,
                ..Terms::plain(1 << 22)
            };
            let answer = run(&model.image(), tables.lend(), terms);
            let expected = Answer::of_numbers(numbers);
            assert_eq!(answer, expected, "{model}, edition {edition}, way {way}");
        }
    }
}

/// D's start is final.
#[test]
fn known_numbers_of_d() {
    for (edition, way, number) in [
        (1, 0, 1),
        (1, 1, 1),
        (2, 0, 5),
        (2, 1, 5),
        (0, 0, 36),
        (3, 1, 36),
        (3, 2, 36),
        (1, 2, 37),
        (2, 3, 37),
    ] {
        for allowance in [0, 1, 100] {
            let terms = Terms {
                edition,
                way,
                ..Terms::plain(allowance)
            };
            let mut tables = Tables::cleared(8, 8);
            let answer = run(&model_d().image(), tables.lend(), terms);
            let expected = Answer::of_numbers([number, 0, 0, 0, 0]);
            assert_eq!(answer, expected, "edition {edition}, way {way}");
        }
    }
}

#[test]
fn known_blockers() {
    for (way, model, hints, blocker) in [
        (0, model_a(), &[][..], (4, 2, 2)),
        (0, model_c(), &[], (2, 1, 2)),
        (0, model_c(), &[6], (2, 1, 2)),
        (0, model_c(), &[4], (4, 1, 2)),
        (1, model_a(), &[], (4, 2, 2)),
        (1, model_c(), &[], (4, 1, 2)),
        (1, model_c(), &[6], (4, 1, 2)),
        (1, model_c(), &[2], (2, 1, 2)),
    ] {
        let mut tables = Tables::filled(&mut Random::seeded(12), 8, 8);
        let terms = Terms {
            hints,
            way,
            ..Terms::plain(100)
        };
        let answer = run(&model.image(), tables.lend(), terms);
        let (mask, level, entered) = blocker;
        let blocker = Blocker {
            mask,
            level,
            entered,
        };
        assert_eq!(tables.blockers(answer.blockers), [blocker], "{model}");
        assert_eq!(tables.entered[1..], [0; 7], "{model}");
    }
}

/// The benchmark's machine does the same and leaves the third table alone.
#[test]
fn without_entered() {
    let mut random = Random::seeded(13);
    let mut by_number = [0_usize; 6];
    let mut most_blockers = 0;
    for _ in 0..6_000 {
        let model = run_model(&mut random);
        let image = model.image();
        let affordable = affordable_steps(&model, 50_000);
        let earlier = Earlier::of_either_way(&mut random, &image, affordable);
        let lent = lent(&mut random, &model, &earlier, affordable);
        let mut with = lent.before.clone();
        let answer = run(&image, with.lend(), lent.terms.lend());
        let mut without = lent.before.clone();
        let other = run_without_entered(&image, without.lend(), lent.terms.lend());
        assert_eq!(answer, other, "{model}");
        assert_eq!(without.entered, lent.before.entered, "{model}");
        without.entered.clone_from(&with.entered);
        assert_eq!(without, with, "{model}");
        by_number[answer.number as usize] += 1;
        most_blockers = most_blockers.max(answer.blockers);
    }
    println!(
        "6000 models without the third table: {by_number:?}, at most {most_blockers} blockers"
    );
    assert!(by_number[..5].iter().all(|&count| count > 100));
    assert!(by_number[5] > 30 && most_blockers > 50);
}

/// Begin, and steps that are made of nothing but record and tables, lead to the run's end. Until then the
/// places that are not in use are 0.
#[test]
fn begin_and_steps() {
    let mut random = Random::seeded(15);
    let mut by_number = [0_usize; 6];
    for _ in 0..6_000 {
        let model = run_model(&mut random);
        let image = model.image();
        let affordable = affordable_steps(&model, 50_000);
        let earlier = Earlier::of_either_way(&mut random, &image, affordable);
        let lent = lent(&mut random, &model, &earlier, affordable);
        let mut tables = lent.before.clone();
        let terms = lent.terms.lend();
        let mut record = begin(&image, tables.lend(), terms);
        while record.is_working() {
            let (held, pending) = (record.held as usize, record.pending as usize);
            assert!(tables.masks[held..].iter().all(|&mask| mask == 0));
            assert!(tables.levels[held..].iter().all(|&level| level == 0));
            assert!(tables.entered[held..].iter().all(|&entered| entered == 0));
            assert!(tables.cases[pending..].iter().all(|&case| case == 0));
            assert!(tables.symbols[pending..].iter().all(|&symbol| symbol == 0));
            let answer = step(&image, tables.lend(), terms, &mut record);
            assert_eq!(answer, record.answer, "{model}");
        }
        let mut after = lent.before.clone();
        let answer = run(&image, after.lend(), terms);
        assert_eq!(record.five_numbers(), answer, "{model}");
        assert_eq!(tables, after, "{model}");
        by_number[answer.number as usize] += 1;
    }
    println!("6000 models by begin and steps: {by_number:?}");
    assert!(by_number[..5].iter().all(|&count| count > 100));
}

/// The edition changes the number of a final start and nothing else, and one that there is not is
/// refused, as is a way that there is not.
#[test]
fn editions() {
    let mut random = Random::seeded(14);
    let (mut final_starts, mut by_number) = (0_usize, [0_usize; 5]);
    for _ in 0..6_000 {
        let mut model = run_model(&mut random);
        if random.chance(50) {
            aim(&mut random, &mut model, &[]);
        }
        let image = model.image();
        let affordable = affordable_steps(&model, 50_000);
        let earlier = Earlier::of_either_way(&mut random, &image, affordable);
        let lent = lent(&mut random, &model, &earlier, affordable);
        let run_by = |edition, way| {
            let mut tables = lent.before.clone();
            let terms = Terms {
                edition,
                way,
                ..lent.terms.lend()
            };
            let answer = run(&image, tables.lend(), terms);
            (answer, tables)
        };
        let [one, two] = EDITIONS.map(|edition| run_by(edition, lent.terms.way));
        if model.starts_final() {
            let [masks, _, _, cases, _] = lent.before.lengths();
            let cleared = Tables::cleared(masks, cases);
            for (number, (answer, after)) in [(1, one), (5, two)] {
                let expected = Answer::of_numbers([number, 0, 0, 0, 0]);
                assert_eq!((answer, &after), (expected, &cleared), "{model}");
            }
            final_starts += 1;
        } else {
            assert_eq!(one, two, "{model}");
            by_number[one.0.number as usize] += 1;
        }
        let (edition, way) = (unknown_edition(&mut random), unknown_way(&mut random));
        for (edition, way, number) in [
            (edition, lent.terms.way, 36),
            (edition, way, 36),
            (lent.terms.edition, way, 37),
        ] {
            let refused = (Answer::refused(number), lent.before.clone());
            assert_eq!(run_by(edition, way), refused, "{model}");
        }
    }
    println!("6000 models in both editions: {final_starts} final starts, others {by_number:?}");
    assert!(final_starts > 1_000 && by_number.iter().all(|&count| count > 100));
}

#[test]
fn verdicts() {
    let mut random = Random::seeded(11);
    let mut verdicts = [0_usize; 6];
    let mut longest_word = 0;
    for _ in 0..6_000 {
        let (states, symbols) = (random.within(1..=10), random.within(1..=4));
        let model = run_model_of(&mut random, states, symbols);
        let image = model.image();
        let earlier = Earlier::of_either_way(&mut random, &image, u64::MAX);
        let places = 1 << states;
        let mut tables = Tables::filled(&mut random, places, places);
        let terms = Terms {
            hints: hints(&mut random, &model, &earlier.blocks),
            edition: random.pick(&EDITIONS),
            way: random.pick(&WAYS),
            ..Terms::plain(4 << (2 * states))
        };
        let answer = run(&image, tables.lend(), terms.lend());
        assert_right(&model, terms.edition, &answer, &tables);
        verdicts[answer.number as usize] += 1;
        if answer.number == 1 {
            longest_word = longest_word.max(answer.level);
        }
    }
    println!("6000 models by the search: {verdicts:?}, longest shortest word {longest_word}");
    assert!(verdicts[0] > 1_000 && verdicts[1] > 1_000 && longest_word >= 8);
    assert!(verdicts[5] > 40);
}
