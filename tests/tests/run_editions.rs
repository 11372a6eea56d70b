//! The editions of a run: edition 1 answers a final start by 1 and edition 2 by 5, and in all else they
//! are alike. Every other edition is refused, in `run_choices`.

use afa_tests::afa::Library;
use afa_tests::compare::run::Comparison;
use afa_tests::generate::runs::{affordable_steps, lent, run_model, Earlier};
use afa_tests::generate::{self, aim};
use afa_tests::image::{model_a, model_b, model_c, model_d, rings, Model};
use afa_tests::random::Random;
use afa_tests::tables::{Answer, Lent, Tables, Terms, EDITIONS, WAYS};

/// The answer and the tables after it in each edition, all else being lent alike.
fn in_editions(comparison: &mut Comparison, model: &Model, lent: &Lent) -> [(Answer, Tables); 2] {
    EDITIONS.map(|edition| {
        let mut lent = lent.clone();
        lent.terms.edition = edition;
        comparison.run(&model.image(), &lent, model)
    })
}

/// 1 in edition 1 and 5 in edition 2, the other numbers 0, and every place 0.
fn expect_final_start(comparison: &mut Comparison, model: &Model, lent: &Lent) {
    let [blocker_room, _, _, word_room, _] = lent.before.lengths();
    let cleared = Tables::cleared(blocker_room, word_room);
    let [one, two] = in_editions(comparison, model, lent);
    for (number, (answer, after)) in [(1, one), (5, two)] {
        let expected = Answer::of_numbers([number, 0, 0, 0, 0]);
        assert_eq!(answer, expected, "{model}\n{:?}", lent.terms);
        assert!(after == cleared, "{model}\n{:?}\n{after:?}", lent.terms);
    }
}

/// The same numbers and places in both, which are answered.
fn expect_alike(comparison: &mut Comparison, model: &Model, lent: &Lent) -> (Answer, Tables) {
    let [one, two] = in_editions(comparison, model, lent);
    let terms = &lent.terms;
    assert_eq!(one.0, two.0, "{model}\n{terms:?}");
    assert!(one.1 == two.1, "{model}\n{terms:?}\n{one:?}\n{two:?}");
    two
}

/// No steps are needed, and no places.
#[test]
fn model_d_on_all_terms() {
    let mut random = Random::seeded(101);
    let mut comparison = Comparison::default();
    for (blocker_room, word_room) in [
        (0, 0),
        (0, 1),
        (1, 0),
        (1, 1),
        (9, 4),
        (256, 256),
        (65_536, 0),
        (0, 65_536),
    ] {
        for allowance in [0, 1, 2, 100_000, u64::MAX] {
            for hints in [vec![], vec![0], vec![1], vec![0; 9]] {
                let lent = Lent {
                    before: Tables::filled(&mut random, blocker_room, word_room),
                    terms: Terms {
                        hints,
                        way: random.pick(&WAYS),
                        ..Terms::plain(allowance)
                    },
                };
                expect_final_start(&mut comparison, &model_d(), &lent);
            }
        }
    }
    println!("model D: {}", comparison.seen);
}

/// Their starts are not final. Runs end by themselves or after any number of steps, and in rooms that
/// are too short too.
#[test]
fn other_known_models() {
    let mut random = Random::seeded(102);
    let mut comparison = Comparison::default();
    for (model, hints) in [
        (model_a(), &[][..]),
        (model_a(), &[4]),
        (model_b(), &[]),
        (model_c(), &[]),
        (model_c(), &[6]),
        (model_c(), &[4]),
        (rings(&[2, 3]), &[]),
        (rings(&[2, 3, 5]), &[]),
    ] {
        for (blocker_room, word_room) in [(0, 64), (64, 0), (1, 1), (4, 64), (64, 4), (64, 64)] {
            for allowance in (0..10).chain([100, 167, 168, 169, 218, 219, 220, u64::MAX]) {
                for way in WAYS {
                    let lent = Lent {
                        before: Tables::filled(&mut random, blocker_room, word_room),
                        terms: Terms {
                            hints: hints.to_vec(),
                            way,
                            ..Terms::plain(allowance)
                        },
                    };
                    expect_alike(&mut comparison, &model, &lent);
                }
            }
        }
    }
    println!("other known models: {}", comparison.seen);
    comparison.seen.assert_each_number(50);
}

/// Starts that are only just final or only just not, by one state of I: 5 comes exactly if the empty
/// word is accepted.
#[test]
fn starts_that_are_final_or_not() {
    let mut random = Random::seeded(103);
    let mut library = Library::new();
    let mut comparison = Comparison::default();
    let (mut final_starts, mut others) = (0, 0);
    for number in 0..8_000 {
        let mut model = match random.below(4) {
            0 => generate::model(&mut random),
            _ => run_model(&mut random),
        };
        aim(&mut random, &mut model, &[]);
        let affordable = affordable_steps(&model, 20_000);
        let earlier = Earlier::of_either_way(&mut random, &model.image(), affordable);
        let mut lent = lent(&mut random, &model, &earlier, affordable);
        if number % 400 == 0 {
            let places = random.pick(&[(65_536, 3), (3, 65_536)]);
            lent.before = Tables::filled(&mut random, places.0, places.1);
            lent.terms.hints.resize_with(65_536, || random.number());
            lent.terms.allowance = lent.terms.allowance.min(affordable);
        }
        if library.accepts(&model.image(), &[]) == 1 {
            expect_final_start(&mut comparison, &model, &lent);
            final_starts += 1;
        } else {
            let (answer, _) = expect_alike(&mut comparison, &model, &lent);
            assert_ne!(answer.number, 5, "{model}");
            others += 1;
        }
    }
    println!(
        "{final_starts} final starts, {others} others: {}",
        comparison.seen
    );
    assert!(final_starts > 3_000 && others > 3_000);
}

/// Runs that take some steps. A word that is found has a symbol or more, and is accepted.
#[test]
fn starts_that_are_not_final() {
    let mut random = Random::seeded(104);
    let mut library = Library::new();
    let mut comparison = Comparison::default();
    let mut models = 0;
    while models < 4_000 {
        let model = run_model(&mut random);
        let image = model.image();
        if model.starts_final() {
            continue;
        }
        models += 1;
        let affordable = affordable_steps(&model, 50_000);
        let earlier = Earlier::of_either_way(&mut random, &image, affordable);
        let lent = lent(&mut random, &model, &earlier, affordable);
        let (answer, after) = expect_alike(&mut comparison, &model, &lent);
        assert_ne!(answer.number, 5, "{model}");
        if answer.number == 1 {
            let word = &after.symbols[..answer.level as usize];
            assert!(!word.is_empty(), "{model}\n{answer:?}");
            assert_eq!(library.accepts(&image, word), 1, "{model}\n{word:?}");
        }
    }
    println!("{models} models in both editions: {}", comparison.seen);
    comparison.seen.assert_each_number(300);
    assert!(comparison.seen.by_hint > 1_000);
}
