//! Editions and ways that are unknown: each is refused under its number, the edition first, with every
//! table as it was, and none of them is read.

use afa_tests::afa::run::run_untouchable;
use afa_tests::compare::run::Comparison;
use afa_tests::generate::aim;
use afa_tests::generate::runs::{lent, run_model, unknown_edition, unknown_way, Earlier};
use afa_tests::guarded::{Untouchable, EDGES};
use afa_tests::image::{model_a, model_b, model_c, model_d, Model};
use afa_tests::random::Random;
use afa_tests::tables::{Answer, Lent, Tables, Terms, EDITIONS};

/// Numbers beside the known editions, and some that are one when cut down to 8, 16, 32 or 63 bits.
const UNKNOWN_EDITIONS: [u64; 18] = [
    0,
    3,
    4,
    5,
    36,
    (1 << 8) + 1,
    (1 << 8) + 2,
    (1 << 16) + 1,
    (1 << 16) + 2,
    1 << 32,
    (1 << 32) + 1,
    (1 << 32) + 2,
    (1 << 32) + 3,
    1 << 63,
    (1 << 63) + 1,
    (1 << 63) + 2,
    u64::MAX - 1,
    u64::MAX,
];

/// Numbers beside the known ways, and some that are one when cut down to 8, 16, 32 or 63 bits.
const UNKNOWN_WAYS: [u64; 19] = [
    2,
    3,
    4,
    5,
    37,
    1 << 8,
    (1 << 8) + 1,
    1 << 16,
    (1 << 16) + 1,
    1 << 31,
    (1 << 31) + 1,
    1 << 32,
    (1 << 32) + 1,
    (1 << 32) + 2,
    1 << 33,
    1 << 63,
    (1 << 63) + 1,
    u64::MAX - 1,
    u64::MAX,
];

/// An edition and a way, one of them unknown or both, with the number that refuses them.
fn refused_choices() -> Vec<([u64; 2], u64)> {
    let mut choices = Vec::new();
    for edition in UNKNOWN_EDITIONS {
        choices.extend([0, 1, 2, u64::MAX].map(|way| ([edition, way], 36)));
    }
    for way in UNKNOWN_WAYS {
        choices.extend(EDITIONS.map(|edition| ([edition, way], 37)));
    }
    choices
}

fn expect_refused(comparison: &mut Comparison, model: &Model, lent: &Lent, number: u64) {
    let (answer, after) = comparison.run(&model.image(), lent, model);
    let Terms { edition, way, .. } = lent.terms;
    let expected = Answer::of_numbers([number, 0, 0, 0, 0]);
    assert_eq!(answer, expected, "{model}, edition {edition}, way {way}");
    assert!(
        after == lent.before,
        "{model}, edition {edition}, way {way}"
    );
}

/// Whether the start is final or not, and whatever the allowance and the rooms.
#[test]
fn unknown_choices() {
    let mut random = Random::seeded(105);
    let mut comparison = Comparison::default();
    for ([edition, way], number) in refused_choices() {
        for model in [model_a(), model_b(), model_c(), model_d()] {
            for allowance in [0, 1, 100_000, u64::MAX] {
                let places = random.pick(&[0, 1, 4]);
                let lent = Lent {
                    before: Tables::filled(&mut random, places, places),
                    terms: Terms {
                        hints: vec![4; places],
                        allowance,
                        edition,
                        way,
                    },
                };
                expect_refused(&mut comparison, &model, &lent, number);
            }
        }
    }
    for number in 0..6_000 {
        let mut model = run_model(&mut random);
        if number % 2 == 0 {
            aim(&mut random, &mut model, &[]);
        }
        let earlier = Earlier::of_either_way(&mut random, &model.image(), 8);
        let mut lent = lent(&mut random, &model, &earlier, 8);
        if number % 400 == 0 {
            lent.before = Tables::filled(&mut random, 65_536, 65_536);
        }
        let known = lent.terms.edition;
        lent.terms.edition = unknown_edition(&mut random);
        expect_refused(&mut comparison, &model, &lent, 36);
        lent.terms.way = unknown_way(&mut random);
        expect_refused(&mut comparison, &model, &lent, 36);
        lent.terms.edition = known;
        expect_refused(&mut comparison, &model, &lent, 37);
    }
    println!("unknown editions and ways: {}", comparison.seen);
}

/// Tables and hints are not even read.
#[test]
fn unknown_choices_touch_nothing() {
    let memory = Untouchable::with_room(65_536 * size_of::<u64>());
    for model in [model_c(), model_d()] {
        let image = model.image();
        for (choice, number) in refused_choices() {
            for places in [0, 4, 65_536] {
                for edge in EDGES {
                    let (lengths, mut counts) = ([places; 6], [7; 4]);
                    let answered =
                        run_untouchable(&image, lengths, choice, &memory, edge, &mut counts);
                    let lent = format!("{model}, edition and way {choice:?}, {places} places");
                    assert_eq!((answered, counts), (number, [0; 4]), "{lent}");
                }
            }
        }
    }
}
