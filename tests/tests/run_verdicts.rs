//! Models of up to 8 states: with 2^n places a room and 4^(n+1) steps every run has a verdict of its
//! edition, with any hints and by either way, and it is the one that a search over all cases gives.

use afa_tests::compare::run::Comparison;
use afa_tests::generate::hints::{hints, passing_hints};
use afa_tests::generate::runs::{run_model_of, Earlier};
use afa_tests::image::{rings, Model};
use afa_tests::random::Random;
use afa_tests::search::assert_right;
use afa_tests::tables::{Answer, Lent, Tables, Terms, CHOICES, EDITIONS, WAYS};

const MODELS: usize = 12_000;

/// 4^(n+1) steps, without hints.
fn enough(model: &Model, [edition, way]: [u64; 2]) -> Terms {
    Terms {
        edition,
        way,
        ..Terms::plain(4 << (2 * model.states))
    }
}

fn assert_verdict(
    comparison: &mut Comparison,
    random: &mut Random,
    model: &Model,
    terms: Terms,
) -> Answer {
    let places = 1 << model.states;
    let before = Tables::filled(random, places, places);
    let lent = Lent { before, terms };
    let (answer, after) = comparison.run(&model.image(), &lent, model);
    assert_right(model, lent.terms.edition, &answer, &after);
    assert!(answer.steps <= lent.terms.allowance, "{model}\n{answer:?}");
    answer
}

#[test]
fn up_to_8_states() {
    let mut random = Random::seeded(41);
    let mut comparison = Comparison::default();
    let (mut models, mut long_words, mut differing) = (0, 0, 0);
    while models < MODELS {
        let (states, symbols) = (random.within(1..=8), random.within(1..=3));
        let model = run_model_of(&mut random, states, symbols);
        let earlier = Earlier::of_either_way(&mut random, &model.image(), u64::MAX);
        if earlier.answer.steps < 4 && random.chance(80) {
            continue;
        }
        models += 1;
        let edition = random.pick(&EDITIONS);
        let mut verdict = |random: &mut Random, way, hints| {
            let terms = Terms {
                hints,
                ..enough(&model, [edition, way])
            };
            assert_verdict(&mut comparison, random, &model, terms)
        };
        let plain = WAYS.map(|way| verdict(&mut random, way, Vec::new()));
        let hints = hints(&mut random, &model, &earlier.blocks);
        let way = random.pick(&WAYS);
        verdict(&mut random, way, hints);
        if models % 8 == 0 {
            let hints = passing_hints(&mut random, &model.image(), 60);
            let count = hints.len() as u64;
            let hinted = verdict(&mut random, way, hints);
            assert_eq!(hinted.hints_accepted, count, "{model}");
        }
        long_words += usize::from(plain[0].number == 1 && plain[0].level >= 4);
        differing += usize::from(plain[0] != plain[1]);
    }
    let seen = comparison.seen;
    println!(
        "{MODELS} models, {long_words} with a shortest word of 4 or more, {differing} with other steps \
         or blockers by the other way: {seen}"
    );
    assert!(seen.times(0) > 5_000 && seen.times(1) > 5_000 && seen.times(5) > 40);
    assert!(long_words > 500 && seen.by_hint > 2_000 && differing > 500);
    assert!(seen.left_before > 50 && seen.left_behind > 50);
}

/// Every model that has 3 states, one symbol and for each state one row, whose case has one state or
/// none, with every I and with every F.
#[test]
fn three_states_with_one_row_each() {
    let mut random = Random::seeded(42);
    let mut comparison = Comparison::default();
    for number in 0..4_usize.pow(3) * 64 {
        let case = |state: u32| [0, 1, 2, 4][number / 64 / 4_usize.pow(state) % 4];
        let rows = [0, 1, 2].map(|state| (state as u8, case(state)));
        let (initial, final_set) = (number as u64 % 8, number as u64 / 8 % 8);
        let model = Model::new(3, initial, final_set, &[&rows]);
        for choice in CHOICES {
            let terms = enough(&model, choice);
            assert_verdict(&mut comparison, &mut random, &model, terms);
        }
    }
    println!("three states with one row each: {}", comparison.seen);
}

/// Rings that are not coprime too.
#[test]
fn every_two_rings() {
    let mut random = Random::seeded(43);
    let mut comparison = Comparison::default();
    for one in 1..=7 {
        for other in 1..=8 - one {
            let model = rings(&[one, other]);
            for choice in CHOICES {
                let terms = enough(&model, choice);
                // In rings of one state the first is the last.
                let final_start = terms.edition == 2 && (one, other) == (1, 1);
                let answer = assert_verdict(&mut comparison, &mut random, &model, terms);
                let expected = if final_start { 5 } else { 1 };
                assert_eq!(answer.number, expected, "{model}");
                // Where both are at their last state, one before a common multiple.
                let length = answer.level as usize + 1;
                assert!(length.is_multiple_of(one) && length.is_multiple_of(other));
            }
        }
    }
}
