//! Runs of random models of 1 to 64 states, with good and bad hints, in rooms that are too short or
//! just long enough, with allowances that end them anywhere, in either edition and by either way.

use afa_tests::compare::run::Comparison;
use afa_tests::generate::runs::{affordable_steps, lent, run_model, Earlier};
use afa_tests::random::Random;
use afa_tests::search::proves_itself;
use afa_tests::tables::Tables;

const MODELS: usize = 52_000;
const RUNS: usize = 3;

#[test]
fn random_models() {
    let mut random = Random::seeded(22);
    let mut comparison = Comparison::default();
    let (mut states, mut full_size, mut most_rows) = ([0_usize; 65], 0, 0);
    let (mut thrown_away, mut most_places) = (0, 0);
    for number in 0..MODELS {
        let (model, image, affordable, earlier) = loop {
            let model = run_model(&mut random);
            let image = model.image();
            // Now and then a run may take long.
            let row_tests = if number % 50 == 0 { 3_000_000 } else { 100_000 };
            let affordable = affordable_steps(&model, row_tests);
            let earlier = Earlier::of_either_way(&mut random, &image, affordable);
            // Most models answer at once, and few of those are enough.
            if earlier.answer.steps > 3 || random.chance(20) {
                break (model, image, affordable, earlier);
            }
            thrown_away += 1;
        };
        for run in 0..RUNS {
            let mut lent = lent(&mut random, &model, &earlier, affordable);
            if number % 1_000 == 0 {
                let [masks, _, _, cases, _] = lent.before.lengths();
                let (masks, cases) = random.pick(&[(65_536, cases), (masks, 65_536)]);
                lent.before = Tables::filled(&mut random, masks, cases);
                lent.terms.allowance = lent.terms.allowance.min(affordable);
                most_places += 1;
            }
            if number % 1_000 == 500 && run == 0 {
                lent.terms.hints.resize_with(65_536, || random.number());
                lent.terms.allowance = lent.terms.allowance.min(affordable);
            }
            let (answer, after) = comparison.run(&image, &lent, &model);
            if answer.is_verdict() {
                let edition = lent.terms.edition;
                let proved = proves_itself(&model, edition, &answer, &after);
                assert!(proved, "{model}, edition {edition}\n{answer:?}\n{after:?}");
                if earlier.answer.is_verdict() {
                    let expected = match (edition, model.starts_final()) {
                        (2, true) => 5,
                        _ => earlier.answer.number,
                    };
                    assert_eq!(answer.number, expected, "{model}, edition {edition}");
                }
            }
        }
        states[model.states] += 1;
        full_size += usize::from(model.states == 64 && model.symbols() == 64);
        most_rows = most_rows.max(model.row_count());
    }
    let seen = comparison.seen;
    println!(
        "{MODELS} models, {thrown_away} thrown away; {} of 64 states, {full_size} of them with 64 \
         symbols; at most {most_rows} rows; {most_places} with 65536 places",
        states[64]
    );
    println!("{seen}");
    seen.assert_each_number(4_000);
    assert!(seen.times(5) > 200);
    assert!(states[1..].iter().all(|&count| count > 30), "{states:?}");
    assert!(full_size > 10 && most_rows > 4_000);
    assert!(seen.by_hint > 20_000 && seen.room_by_leaving > 500);
    assert!(seen.left_before > 1_000 && seen.left_behind > 1_000);
    assert!(seen.opened_blocked > 100);
    assert!(seen.grown.iter().all(|&count| count > 100_000));
}
