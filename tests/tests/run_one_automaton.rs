//! Runs on images that hold one automaton: lent the same, they do the same; lent other hints and rooms,
//! and by other ways, those of one edition agree on the verdict and on the word's length whenever both
//! have a verdict.

use afa_tests::compare::run::Comparison;
use afa_tests::generate::runs::{affordable_steps, lent, run_model, Earlier};
use afa_tests::image::Model;
use afa_tests::random::Random;
use afa_tests::rearrange::{repeated, shuffled, without_repeats};
use afa_tests::tables::EDITIONS;

const MODELS: usize = 1_500;

#[test]
fn order_and_repeats_do_not_matter() {
    let mut random = Random::seeded(51);
    let mut comparison = Comparison::default();
    let (mut models, mut agreed, mut differing, mut mixed) = (0, [0_usize; 6], 0, 0);
    while models < MODELS {
        let model = run_model(&mut random);
        let affordable = affordable_steps(&model, 200_000);
        let earlier = Earlier::of_either_way(&mut random, &model.image(), affordable);
        if earlier.answer.steps < 6 && !model.starts_final() {
            continue;
        }
        models += 1;
        let edition = random.pick(&EDITIONS);
        let loans = [0; 3].map(|_| {
            let mut lent = lent(&mut random, &model, &earlier, affordable);
            lent.terms.edition = edition;
            lent
        });
        let answers = loans
            .each_ref()
            .map(|lent| comparison.run(&model.image(), lent, &model));
        for other in other_images(&mut random, &model) {
            for (lent, expected) in loans.iter().zip(&answers) {
                let (answer, after) = comparison.run(&other.image(), lent, &other);
                assert!(
                    (answer, &after) == (expected.0, &expected.1),
                    "{model}\nas {other}\n{:?} and {answer:?}",
                    expected.0
                );
                for (other_lent, (another, _)) in loans.iter().zip(&answers) {
                    if let (Some(one), Some(two)) = (answer.verdict(), another.verdict()) {
                        assert_eq!(one, two, "{model}\nas {other}");
                        agreed[one.0 as usize] += 1;
                        differing += usize::from(answer != *another);
                        mixed += usize::from(lent.terms.way != other_lent.terms.way);
                    }
                }
            }
        }
    }
    println!(
        "{MODELS} models in 3 other images each: {agreed:?} pairs of runs with a verdict, by number, \
         {differing} of them with other steps or blockers, {mixed} by other ways: {}",
        comparison.seen
    );
    assert!(agreed[0] > 1_000 && agreed[1] > 1_000 && differing > 1_000);
    assert!(agreed[5] > 300 && mixed > 1_000);
}

fn other_images(random: &mut Random, model: &Model) -> [Model; 3] {
    let in_other_order = shuffled(random, model);
    [
        repeated(random, &in_other_order, 20),
        without_repeats(model),
        in_other_order,
    ]
}
