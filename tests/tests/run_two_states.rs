//! A run of every model with two states, one symbol and no row twice, in either edition and by either
//! way.

use afa_tests::compare::run::Comparison;
use afa_tests::generate::two_states;
use afa_tests::random::Random;
use afa_tests::search::assert_right;
use afa_tests::tables::{Lent, Tables, Terms, CHOICES};

/// With 2^2 places a room and 4^3 steps. Of 16 pairs of I and F there are 9 with I a subset of F.
#[test]
fn all_models() {
    const FINAL_STARTS: usize = 4096 / 16 * 9;
    let mut random = Random::seeded(21);
    for [edition, way] in CHOICES {
        let mut comparison = Comparison::default();
        for i in 0..4096 {
            let model = two_states(i);
            let terms = Terms {
                edition,
                way,
                ..Terms::plain(64)
            };
            let before = Tables::filled(&mut random, 4, 4);
            let (answer, after) = comparison.run(&model.image(), &Lent { before, terms }, &model);
            assert_right(&model, edition, &answer, &after);
            assert!(answer.steps <= 64, "{model}\n{answer:?}");
        }
        let seen = comparison.seen;
        println!("4096 models of two states, edition {edition}, way {way}: {seen}");
        let final_starts = if edition == 2 { FINAL_STARTS } else { 0 };
        assert_eq!(seen.times(5), final_starts);
        assert_eq!(seen.times(0) + seen.times(1), 4096 - final_starts);
        assert!(seen.times(0) > 500 && seen.times(1) > 500);
    }
}
