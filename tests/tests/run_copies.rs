//! Models of independent parts: copies of one side by side, each with events of its own. What the ways and
//! the numbers of the states make of them is known.

use afa_tests::acceptance::backward_set;
use afa_tests::compare::run::Comparison;
use afa_tests::generate::copies::{
    copies, first_mended, made_alone, made_backwards, mended_stall, numbered_backwards,
    side_by_side, stall,
};
use afa_tests::image::Model;
use afa_tests::machine::{observed_run, Event};
use afa_tests::random::Random;
use afa_tests::tables::{Answer, Lent, Tables, Terms};

/// A run in rooms of 1,024 places.
fn expect(model: &Model, terms: Terms, numbers: [u64; 5]) {
    let lent = Lent {
        before: Tables::filled(&mut Random::seeded(1), 1_024, 1_024),
        terms,
    };
    let (answer, _) = Comparison::default().run(&model.image(), &lent, model);
    assert_eq!(answer, Answer::of_numbers(numbers), "{model}");
}

/// Without hints.
fn by_way(way: u64) -> Terms {
    Terms {
        way,
        ..Terms::plain(1 << 22)
    }
}

/// A word of two copies is one of each, in any order; and so on.
#[test]
fn by_each_way() {
    for (model, by_states, by_sets) in [
        (copies(1), [1, 66, 6, 20, 0], [1, 160, 6, 18, 0]),
        (copies(2), [1, 622, 12, 198, 0], [1, 10_360, 12, 269, 0]),
    ] {
        expect(&model, by_way(0), by_states);
        expect(&model, by_way(1), by_sets);
    }
    assert_eq!(copies(1), stall());
}

/// Why way 1 takes so long on these models. Whatever X is, some event of each copy leads back from X into X,
/// so that b is X, and forbidden is the case of each row of the event whose state is outside X. By an event
/// of another copy that is the state itself: so it is picked, and the blocker is X.
#[test]
fn hitting_sets_of_independent_parts() {
    for count in 2..=4 {
        let model = copies(count);
        let mut grown = 0;
        let mut tables = Tables::cleared(1_024, 1_024);
        let terms = by_way(1);
        observed_run(&model.image(), tables.lend(), terms.lend(), |event| {
            if let Event::Grown {
                pending, blocker, ..
            } = event
            {
                assert_eq!(pending, blocker, "{count} copies");
                for copy in 0..count as u8 {
                    let mut events = 8 * copy..8 * copy + 8;
                    let inside = |event| backward_set(&model, event, pending) & !pending == 0;
                    assert!(events.any(inside), "{count} copies, {copy}");
                }
                grown += 1;
            }
        });
        assert!(grown > 1_000, "{count} copies: {grown}");
    }
}

/// One of the copies has the mend, which is enough for all. Where it comes first, way 0 takes 45,050 steps;
/// numbered otherwise, or with hints, it takes as many as the mended copy alone.
#[test]
fn order_is_luck() {
    let alone = mended_stall();
    let model = first_mended(4);
    let backwards = numbered_backwards(&model);
    assert_eq!(numbered_backwards(&backwards), model);
    expect(&alone, by_way(0), [0, 54, 6, 8, 0]);
    let last = side_by_side(&[stall(), stall(), stall(), mended_stall()]);
    expect(&last, by_way(0), [0, 54, 6, 8, 0]);
    expect(&numbered_backwards(&alone), by_way(0), [0, 103, 7, 11, 0]);
    expect(&backwards, by_way(0), [0, 103, 7, 11, 0]);

    // Each blocker that was made there passes here at the same block.
    let with = |hints| Terms { hints, ..by_way(0) };
    let terms = with(made_backwards(&model));
    assert_eq!(terms.hints.len(), 48);
    expect(&model, terms, [0, 103, 7, 11, 48]);
    expect(&model, with(made_alone(&model)), [0, 54, 6, 8, 24]);
}
