//! When blockers entered: "the count of steps including the block that made it; rising doesn't alter
//! it". As blockers enter at the end and the rest close up, the numbers rise in table order.

use afa_tests::compare::run::Comparison;
use afa_tests::generate::runs::{affordable_steps, lent, run_model, Earlier};
use afa_tests::generate::stops::for_want_of_steps;
use afa_tests::image::Model;
use afa_tests::random::Random;
use afa_tests::tables::{Answer, Blocker, Lent, Tables, Terms};

const MODELS: usize = 8_000;

/// Strictly rising, at least 1 and at most the steps made, and 0 in all places after them.
fn assert_in_order(model: &Model, answer: &Answer, after: &Tables) {
    let (held, free) = after.entered.split_at(answer.blockers as usize);
    let shown = || format!("{model}\n{answer:?}\nentered {held:?}");
    assert!(held.is_sorted_by(|one, next| one < next), "{}", shown());
    let bounds = 1..=answer.steps;
    assert!(held.iter().all(|at| bounds.contains(at)), "{}", shown());
    assert!(free.iter().all(|&number| number == 0), "{}", shown());
}

#[test]
fn in_table_order() {
    let mut random = Random::seeded(71);
    let mut comparison = Comparison::default();
    let (mut models, mut several, mut falls) = (0, 0, 0);
    while models < MODELS {
        let model = run_model(&mut random);
        let image = model.image();
        let affordable = affordable_steps(&model, 100_000);
        let earlier = Earlier::of_either_way(&mut random, &image, affordable);
        if earlier.answer.steps < 6 {
            continue;
        }
        models += 1;
        for _ in 0..3 {
            let lent = lent(&mut random, &model, &earlier, affordable);
            let (answer, after) = comparison.run(&image, &lent, &model);
            assert_in_order(&model, &answer, &after);
            let held = after.blockers(answer.blockers);
            several += usize::from(held.len() > 1);
            let falling = |pair: &&[Blocker]| pair[0].level > pair[1].level;
            falls += held.windows(2).filter(falling).count();
        }
    }
    println!(
        "{several} runs with several blockers, {falls} times the next has a lower level: {}",
        comparison.seen
    );
    comparison.seen.assert_each_number(300);
    assert!(several > 8_000 && falls > 8_000);
}

/// The blockers after so many steps.
fn blockers_after(steps: u64, model: &Model) -> Vec<Blocker> {
    let lent = Lent {
        before: Tables::filled(&mut Random::seeded(72), 8, 8),
        terms: Terms::plain(steps),
    };
    let (answer, after) = Comparison::default().run(&model.image(), &lent, model);
    assert_eq!((answer.number, answer.steps), (2, steps), "{model}");
    assert_in_order(model, &answer, &after);
    after.blockers(answer.blockers)
}

/// As mask, level and the step at which it entered.
fn expect(model: &Model, steps: u64, expected: &[(u64, u32, u64)]) {
    let blocker = |&(mask, level, entered): &(u64, u32, u64)| Blocker {
        mask,
        level,
        entered,
    };
    let expected: Vec<Blocker> = expected.iter().map(blocker).collect();
    assert_eq!(
        blockers_after(steps, model),
        expected,
        "{model}, {steps} steps"
    );
}

/// Step 27 closes level 5. 10, 9 and 2 rise, and as 9 comes to the level of 1, which stands before it, 1
/// leaves.
#[test]
fn one_leaves_before_those_that_rise() {
    let rows: [&[(u8, u64)]; 2] = [
        &[(0, 4), (1, 1), (2, 2), (3, 8)],
        &[(0, 8), (1, 4), (2, 5), (3, 2)],
    ];
    let model = Model::new(4, 14, 4, &rows);
    let before = [
        (13, 1, 2),
        (3, 1, 6),
        (12, 2, 7),
        (1, 4, 11),
        (10, 2, 13),
        (9, 3, 24),
        (2, 4, 25),
        (4, 5, 26),
    ];
    expect(&model, 26, &before);
    let after = [
        (13, 1, 2),
        (3, 1, 6),
        (12, 2, 7),
        (10, 3, 13),
        (9, 4, 24),
        (2, 5, 25),
        (4, 5, 26),
    ];
    expect(&model, 27, &after);
}

/// Step 15 closes level 3. 3 rises by two levels and 4 by one, and as 3 comes to the level of 1, which
/// stands behind it, 1 leaves.
#[test]
fn one_leaves_behind_one_that_rises() {
    let rows: [&[(u8, u64)]; 2] = [
        &[(0, 4), (1, 1), (2, 8), (3, 2)],
        &[(0, 8), (1, 4), (2, 1), (3, 2)],
    ];
    let model = Model::new(4, 11, 4, &rows);
    let before = [
        (13, 1, 2),
        (3, 1, 6),
        (12, 2, 7),
        (1, 2, 11),
        (10, 2, 13),
        (4, 3, 14),
    ];
    expect(&model, 14, &before);
    let after = [(13, 1, 2), (3, 3, 6), (12, 2, 7), (10, 2, 13), (4, 4, 14)];
    expect(&model, 15, &after);
}

/// Steps that two bytes do not hold.
#[test]
fn late() {
    let model = for_want_of_steps();
    let lent = Lent {
        before: Tables::filled(&mut Random::seeded(73), 256, 256),
        terms: Terms::plain(100_000),
    };
    let (answer, after) = Comparison::default().run(&model.image(), &lent, &model);
    assert_eq!((answer.number, answer.steps), (2, 100_000));
    assert_in_order(&model, &answer, &after);
    let last = after.entered[answer.blockers as usize - 1];
    assert!(
        last > 99_000,
        "the last of {} entered at {last}",
        answer.blockers
    );
}
