//! "Stop once every state is in": the backward set of a case by a symbol, and how many of the symbol's
//! rows are walked for it, against the tests' own count.

use afa_tests::afa::walk::Walker;
use afa_tests::afa::Library;
use afa_tests::compare::walk::Comparison;
use afa_tests::damage::damage;
use afa_tests::generate::walks::{case, Wanted};
use afa_tests::generate::{self, two_states};
use afa_tests::image::{
    all_states, broken_model_c, model_a, model_b, model_c, model_d, rings, Model, Row,
};
use afa_tests::machine;
use afa_tests::random::Random;
use afa_tests::rearrange::{repeated, shuffled};

/// Walks back by every symbol from every one of the cases.
fn walk_by_every_symbol(comparison: &mut Comparison, model: &Model, cases: &[u64]) {
    let image = model.image();
    for symbol in 0..model.symbols() as u64 {
        for &case in cases {
            comparison.ask(&image, symbol, case, model).expect("a walk");
        }
    }
}

fn every_case(states: usize) -> Vec<u64> {
    (0..=all_states(states)).collect()
}

#[test]
fn answers_known_beforehand() {
    let mut comparison = Comparison::default();
    let rows = [(0, 2), (1, 0), (2, 3), (0, 0), (2, 4), (1, 7)];
    let image = Model::new(3, 0, 0, &[&rows, &[(2, 0)], &[]]).image();
    for (symbol, case, answer) in [
        (0, 0, Ok([3, 6])),
        (0, 1, Ok([3, 6])),
        (0, 2, Ok([3, 6])),
        (0, 3, Ok([7, 3])),
        (0, 4, Ok([7, 5])),
        (0, 5, Ok([7, 5])),
        (0, 6, Ok([7, 5])),
        (0, 7, Ok([7, 3])),
        (1, 0, Ok([4, 1])),
        (1, 7, Ok([4, 1])),
        (2, 0, Ok([0, 0])),
        (2, 7, Ok([0, 0])),
        (3, 7, Err(32)),
    ] {
        comparison.expect(&image, symbol, case, answer);
    }
}

#[test]
fn every_case_of_known_models() {
    let mut comparison = Comparison::default();
    for model in [
        model_a(),
        model_b(),
        model_c(),
        model_d(),
        rings(&[2, 3]),
        rings(&[2, 3, 5]),
    ] {
        walk_by_every_symbol(&mut comparison, &model, &every_case(model.states));
    }
    let mut random = Random::seeded(91);
    let model = rings(&[2, 3, 5, 7]);
    let mut cases = vec![all_states(17), 0];
    cases.resize_with(1_000, || case(&mut random, 17, &model.rows[0]));
    walk_by_every_symbol(&mut comparison, &model, &cases);
    println!("known models: {}", comparison.seen);
    assert!(comparison.seen.by_the_last.walks > 50 && comparison.seen.never.walks > 1_000);
}

/// It is the only one, or stands before, between or behind others in whose rows all states come in.
#[test]
fn a_symbol_without_rows() {
    let mut comparison = Comparison::default();
    for states in 1..=64 {
        let come_in = |state| Row { state, case: 0 };
        let others: Vec<Row> = (0..states as u8).map(come_in).collect();
        for (symbols, place) in [(1, 0), (2, 0), (2, 1), (3, 1), (64, 0), (64, 40), (64, 63)] {
            let mut model = Model::plain(states, symbols, 0);
            model.rows.fill(others.clone());
            model.rows[place].clear();
            let image = model.image();
            for case in [0, 1, all_states(states), u64::MAX] {
                comparison.expect(&image, place as u64, case, Ok([0, 0]));
            }
        }
    }
}

/// Every symbol of up to 9 rows.
#[test]
fn one_state() {
    let mut comparison = Comparison::default();
    for count in 0..=9 {
        for cases in 0..1_u64 << count {
            let mut model = Model::plain(1, 1, count);
            for (place, row) in model.rows[0].iter_mut().enumerate() {
                row.case = cases >> place & 1;
            }
            let image = model.image();
            for case in [0, 1, u64::MAX - 1, u64::MAX] {
                let place = model.rows[0].iter().position(|row| row.case <= case % 2);
                let answer = match place {
                    Some(place) => [1, place as u64 + 1],
                    None => [0, count as u64],
                };
                comparison.expect(&image, 0, case, Ok(answer));
            }
        }
    }
    println!("one state: {}", comparison.seen);
}

/// Every symbol in which no row stands twice, its rows in order and in some others.
#[test]
fn two_states_in_every_way() {
    let mut random = Random::seeded(92);
    let mut comparison = Comparison::default();
    for i in (0..4096).step_by(16) {
        let model = two_states(i);
        walk_by_every_symbol(&mut comparison, &model, &every_case(2));
        for _ in 0..6 {
            let other = shuffled(&mut random, &model);
            walk_by_every_symbol(&mut comparison, &other, &every_case(2));
        }
    }
    println!("two states: {}", comparison.seen);
    comparison.seen.assert_each_walk(20);
}

/// Each is tried as it is, and with rows more and in another order, so that all states of large models
/// come in early too.
#[test]
fn random_models() {
    let mut random = Random::seeded(93);
    let mut comparison = Comparison::default();
    for _ in 0..120 {
        let model = generate::model(&mut random);
        let most = random.pick(&[1, 2, 3, 4, 40, 400]);
        let longer = repeated(&mut random, &model, most);
        for model in [model, shuffled(&mut random, &longer)] {
            let image = model.image();
            let walks = 60 / model.symbols() + 3;
            for (symbol, rows) in model.rows.iter().enumerate() {
                let mut cases = vec![0, all_states(model.states)];
                cases.resize_with(walks, || case(&mut random, model.states, rows));
                for case in cases {
                    comparison
                        .ask(&image, symbol as u64, case, &model)
                        .expect("a walk");
                }
            }
        }
    }
    println!("random models: {}", comparison.seen);
    comparison.seen.assert_each_walk(80);
}

/// Walks back from the case, and from it with states that the model does not have.
fn expect_wanted(comparison: &mut Comparison, random: &mut Random, wanted: Wanted) {
    let image = wanted.model(random).image();
    let beyond = random.number() & !all_states(wanted.states);
    for case in [wanted.case, wanted.case | beyond] {
        comparison.expect(&image, 1, case, Ok(wanted.numbers()));
    }
}

/// Cases of all kinds, from which rows count and, but for all states, others do not.
fn cases(random: &mut Random, states: usize) -> Vec<u64> {
    let all = all_states(states);
    let one = 1 << random.below(states);
    match states {
        1 => vec![0; 4],
        _ => vec![0, all, all & !one, all & random.number()],
    }
}

/// From the row at which it can be first to nine rows later, with no row behind it to twelve, or never.
#[test]
fn the_last_state_at_every_row() {
    let mut random = Random::seeded(94);
    let mut comparison = Comparison::default();
    for states in [1, 2, 3, 4, 5, 8, 16, 63, 64] {
        for rows in states - 1..=states + 12 {
            let stops = (states..=rows.min(states + 9)).map(Some);
            for all_in_after in stops.chain([None]) {
                for case in cases(&mut random, states) {
                    let wanted = Wanted {
                        states,
                        case,
                        last: random.below(states) as u8,
                        all_in_after,
                        rows,
                    };
                    expect_wanted(&mut comparison, &mut random, wanted);
                }
            }
        }
    }
    println!("the last state at every row: {}", comparison.seen);
    comparison.seen.assert_each_walk(30);
}

/// Each of every number of states comes in last, early or with the last row, or not at all.
#[test]
fn every_state_last() {
    let mut random = Random::seeded(95);
    let mut comparison = Comparison::default();
    for states in 1..=64 {
        for last in 0..states as u8 {
            let rows = states + random.within(0..=4);
            let early = random.within(states..=rows);
            let cases = cases(&mut random, states);
            for all_in_after in [Some(early), Some(rows), None] {
                let case = random.pick(&cases);
                let wanted = Wanted {
                    states,
                    case,
                    last,
                    all_in_after,
                    rows,
                };
                expect_wanted(&mut comparison, &mut random, wanted);
            }
        }
    }
    println!("every state last: {}", comparison.seen);
}

/// Numbers of rows that take more than a byte, up to all that an image can have.
#[test]
fn many_rows() {
    let mut random = Random::seeded(96);
    let mut comparison = Comparison::default();
    for (states, all_in_after, rows) in [
        (3, Some(255), 260),
        (3, Some(256), 260),
        (64, Some(257), 257),
        (5, None, 256),
        (64, None, 511),
        (64, Some(2_049), 4_090),
        (2, Some(4_090), 4_090),
        (64, None, 4_090),
    ] {
        let wanted = Wanted {
            states,
            case: all_states(states) - 1,
            last: random.below(states) as u8,
            all_in_after,
            rows,
        };
        expect_wanted(&mut comparison, &mut random, wanted);
    }
    let most = Model::plain(2, 1, 4096);
    comparison.expect(&most.image(), 0, 3, Ok([1, 4096]));
}

/// Row cases have none of them.
#[test]
fn bits_at_n_or_above_change_nothing() {
    let mut random = Random::seeded(97);
    let mut comparison = Comparison::default();
    for states in 1..64 {
        let mut model = Model::plain(states, 1, 0);
        model.rows[0].extend((0..2 * states).map(|place| Row {
            state: (place % states) as u8,
            case: random.number() & random.number() & all_states(states),
        }));
        let image = model.image();
        let within = case(&mut random, states, &model.rows[0]);
        let beyond = !all_states(states);
        let answer = comparison.ask(&image, 0, within, &model);
        for more in [
            1 << states,
            1 << 63,
            beyond,
            beyond & random.number(),
            beyond & random.number(),
        ] {
            comparison.expect(&image, 0, within | more, answer);
        }
    }
}

/// Those that would be known if they were cut down to 8, 16, 32 or 63 bits among them.
#[test]
fn symbols_of_k_or_above() {
    let mut comparison = Comparison::default();
    for symbols in [1, 2, 3, 8, 31, 32, 33, 63, 64] {
        let image = Model::plain(1, symbols, 3 * symbols).image();
        let k = symbols as u64;
        let mut unknown = vec![k, k + 1, k | 64, k | 128, 255, u64::MAX - 1, u64::MAX];
        for known in 0..k {
            comparison.expect(&image, known, 1, Ok([1, 1]));
            unknown.extend([8, 16, 32, 63].map(|bits| known + (1 << bits)));
        }
        for symbol in unknown {
            for case in [0, 1, u64::MAX] {
                comparison.expect(&image, symbol, case, Err(32));
            }
        }
    }
}

/// Each check of an image broken or not, in all ways, with symbols that are known and such that are not.
#[test]
fn the_image_comes_before_the_symbol() {
    let mut comparison = Comparison::default();
    for broken in 0..1 << 7 {
        let is_broken = |number: u64| broken >> (number - 21) & 1 == 1;
        let image = broken_model_c(is_broken, 4, 65, 0);
        let first = (21..=27).find(|&number| is_broken(number));
        for (symbol, answer) in [
            (0, Ok([0, 1])),
            (1, Ok([6, 2])),
            (2, Err(32)),
            (256, Err(32)),
            (u64::MAX, Err(32)),
        ] {
            comparison.expect(&image, symbol, 1, first.map_or(answer, Err));
            comparison.expect(&image[..19], symbol, 1, Err(20));
        }
    }
}

#[test]
fn damaged_images() {
    let mut random = Random::seeded(98);
    let mut comparison = Comparison::default();
    let valid: Vec<Vec<u8>> = (0..100)
        .map(|_| generate::model(&mut random).image())
        .collect();
    for _ in 0..4_000 {
        let mut image = valid[random.below(valid.len())].clone();
        let k = u64::from(image[1]);
        let damages = random.pick(&[1, 1, 1, 2, 3]);
        let origin = damage(&mut image, &mut random, damages);
        // The last would give 32 if the image were not refused before.
        for symbol in [random.number() % k, k - 1, 64 | random.number()] {
            let _ = comparison.ask(&image, symbol, random.number() | random.number(), &origin);
        }
    }
    println!("damaged images: {}", comparison.seen);
    let refused = comparison.seen.refused;
    assert!((20..28).chain([32]).all(|number| refused[&number] > 300));
}

/// docs/FORMAT.md: "A word is accepted where F, taken back by its symbols from last to first, contains
/// I."
#[test]
fn words_taken_back_by_walks() {
    let mut random = Random::seeded(99);
    let mut library = Library::new();
    let mut walker = Walker::new();
    let mut answers = [0_usize; 2];
    for _ in 0..400 {
        let mut model = generate::model(&mut random);
        let mut word = generate::word(&mut random, model.symbols());
        word.truncate(25);
        generate::aim(&mut random, &mut model, &word);
        let image = model.image();
        let back = |case, &symbol: &u8| {
            let (number, [set, _]) = walker.walk(&image, u64::from(symbol), case);
            assert_eq!(number, 0, "{model}, word {word:?}");
            set
        };
        let set = word.iter().rev().fold(model.final_set, back);
        let accepted = u64::from(model.initial & !set == 0);
        let answered = [
            library.accepts(&image, &word),
            machine::accepts(&image, &word),
        ];
        assert_eq!(answered, [accepted; 2], "{model}, word {word:?}");
        answers[accepted as usize] += 1;
    }
    println!("words by walks, not accepted and accepted: {answers:?}");
    assert!(answers[0] > 100 && answers[1] > 100);
}
