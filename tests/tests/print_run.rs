//! "Let the desk read the run": the print of an accepted word's run, against the tests' own, and whether
//! what it shows is a run by the definition.

use afa_tests::acceptance::{word_backward_set, Runs, Start};
use afa_tests::afa::{self, Library};
use afa_tests::compare::print::{every_room, filling, rooms_about, two_rooms, Comparison, Rooms};
use afa_tests::damage::damage;
use afa_tests::generate::prints::{
    accept, choices, fill_up, leading_to, mixing, moving, telling_cases,
};
use afa_tests::generate::{self, every_word, two_states};
use afa_tests::guarded::{ReadOnly, Writable, EDGES};
use afa_tests::image::{
    all_states, broken_model_c, model_a, model_b, model_c, model_d, rings, Model, Row,
};
use afa_tests::random::Random;
use afa_tests::rearrange::{repeated, shuffled};
use std::slice;

/// Asks for the prints of the words in these rooms, and looks for the run that each shows. Answers 1 for
/// each that is printed, and the number in the print's place for each other.
fn print_words(
    comparison: &mut Comparison,
    model: &Model,
    words: &[Vec<u8>],
    rooms: Rooms,
) -> Vec<u64> {
    let image = model.image();
    let runs = Runs::new(model, Start::Initial);
    let print_word = |word: &Vec<u8>| match comparison.ask(&image, word, rooms, model) {
        Ok(print) => {
            comparison.assert_run(&runs, word, &print, model);
            1
        }
        Err(number) => number,
    };
    words.iter().map(print_word).collect()
}

fn random_word(random: &mut Random, symbols: usize, length: usize) -> Vec<u8> {
    (0..length).map(|_| random.below(symbols) as u8).collect()
}

#[test]
fn prints_known_beforehand() {
    let mut comparison = Comparison::default();
    let [a, b, c, d] = [model_a(), model_b(), model_c(), model_d()].map(|model| model.image());
    for (image, word, expected) in [
        (&c, &[0, 1][..], Ok("1\n0 6\n1 0\n")),
        (&c, &[0, 1, 0, 1], Ok("1\n0 6\n1 0\n0 0\n1 0\n")),
        (&c, &[], Err(0)),
        (&c, &[0], Err(0)),
        (&c, &[1, 0], Err(0)),
        (&c, &[2], Err(32)),
        (&c, &[0, 1, 2], Err(32)),
        (&c, &[2, 0, 1], Err(32)),
        (&c, &[0, 255, 1], Err(32)),
        (&d, &[], Ok("0\n")),
        (&d, &[0], Ok("0\n0 0\n")),
        (&d, &[0, 0], Ok("0\n0 0\n0 0\n")),
        (&d, &[1], Err(32)),
        (&b, &[0], Ok("1\n0 2\n")),
        (&b, &[], Err(0)),
        (&b, &[0, 0], Err(0)),
        (&a, &[], Err(0)),
        (&a, &[0, 1, 0], Err(0)),
    ] {
        comparison.expect(image, word, expected);
    }
}

/// The first in image order: not the least or the largest case, nor that of the fewest or most states.
#[test]
fn the_first_row_that_fits() {
    let mut comparison = Comparison::default();
    let rows = [(0, 9), (1, 1), (0, 4), (0, 2), (0, 6), (0, 0), (0, 6)];
    for (final_set, print) in [
        (6, "1\n0 4\n"),
        (2, "1\n0 2\n"),
        (4, "1\n0 4\n"),
        (8, "1\n0 0\n"),
        (9, "1\n0 9\n"),
        (15, "1\n0 9\n"),
    ] {
        let model = Model::new(4, 1, final_set, &[&rows]);
        comparison.expect(&model.image(), &[0], Ok(print));
    }
    // By symbol 0 both states of I have two rows that lead on; by symbol 1 only the states 2 and 5 do.
    let first: &[(u8, u64)] = &[(1, 8), (0, 16), (0, 12), (1, 32), (0, 4), (1, 36)];
    let second: &[(u8, u64)] = &[(2, 64), (5, 0), (2, 128), (5, 128), (2, 0)];
    let model = Model::new(8, 3, 128, &[first, second]);
    let image = model.image();
    comparison.expect(&image, &[0, 1], Ok("3\n0 36\n1 128\n"));
    comparison.expect(&image, &[0, 1, 1], Ok("3\n0 36\n1 0\n1 0\n"));
    comparison.expect(&image, &[0], Err(0));
    let model = Model::new(8, 3, 192, &[first, second]);
    comparison.expect(&model.image(), &[0, 1], Ok("3\n0 36\n1 64\n"));
}

/// Up to length 4, of their symbols and the first that they do not have, in every room.
#[test]
fn every_word_of_the_papers_models() {
    let mut comparison = Comparison::default();
    for model in [model_a(), model_b(), model_c(), model_d()] {
        let words = every_word(model.symbols() + 1, 4);
        print_words(&mut comparison, &model, &words, every_room);
    }
    println!("models A to D: {}", comparison.seen);
    comparison.seen.assert_each([0, 1, 32, 35], 40);
}

#[test]
fn every_model_of_two_states() {
    let mut comparison = Comparison::default();
    let words = every_word(1, 4);
    let unknown = [vec![1], vec![0, 1], vec![0, 0, 255, 0]];
    for i in 0..4096 {
        let model = two_states(i);
        print_words(&mut comparison, &model, &words, rooms_about);
        print_words(&mut comparison, &model, &unknown, two_rooms);
    }
    println!("4096 models of two states: {}", comparison.seen);
    let seen = comparison.seen;
    seen.assert_each([0, 1, 32, 35], 10_000);
    assert_eq!(seen.runs, seen.found);
    assert!(seen.first_matters > 3_000 && seen.moved > 5_000);
}

/// Models with their rows in other orders, and some more than once.
#[test]
fn rows_in_other_orders() {
    let mut random = Random::seeded(101);
    let mut comparison = Comparison::default();
    let (mut alike, mut other) = (0, 0);
    for _ in 0..600 {
        let (states, symbols) = (random.within(2..=6), random.within(1..=3));
        let mut model = choices(&mut random, states, symbols);
        let length = random.within(1..=8);
        let word = random_word(&mut random, symbols, length);
        accept(&mut random, &mut model, &word);
        let print = comparison.ask(&model.image(), &word, two_rooms, &model);
        for _ in 0..3 {
            let more = repeated(&mut random, &model, 6);
            let turned = shuffled(&mut random, &more);
            let turned_print = comparison.ask(&turned.image(), &word, two_rooms, &turned);
            assert!(print.is_ok() && turned_print.is_ok());
            let same = usize::from(print == turned_print);
            alike += same;
            other += 1 - same;
        }
    }
    println!("{alike} prints alike, {other} not: {}", comparison.seen);
    assert!(alike > 200 && other > 600);
}

/// Of 1 to 64 states and symbols, of every kind.
#[test]
fn random_models() {
    let mut random = Random::seeded(102);
    let mut library = Library::new();
    let mut comparison = Comparison::default();
    for _ in 0..2_500 {
        let mut model = generate::model(&mut random);
        let symbols = model.symbols();
        let mut words: Vec<Vec<u8>> = (0..4)
            .map(|_| generate::word(&mut random, symbols))
            .collect();
        match random.below(3) {
            0 => accept(&mut random, &mut model, &words[0]),
            1 => generate::aim(&mut random, &mut model, &words[0]),
            _ => {}
        }
        words.push(generate::unknown_word(&mut random, symbols));
        let image = model.image();
        let numbers = print_words(&mut comparison, &model, &words, rooms_about);
        // In rooms that are long enough the word test knows them.
        let tested = words.iter().map(|word| library.accepts(&image, word));
        assert_eq!(numbers, tested.collect::<Vec<u64>>(), "{model}, {words:?}");
    }
    println!("random models: {}", comparison.seen);
    let seen = comparison.seen;
    seen.assert_each([0, 1, 32, 35], 10_000);
    assert!(seen.longest > 300);
    assert!(seen.first_matters > 1_000 && seen.moved > 20_000);
}

/// Models of few and of many states in which several rows of a state fit.
#[test]
fn several_rows_that_fit() {
    let mut random = Random::seeded(103);
    let mut comparison = Comparison::default();
    for round in 0..900 {
        let states = match round % 3 {
            0 => random.within(2..=6),
            1 => random.within(7..=31),
            _ => random.within(32..=64),
        };
        let symbols = random.within(1..=12);
        let mut model = choices(&mut random, states, symbols);
        let length = random.within(1..=30);
        let word = random_word(&mut random, symbols, length);
        accept(&mut random, &mut model, &word);
        let rooms = if length < 4 { every_room } else { rooms_about };
        print_words(&mut comparison, &model, &[word], rooms);
    }
    println!("several rows that fit: {}", comparison.seen);
    let seen = comparison.seen;
    assert_eq!([seen.runs, seen.found], [900; 2]);
    assert!(seen.first_matters > 5_000 && seen.moved > 5_000);
}

/// Models in which the row that fits depends on all that remains of the word.
#[test]
fn all_that_remains_matters() {
    let mut random = Random::seeded(104);
    let mut comparison = Comparison::default();
    let mut changed = 0;
    for bits in 1..=31 {
        for _ in 0..12 {
            let symbols = random.within(1..=4);
            let mut model = mixing(&mut random, bits, symbols);
            let length = random.within(1..=40);
            let mut word = random_word(&mut random, symbols, length);
            accept(&mut random, &mut model, &word);
            print_words(&mut comparison, &model, slice::from_ref(&word), rooms_about);
            // By another last symbol the word is mostly not accepted from the same case.
            word[length - 1] = (word[length - 1] + 1) % symbols as u8;
            let image = model.image();
            changed += usize::from(comparison.ask(&image, &word, rooms_about, &model).is_err());
        }
    }
    println!(
        "all that remains: {}; {changed} not accepted by another last symbol",
        comparison.seen
    );
    let seen = comparison.seen;
    seen.assert_each([0, 1, 35], 300);
    assert!(changed > 150 && seen.first_matters > 1_000 && seen.moved > 5_000);
}

/// Up to all that an image can have, most of which never fit.
#[test]
fn many_rows() {
    let mut random = Random::seeded(111);
    let mut comparison = Comparison::default();
    for row_count in [255, 256, 257, 513, 1_024, 1_025, 2_049, 4_095, 4_096] {
        for (bits, symbols) in [(2, 1), (31, 1), (20, 3)] {
            let mut model = mixing(&mut random, bits, symbols);
            fill_up(&mut random, &mut model, row_count);
            let word = random_word(&mut random, symbols, 9);
            accept(&mut random, &mut model, &word);
            print_words(&mut comparison, &model, &[word], rooms_about);
        }
    }
    println!("many rows: {}", comparison.seen);
    assert!(comparison.seen.first_matters > 40 && comparison.seen.moved > 100);
}

/// Each of n states leads to each of them, while the others that are in I let themselves go.
#[test]
fn every_state_to_every_state() {
    let mut random = Random::seeded(105);
    let mut comparison = Comparison::default();
    for states in [1, 2, 8, 31, 32, 33, 63, 64] {
        let let_go = |state| Row { state, case: 0 };
        let mut rows: Vec<Row> = (0..states as u8).map(let_go).collect();
        random.shuffle(&mut rows);
        for place in 0..states {
            for target in 0..states {
                let mut model = Model::plain(states, 1, 0);
                model.rows[0] = rows.clone();
                model.rows[0][place].case = 1 << target;
                model.initial = 1 << rows[place].state | random.number() & all_states(states);
                model.final_set = 1 << target;
                let print = format!("{}\n0 {}\n", model.initial, model.final_set);
                let answer = comparison.ask(&model.image(), &[0], two_rooms, &model);
                assert_eq!(answer, Ok(print), "{model}");
            }
        }
    }
    println!("every state to every state: {}", comparison.seen);
}

/// Powers of ten and of two with their neighbours, each as I and as the case reached, in every room; and
/// one after the other.
#[test]
fn every_number_of_digits() {
    let mut random = Random::seeded(106);
    let mut comparison = Comparison::default();
    let mut cases = telling_cases();
    cases.extend((0..64).map(|shift| random.number() >> shift));
    for cases in cases.chunks(64) {
        let mut model = leading_to(cases);
        for (symbol, &case) in cases.iter().enumerate() {
            model.initial = case;
            let print = format!("{case}\n{symbol} {case}\n");
            comparison.expect(&model.image(), &[symbol as u8], Ok(&print));
        }
        let symbols = (0..cases.len()).filter(|&symbol| cases[symbol] != 0);
        let mut word: Vec<u8> = symbols.map(|symbol| symbol as u8).collect();
        for _ in 0..20 {
            model.initial = random.number() | 1;
            print_words(&mut comparison, &model, slice::from_ref(&word), rooms_about);
            random.shuffle(&mut word);
        }
    }
    println!("every number of digits: {}", comparison.seen);
    let by_digits = &comparison.seen.by_digits[1..];
    assert!(by_digits.iter().all(|&count| count > 20));
}

/// The longest lines that there are: the first of 21 bytes, the others of 24. A room of so many is never
/// too short, and here one byte less is.
#[test]
fn the_longest_lines() {
    let mut comparison = Comparison::default();
    let mut model = Model::plain(64, 64, 0);
    (model.initial, model.final_set) = (u64::MAX, u64::MAX);
    model.rows[63] = (0..64)
        .map(|state| Row {
            state,
            case: u64::MAX,
        })
        .collect();
    for events in 0..=30 {
        let print =
            "18446744073709551615\n".to_string() + &"63 18446744073709551615\n".repeat(events);
        assert_eq!(print.len(), 21 + 24 * events);
        comparison.expect(&model.image(), &vec![63; events], Ok(&print));
    }
    println!("the longest lines: {}", comparison.seen);
}

/// Every symbol of every k up to 64, the first of two digits among them.
#[test]
fn every_symbol() {
    let mut comparison = Comparison::default();
    for symbols in 1..=64 {
        let mut model = Model::plain(2, symbols, 0);
        model.initial = 1;
        model.final_set = 2;
        for symbol in 0..symbols {
            // By the symbol state 0 goes on to state 1, and by the others it stays.
            for (other, rows) in model.rows.iter_mut().enumerate() {
                let case = if other == symbol { 2 } else { 1 };
                *rows = vec![Row { state: 0, case }];
            }
            let print = format!("1\n{symbol} 2\n");
            let answer = comparison.ask(&model.image(), &[symbol as u8], two_rooms, &model);
            assert_eq!(answer, Ok(print), "{model}");
        }
        for unknown in symbols as u8..=255 {
            let answer = comparison.ask(&model.image(), &[unknown], |_| vec![9], &model);
            assert_eq!(answer, Err(32), "{model}, {unknown}");
        }
    }
}

/// The word is accepted but for it.
#[test]
fn an_unknown_symbol_at_every_place() {
    let mut random = Random::seeded(107);
    let mut comparison = Comparison::default();
    for length in 0..=40 {
        let symbols = random.pick(&[1, 2, 9, 63, 64]);
        let mut model = mixing(&mut random, 3, symbols);
        let word = random_word(&mut random, symbols, length);
        accept(&mut random, &mut model, &word);
        let image = model.image();
        assert!(comparison.ask(&image, &word, two_rooms, &model).is_ok());
        let unknown = symbols as u8;
        let any = random.within(symbols..=255) as u8;
        for place in 0..=length {
            for symbol in [unknown, unknown | 64, unknown | 128, 255, any] {
                let mut word = word.clone();
                word.insert(place, symbol);
                let rooms: Rooms = |_| vec![0, 1, 1_000];
                let answer = comparison.ask(&image, &word, rooms, &model);
                assert_eq!(answer, Err(32), "{model}, {word:?}");
            }
        }
        let nothing_known = vec![255; length + 1];
        let answer = comparison.ask(&image, &nothing_known, two_rooms, &model);
        assert_eq!(answer, Err(32), "{model}");
    }
}

/// Each check of an image broken or not, in all ways, with words that have an unknown symbol, that are
/// not accepted and that are, in rooms too short and long enough.
#[test]
fn order_of_checks() {
    let mut comparison = Comparison::default();
    let words: [(&[u8], Result<&str, u64>); 6] = [
        (&[0, 1], Ok("1\n0 6\n1 0\n")),
        (&[], Err(0)),
        (&[1, 0], Err(0)),
        (&[0, 1, 2], Err(32)),
        (&[2, 1, 0], Err(32)),
        (&[255], Err(32)),
    ];
    for broken in 0..1 << 7 {
        let is_broken = |number: u64| broken >> (number - 21) & 1 == 1;
        let image = broken_model_c(is_broken, 12, 0, 65);
        let first = (21..=27).find(|&number| is_broken(number));
        for (word, answer) in words {
            comparison.expect(&image, word, first.map_or(answer, Err));
            comparison.expect(&image[..19], word, Err(20));
        }
    }
    println!("order of checks: {}", comparison.seen);
    comparison.seen.assert_each((20..28).chain([0, 32]), 8);
    comparison.seen.assert_each([1], 4);
    comparison.seen.assert_each([35], 10);
}

/// With words that are accepted if the damage does no harm, that are not, and that have an unknown
/// symbol, in no room and in enough.
#[test]
fn damaged_images() {
    let mut random = Random::seeded(108);
    let mut library = Library::new();
    let mut comparison = Comparison::default();
    let valid: Vec<(Vec<u8>, Vec<u8>)> = (0..100)
        .map(|_| {
            let mut model = generate::model(&mut random);
            let mut word = generate::word(&mut random, model.symbols());
            word.truncate(30);
            accept(&mut random, &mut model, &word);
            (model.image(), word)
        })
        .collect();
    for _ in 0..4_000 {
        let (mut image, word) = valid[random.below(valid.len())].clone();
        let unknown = generate::unknown_word(&mut random, usize::from(image[1]));
        let damages = random.pick(&[1, 1, 1, 2, 3]);
        let origin = damage(&mut image, &mut random, damages);
        for word in [word, unknown] {
            let rooms: Rooms = |length| vec![0, length, length + 50];
            let answer = comparison.ask(&image, &word, rooms, &origin);
            let number = answer.err().unwrap_or(1);
            assert_eq!(library.accepts(&image, &word), number, "{origin}");
        }
    }
    println!("damaged images: {}", comparison.seen);
    comparison.seen.assert_each(20..28, 500);
    comparison.seen.assert_each([0, 1, 32, 35], 100);
}

/// About 65,536 symbols, about twice and four times as many, and others between.
const LONG: [usize; 10] = [
    65_535, 65_536, 65_537, 98_305, 131_071, 131_072, 131_073, 196_609, 200_003, 262_145,
];

/// The word is accepted. With a state of I more it is not, and with any symbol unknown it gives 32.
fn print_long(comparison: &mut Comparison, model: &Model, mut word: Vec<u8>) {
    let length = word.len();
    let numbers = print_words(comparison, model, slice::from_ref(&word), two_rooms);
    assert_eq!(numbers, [1], "{model}, {length} symbols");
    let rooms: Rooms = |_| vec![0, 5_000];
    let outside = all_states(model.states) & !word_backward_set(model, &word);
    if outside != 0 {
        let mut other = model.clone();
        other.initial |= outside & outside.wrapping_neg();
        let answer = comparison.ask(&other.image(), &word, rooms, &other);
        assert_eq!(answer, Err(0), "{other}, {length} symbols");
    }
    let places = [0, 65_535, 65_536, length / 2, length - 1];
    for place in places.into_iter().filter(|&place| place < length) {
        let known = word[place];
        word[place] = model.symbols() as u8;
        let answer = comparison.ask(&model.image(), &word, rooms, model);
        assert_eq!(answer, Err(32), "{model}, {length} symbols");
        word[place] = known;
    }
}

/// Coprime rings, from their own initial case and from that from which the word is accepted.
#[test]
fn long_words_over_rings() {
    let mut comparison = Comparison::default();
    let mut model = rings(&[2, 3, 5]);
    for length in [29, 59, 65_519, 65_549, 131_069, 200_009] {
        print_long(&mut comparison, &model, vec![0; length]);
    }
    for length in [65_535, 65_536, 65_537, 131_072, 131_073, 262_145] {
        let word = vec![0; length];
        model.initial = word_backward_set(&model, &word);
        print_long(&mut comparison, &model, word);
    }
    println!("long words over rings: {}", comparison.seen);
    let seen = comparison.seen;
    seen.assert_each([0, 1, 32, 35], 10);
    assert_eq!(seen.moved, seen.events);
}

/// Symbols that move the states about, of which there may be 64.
#[test]
fn long_words_over_moving_states() {
    let mut random = Random::seeded(109);
    let mut comparison = Comparison::default();
    for (states, length) in [
        (6, 65_535),
        (10, 65_536),
        (12, 65_537),
        (9, 131_073),
        (7, 200_003),
        (64, 131_073),
    ] {
        let symbols = random.within(2..=3);
        let mut model = moving(&mut random, states, symbols);
        let word = random_word(&mut random, symbols, length);
        accept(&mut random, &mut model, &word);
        print_long(&mut comparison, &model, word);
    }
    println!("long words over moving states: {}", comparison.seen);
    let seen = comparison.seen;
    assert!(seen.moved > seen.events / 2 && seen.by_digits[20] > 1_000);
}

/// Which row fits depends on all of the word that remains, however much that is.
#[test]
fn long_words_that_matter() {
    let mut random = Random::seeded(110);
    let mut comparison = Comparison::default();
    for length in LONG {
        let bits = random.within(3..=5);
        let mut model = mixing(&mut random, bits, 2);
        let word = random_word(&mut random, 2, length);
        accept(&mut random, &mut model, &word);
        print_long(&mut comparison, &model, word);
    }
    println!("long words that matter: {}", comparison.seen);
    let seen = comparison.seen;
    seen.assert_each([0, 1, 32, 35], 10);
    assert!(seen.longest == 262_145 && seen.moved > seen.events / 2);
    assert!(seen.first_matters > 100_000);
}

/// The room is said to be longer than 32 bits tell: cut down to them it would have no place, or too few.
/// Or 31 bits do not tell it. What may be touched of it is a page.
#[test]
fn rooms_that_are_too_short_when_cut() {
    const CUT_OFF: usize = 1 << 32;
    let (image, word, print) = (model_c().image(), [0, 1], "1\n0 6\n1 0\n");
    let mut room_memory = Writable::with_room(4096);
    let mut length_memory = Writable::with_room(8);
    let mut expected = filling(4096);
    expected[..print.len()].copy_from_slice(print.as_bytes());
    for room_length in [1 << 31, CUT_OFF, CUT_OFF + 1, CUT_OFF + 9, 1 << 33] {
        for edge in EDGES {
            let room = room_memory.lend(&filling(4096), edge);
            let length = length_memory.lend(&[7], edge);
            let length: &mut [u64; 1] = length.try_into().expect("one number");
            let number =
                afa::print::print_run_said_longer(&image, &word, room, room_length, length);
            assert_eq!((number, *length), (1, [10]), "a room of {room_length}");
            assert!(room == expected, "a room of {room_length}");
        }
    }
}

/// An image whose length would fit if it were cut down to 32 bits.
#[test]
fn an_image_that_fits_when_cut() {
    let image = model_c().image();
    let length = image.len() + (1 << 32);
    let mut memory = ReadOnly::with_room(length);
    for edge in EDGES {
        let image = memory.lend_longer(&image, length, edge);
        let (mut room, mut written) = (filling(20), [7]);
        let number = afa::print::print_run(image, &[0, 1], &mut room, &mut written);
        assert_eq!((number, written), (24, [0]));
        assert_eq!(room, filling(20));
    }
}
