//! The reference against itself: what is written is read back, the definition by runs gives the same
//! answer from I as from every case that contains I, and the print that is made for speed is the one
//! that the definition gives.

use afa_tests::acceptance::{accepts_backwards, Runs, Start};
use afa_tests::checks::{check, Head};
use afa_tests::compare::print::{filling, rooms_about};
use afa_tests::damage::damage;
use afa_tests::generate;
use afa_tests::generate::prints::{accept, choices, mixing};
use afa_tests::image::{all_states, Model, Row};
use afa_tests::machine;
use afa_tests::print::{run, Lines, Written};
use afa_tests::random::Random;

#[test]
fn images_are_read_back() {
    let mut random = Random::seeded(4);
    for _ in 0..1_000 {
        let model = generate::model(&mut random);
        let image = model.image();
        let head = Head {
            n: model.states as u64,
            k: model.symbols() as u64,
            m: model.row_count() as u64,
            initial: model.initial,
            final_set: model.final_set,
        };
        assert_eq!(check(&image), Ok(head), "{model}");
        assert_eq!(Model::of_image(&image), model);
    }
}

/// Small enough that nothing is left unsearched.
#[test]
fn one_start_case_suffices() {
    let mut random = Random::seeded(5);
    let mut answers = [0_usize; 2];
    for _ in 0..6_000 {
        let states = random.within(1..=4);
        let symbols = random.within(1..=2);
        let case = |random: &mut Random| random.number() & random.number() & all_states(states);
        let mut model = Model {
            states,
            initial: case(&mut random),
            final_set: case(&mut random),
            rows: vec![Vec::new(); symbols],
        };
        for _ in 0..random.within(0..=3 * states) {
            let state = random.below(states) as u8;
            let case = case(&mut random);
            model.rows[random.below(symbols)].push(Row { state, case });
        }
        let all_starts = Runs::new(&model, Start::EverySuperset);
        let one_start = Runs::new(&model, Start::Initial);
        for length in 0..=5 {
            let word: Vec<u8> = (0..length).map(|_| random.below(symbols) as u8).collect();
            let expected = accepts_backwards(&model, &word);
            for runs in [&all_starts, &one_start] {
                let accepted = runs.accepts(&word, usize::MAX);
                assert_eq!(accepted, Some(expected), "{model}, word {word:?}");
            }
            answers[usize::from(expected)] += 1;
        }
    }
    println!(
        "6000 models from every start case: {} words not accepted, {} accepted",
        answers[0], answers[1]
    );
    assert!(answers[0] > 5_000 && answers[1] > 5_000);
}

/// Cases make a run over a word just where the word is accepted: all that begin with I are tried.
#[test]
fn runs_are_told_from_others() {
    let mut random = Random::seeded(7);
    let mut told = [0_usize; 2];
    for _ in 0..300 {
        let mut model = choices(&mut random, 3, 2);
        model.initial = random.number() & all_states(3);
        let runs = Runs::new(&model, Start::Initial);
        let every_case = 0..=all_states(3);
        for word in generate::every_word(2, 2) {
            let mut sequences = vec![vec![model.initial]];
            for _ in &word {
                let extended = sequences.iter().flat_map(|cases| {
                    let next = every_case.clone();
                    next.map(|case| [&cases[..], &[case]].concat())
                });
                sequences = extended.collect();
            }
            let is_run = |cases: &Vec<u64>| runs.is_run(&word, cases, usize::MAX) == Some(true);
            let count = sequences.iter().filter(|&cases| is_run(cases)).count();
            let accepted = runs.accepts(&word, usize::MAX);
            assert_eq!(accepted, Some(count > 0), "{model}, word {word:?}");
            told[0] += sequences.len() - count;
            told[1] += count;
        }
    }
    println!(
        "of sequences of cases {} no run, {} a run",
        told[0], told[1]
    );
    assert!(told[0] > 10_000 && told[1] > 1_000);
}

/// Not of the word's length, not from I, a step that the rows do not make, an end that is not final.
#[test]
fn what_is_no_run() {
    let model = Model::new(
        4,
        1,
        4,
        &[&[(0, 6), (0, 2)], &[(1, 4), (2, 4), (2, 0), (1, 8)]],
    );
    let runs = Runs::new(&model, Start::Initial);
    for (cases, expected) in [
        (&[1, 6, 4][..], true),
        (&[1, 2, 4], true),
        (&[1, 4, 4], false),
        (&[1, 6, 0], false),
        (&[1, 6, 8], false),
        (&[1, 6, 12], false),
        (&[1, 7, 4], false),
        (&[3, 6, 4], false),
        (&[0, 0, 0], false),
        (&[1, 6], false),
        (&[1, 6, 4, 4], false),
        (&[], false),
    ] {
        assert_eq!(
            runs.is_run(&[0, 1], cases, 100),
            Some(expected),
            "{cases:?}"
        );
    }
    assert_eq!(runs.is_run(&[0, 1], &[1, 6, 4], 2), None);
    assert_eq!(runs.is_run(&[0, 1], &[1, 6, 4], 3), Some(true));
}

/// A model and a word that it mostly accepts.
fn printed(random: &mut Random) -> (Model, Vec<u8>) {
    let mut model = match random.below(3) {
        0 => choices(random, 12, 2),
        1 => mixing(random, 5, 3),
        _ => generate::model(random),
    };
    let symbols = model.symbols();
    if random.chance(10) {
        return (model, generate::unknown_word(random, symbols));
    }
    let word = generate::word(random, symbols);
    accept(random, &mut model, &word);
    if random.chance(25) {
        generate::aim(random, &mut model, &word);
    }
    (model, word)
}

/// Damaged images among them.
#[test]
fn prints_made_for_speed() {
    let mut random = Random::seeded(6);
    let mut by_number = [0_usize; 36];
    for _ in 0..1_500 {
        let (model, word) = printed(&mut random);
        let mut image = model.image();
        if random.chance(10) {
            damage(&mut image, &mut random, 1);
        }
        let print = run(&image, &word).map(|run| run.print());
        for room_length in rooms_about(print.as_ref().map_or(0, String::len)) {
            let before = filling(room_length);
            let expected = Written::new(&print, &before);
            let mut room = before;
            let (number, length) = machine::print::print_run(&image, &word, &mut room);
            let written = Written {
                number,
                length,
                room,
            };
            assert!(written == expected, "{model}, {word:?}");
            by_number[number as usize] += 1;
        }
    }
    println!("prints made for speed, by number: {by_number:?}");
    assert!([0, 1, 32, 35].iter().all(|&number| by_number[number] > 500));
    assert!(by_number[20..28].iter().sum::<usize>() > 500);
}

/// The reader of prints takes what the definition prints, and nothing else.
#[test]
fn prints_are_read_back() {
    let lines = |cases: &[u64], symbols: &[u8]| Lines {
        cases: cases.to_vec(),
        symbols: symbols.to_vec(),
    };
    for (print, expected) in [
        ("0\n", lines(&[0], &[])),
        ("1\n0 6\n1 0\n", lines(&[1, 6, 0], &[0, 1])),
        (
            "18446744073709551615\n63 10\n",
            lines(&[u64::MAX, 10], &[63]),
        ),
    ] {
        assert_eq!(Lines::read(print.as_bytes()), Some(expected), "{print:?}");
    }
    for print in [
        "",
        "\n",
        "0",
        "00\n",
        "0\n\n",
        "+1\n",
        "-1\n",
        " 1\n",
        "1 \n",
        "1\r\n",
        "1\n0\n",
        "1\n0 6",
        "1\n0  6\n",
        "1\n0 6 \n",
        "1\n00 6\n",
        "1\n0 06\n",
        "1\n0\t6\n",
        "1\n256 6\n",
        "18446744073709551616\n",
        "1\n0 6\n\0",
    ] {
        assert_eq!(Lines::read(print.as_bytes()), None, "{print:?}");
    }
}
