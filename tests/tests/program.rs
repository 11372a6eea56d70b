//! The built program, `crates/emptiness/out/emptiness`, on images of every kind: both lines that it
//! prints, against what the machine gives in the program's rooms.

use afa_tests::compare::hexadecimal;
use afa_tests::damage::DAMAGES;
use afa_tests::generate::stops::{
    for_want_of_blocker_room, for_want_of_steps, for_want_of_word_room,
};
use afa_tests::generate::{self, runs::run_model};
use afa_tests::image::{broken_model_c, model_a, model_b, model_c, model_d, rings, Model};
use afa_tests::machine::run;
use afa_tests::random::Random;
use afa_tests::stops::{least_length, Stops, Words};
use afa_tests::tables::{Tables, Terms};
use afa_tests::text;
use std::fmt::Display;
use std::fs;
use std::io::{ErrorKind, Write};
use std::path::{Path, PathBuf};
use std::process::{Command, Stdio};
use std::thread::{self, sleep};
use std::time::Duration;

/// What the program lends its run, which has no hints, edition 1 and way 0.
const PLACES: usize = 256;
const ALLOWANCE: u64 = 100_000;

/// How much of its input it reads: one byte more than the longest image has.
const MOST_READ: usize = 37_397;

fn root() -> PathBuf {
    Path::new(env!("CARGO_MANIFEST_DIR")).join("..")
}

/// The number and both lines that the machine gives.
fn expected(input: &[u8]) -> (u64, String) {
    let image = &input[..input.len().min(MOST_READ)];
    let mut tables = Tables::cleared(PLACES, PLACES);
    let answer = run(image, tables.lend(), Terms::plain(ALLOWANCE));
    let counts = [
        answer.number,
        answer.steps,
        answer.level,
        answer.blockers,
        answer.hints_accepted,
    ];
    let second = match answer.number {
        0 => spaced(&tables.masks[..answer.blockers as usize]),
        1 => spaced(&tables.symbols[..answer.level as usize]),
        _ => String::new(),
    };
    (answer.number, format!("{}\n{second}\n", spaced(&counts)))
}

fn spaced<T: Display>(numbers: &[T]) -> String {
    let numbers: Vec<String> = numbers.iter().map(T::to_string).collect();
    numbers.join(" ")
}

/// What the program prints on the input, which is written to it in these pieces.
fn printed(pieces: &[&[u8]]) -> String {
    let program = root().join("crates/emptiness/out/emptiness");
    assert!(
        program.is_file(),
        "{} is missing: run `bash .ci/run` in the repository's root, or `rt run` in crates/emptiness first",
        program.display()
    );
    let mut child = Command::new(program)
        .stdin(Stdio::piped())
        .stdout(Stdio::piped())
        .stderr(Stdio::piped())
        .spawn()
        .expect("the program starts");
    let mut stdin = child.stdin.take().expect("a pipe");
    let output = thread::scope(|scope| {
        scope.spawn(move || {
            for (place, piece) in pieces.iter().enumerate() {
                if place > 0 {
                    sleep(Duration::from_millis(20));
                }
                match stdin.write_all(piece) {
                    Ok(()) => {}
                    // The program has read what it reads and has gone.
                    Err(error) if error.kind() == ErrorKind::BrokenPipe => {}
                    Err(error) => panic!("standard input: {error}"),
                }
            }
        });
        child.wait_with_output().expect("the program ends")
    });
    assert!(output.status.success(), "{output:?}");
    assert!(output.stderr.is_empty(), "{output:?}");
    String::from_utf8(output.stdout).expect("text")
}

/// Both lines on the input. Answers the number and how many numbers stand on the second line.
fn compare(input: &[u8], origin: &dyn Display) -> (u64, usize) {
    let (number, expected) = expected(input);
    let printed = printed(&[input]);
    assert!(
        printed == expected,
        "{origin}\nimage {}\nexpected\n{expected}printed\n{printed}",
        hexadecimal(input)
    );
    let second = printed.lines().nth(1).expect("a second line");
    (number, second.split_whitespace().count())
}

fn expect_refused(input: &[u8], number: u64) {
    let origin = format!("expected to give {number}");
    assert_eq!(compare(input, &origin), (number, 0));
    assert_eq!(printed(&[input]), format!("{number} 0 0 0 0\n\n"));
}

fn file_of_models(name: &str) -> Model {
    let path = root().join("models").join(name);
    text::read(&fs::read_to_string(&path).unwrap_or_else(|_| panic!("{}", path.display())))
}

/// Lines that are known beforehand. The last frame has three blockers.
#[test]
fn known_lines() {
    for (model, lines) in [
        (model_a(), "0 3 1 1 0\n4\n"),
        (model_b(), "1 2 1 0 0\n0\n"),
        (model_c(), "1 6 2 1 0\n0 1\n"),
        (model_d(), "1 0 0 0 0\n\n"),
        (file_of_models("screen.txt"), "1 20 4 6 0\n0 2 1 3\n"),
        (
            file_of_models("screen-mended.txt"),
            "0 22 4 3 0\n30 230 214\n",
        ),
    ] {
        assert_eq!(printed(&[&model.image()]), lines, "{model}");
        assert_eq!(expected(&model.image()).1, lines, "{model}");
    }
}

#[test]
fn files_of_models() {
    let known = [
        ("a.txt", model_a()),
        ("b.txt", model_b()),
        ("c.txt", model_c()),
        ("d.txt", model_d()),
        ("rings-2-3-5.txt", rings(&[2, 3, 5])),
        ("rings-2-3-5-7.txt", rings(&[2, 3, 5, 7])),
    ];
    for (name, model) in &known {
        assert_eq!(file_of_models(name), *model, "{name}");
    }
    let mut by_number = [0_usize; 5];
    for entry in fs::read_dir(root().join("models")).expect("the folder models") {
        let name = entry.unwrap().file_name().into_string().unwrap();
        let (number, _) = compare(&file_of_models(&name).image(), &name);
        by_number[number as usize] += 1;
    }
    println!("files of models, by number: {by_number:?}");
    assert!(by_number[0] >= 2 && by_number[1] >= 5 && by_number[3] >= 1);
    assert!(by_number.iter().sum::<usize>() >= known.len() + 2);
}

/// The lines, and the length that every accepted word has at least by them, against the shortest that a search
/// finds.
#[test]
fn stops() {
    let mut stops = Stops::default();
    for (model, numbers, least, shortest) in [
        (for_want_of_steps(), [2, 100_000, 199, 244, 0], 199, None),
        (
            for_want_of_blocker_room(),
            [3, 992, 104, 256, 0],
            104,
            Some(209),
        ),
        (for_want_of_word_room(), [4, 783, 256, 256, 0], 257, None),
    ] {
        let lines = format!("{}\n\n", spaced(&numbers));
        let [number, _, level, _, _] = numbers;
        assert_eq!(expected(&model.image()), (number, lines.clone()));
        assert_eq!(printed(&[&model.image()]), lines, "{model}");
        assert_eq!(least_length(number, level, PLACES), least, "{model}");
        let words = Words::of(&model);
        assert_eq!(words.shortest, shortest, "{model}");
        stops.judge(&words, number, level, PLACES);
    }
    println!("stops: {stops}");
}

/// Each check of an image broken or not, in all ways.
#[test]
fn refusals() {
    for broken in 1..1 << 8 {
        let is_broken = |number: u64| broken >> (number - 20) & 1 == 1;
        let mut image = broken_model_c(is_broken, 4, 0, 65);
        if is_broken(20) {
            image.truncate(19);
        }
        let first = (20..=27).find(|&number| is_broken(number));
        expect_refused(&image, first.unwrap());
    }
}

#[test]
fn lengths_of_input() {
    for length in 0..20 {
        expect_refused(&vec![1; length], 20);
    }
    let mut longest = Model::plain(64, 64, 4096);
    longest.initial = 2;
    let mut image = longest.image();
    assert_eq!(image.len(), MOST_READ - 1);
    let lines = "0 3 1 1 0\n18446744073709551613\n";
    assert_eq!(printed(&[&image]), lines);
    assert_eq!(expected(&image).1, lines);
    for length in [MOST_READ, MOST_READ + 1, 65_536, 1 << 20] {
        image.resize(length, 0);
        expect_refused(&image, 24);
    }
    expect_refused(&Model::plain(64, 64, 4097).image(), 23);
    expect_refused(&vec![0; 1 << 20], 21);
}

/// The program waits for all of its input.
#[test]
fn input_in_pieces() {
    let image = model_c().image();
    for cuts in [[1, 2, 62], [19, 20, 36], [20, 45, 54]] {
        let [one, two, three] = cuts;
        let pieces = [
            &image[..one],
            &image[one..two],
            &image[two..three],
            &image[three..],
        ];
        assert_eq!(printed(&pieces), "1 6 2 1 0\n0 1\n", "cut at {cuts:?}");
        assert_eq!(printed(&pieces[..3]), "24 0 0 0 0\n\n");
    }
}

#[test]
fn random_models() {
    let mut random = Random::seeded(71);
    let mut by_number = [0_usize; 28];
    let (mut large_frames, mut long_words) = (0, 0);
    for _ in 0..600 {
        let model = match random.below(4) {
            0 => generate::model(&mut random),
            _ => run_model(&mut random),
        };
        let mut image = model.image();
        if random.chance(20) {
            let (_, damage) = random.pick(&DAMAGES);
            damage(&mut image, &mut random);
        }
        let (number, numbers) = compare(&image, &model);
        by_number[number as usize] += 1;
        large_frames += usize::from(number == 0 && numbers > 1);
        long_words += usize::from(number == 1 && numbers > 1);
    }
    println!(
        "600 images, by number: {by_number:?}; {large_frames} frames of more than one blocker, \
         {long_words} words of more than one symbol"
    );
    assert!(by_number[0] > 200 && by_number[1] > 150 && by_number[3] > 3);
    assert!(by_number[20..].iter().all(|&count| count > 2));
    assert!(large_frames > 80 && long_words > 50);
}
