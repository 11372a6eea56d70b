//! `check --json` prints exactly one object, whatever comes of the run, and what it says is so by the tests'
//! own reading of the model.

mod common;

use common::json::{object, parse, Value, KEYS};
use common::reader::{Model, Set};
use common::{afa, afa_reading, file, models, scratch, text_of, Ended, Random};

const NUMBERS: [&str; 5] = ["number", "steps", "level", "blockers", "hints"];

/// The object on the one line that a command has printed.
fn printed(ended: &Ended) -> Value {
    let line = ended.output.strip_suffix('\n').expect("a line");
    assert!(
        !line.contains(|letter: char| letter.is_ascii_control()),
        "{line:?}"
    );
    object(line)
}

/// What `check` prints of the model, with these options too.
fn check(model: &str, options: &[&str]) -> (Ended, Value) {
    let ended = afa(&[&["check", model, "--json"], options].concat());
    let value = printed(&ended);
    (ended, value)
}

fn numbers(value: &Value) -> [u64; 5] {
    NUMBERS.map(|key| value.get(key).number())
}

/// The numbers in a text, in their order.
fn numbers_in(text: &str) -> Vec<u64> {
    let words = text.split(|letter: char| !letter.is_ascii_digit());
    words.filter_map(|word| word.parse().ok()).collect()
}

/// All that the object of a run says, held against the model and the plain output.
fn assert_right(value: &Value, model: &Model, plain: &Ended, status: i32) {
    assert_eq!(value.keys(), KEYS);
    assert_eq!(plain.status, status, "{value:?}");
    let [number, counts @ ..] = numbers(value);
    let (verdict, sentence) = (value.get("verdict").text(), value.get("sentence").text());
    let headline = plain.output.lines().next().unwrap();
    let last = plain.output.lines().last().unwrap();
    let given = ["word", "run", "frame", "least"].map(|key| !value.get(key).is_null());
    let (expected_status, expected_verdict, expected_given) = match number {
        0 => (0, "empty", [false, false, true, false]),
        1 | 5 => (1, "nonempty", [true, true, false, true]),
        2..=4 | 6 => (2, "stopped", [false, false, false, true]),
        _ => panic!("no answer: {value:?}"),
    };
    assert_eq!(
        (status, verdict, given),
        (expected_status, expected_verdict, expected_given)
    );
    assert_eq!(headline, format!("{verdict}: {sentence}"));
    assert_eq!(numbers_in(last), counts, "{last}");
    match status {
        0 => assert_frame(value, model, plain),
        1 => assert_run(value, model),
        _ => {
            let shown = numbers_in(plain.output.lines().nth(1).unwrap());
            let least = value.get("least").number();
            assert_eq!(shown, if least == 0 { vec![] } else { vec![least] });
        }
    }
}

/// The frame shows by itself that no word is accepted.
fn assert_frame(value: &Value, model: &Model, plain: &Ended) {
    let frame: Vec<Set> = value
        .get("frame")
        .list()
        .iter()
        .map(|set| in_order(model, set))
        .collect();
    assert_eq!(frame.len() as u64, value.get("blockers").number());
    let is_covered = |set: &Set| frame.iter().any(|blocker| set.is_subset(blocker));
    assert!(is_covered(&model.final_set), "{value:?}");
    assert!(!is_covered(&model.initial), "{value:?}");
    for blocker in &frame {
        for event in 0..model.events.len() {
            assert!(is_covered(&model.backward(event, blocker)), "{value:?}");
        }
    }
    let sets = plain
        .output
        .lines()
        .filter_map(|line| line.strip_prefix("  {"));
    let sets = sets.map(|line| {
        let names = line.strip_suffix('}').unwrap().split(", ");
        model.set(&names.filter(|name| !name.is_empty()).collect::<Vec<_>>())
    });
    assert_eq!(sets.collect::<Vec<_>>(), frame);
}

/// A set of names, which must stand in the model's order, each once.
fn in_order(model: &Model, names: &Value) -> Set {
    let names = names.texts();
    let set = model.set(&names);
    assert_eq!(model.names(&set), names);
    set
}

/// The word is accepted, and the run over it is the one that the library is to print.
fn assert_run(value: &Value, model: &Model) {
    let word = value.get("word").texts();
    let length = word.len() as u64;
    assert_eq!(value.get("least").number(), length);
    assert_eq!(value.get("level").number(), length);
    let events: Vec<usize> = word.iter().map(|name| model.event(name)).collect();
    assert!(model.accepts(&events), "{word:?}");
    let run = value.get("run").list();
    assert!(
        run.iter().all(|moment| moment.keys() == ["event", "case"]),
        "{run:?}"
    );
    let (first, others) = run.split_first().expect("the start");
    assert!(first.get("event").is_null());
    let run_events = others
        .iter()
        .map(|moment| moment.get("event").text().to_owned());
    assert_eq!(run_events.collect::<Vec<_>>(), word);
    let cases: Vec<Set> = run
        .iter()
        .map(|moment| in_order(model, moment.get("case")))
        .collect();
    assert_eq!(cases[0], model.initial);
    assert_eq!(cases, model.run(&events));
    assert!(cases.last().unwrap().is_subset(&model.final_set));
}

/// Checks a model with these options as an object and in plain words.
fn assert_model(path: &str, text: &str, options: &[&str]) -> Value {
    let (ended, value) = check(path, options);
    assert_eq!(ended.errors, "", "{path} {options:?}");
    assert_eq!(value.get("model").text(), path);
    let plain = afa(&[&["check", path], options].concat());
    assert_right(&value, &Model::read(text), &plain, ended.status);
    value
}

#[test]
fn the_reader_of_the_tests_is_strict() {
    let all =
        r#" {"a": [1, -0.5e+3, "\u00e4\ud83d\ude00\n\"\\\/", null, true, false, {}], "b": []} "#;
    let value = parse(all).unwrap();
    assert_eq!(value.get("a").list()[2].text(), "\u{e4}\u{1f600}\n\"\\/");
    for wrong in [
        "",
        " ",
        "{",
        "[1,]",
        "{\"a\": 1,}",
        "[,1]",
        "[1 2]",
        "{\"a\" 1}",
        "{a: 1}",
        "{\"a\": 1} x",
        "{} {}",
        "{\"a\": 1, \"a\": 2}",
        "01",
        "+1",
        "1.",
        ".5",
        "1e",
        "nul",
        "NaN",
        "'a'",
        "\"a",
        "\"\n\"",
        "\"\\x\"",
        "\"\\u12\"",
        "\"\\ud800\"",
        "\"\\udc00\"",
        "[1]]",
        "{\"a\": }",
        "[\"a\": 1]",
    ] {
        assert!(parse(wrong).is_err(), "{wrong}");
    }
}

#[test]
fn every_model_by_both_ways_and_in_both_editions() {
    for model in models() {
        let text = text_of(&model);
        for (way, edition) in [("0", "1"), ("1", "1"), ("0", "2"), ("1", "2")] {
            assert_model(&model, &text, &["--way", way, "--edition", edition]);
        }
    }
}

#[test]
fn the_word_is_accepted_by_the_word_test() {
    for model in models() {
        let (ended, value) = check(&model, &[]);
        if ended.status == 1 {
            let words = [vec!["test".to_owned(), model], value.get("word").texts()].concat();
            assert_eq!(afa(&words).status, 1, "{words:?}");
        }
    }
}

#[test]
fn random_models() {
    let folder = scratch("json-random");
    let mut random = Random(11);
    let mut statuses = [0; 2];
    for _ in 0..60 {
        let (states, events) = (1 + random.below(5), 1 + random.below(3));
        let mut set = |density: usize| {
            let states = (0..states).filter(|_| random.below(density) == 0);
            states
                .map(|state| format!(" \u{e4}{state}"))
                .collect::<String>()
        };
        let names: String = (0..states).map(|state| format!(" \u{e4}{state}")).collect();
        let mut text = format!(
            "states{names}\nevents {events}\ninitial{}\nfinal{}\n",
            set(2),
            set(3)
        );
        for state in 0..states {
            for event in 0..events {
                text += &format!("row \u{e4}{state} {event} :{}\n", set(2));
                if set(2).is_empty() {
                    text += &format!("row {state} {event} :{}\n", set(3));
                }
            }
        }
        let path = file(&folder, "model.txt", &text);
        let value = assert_model(&path, &text, &[]);
        statuses[usize::from(value.get("number").number() == 0)] += 1;
    }
    assert!(statuses.iter().all(|&count| count >= 5), "{statuses:?}");
}

#[test]
fn every_kind_of_stop() {
    let model = "models/screen.txt";
    for (option, limit, number, least) in [
        ("--allowance", "0", 2, 0),
        ("--allowance", "1", 2, 1),
        ("--allowance", "19", 2, 4),
        ("--blockers", "0", 3, 1),
        ("--blockers", "2", 3, 3),
        ("--word", "0", 4, 1),
        ("--word", "3", 4, 4),
    ] {
        let value = assert_model(model, &text_of(model), &[option, limit]);
        let found = (value.get("number").number(), value.get("least").number());
        assert_eq!(found, (number, least), "{option} {limit}");
    }
}

#[test]
fn a_slip() {
    let value = assert_model(
        "models/d.txt",
        &text_of("models/d.txt"),
        &["--edition", "2"],
    );
    assert_eq!(numbers(&value), [5, 0, 0, 0, 0]);
    assert!(value.get("sentence").text().contains("slip"));
}

#[test]
fn every_kind_of_refusal() {
    let folder = scratch("json-refused");
    let hints = file(&folder, "hints", "{0}\n".repeat(65_537));
    for (option, value, number) in [
        ("--blockers", "65537", 31),
        ("--word", "65537", 31),
        ("--hints", &hints, 31),
        ("--edition", "0", 36),
        ("--way", "2", 37),
    ] {
        let (ended, _) = check("models/b.txt", &[option, value]);
        let sentence = format!("refused under number {number}: ");
        assert_no_answer(&ended, "models/b.txt", Some(number), &sentence);
    }
}

/// An object that says what standard error says, and the number if the library has refused.
fn assert_no_answer(ended: &Ended, model: &str, number: Option<u64>, sentence: &str) {
    assert_eq!(ended.status, 3, "{ended:?}");
    let value = printed(ended);
    assert_eq!(value.keys(), KEYS);
    assert_eq!(value.get("model").text(), model);
    let verdict = number.map_or("unreadable", |_| "refused");
    assert_eq!(value.get("verdict").text(), verdict);
    match number {
        None => assert!(value.get("number").is_null(), "{value:?}"),
        Some(number) => assert_eq!(value.get("number").number(), number),
    }
    for key in ["steps", "level", "blockers", "hints"] {
        assert_eq!(value.get(key).number(), 0, "{key}");
    }
    for key in ["least", "word", "run", "frame"] {
        assert!(value.get(key).is_null(), "{key}");
    }
    let said = value.get("sentence").text();
    assert!(said.starts_with(sentence), "{sentence}: {ended:?}");
    assert_eq!(ended.errors, format!("afa: {said}\n"));
}

fn assert_error(ended: &Ended, model: &str, sentence: &str) {
    assert_no_answer(ended, model, None, sentence);
}

#[test]
fn every_kind_of_error() {
    let folder = scratch("json-errors");
    let wrong = file(&folder, "wrong.txt", "states a\n\tinitial \"b\"\n");
    let hints = file(&folder, "hints", "{0, 2}\n");
    let page = folder.join("none/page.html");
    let page = page.to_str().unwrap();
    assert_error(
        &check("models/none.txt", &[]).0,
        "models/none.txt",
        "models/none.txt: ",
    );
    let sentence = format!("{wrong}:2:10: '\\\"b\\\"' is no state");
    assert_error(&check(&wrong, &[]).0, &wrong, &sentence);
    for (option, value, sentence) in [
        (
            "--hints",
            hints.as_str(),
            format!("{hints}:1:5: '2' is no state"),
        ),
        ("--hints", "none/hints", "none/hints: ".to_owned()),
        ("--resume", "none/run", "none/run: ".to_owned()),
        ("--resume", &hints, format!("{hints}:1:1: no saved run")),
        ("--html", page, format!("{page}: ")),
        ("--save", page, format!("{page}: ")),
        (
            "--allowance",
            "1x",
            "--allowance '1x': expected a number".to_owned(),
        ),
        ("--way", "", "--way '': expected a number".to_owned()),
    ] {
        let ended = check("models/b.txt", &[option, value]).0;
        assert_error(&ended, "models/b.txt", &sentence);
    }
    let ended = afa_reading(&["check", "--json", "-"], b"stats 1\n");
    assert_error(
        &ended,
        "standard input",
        "standard input:1:1: 'stats' begins no line",
    );
}

#[test]
fn wrong_use_prints_no_object() {
    for words in [
        &["check", "--json"][..],
        &["check", "--json", "a", "b"],
        &["check", "a", "--json", "--alowance"],
    ] {
        let ended = afa(words);
        assert_eq!((ended.status, ended.output.as_str()), (3, ""), "{words:?}");
    }
}

#[test]
fn names_of_files_are_escaped() {
    let folder = scratch("json-names");
    let text = text_of("models/b.txt");
    for name in [
        "quote\"quote",
        "back\\slash\\",
        "new\nline\ttab\rreturn",
        "bell\u{7}delete\u{7f}escape\u{1b}",
        "next\u{85}line",
        "\u{e4}\u{65e5}\u{1f600}",
        "\\u0041\\n",
    ] {
        let path = file(&folder, name, &text);
        let (ended, value) = check(&path, &[]);
        assert_eq!(ended.status, 1, "{name:?}");
        assert_eq!(value.get("model").text(), path);
        let missing = format!("{path}.missing");
        let (_, value) = check(&missing, &[]);
        assert_eq!(value.get("model").text(), missing);
        assert!(value
            .get("sentence")
            .text()
            .starts_with(&format!("{missing}: ")));
    }
}

#[test]
fn a_model_from_standard_input() {
    let text = text_of("models/screen.txt");
    let value = printed(&afa_reading(&["check", "-", "--json"], text.as_bytes()));
    assert_eq!(value.get("model").text(), "standard input");
    assert_eq!(
        value.get("run"),
        check("models/screen.txt", &[]).1.get("run")
    );
}

#[test]
fn names_of_states_and_events() {
    let folder = scratch("json-states");
    let text = "states \u{e4}rger \u{65e5}\u{672c} c\nevents \u{fc}ben\npart teil : c 0\ninitial 0\nfinal c 1\n\
                row 0 \u{fc}ben : c 1\n";
    let path = file(&folder, "model.txt", text);
    let value = assert_model(&path, text, &[]);
    assert_eq!(value.get("word").texts(), ["\u{fc}ben"]);
    let last = value.get("run").list()[1].get("case").texts();
    assert_eq!(last, ["\u{65e5}\u{672c}", "c"]);
}
