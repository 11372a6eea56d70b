//! The options of a run: limits, hints, what the library refuses, and how they are written.

use super::*;

/// An option, why the run stops by it, and what it has shown by then.
const STOPS: &str = "\
--allowance 0|for want of steps, with 0 steps allowed|nothing is shown yet of any event sequence
--allowance 1|for want of steps, with 1 step allowed|no forbidden event sequence has fewer than 1 event
--allowance 5|for want of steps, with 5 steps allowed|no forbidden event sequence has fewer than 2 events
--blockers 0|for want of blocker room, with 0 places|no forbidden event sequence has fewer than 1 event
--blockers 1|for want of blocker room, with 1 place|no forbidden event sequence has fewer than 2 events
--word 0|for want of word room, with 0 places|no forbidden event sequence has fewer than 1 event
--word 1|for want of word room, with 1 place|no forbidden event sequence has fewer than 2 events
--word 3|for want of word room, with 3 places|no forbidden event sequence has fewer than 4 events
";

#[test]
fn a_stop_says_the_limit_and_what_was_shown() {
    let check = |option: &str| {
        let words = ["check", "models/screen.txt"]
            .into_iter()
            .chain(option.split(' '));
        afa(&words.collect::<Vec<_>>())
    };
    for stop in STOPS.lines() {
        let [option, sentence, shown] = stop.split('|').collect::<Vec<_>>()[..] else {
            panic!("{stop}");
        };
        let ended = check(option);
        assert_eq!(ended.status, 2, "{ended:?}");
        let expected = format!("stopped: {sentence}\n{shown}\n");
        assert!(ended.output.starts_with(&expected), "{expected}: {ended:?}");
        assert_eq!(ended.output.lines().count(), 3, "{ended:?}");
    }
    assert_eq!(check("--allowance 19").status, 2);
    for enough in ["--word 4", "--blockers 6", "--allowance 20"] {
        assert_eq!(check(enough).status, 1, "{enough}");
    }
}

#[test]
fn what_a_stop_has_shown_is_so() {
    let wants = ["steps", "blocker room", "word room"];
    for model in models() {
        let length = shortest(&Model::read(&text_of(&model)));
        for (option, want) in ["--allowance", "--blockers", "--word"].iter().zip(wants) {
            for limit in ["0", "2", "7"] {
                let found = found(&[&model, option, limit]);
                let case = format!("{model} {option} {limit}: {found:?}");
                if found.get("verdict").text() != "stopped" {
                    let least = found.get("least");
                    let found = (!least.is_null()).then(|| least.number() as usize);
                    assert_eq!(found, length, "{case}");
                    continue;
                }
                let sentence = format!("for want of {want}, with {limit} ");
                assert!(
                    found.get("sentence").text().starts_with(&sentence),
                    "{case}"
                );
                let least = found.get("least").number();
                assert!(length.is_none_or(|length| least <= length as u64), "{case}");
            }
        }
    }
}

#[test]
fn numbers_that_the_library_refuses() {
    for (option, value, number) in [
        ("--blockers", "65537", 31),
        ("--word", "65537", 31),
        ("--blockers", "18446744073709551615", 31),
        ("--word", "18446744073709551615", 31),
        ("--way", "2", 37),
        ("--way", "18446744073709551615", 37),
        ("--edition", "0", 36),
        ("--edition", "3", 36),
    ] {
        let ended = afa(&["check", "models/b.txt", option, value]);
        assert_eq!(ended.status, 3, "{ended:?}");
        let expected = format!("afa: refused under number {number}: ");
        assert!(
            ended.errors.starts_with(&expected),
            "{option} {value}: {ended:?}"
        );
    }
    let ended = afa(&[
        "check",
        "models/b.txt",
        "--blockers",
        "65536",
        "--word",
        "65536",
    ]);
    assert_eq!(ended, afa(&["check", "models/b.txt"]));
}

#[test]
fn a_name_and_its_value_may_stand_in_one_word() {
    for (apart, together) in [
        (["--allowance", "5"], "--allowance=5"),
        (["--blockers", "2"], "--blockers=2"),
        (["--word", "2"], "--word=2"),
        (["--way", "1"], "--way=1"),
        (["--edition", "3"], "--edition=3"),
    ] {
        let apart = afa(&["check", "models/screen.txt", apart[0], apart[1]]);
        assert_eq!(
            afa(&["check", together, "models/screen.txt"]),
            apart,
            "{together}"
        );
    }
    let level = ["why", "models/screen.txt", "--level=1", "shown"];
    assert_eq!(
        afa(&level),
        afa(&["why", "--level", "1", "models/screen.txt", "shown"])
    );
}

/// The program in a folder where a model has the name of an option.
fn beside(option: &str, words: &[&str]) -> Ended {
    let folder = scratch(&format!("commands-beside{option}"));
    file(&folder, option, text_of("models/b.txt"));
    run(program().current_dir(&folder).args(words))
}

#[test]
fn two_dashes_end_the_options() {
    let plain = afa(&["check", "models/b.txt"]);
    assert_eq!(afa(&["check", "--", "models/b.txt"]), plain);
    assert_eq!(beside("--json", &["check", "--", "--json"]), plain);
    assert!(beside("--json", &["check", "--json", "--", "--json"])
        .output
        .starts_with('{'));
    assert_eq!(afa(&["test", "--", "models/b.txt", "0"]).status, 1);
    assert_no_answer(
        &afa(&["test", "models/b.txt", "--", "--"]),
        &["'--' is no event"],
    );
}

#[test]
fn two_dashes_end_the_options_help_too() {
    let plain = afa(&["check", "models/b.txt"]);
    assert_eq!(beside("--help", &["check", "--", "--help"]), plain);
}

#[test]
fn the_sets_of_a_frame_are_good_hints() {
    let folder = scratch("commands-hints");
    for (number, model) in models().iter().enumerate() {
        let plain = afa(&["check", model]);
        if plain.status != 0 {
            continue;
        }
        let read = Model::read(&text_of(model));
        let sets = plain.output.lines().filter(|line| line.starts_with("  {"));
        let mut printed: Vec<&str> = sets.collect();
        let frame = found(&[model]).get("frame").clone();
        let mut names: Vec<Vec<String>> = frame.list().iter().map(Value::texts).collect();
        // The first block is that of the final set: a hint that contains it is accepted there.
        let contains = |names: &Vec<String>| read.final_set.is_subset(&read.set(names));
        let first = names
            .iter()
            .position(contains)
            .expect("the final set in a blocker");
        printed.rotate_left(first);
        names.rotate_left(first);
        let lines: Vec<String> = names.iter().map(|names| names.join(" ")).collect();
        let ended = [
            printed.join("\n") + "\n",
            printed.join("\n").replace(['{', ',', '}'], " "),
            printed.join("\n\n# more\n"),
            lines.join("\r\n"),
        ]
        .map(|hints| {
            let path = file(&folder, &number.to_string(), hints);
            let count = found(&[model, "--hints", &path]).get("hints").number();
            assert!(count >= 1, "{model}");
            let ended = afa(&["check", model, "--hints", &path]);
            let what = if count == 1 { "hint" } else { "hints" };
            let said = format!(", {count} {what} accepted\n");
            assert!(ended.output.ends_with(&said), "{said}: {ended:?}");
            ended
        });
        assert_eq!(ended[0].status, 0, "{model}");
        for other in &ended[1..] {
            assert_eq!(*other, ended[0], "{model}");
        }
    }
}

#[test]
fn hints_change_no_verdict() {
    let folder = scratch("commands-random-hints");
    let mut random = Random(7);
    for (number, model) in models().iter().enumerate() {
        let read = Model::read(&text_of(model));
        let mut line = || {
            let among = random.number();
            let states = (0..read.states.len()).filter(|state| among >> state & 1 == 1);
            states
                .map(|state| read.states[state].as_str())
                .collect::<Vec<_>>()
                .join(", ")
        };
        let hints: String = (0..20).map(|_| format!("{{{}}}\n", line())).collect();
        let path = file(&folder, &number.to_string(), hints);
        let (plain, hinted) = (found(&[model]), found(&[model, "--hints", &path]));
        for key in ["verdict", "number", "least", "sentence"] {
            assert_eq!(hinted.get(key), plain.get(key), "{model}");
        }
    }
}

#[test]
fn more_hints_than_the_library_takes() {
    let folder = scratch("commands-many-hints");
    let most = file(&folder, "most", "{0}\n".repeat(65_536));
    let more = file(&folder, "more", "{0}\n".repeat(65_537));
    assert_eq!(afa(&["check", "models/a.txt", "--hints", &most]).status, 0);
    let ended = afa(&["check", "models/a.txt", "--hints", &more]);
    assert_eq!(ended.status, 3);
    assert_no_answer(&ended, &["refused under number 31: "]);
}

#[test]
fn standard_input_holds_one_thing() {
    let text = text_of("models/a.txt");
    let ended = afa_reading(&["check", "-", "--hints", "-"], text.as_bytes());
    assert_no_answer(&ended, &["expected"]);
}

#[test]
fn hints_from_standard_input() {
    let ended = afa_reading(&["check", "models/a.txt", "--hints", "-"], b"{2}\n");
    assert_eq!(ended.status, 0);
    assert!(ended.output.ends_with("1 hint accepted\n"), "{ended:?}");
}
