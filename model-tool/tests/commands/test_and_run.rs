//! `afa test` and `afa run`: the words that are accepted and the table of a run.

use super::*;

fn numbers(model: &Model, word: &[String]) -> Vec<String> {
    let number = |name: &String| model.event(name).to_string();
    word.iter().map(number).collect()
}

#[test]
fn the_word_that_was_found_is_accepted_and_no_shorter_one() {
    for model in models() {
        let Some(word) = word_of(&model) else {
            continue;
        };
        let read = Model::read(&text_of(&model));
        for word in [word.clone(), numbers(&read, &word)] {
            let ended = afa(&with(&["test", &model], &word));
            assert_eq!((ended.status, verdict(&ended)), (1, "accepted"), "{model}");
            let Some((_, shorter)) = word.split_last() else {
                continue;
            };
            let ended = afa(&with(&["test", &model], shorter));
            assert_eq!(
                (ended.status, verdict(&ended)),
                (0, "not accepted"),
                "{model}"
            );
        }
    }
}

#[test]
fn without_an_event_the_start_is_tested() {
    for model in models() {
        let read = Model::read(&text_of(&model));
        let is_final = read.initial.is_subset(&read.final_set);
        for command in ["test", "run"] {
            let ended = afa(&[command, &model]);
            assert_eq!(ended.status, i32::from(is_final), "{command} {model}");
            assert!(ended.output.contains("from the start"), "{ended:?}");
        }
    }
}

#[test]
fn random_words_are_accepted_where_they_must_be() {
    let mut random = Random(3);
    for model in models() {
        let read = Model::read(&text_of(&model));
        for _ in 0..6 {
            let length = random.below(6);
            let word: Vec<usize> = (0..length)
                .map(|_| random.below(read.events.len()))
                .collect();
            let names: Vec<String> = word
                .iter()
                .map(|&event| read.events[event].clone())
                .collect();
            for command in ["test", "run"] {
                let ended = afa(&with(&[command, &model], &names));
                assert_eq!(
                    ended.status,
                    i32::from(read.accepts(&word)),
                    "{model} {names:?}"
                );
            }
        }
    }
}

/// The lines between the first and the one with the counts.
fn between(output: &str) -> &str {
    let (_, behind) = output.split_once('\n').unwrap();
    &behind[..behind.trim_end().rfind('\n').unwrap() + 1]
}

#[test]
fn the_run_of_the_word_is_what_check_printed() {
    for model in models() {
        let Some(word) = word_of(&model) else {
            continue;
        };
        let read = Model::read(&text_of(&model));
        let checked = afa(&["check", &model]);
        for word in [numbers(&read, &word), word] {
            let ended = afa(&with(&["run", &model], &word));
            assert_eq!((ended.status, verdict(&ended)), (1, "accepted"), "{model}");
            let (_, table) = ended.output.split_once('\n').unwrap();
            assert_eq!(table, between(&checked.output), "{model}");
        }
    }
}

#[test]
fn the_table_has_each_event_and_what_each_part_has_reached() {
    let ended = afa(&[
        "run",
        "models/screen.txt",
        "tick",
        "refresh",
        "expire",
        "draw",
    ]);
    let expected = "accepted: these events lead to the forbidden picture\n\n     \
         event    feed   cache  screen   other states\n  \
         0           -      -      -        start\n  \
         1  tick     live   stale  blank    -\n  \
         2  refresh  live   fresh  waiting  -\n  \
         3  expire   quiet  stale  waiting  -\n  \
         4  draw     quiet  stale  shown    -\n\n\
         forbidden: all of it is in the final set {feed, stale, shown}\n";
    assert_eq!(ended.output, expected);
}

#[test]
fn a_run_over_a_word_that_is_not_accepted() {
    let ended = afa(&["run", "models/screen.txt", "tick", "draw"]);
    assert_eq!((ended.status, ended.output.lines().count()), (0, 1));
    assert_eq!(verdict(&ended), "not accepted");
}

#[test]
fn an_event_that_there_is_not() {
    for command in ["test", "run"] {
        let ended = afa(&[command, "models/screen.txt", "tick", "exprie"]);
        let expected = [
            "models/screen.txt: 'exprie' is no event",
            "did you mean 'expire'?",
        ];
        assert_no_answer(&ended, &expected);
        let ended = afa(&[command, "models/screen.txt", "4"]);
        assert_no_answer(&ended, &["'4' is no event", "a number from 0 to 3"]);
        assert!(!ended.errors.contains("did you mean"), "{ended:?}");
    }
}
