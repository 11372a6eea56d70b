//! `afa why`: against the definition, on the frames of empty models.

use super::*;

/// A blocker of a frame, with its level and the step that made it.
struct Blocker {
    case: Set,
    shown: String,
    level: u64,
    step: u64,
}

fn ask(model: &str, level: u64, case: &[String]) -> Ended {
    afa(&with(&["why", model, "--level", &level.to_string()], case))
}

/// The frame in its order. The levels, which `check` does not tell, are asked for: no set of a frame
/// lies in another, so each is covered by itself.
fn frame(model: &str, read: &Model) -> Vec<Blocker> {
    let plain = afa(&["check", model]).output;
    let shown = plain.lines().filter_map(|line| line.strip_prefix("  "));
    let found = found(&[model]);
    let blocker = |(value, shown): (&Value, &str)| {
        let names = value.texts();
        let sentence = ask(model, 1, &names).output;
        let (_, behind) = sentence.split_once(" of level ").unwrap();
        let (level, behind) = behind.split_once(", which step ").unwrap();
        let (step, _) = behind.split_once(" made\n").unwrap();
        Blocker {
            case: read.set(&names),
            shown: shown.to_owned(),
            level: level.parse().unwrap(),
            step: step.parse().unwrap(),
        }
    };
    let frame: Vec<Blocker> = found
        .get("frame")
        .list()
        .iter()
        .zip(shown)
        .map(blocker)
        .collect();
    assert_eq!(frame.len() as u64, found.get("blockers").number());
    let reached = found.get("level").number();
    assert!(frame
        .iter()
        .all(|blocker| (2..=reached + 1).contains(&blocker.level)));
    let steps: Vec<u64> = frame.iter().map(|blocker| blocker.step).collect();
    assert!(steps.windows(2).all(|pair| pair[0] < pair[1]), "{steps:?}");
    frame
}

/// The start of the sentence that must be said of a case at a level, behind the case.
fn expected(model: &Model, frame: &[Blocker], level: u64, case: &Set) -> (i32, String) {
    if level == 0 {
        return match model.initial.difference(case).next() {
            Some(&state) => (
                0,
                format!(" lacks the initial state {}\n", model.states[state]),
            ),
            None => (1, " contains the initial case\n".to_owned()),
        };
    }
    let covers = |blocker: &Blocker| blocker.level >= level && case.is_subset(&blocker.case);
    let Some(place) = frame.iter().position(covers) else {
        return (1, format!("no blocker of level {level} or more contains "));
    };
    let Blocker {
        shown, level, step, ..
    } = &frame[place];
    let blocker = format!("the blocker at place {place} of level {level}, which step {step} made");
    (0, format!(" lies in {shown}, {blocker}\n"))
}

fn cases(model: &Model, frame: &[Blocker], random: &mut Random) -> Vec<Set> {
    let all: Set = (0..model.states.len()).collect();
    let mut cases = vec![
        Set::new(),
        model.initial.clone(),
        model.final_set.clone(),
        all.clone(),
    ];
    for blocker in frame {
        let mut more = blocker.case.clone();
        more.insert(random.below(all.len()));
        cases.extend([blocker.case.clone(), more]);
    }
    for _ in 0..4 {
        let among = random.number();
        cases.push(
            all.iter()
                .copied()
                .filter(|state| among >> state & 1 == 1)
                .collect(),
        );
    }
    cases
}

#[test]
fn a_case_is_blocked_where_the_definition_says_so() {
    let mut random = Random(5);
    let mut asked = [0; 2];
    for model in models() {
        if afa(&["check", &model]).status != 0 {
            continue;
        }
        let read = Model::read(&text_of(&model));
        let frame = frame(&model, &read);
        let highest = frame.iter().map(|blocker| blocker.level).max().unwrap();
        let counts = afa(&["check", &model]).output;
        let counts = counts.lines().last().unwrap();
        for case in cases(&read, &frame, &mut random) {
            let names = read.names(&case);
            for level in [0, 1, highest, highest + 1, u64::MAX] {
                let ended = ask(&model, level, &names);
                let (status, sentence) = expected(&read, &frame, level, &case);
                let what = format!("{model}, {names:?} at {level}: {ended:?}");
                assert_eq!(ended.status, status, "{what}");
                let word = ["blocked: ", "not blocked: "][status as usize];
                assert!(ended.output.starts_with(word), "{what}");
                assert!(ended.output.contains(&sentence), "{sentence}: {what}");
                let last = format!("\nafter a run, empty: {counts}\n");
                assert!(ended.output.ends_with(&last), "{what}");
                asked[status as usize] += 1;
            }
        }
    }
    assert!(asked[0] > 40 && asked[1] > 40, "{asked:?}");
}

#[test]
fn states_are_written_by_names_numbers_and_parts() {
    let model = "models/stall-hollow.txt";
    let ways = [
        "feed queue volatility stamp shown",
        "0 1 2 3 4 5 6 7 8 9 10 12",
        "flowing 1 queue none new old stamp 12",
    ];
    let answers = ways.map(|states| {
        let states: Vec<String> = states.split(' ').map(str::to_owned).collect();
        ask(model, 1, &states)
    });
    let set = "{feed, queue, volatility, stamp, shown}";
    let expected = format!(
        "blocked: {set} lies in {set}, the blocker at place 1 of level 4, which step 12 made\n"
    );
    assert!(answers[0].output.starts_with(&expected), "{answers:?}");
    assert_eq!(answers[1], answers[0]);
    assert_eq!(answers[2], answers[0]);
}

#[test]
fn the_run_may_have_found_a_word_or_stopped() {
    let ask = |more: &[&str]| {
        let ended = afa(&[&["why", "models/screen.txt", "--level", "1", "shown"], more].concat());
        let ending = ended
            .output
            .lines()
            .nth(1)
            .unwrap()
            .split(':')
            .next()
            .unwrap()
            .to_owned();
        (ended.status, ending)
    };
    assert_eq!(ask(&[]).1, "after a run, nonempty");
    assert_eq!(
        ask(&["--allowance", "0"]),
        (1, "after a run, stopped".to_owned())
    );
    assert_eq!(
        ask(&["--blockers", "0"]),
        (1, "after a run, stopped".to_owned())
    );
}

#[test]
fn a_state_that_there_is_not() {
    let ended = ask("models/screen.txt", 1, &["shwon".to_owned()]);
    assert_no_answer(
        &ended,
        &["models/screen.txt: 'shwon' is no state; did you mean 'shown'?"],
    );
    let ended = ask("models/screen.txt", 1, &["scren".to_owned()]);
    assert_no_answer(&ended, &["'scren' is no state; did you mean 'screen'?"]);
}

#[test]
fn a_refused_run() {
    let ended = afa(&["why", "models/b.txt", "--level", "1", "0", "--way", "2"]);
    assert_no_answer(&ended, &["refused under number 37: "]);
}
