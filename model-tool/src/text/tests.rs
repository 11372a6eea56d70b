//! Each kind of fault is reported with its line and column; layout is free.

use super::*;

const START: &str = "states shown stale\nevents tick\ninitial shown\nfinal stale\n";

fn fault(text: &str) -> String {
    read(text.as_bytes()).unwrap_err().to_string()
}

/// The fault of a model whose line 5 is `line`.
fn fault_of(line: &str) -> String {
    fault(&format!("{START}{line}\nrow shown tick : stale\n"))
}

#[test]
fn names_and_numbers_say_the_same() {
    let named = format!("{START}row shown tick : stale\nrow stale tick :\n");
    let mixed = format!("{START}row 0 0 : 1\nrow 1 tick :\n");
    let numbered = "states 2\nevents 1\ninitial 0\nfinal 1\nrow 0 0 : 1\nrow 1 0 :\n";
    let named = read(named.as_bytes()).unwrap();
    let numbered = read(numbered.as_bytes()).unwrap();
    assert_eq!(read(mixed.as_bytes()).unwrap(), named);
    assert_eq!(numbered.rows, named.rows);
    assert_eq!(numbered.initial, named.initial);
    assert_eq!(numbered.final_set, named.final_set);
}

#[test]
fn layout_is_free() {
    let plain = format!("{START}row shown tick : stale shown\n");
    let other = "# what it shows\r\n\n  states shown stale # two\n\tevents tick\n\
                 row shown tick:shown stale\nfinal stale\ninitial shown";
    assert_eq!(read(other.as_bytes()), read(plain.as_bytes()));
}

#[test]
fn a_model_is_written_line_by_line() {
    let text = "states shown stale\nevents 2\ninitial\nfinal shown stale\n\
                row stale 0 : shown stale\nrow shown 1 :\nrow shown 1 :\n";
    assert_eq!(write(&read(text.as_bytes()).unwrap()), text);
}

#[test]
fn a_line_that_begins_wrongly() {
    assert_eq!(
        fault_of("rows shown tick : stale"),
        "5:1: 'rows' begins no line; did you mean 'row'? Expected one of states, events, part, \
         initial, final, row"
    );
    let bytes = [START.as_bytes(), b"row \xff\n"].concat();
    let fault = read(&bytes).unwrap_err().to_string();
    assert_eq!(fault, "5:5: a byte that is not text: expected UTF-8");
}

#[test]
fn a_line_that_comes_again() {
    for (line, word) in [
        ("states 2", "states"),
        ("events tick", "events"),
        ("initial", "initial"),
        ("final", "final"),
    ] {
        let expected = format!("5:1: a second line '{word}': expected one");
        assert_eq!(fault_of(line), expected);
    }
}

#[test]
fn a_line_that_comes_too_early() {
    let states = "1:1: expected a line 'states' before this one";
    assert_eq!(fault("initial shown\n"), states);
    assert_eq!(fault("final\n"), states);
    assert_eq!(fault("row 0 0 :\n"), states);
    assert_eq!(
        fault("states 1\nrow 0 0 :\n"),
        "2:1: expected a line 'events' before this one"
    );
}

#[test]
fn a_line_that_is_missing() {
    let lines: Vec<&str> = START.lines().collect();
    for (word, count) in [("states", 0), ("events", 1), ("initial", 2), ("final", 3)] {
        let text = lines[..count].join("\n") + "\n# the last line\n";
        let line = text.lines().count();
        let expected = format!("{line}:1: the text ends here: expected a line '{word}' in it");
        assert_eq!(fault(&text), expected);
    }
    assert!(fault("").starts_with("1:1: the text ends here"));
    assert!(fault("states 2 # two").starts_with("1:9: the text ends here"));
}

#[test]
fn names_that_are_wrong() {
    assert_eq!(fault("states\n"), "1:7: 0 states: expected 1 to 64");
    assert_eq!(fault("states 0\n"), "1:8: 0 states: expected 1 to 64");
    let many = "9".repeat(30);
    let expected = format!("1:8: {many} states: expected 1 to 64");
    assert_eq!(fault(&format!("states {many}\n")), expected);
    assert_eq!(fault("\nevents 65\n"), "2:8: 65 events: expected 1 to 64");
    let names: Vec<String> = (0..65).map(|number| format!("s{number}")).collect();
    let line = format!("states {}\n", names.join(" "));
    assert_eq!(fault(&line), "1:8: 65 states: expected 1 to 64");
    let twice = "1:18: 'tick' stands twice: expected each name once";
    assert_eq!(fault("events tick draw tick\n"), twice);
    for (line, column, word) in [
        ("states 2 stale", 8, "2"),
        ("states 2nd", 8, "2nd"),
        ("states +2", 8, "+2"),
        ("states shown, stale", 8, "shown,"),
        ("states a:b", 9, ":"),
    ] {
        let expected = "is no name: expected a letter, then letters, digits, '-' or '_'";
        let expected = format!("1:{column}: '{word}' {expected}");
        assert_eq!(fault(line), expected);
    }
}

#[test]
fn states_and_events_that_are_unknown() {
    let states = "expected one of shown, stale, or a number from 0 to 1";
    for (line, column, word) in [
        ("row fresh tick :", 5, "fresh"),
        ("row shown tick : fresh", 18, "fresh"),
        ("row shown tick:\tshown  2", 24, "2"),
    ] {
        let expected = format!("5:{column}: '{word}' is no state: {states}");
        assert_eq!(fault_of(line), expected);
    }
    assert_eq!(
        fault_of("row shwon tick :"),
        "5:5: 'shwon' is no state; did you mean 'shown'? Expected one of shown, stale, or a number from \
         0 to 1"
    );
    assert_eq!(
        fault_of("row shown tic : stale"),
        "5:11: 'tic' is no event; did you mean 'tick'? Expected tick, or a number from 0 to 0"
    );
    let expected = "2:9: '3' is no state: expected a number from 0 to 2";
    assert_eq!(fault("states 3\ninitial 3\n"), expected);
    assert_eq!(
        fault("states 3\nfinal 1 2 1\n"),
        "2:11: '1' stands twice: expected each state once"
    );
}

#[test]
fn parts() {
    let text = "states start blank shown stale\nevents tick\npart screen : blank shown\n\
                part cache:stale\ninitial screen\nfinal stale screen\nrow start tick : screen stale\n";
    let model = read(text.as_bytes()).unwrap();
    assert_eq!(model.initial, Case(6));
    assert_eq!(model.final_set, Case(14));
    assert_eq!(model.rows[0][0].case, Case(14));
    assert_eq!(model.rest(), Case(1));
    assert_eq!(model.set(Case(15)), "{screen, stale, start}");
    assert_eq!(model.set(Case(12)), "{shown, stale}");
    let sets = read_sets(&model, b"screen # both\n\n{}\n{shown, 0}\n{ stale,screen }").unwrap();
    assert_eq!(sets, [Case(6), Case(0), Case(5), Case(14)]);
}

#[test]
fn parts_that_are_wrong() {
    let shape = "expected: part NAME : STATES";
    for (line, fault) in [
        ("part", format!("5:5: {shape}")),
        ("part screen", format!("5:12: {shape}")),
        ("part screen shown", format!("5:13: {shape}")),
        ("part : shown", format!("5:6: {shape}")),
        ("part screen :", "5:14: no state: expected one or more".to_owned()),
        (
            "part 2 : shown",
            "5:6: '2' is no name: expected a letter, then letters, digits, '-' or '_'".to_owned(),
        ),
        (
            "part stale : shown",
            "5:6: 'stale' is a state or a part already: expected a new name".to_owned(),
        ),
        (
            "part screen : shown 0",
            "5:21: '0' stands twice: expected each state once".to_owned(),
        ),
        (
            "part screen : shown\npart other : stale shown",
            "6:20: 'shown' is in the part 'screen' already: expected one part".to_owned(),
        ),
        (
            "part screen : shown\npart screen : stale",
            "6:6: 'screen' is a state or a part already: expected a new name".to_owned(),
        ),
        (
            "part screen : shown stale\nrow shown tick : sceen",
            "6:18: 'sceen' is no state; did you mean 'screen'? Expected one of shown, stale, screen, or a \
             number from 0 to 1"
                .to_owned(),
        ),
        (
            "part screen : shown stale\nrow shown tick : shown screen",
            "6:24: 'screen' stands twice: expected each state once".to_owned(),
        ),
        (
            "part screen : shown stale\nrow screen tick : shown",
            "6:5: 'screen' is no state: expected one of shown, stale, or a number from 0 to 1".to_owned(),
        ),
    ] {
        assert_eq!(fault_of(line), fault, "{line}");
    }
    let early = "1:1: expected a line 'states' before this one";
    assert_eq!(super::read(b"part a : b\n").unwrap_err().to_string(), early);
}

#[test]
fn sets_that_are_wrong() {
    let model = read(format!("{START}part screen : shown stale\n").as_bytes()).unwrap();
    let fault = |text: &[u8]| read_sets(&model, text).unwrap_err().to_string();
    assert_eq!(
        fault(b"shown\n{stale, shwon}\n"),
        "2:9: 'shwon' is no state; did you mean 'shown'? Expected one of shown, stale, screen, or a number \
         from 0 to 1"
    );
    assert_eq!(
        fault(b"0 screen"),
        "1:3: 'screen' stands twice: expected each state once"
    );
    assert_eq!(
        fault(b"0 \xff"),
        "1:3: a byte that is not text: expected UTF-8"
    );
    let one_set = "expected one set on a line";
    assert_eq!(fault(b"{0} {1}"), format!("1:5: {one_set}"));
    assert_eq!(fault(b"0 {1}"), format!("1:3: {one_set}"));
    assert_eq!(fault(b"{0}, 1"), format!("1:4: {one_set}"));
    assert_eq!(read_sets(&model, b""), Ok(Vec::new()));
}

#[test]
fn rows_of_another_shape() {
    for (line, column) in [
        ("row", 4),
        ("row shown", 10),
        ("row shown tick stale", 16),
        ("row shown : stale", 11),
        ("row : shown tick", 5),
        ("row shown tick # : stale", 15),
    ] {
        let expected = format!("5:{column}: expected: row STATE EVENT : STATES");
        assert_eq!(fault_of(line), expected);
    }
    assert_eq!(
        fault_of("row shown tick : : stale"),
        "5:18: ':' is no state: expected one of shown, stale, or a number from 0 to 1"
    );
}

#[test]
fn rows_up_to_the_most() {
    let most = START.to_owned() + &"row 0 0 :\n".repeat(4096);
    assert_eq!(read(most.as_bytes()).unwrap().row_count(), 4096);
    let expected = "4101:1: one row too many: expected at most 4096";
    assert_eq!(fault(&(most + "row 0 0 :\n")), expected);
}
