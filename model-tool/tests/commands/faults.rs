//! Faults in texts: file, line, column, what was expected, and the nearest name.

use super::*;

const START: &str = "states shown stale fresh\nevents tick refresh\npart cache : stale fresh\ninitial shown\nfinal stale\n";

/// A text that is no model is told with its file, line and column, in one line.
fn assert_fault(folder: &Path, text: &[u8], place: &str, what: &[&str]) {
    let path = file(folder, "model.txt", text);
    let ended = afa(&["image", &path]);
    let shown = String::from_utf8_lossy(text);
    assert_no_answer(&ended, what);
    let expected = format!("afa: {path}:{place}: ");
    assert!(
        ended.errors.starts_with(&expected),
        "{place}: {ended:?} of\n{shown}"
    );
    assert!(
        ended.errors.contains("expected") || ended.errors.contains("Expected"),
        "{ended:?}"
    );
    assert_eq!(ended.errors.lines().count(), 1, "{ended:?}");
}

/// A fault a line: its column, the line of the model that has it, and what is said of it.
const LINES: &str = "\
1|rows shown tick : stale|'rows' begins no line; did you mean 'row'? Expected one of states, events, part, initial, final, row
3|  intial shown|'intial' begins no line; did you mean 'initial'?
2|\tprat x : shown|'prat' begins no line; did you mean 'part'?
1|frobnicate|'frobnicate' begins no line: expected one of states, 
1|: shown|':' begins no line: expected one of states, 
1|states 3|a second line 'states': expected one
1|events tick|a second line 'events': expected one
1|initial|a second line 'initial': expected one
3|  final stale # again|a second line 'final': expected one
4|row|expected: row STATE EVENT : STATES
15|row shown tick|expected: row STATE EVENT : STATES
15|row shown tick  # stale|expected: row STATE EVENT : STATES
16|row shown tick stale|expected: row STATE EVENT : STATES
11|row shown : stale|expected: row STATE EVENT : STATES
16|row shown tick stale : fresh|expected: row STATE EVENT : STATES
5|row shwon tick : stale|'shwon' is no state; did you mean 'shown'? Expected one of shown, stale, fresh, or a number from 0 to 2
5|row 3 tick : stale|'3' is no state: expected one of shown, stale, fresh, or a number from 0 to 2
5|row cache tick : stale|'cache' is no state
11|row shown tikc : stale|'tikc' is no event; did you mean 'tick'? Expected one of tick, refresh, or a number from 0 to 1
11|row shown 2 : stale|'2' is no event
24|row shown tick : fresh stlae|'stlae' is no state; did you mean 'stale'? Expected one of shown, stale, fresh, cache, or
18|row shown tick : cahce|'cahce' is no state; did you mean 'cache'?
24|row shown tick : stale : fresh|':' is no state
24|row shown tick : stale stale|'stale' stands twice: expected each state once
24|row shown tick : stale 1|'1' stands twice: expected each state once
22|row shown tick:cache stale|'stale' stands twice: expected each state once
24|row shown tick : stale cache|'cache' stands twice: expected each state once
5|part|expected: part NAME : STATES
12|part screen|expected: part NAME : STATES
13|part screen shown|expected: part NAME : STATES
6|part : shown|expected: part NAME : STATES
14|part screen :|no state: expected one or more
6|part 1screen : shown|'1screen' is no name: expected a letter, then letters, digits, '-' or '_'
6|part shown : shown|'shown' is a state or a part already: expected a new name
6|part cache : shown|'cache' is a state or a part already: expected a new name
21|part screen : shown fresh|'fresh' is in the part 'cache' already: expected one part
21|part screen : shown 0|'0' stands twice: expected each state once
15|part screen : shonw|'shonw' is no state; did you mean 'shown'?
15|part screen : cache|'cache' is no state
";

#[test]
fn in_a_line_behind_the_start() {
    let folder = scratch("commands-faults-lines");
    for fault in LINES.lines() {
        let [column, line, what] = fault.split('|').collect::<Vec<_>>()[..] else {
            panic!("{fault}");
        };
        let text = format!("{START}{line}\nrow shown refresh : shown\n");
        assert_fault(&folder, text.as_bytes(), &format!("6:{column}"), &[what]);
    }
}

/// A fault a line: its place, the text with / for each line's end, and what is said of it.
const TEXTS: &str = "\
1:1||the text ends here: expected a line 'states' in it
2:1|# nothing//|the text ends here: expected a line 'states' in it
1:9|states 1/|the text ends here: expected a line 'events' in it
2:9|states 1/events 1|the text ends here: expected a line 'initial' in it
3:10|states 1/events 1/initial 0  # I/|the text ends here: expected a line 'final' in it
1:1|initial shown/|expected a line 'states' before this one
1:1|final/|expected a line 'states' before this one
2:2|/ part x : y/|expected a line 'states' before this one
1:1|row 0 0 :/|expected a line 'states' before this one
2:1|states 1/row 0 0 :/|expected a line 'events' before this one
1:7|states/|0 states: expected 1 to 64
1:8|states 0/|0 states: expected 1 to 64
1:9|states  65/|65 states: expected 1 to 64
1:7|events/|0 events: expected 1 to 64
2:8|states 1/events 65/|65 events: expected 1 to 64
1:10|states a 1b/|'1b' is no name: expected a letter, then letters, digits, '-' or '_'
1:10|states a b+c/|'b+c' is no name
1:9|states a:b/|':' is no name
1:13|events tick _/|'_' is no name
1:12|states a b a/|'a' stands twice: expected each name once
2:12|states 2/events x y x/|'x' stands twice: expected each name once
2:9|states shown stale/initial shwon/|'shwon' is no state; did you mean 'shown'?
2:15|states shown stale/initial shown shown/|'shown' stands twice: expected each state once
2:15|states shown stale/initial shown 0/|'0' stands twice: expected each state once
2:7|states shown stale/final 2/|'2' is no state: expected one of shown, stale, or a number from 0 to 1
2:7|states 2/final two/|'two' is no state: expected a number from 0 to 1
3:12|states a b/part ab : a b/initial ab a/|'a' stands twice: expected each state once
2:9|states waiting waitings/initial waitingsx|'waitingsx' is no state; did you mean 'waitings'?
2:9|states waitings waiting/initial waitng|'waitng' is no state; did you mean 'waiting'?
2:9|states waiting waitings/initial waitingz|'waitingz' is no state; did you mean 'waiting'?
2:9|states a b/initial ab/part ab : a b/|'ab' is no state
";

#[test]
fn in_the_lines_of_the_start() {
    let folder = scratch("commands-faults-start");
    for fault in TEXTS.lines() {
        let [place, text, what] = fault.split('|').collect::<Vec<_>>()[..] else {
            panic!("{fault}");
        };
        assert_fault(&folder, text.replace('/', "\n").as_bytes(), place, &[what]);
    }
    let many: String = (0..65).map(|number| format!(" s{number}")).collect();
    for word in ["states", "events"] {
        let what = format!("65 {word}: expected 1 to 64");
        let text = format!("{word}{many}\n");
        assert_fault(&folder, text.as_bytes(), "1:8", &[&what]);
    }
}

#[test]
fn one_row_too_many() {
    let folder = scratch("commands-faults-rows");
    let head = "states 1\nevents 1\ninitial 0\nfinal\n";
    let most = format!("{head}{}", "row 0 0 : 0\n".repeat(4096));
    let path = file(&folder, "most.txt", &most);
    assert_eq!(afa(&["check", &path]).status, 0);
    let more = format!("{most}  row 0 0 :\n");
    assert_fault(
        &folder,
        more.as_bytes(),
        "4101:3",
        &["one row too many: expected at most 4096"],
    );
}

#[test]
fn a_byte_that_is_not_text() {
    let folder = scratch("commands-faults-bytes");
    for (bytes, place) in [
        (&b"\xff"[..], "1:1"),
        (b"states \xc3\xa4b \xff\n", "1:11"),
        (b"states a\n# \xe4\n", "2:3"),
        (b"states a\r\n\tevents \xc3\n", "2:9"),
    ] {
        assert_fault(
            &folder,
            bytes,
            place,
            &["a byte that is not text: expected UTF-8"],
        );
    }
}

#[test]
fn columns_count_letters() {
    let folder = scratch("commands-faults-columns");
    for (text, place, what) in [
        (
            "states \u{e4}\u{f6} \u{65e5}\u{672c}\ninitial \u{e4}\u{f6} \u{65e5}\u{672c} x\n",
            "2:15",
            "'x' is no state",
        ),
        (
            "states \u{e4}pfel\ninitial \u{e4}pfle\n",
            "2:9",
            "did you mean '\u{e4}pfel'?",
        ),
        ("states a\n\t\tinitial\tb\n", "2:11", "'b' is no state"),
        (
            "states a b\r\n\r\ninitial a c\r\n",
            "3:11",
            "'c' is no state",
        ),
        (
            "states a\r\nevents t\r\nrow a t\r\n",
            "3:8",
            "expected: row STATE EVENT : STATES",
        ),
        ("states a\r\n", "1:9", "the text ends here"),
        ("states a\u{3000}\u{1f600}\n", "1:10", "is no name"),
    ] {
        assert_fault(&folder, text.as_bytes(), place, &[what]);
    }
}

#[test]
fn by_each_command_and_from_standard_input() {
    let folder = scratch("commands-faults-commands");
    let text = "states shown stale\ninitial shwon\n";
    let path = file(&folder, "model.txt", text);
    for words in [
        &["check", "M"][..],
        &["check", "M", "--allowance", "1"],
        &["image", "M"],
        &["test", "M"],
        &["run", "M", "x"],
        &["why", "M", "--level", "1"],
    ] {
        let of = |model: &str| {
            words
                .iter()
                .map(|&word| {
                    if word == "M" {
                        model.to_owned()
                    } else {
                        word.to_owned()
                    }
                })
                .collect::<Vec<_>>()
        };
        assert_no_answer(
            &afa(&of(&path)),
            &[&format!(
                "afa: {path}:2:9: 'shwon' is no state; did you mean 'shown'?"
            )],
        );
        let words = of("-");
        let words: Vec<&str> = words.iter().map(String::as_str).collect();
        let ended = afa_reading(&words, text.as_bytes());
        assert_no_answer(&ended, &["afa: standard input:2:9: 'shwon' is no state"]);
    }
}

#[test]
fn a_model_from_standard_input() {
    for model in ["models/a.txt", "models/screen.txt"] {
        let text = text_of(model);
        assert_eq!(
            afa_reading(&["check", "-"], text.as_bytes()),
            afa(&["check", model])
        );
    }
}

#[test]
fn a_saved_run_of_another_model_from_standard_input() {
    let folder = scratch("commands-faults-resume");
    let saved = folder.join("saved");
    let path = saved.to_str().unwrap();
    let stopped = afa(&["check", "models/b.txt", "--allowance", "0", "--save", path]);
    assert_eq!(stopped.status, 2);
    let words = ["check", "models/c.txt", "--resume", path];
    assert_no_answer(&afa(&words), &[&format!("afa: {path}:2:7: ")]);
    let words = ["check", "models/c.txt", "--resume", "-"];
    let ended = afa_reading(&words, &fs::read(&saved).unwrap());
    assert_no_answer(&ended, &["afa: standard input:2:7: "]);
}

#[test]
fn more_than_is_read_of_standard_input() {
    let ended = afa_reading(&["image", "-"], &vec![b'\n'; (1 << 26) + 1]);
    assert_no_answer(&ended, &["standard input: expected at most 67108864 bytes"]);
}

#[test]
fn in_hints() {
    let folder = scratch("commands-faults-hints");
    for (text, place, what) in [
        (
            &b"{shown, stlae}\n"[..],
            "1:9",
            "'stlae' is no state; did you mean 'stale'?",
        ),
        (
            b"shown\n\n  {scren}\n",
            "3:4",
            "'scren' is no state; did you mean 'screen'?",
        ),
        (
            b"# none\r\nshown,8\r\n",
            "2:7",
            "'8' is no state: expected one of start, quiet, ",
        ),
        (
            b"{screen, shown}",
            "1:10",
            "'shown' stands twice: expected each state once",
        ),
        (
            b"{shown, 7}",
            "1:9",
            "'7' stands twice: expected each state once",
        ),
        (b"{shown: stale}", "1:2", "'shown:' is no state"),
        (
            b"{\t\xc3\xa4 \xff",
            "1:5",
            "a byte that is not text: expected UTF-8",
        ),
    ] {
        let path = file(&folder, "hints", text);
        for words in [
            &["check", "models/screen.txt", "--hints", &path][..],
            &["why", "models/screen.txt", "--level", "1", "--hints", &path],
        ] {
            assert_no_answer(&afa(words), &[&format!("afa: {path}:{place}: {what}")]);
        }
        let ended = afa_reading(&["check", "models/screen.txt", "--hints", "-"], text);
        assert_no_answer(&ended, &[&format!("afa: standard input:{place}: {what}")]);
    }
    let ended = afa(&["check", "models/screen.txt", "--hints", "none/hints"]);
    assert_no_answer(&ended, &["none/hints: "]);
}
