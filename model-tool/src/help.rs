//! The pages of `--help`.

pub const COMMANDS: [&str; 6] = ["check", "image", "text", "test", "run", "why"];

pub const OVERVIEW: &str = "\
usage: afa COMMAND ..

  check MODEL                   decide whether some sequence of events leads to the model's forbidden picture
  test MODEL EVENT..            say whether these events lead there
  run MODEL EVENT..             show how these events lead there, event by event
  why MODEL --level N STATE..   say why a set of states is blocked at a level, after a run
  image MODEL                   write the model's image, as the library reads it, to standard output
  text IMAGE                    write an image as a model's text to standard output

afa COMMAND --help has a page for each. MODEL is a file with a model's text, or - for standard input.
Every answer comes from the proved library. docs/FORMAT.md says what a model's text is:

  states  shown stale fresh       # names, or how many: states 3
  events  tick refresh            # names, or how many: events 2
  part    cache : stale fresh     # states that belong together: a column in the table of a run
  initial shown                   # the initial case
  final   stale fresh             # the final set: the picture is forbidden if all of it is in here
  row shown tick : stale fresh    # a state, an event and the case that follows, which may be empty
";

/// The options of a run, for the pages of `check` and `why`.
macro_rules! run_options {
    () => {
        "  --blockers N    places for blockers, at most 65536, which is also the default
  --word N        places for the word, and so its greatest length; at most 65536, the default
  --allowance N   steps that the run may make in all; by default as many as it takes
  --hints FILE    sets of states to be tried as blockers, one a line: names, with or without { , }
  --way 0|1       how blockers are grown: 0 state by state (the default), 1 through a hitting set.
                  Verdicts agree. On a model of independent parts 1 can take hundreds of times as long,
                  or run out of room: a blocker then gets no state that an event leaves as it is if that
                  event adds nothing to the case to be blocked, so that it may block this case alone
  --edition 1|2   whether a start that is forbidden already is a finding (1, the default) or a slip (2)
  --resume FILE   go on with a run that was saved, in its rooms or larger ones
"
    };
}

const CHECK: &str = concat!(
    "\
usage: afa check MODEL [OPTION]..

Decides whether some sequence of events leads to the model's forbidden picture. If one does, a shortest
is shown, event by event, with the states that are reached. If none does, the sets that show it.

",
    run_options!(),
    "  --save FILE     if the run stops or is interrupted, write what it needs to go on
  --html FILE     write the finding as one page for a browser
  --json          print one object: number, steps, level, blockers, hints, word, run, frame, ..

On a terminal a line shows how far the run has come. An interrupt (ctrl-C) ends it with what it has shown
by then; a run that stops has no verdict, but says which lengths are excluded.

exit status:
  0  empty: no sequence leads there
  1  nonempty: one does
  2  stopped: steps or room ran out, or it was interrupted
  3  no answer: the model, an option or a file is unreadable or refused
"
);

const WHY: &str = concat!(
    "\
usage: afa why MODEL --level N STATE.. [OPTION]..

Runs, and then says why the case of these states is blocked at a level: at level 0 because it lacks an
initial state, at others because it lies in a blocker of that level or more.

  --level N       the level
",
    run_options!(),
    "
exit status:
  0  it is blocked
  1  it is not
  3  no answer
"
);

const TEST: &str = "\
usage: afa test MODEL EVENT..

Says whether these events, by their names or numbers, lead to the model's forbidden picture. Without an
event: whether it is there from the start.

exit status:
  0  they do not
  1  they do
  3  no answer
";

const RUN: &str = "\
usage: afa run MODEL EVENT..

Shows how these events lead to the model's forbidden picture: the states reached after each event, with a
column for each part of the model.

exit status:
  0  they do not lead there
  1  they do
  3  no answer
";

const IMAGE: &str = "\
usage: afa image MODEL >IMAGE

Writes the model's image, as the library reads it, to standard output. An image has no names.

exit status: 0, or 3 if the model is unreadable
";

const TEXT: &str = "\
usage: afa text IMAGE >MODEL

Writes an image as a model's text to standard output, with numbers for names. - is standard input.

exit status: 0, or 3 if the image is unreadable or refused
";

pub fn page(command: &str) -> Option<&'static str> {
    Some(match command {
        "check" => CHECK,
        "image" => IMAGE,
        "text" => TEXT,
        "test" => TEST,
        "run" => RUN,
        "why" => WHY,
        _ => return None,
    })
}
