//! Models as text, as `docs/FORMAT.md` says: a line for each thing said; `#` begins a comment. `states`
//! and `events` give the names or how many there are; the lines after them write each by its name or
//! its number.
//!
//! ```text
//! states  shown stale fresh
//! events  tick refresh
//! part    cache : stale fresh
//! initial shown
//! final   stale fresh
//! row shown tick : stale fresh
//! ```

#[cfg(test)]
mod tests;

use crate::fault::{expected_one_of, quoted, shortened, unknown, unknown_with_parts, Fault};
use crate::model::{decimal, states_of, Case, Event, Model, Names, Part, Row, State};
use crate::model::{MOST_EVENTS, MOST_ROWS, MOST_STATES};
use crate::words::{lines, Line, Word};

pub fn read(text: &[u8]) -> Result<Model, Fault> {
    let mut reader = Reader::default();
    let mut end = (1, 1);
    for line in lines(text, ":") {
        let line = line?;
        let said = reader.line(&line.words);
        said.map_err(|(place, what)| line.fault_at(place, what))?;
        end = (line.number, line.end);
    }
    let (line, column) = end;
    let fault = |what| Fault { line, column, what };
    reader.end().map_err(fault)
}

/// The text of a model, its rows by event.
pub fn write(model: &Model) -> String {
    let case = |case: Case| model.names_of(case).join(" ");
    let mut lines = vec![
        format!("states {}", declared(&model.states)),
        format!("events {}", declared(&model.events)),
    ];
    for part in &model.parts {
        lines.push(format!("part {} : {}", part.name, case(part.states)));
    }
    lines.push(format!("initial {}", case(model.initial)));
    lines.push(format!("final {}", case(model.final_set)));
    for (event, rows) in model.all_events().zip(&model.rows) {
        let event = model.event_name(event);
        for row in rows {
            let state = model.state_name(row.state);
            lines.push(format!("row {state} {event} : {}", case(row.case)));
        }
    }
    let lines = lines.iter().map(|line| line.trim_end().to_owned() + "\n");
    lines.collect()
}

fn declared(names: &Names) -> String {
    if names.are_numbers() {
        names.count().to_string()
    } else {
        names.all().join(" ")
    }
}

/// What was found and what was expected, and the place of the word in its line, from 0: as many as there
/// are for the line's end.
type Said<T> = Result<T, (usize, String)>;

/// What the lines read so far have said.
#[derive(Default)]
struct Reader {
    states: Option<Names>,
    events: Option<Names>,
    initial: Option<Case>,
    final_set: Option<Case>,
    parts: Vec<Part>,
    rows: Vec<(Event, Row)>,
}

impl Reader {
    fn line(&mut self, words: &[Word]) -> Said<()> {
        let Some((first, rest)) = words.split_first() else {
            return Ok(());
        };
        match first.text {
            "states" => {
                let names = names("states", rest, MOST_STATES)?;
                once(&mut self.states, "states", names)
            }
            "events" => {
                let names = names("events", rest, MOST_EVENTS)?;
                once(&mut self.events, "events", names)
            }
            "initial" => {
                let case = self.case(words, 1)?;
                once(&mut self.initial, "initial", case)
            }
            "final" => {
                let case = self.case(words, 1)?;
                once(&mut self.final_set, "final", case)
            }
            "part" => self.part(words),
            "row" => self.row(words),
            word => {
                let known = vec!["states", "events", "part", "initial", "final", "row"];
                let expected = expected_one_of(word, known);
                Err((0, format!("{} begins no line{expected}", quoted(word))))
            }
        }
    }

    fn part(&mut self, words: &[Word]) -> Said<()> {
        let names = present(&self.states, "states")?;
        colon(words, 2, "part NAME : STATES")?;
        let name = words[1].text;
        if !is_name(name) {
            return Err((1, no_name(name)));
        }
        if states_of(name, names, &self.parts).is_some() {
            let name = quoted(name);
            return Err((
                1,
                format!("{name} is a state or a part already: expected a new name"),
            ));
        }
        let mut states = Case::default();
        for place in 3..words.len() {
            let state = self.state(words, place)?;
            let mut others = self.parts.iter();
            let other = others.find(|part| part.states.contains(state));
            if let Some(other) = other {
                let (state, name) = (quoted(words[place].text), quoted(&other.name));
                let what = format!("{state} is in the part {name} already: expected one part");
                return Err((place, what));
            }
            states = joined(states, Case::of(state), words, place)?;
        }
        if states.is_empty() {
            return Err((words.len(), "no state: expected one or more".to_owned()));
        }
        self.parts.push(Part {
            name: name.to_owned(),
            states,
        });
        Ok(())
    }

    fn row(&mut self, words: &[Word]) -> Said<()> {
        present(&self.states, "states")?;
        present(&self.events, "events")?;
        colon(words, 3, "row STATE EVENT : STATES")?;
        let state = self.state(words, 1)?;
        let event = self.event(words, 2)?;
        let case = self.case(words, 4)?;
        self.rows.push((event, Row { state, case }));
        if self.rows.len() > MOST_ROWS {
            let what = format!("one row too many: expected at most {MOST_ROWS}");
            return Err((0, what));
        }
        Ok(())
    }

    /// The states from a place on, each once.
    fn case(&self, words: &[Word], from: usize) -> Said<Case> {
        let names = present(&self.states, "states")?;
        let mut case = Case::default();
        for place in from..words.len() {
            let states = set_at(names, &self.parts, words, place)?;
            case = joined(case, states, words, place)?;
        }
        Ok(case)
    }

    fn state(&self, words: &[Word], place: usize) -> Said<State> {
        let names = present(&self.states, "states")?;
        found(names, words, place, "state").map(State)
    }

    fn event(&self, words: &[Word], place: usize) -> Said<Event> {
        let names = present(&self.events, "events")?;
        found(names, words, place, "event").map(Event)
    }

    fn end(self) -> Result<Model, String> {
        let missing = |word: &str| format!("the text ends here: expected a line '{word}' in it");
        let states = self.states.ok_or_else(|| missing("states"))?;
        let events = self.events.ok_or_else(|| missing("events"))?;
        let initial = self.initial.ok_or_else(|| missing("initial"))?;
        let final_set = self.final_set.ok_or_else(|| missing("final"))?;
        let mut rows = vec![Vec::new(); events.count()];
        for (event, row) in self.rows {
            rows[usize::from(event.0)].push(row);
        }
        Ok(Model {
            states,
            events,
            initial,
            final_set,
            parts: self.parts,
            rows,
        })
    }
}

fn found(names: &Names, words: &[Word], place: usize, what: &str) -> Said<u8> {
    let word = words[place].text;
    let number = names.find(word);
    number.ok_or_else(|| (place, unknown(word, what, names)))
}

/// The states that a word of a set writes.
fn set_at(names: &Names, parts: &[Part], words: &[Word], place: usize) -> Said<Case> {
    let word = words[place].text;
    let states = states_of(word, names, parts);
    states.ok_or_else(|| (place, unknown_with_parts(word, "state", names, parts)))
}

/// A set with more states, none of which it has yet.
fn joined(case: Case, more: Case, words: &[Word], place: usize) -> Said<Case> {
    if case.intersection(more).is_empty() {
        return Ok(case.union(more));
    }
    let word = quoted(words[place].text);
    Err((
        place,
        format!("{word} stands twice: expected each state once"),
    ))
}

/// A colon stands at this place, and none before it.
fn colon(words: &[Word], place: usize, shape: &str) -> Said<()> {
    let first = words.iter().position(|word| word.text == ":");
    if first == Some(place) {
        return Ok(());
    }
    let place = first.map_or(place, |first| first.min(place));
    Err((place.min(words.len()), format!("expected: {shape}")))
}

fn present<'a>(names: &'a Option<Names>, word: &str) -> Said<&'a Names> {
    let missing = || (0, format!("expected a line '{word}' before this one"));
    names.as_ref().ok_or_else(missing)
}

fn once<T>(place: &mut Option<T>, word: &str, value: T) -> Said<()> {
    match place.replace(value) {
        None => Ok(()),
        Some(_) => Err((0, format!("a second line '{word}': expected one"))),
    }
}

/// The names on a line `states` or `events`, or numbers for names if it says how many.
fn names(what: &str, words: &[Word], most: usize) -> Said<Names> {
    let wrong = |said: String| (1, format!("{said} {what}: expected 1 to {most}"));
    let range = 1..=most;
    if let [Word { text, .. }] = words {
        if text.bytes().all(|byte| byte.is_ascii_digit()) {
            let count = decimal(text).filter(|count| range.contains(count));
            let count = count.ok_or_else(|| wrong(shortened(text)))?;
            return Ok(Names::numbered(count));
        }
    }
    if !range.contains(&words.len()) {
        return Err(wrong(words.len().to_string()));
    }
    let mut names: Vec<String> = Vec::new();
    for (word, place) in words.iter().zip(1..) {
        if !is_name(word.text) {
            return Err((place, no_name(word.text)));
        }
        if names.iter().any(|name| name == word.text) {
            let word = quoted(word.text);
            let what = format!("{word} stands twice: expected each name once");
            return Err((place, what));
        }
        names.push(word.text.to_owned());
    }
    Ok(Names::new(names))
}

fn is_name(word: &str) -> bool {
    let inner = |letter: char| letter.is_alphanumeric() || letter == '-' || letter == '_';
    word.starts_with(char::is_alphabetic) && word.chars().all(inner)
}

fn no_name(word: &str) -> String {
    let word = quoted(word);
    format!("{word} is no name: expected a letter, then letters, digits, '-' or '_'")
}

/// Sets of states, one a line, as for hints: names or numbers, with or without braces and commas.
pub fn read_sets(model: &Model, text: &[u8]) -> Result<Vec<Case>, Fault> {
    let mut sets = Vec::new();
    for line in lines(text, "{,}") {
        let line = line?;
        if !line.words.is_empty() {
            sets.push(set(model, &line)?);
        }
    }
    Ok(sets)
}

fn set(model: &Model, line: &Line) -> Result<Case, Fault> {
    let words = &line.words;
    let mut case = Case::default();
    for (place, word) in words.iter().enumerate() {
        let all = match word.text {
            "{" if place > 0 => Err((place, "expected one set on a line".to_owned())),
            "}" if place + 1 < words.len() => {
                Err((place + 1, "expected one set on a line".to_owned()))
            }
            "{" | "," | "}" => Ok(case),
            _ => set_at(&model.states, &model.parts, words, place)
                .and_then(|states| joined(case, states, words, place)),
        };
        case = all.map_err(|(place, what)| line.fault_at(place, what))?;
    }
    Ok(case)
}
