//! A reader and a writer of models as text (`docs/FORMAT.md`) that share nothing with the model tool's.
//! The reader is for texts that are well formed, and panics at the others that it notices.

use crate::image::{Model, Row};

pub fn read(text: &str) -> Model {
    let (mut states, mut events, mut parts) = (Vec::new(), Vec::new(), Vec::new());
    let mut model = Model::new(0, 0, 0, &[]);
    for line in text.lines() {
        let said = line.split('#').next().unwrap_or("").replace(':', " : ");
        let words: Vec<&str> = said.split_whitespace().collect();
        match words[..] {
            [] => {}
            ["states", ref words @ ..] => {
                states = names(words);
                model.states = states.len();
            }
            ["events", ref words @ ..] => {
                events = names(words);
                model.rows = vec![Vec::new(); events.len()];
            }
            ["part", name, ":", ref words @ ..] => {
                let states = case(&states, &[], words);
                parts.push((name.to_owned(), states));
            }
            ["initial", ref words @ ..] => model.initial = case(&states, &parts, words),
            ["final", ref words @ ..] => model.final_set = case(&states, &parts, words),
            ["row", state, event, ":", ref words @ ..] => {
                let state = number(&states, state) as u8;
                let case = case(&states, &parts, words);
                model.rows[number(&events, event)].push(Row { state, case });
            }
            _ => panic!("what is this line? {line}"),
        }
    }
    model
}

/// The model's text, in which numbers are the names.
pub fn write(model: &Model) -> String {
    let states = |case: u64| {
        let states = (0..model.states).filter(move |state| case >> state & 1 == 1);
        states.map(|state| format!(" {state}")).collect::<String>()
    };
    let mut text = format!(
        "states {}\nevents {}\ninitial{}\nfinal{}\n",
        model.states,
        model.symbols(),
        states(model.initial),
        states(model.final_set)
    );
    for (symbol, rows) in model.rows.iter().enumerate() {
        for row in rows {
            text += &format!("row {} {symbol} :{}\n", row.state, states(row.case));
        }
    }
    text
}

/// The names on a line, or the numbers up to the one that stands there alone.
fn names(words: &[&str]) -> Vec<String> {
    match words {
        [word] if word.parse::<usize>().is_ok() => {
            let count = word.parse().unwrap();
            (0..count).map(|number: usize| number.to_string()).collect()
        }
        _ => words.iter().map(|word| word.to_string()).collect(),
    }
}

fn number(names: &[String], word: &str) -> usize {
    let named = names.iter().position(|name| name == word);
    named.unwrap_or_else(|| word.parse().expect("a name or a number"))
}

/// A set of states, in which a part's name stands for all of its states.
fn case(states: &[String], parts: &[(String, u64)], words: &[&str]) -> u64 {
    let states = words.iter().map(|word| {
        let part = parts.iter().find(|(name, _)| name == word);
        part.map_or_else(|| 1 << number(states, word), |&(_, states)| states)
    });
    states.fold(0, |case, more| case | more)
}
