//! The tests' own reading of a model's text, and of what its words mean, to hold the program against. It
//! takes texts without a fault only.

use std::collections::BTreeSet;

/// A set of states, by their numbers.
pub type Set = BTreeSet<usize>;

pub struct Row {
    pub state: usize,
    pub event: usize,
    pub case: Set,
}

pub struct Model {
    pub states: Vec<String>,
    pub events: Vec<String>,
    pub parts: Vec<(String, Set)>,
    pub initial: Set,
    pub final_set: Set,
    pub rows: Vec<Row>,
}

/// A name for each, where a line says how many there are.
fn names(words: &[&str]) -> Vec<String> {
    match words {
        [count] if count.parse::<usize>().is_ok() => {
            let count: usize = count.parse().unwrap();
            (0..count).map(|number| number.to_string()).collect()
        }
        _ => words.iter().map(|&word| word.to_owned()).collect(),
    }
}

fn place(names: &[String], word: &str) -> Option<usize> {
    let named = names.iter().position(|name| name == word);
    named.or_else(|| word.parse().ok().filter(|&number| number < names.len()))
}

impl Model {
    pub fn read(text: &str) -> Self {
        let mut model = Model {
            states: Vec::new(),
            events: Vec::new(),
            parts: Vec::new(),
            initial: Set::new(),
            final_set: Set::new(),
            rows: Vec::new(),
        };
        for line in text.lines() {
            let line = line.split('#').next().unwrap().replace(':', " : ");
            let words: Vec<&str> = line.split_whitespace().collect();
            match words[..] {
                [] => {}
                ["states", ..] => model.states = names(&words[1..]),
                ["events", ..] => model.events = names(&words[1..]),
                ["part", name, ":", ..] => {
                    let states = model.set(&words[3..]);
                    model.parts.push((name.to_owned(), states));
                }
                ["initial", ..] => model.initial = model.set(&words[1..]),
                ["final", ..] => model.final_set = model.set(&words[1..]),
                ["row", state, event, ":", ..] => model.rows.push(Row {
                    state: model.state(state),
                    event: model.event(event),
                    case: model.set(&words[4..]),
                }),
                _ => panic!("{line}"),
            }
        }
        model
    }

    pub fn state(&self, word: &str) -> usize {
        place(&self.states, word).unwrap_or_else(|| panic!("no state {word}"))
    }

    pub fn event(&self, word: &str) -> usize {
        place(&self.events, word).unwrap_or_else(|| panic!("no event {word}"))
    }

    /// States by their names, or all of a part by its.
    pub fn set<Word: AsRef<str>>(&self, words: &[Word]) -> Set {
        let states = |word: &Word| {
            let part = self.parts.iter().find(|(name, _)| name == word.as_ref());
            match part {
                Some((_, states)) => states.clone(),
                None => Set::from([self.state(word.as_ref())]),
            }
        };
        words.iter().flat_map(states).collect()
    }

    /// The names of a set's states, in the model's order.
    pub fn names(&self, set: &Set) -> Vec<String> {
        set.iter()
            .map(|&state| self.states[state].clone())
            .collect()
    }

    pub fn backward(&self, event: usize, set: &Set) -> Set {
        let rows = self.rows.iter().filter(|row| row.event == event);
        let rows = rows.filter(|row| row.case.is_subset(set));
        rows.map(|row| row.state).collect()
    }

    /// The final set taken back by the events from last to first, after each of them: first what all of
    /// the word leads back to, and at the end the final set itself.
    fn taken_back(&self, word: &[usize]) -> Vec<Set> {
        let mut sets = vec![self.final_set.clone()];
        for &event in word.iter().rev() {
            let back = self.backward(event, sets.last().unwrap());
            sets.push(back);
        }
        sets.reverse();
        sets
    }

    pub fn accepts(&self, word: &[usize]) -> bool {
        self.initial.is_subset(&self.taken_back(word)[0])
    }

    /// The cases of the accepting run in which each state picks its first row that leaves the rest of the
    /// word accepted, from the initial one on. The word is accepted.
    pub fn run(&self, word: &[usize]) -> Vec<Set> {
        let back = self.taken_back(word);
        let mut cases = vec![self.initial.clone()];
        for (&event, allowed) in word.iter().zip(&back[1..]) {
            let pick = |&state: &usize| {
                let mut rows = self.rows.iter();
                let is_picked = |row: &&Row| {
                    row.state == state && row.event == event && row.case.is_subset(allowed)
                };
                &rows.find(is_picked).expect("a row to pick").case
            };
            let next = cases.last().unwrap().iter().flat_map(pick).copied();
            let next = next.collect();
            cases.push(next);
        }
        cases
    }
}
