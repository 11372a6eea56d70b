//! A model: an alternating automaton whose states and events have names. An event is a symbol of
//! the automaton.

use std::str::FromStr;

pub const MOST_STATES: usize = 64;
pub const MOST_EVENTS: usize = 64;
pub const MOST_ROWS: usize = 4096;

/// A state's number, 0 to n - 1.
#[derive(Clone, Copy, Debug, PartialEq, Eq)]
pub struct State(pub u8);

/// An event's number, 0 to k - 1.
#[derive(Clone, Copy, Debug, PartialEq, Eq)]
pub struct Event(pub u8);

/// A set of states as a mask: bit q stands for state q.
#[derive(Clone, Copy, Debug, Default, PartialEq, Eq)]
pub struct Case(pub u64);

impl Case {
    pub fn with(self, state: State) -> Self {
        Case(self.0 | 1 << state.0)
    }

    pub fn contains(self, state: State) -> bool {
        self.0 >> state.0 & 1 == 1
    }

    pub fn is_subset(self, other: Case) -> bool {
        self.0 & !other.0 == 0
    }

    pub fn of(state: State) -> Self {
        Case::default().with(state)
    }

    pub fn is_empty(self) -> bool {
        self.0 == 0
    }

    pub fn union(self, other: Case) -> Case {
        Case(self.0 | other.0)
    }

    pub fn intersection(self, other: Case) -> Case {
        Case(self.0 & other.0)
    }

    pub fn without(self, other: Case) -> Case {
        Case(self.0 & !other.0)
    }

    pub fn states(self) -> impl Iterator<Item = State> {
        (0..MOST_STATES as u8)
            .map(State)
            .filter(move |&state| self.contains(state))
    }
}

/// A state and a case; the event is the place in [`Model::rows`].
#[derive(Clone, Copy, Debug, PartialEq, Eq)]
pub struct Row {
    pub state: State,
    pub case: Case,
}

/// Some of the states under a name, such as those of the screen; it has its own column in a run.
#[derive(Clone, Debug, PartialEq, Eq)]
pub struct Part {
    pub name: String,
    pub states: Case,
}

/// The names of the states, or of the events, in the order of their numbers.
#[derive(Clone, Debug, PartialEq, Eq)]
pub struct Names(Vec<String>);

impl Names {
    pub fn new(names: Vec<String>) -> Self {
        Names(names)
    }

    /// Each number is its own name.
    pub fn numbered(count: usize) -> Self {
        Names((0..count).map(|number| number.to_string()).collect())
    }

    pub fn are_numbers(&self) -> bool {
        *self == Names::numbered(self.count())
    }

    pub fn count(&self) -> usize {
        self.0.len()
    }

    pub fn all(&self) -> &[String] {
        &self.0
    }

    pub fn name(&self, number: u8) -> &str {
        &self.0[usize::from(number)]
    }

    /// The number of what is written by its name or by its number.
    pub fn find(&self, word: &str) -> Option<u8> {
        let named = self.0.iter().position(|name| name == word);
        let number = named.or_else(|| decimal(word).filter(|&number| number < self.count()));
        number.and_then(|number| u8::try_from(number).ok())
    }
}

/// The states that are written by a word in a set: one by its name or number, or all of a part by its.
pub fn states_of(word: &str, states: &Names, parts: &[Part]) -> Option<Case> {
    let state = states.find(word).map(|number| Case::of(State(number)));
    let part = || parts.iter().find(|part| part.name == word);
    state.or_else(|| part().map(|part| part.states))
}

/// The number that `word` writes with decimal digits alone.
pub fn decimal<Number: FromStr>(word: &str) -> Option<Number> {
    let digits = word.bytes().all(|byte| byte.is_ascii_digit());
    word.parse().ok().filter(|_| digits)
}

#[derive(Clone, Debug, PartialEq, Eq)]
pub struct Model {
    /// n names.
    pub states: Names,
    /// k names.
    pub events: Names,
    /// I.
    pub initial: Case,
    /// F.
    pub final_set: Case,
    /// No state is in two of them.
    pub parts: Vec<Part>,
    /// The rows of each event, in their order.
    pub rows: Vec<Vec<Row>>,
}

impl Model {
    /// m.
    pub fn row_count(&self) -> usize {
        self.rows.iter().map(Vec::len).sum()
    }

    pub fn state_name(&self, state: State) -> &str {
        self.states.name(state.0)
    }

    pub fn event_name(&self, event: Event) -> &str {
        self.events.name(event.0)
    }

    /// The names of a case's states, in the order of their numbers.
    pub fn names_of(&self, case: Case) -> Vec<&str> {
        case.states().map(|state| self.state_name(state)).collect()
    }

    /// A case as people write a set, in braces: part by part, with the part's name for all of its states.
    pub fn set(&self, case: Case) -> String {
        let mut names = Vec::new();
        for part in &self.parts {
            if part.states.is_subset(case) && part.states.states().count() > 1 {
                names.push(part.name.as_str());
            } else {
                names.extend(self.names_of(case.intersection(part.states)));
            }
        }
        names.extend(self.names_of(case.intersection(self.rest())));
        format!("{{{}}}", names.join(", "))
    }

    /// The states that are in no part.
    pub fn rest(&self) -> Case {
        let all = Case(u64::MAX >> (MOST_STATES - self.states.count()));
        self.parts
            .iter()
            .fold(all, |rest, part| rest.without(part.states))
    }

    /// The states with a row by the event whose case is a subset of `case`.
    pub fn backward(&self, event: Event, case: Case) -> Case {
        let rows = self.rows[usize::from(event.0)].iter();
        let rows = rows.filter(|row| row.case.is_subset(case));
        rows.fold(Case::default(), |set, row| set.with(row.state))
    }

    pub fn all_events(&self) -> impl Iterator<Item = Event> {
        (0..self.events.count() as u8).map(Event)
    }
}
