//! A run of the library by begin and steps, in rooms of its own.

#[cfg(test)]
mod tests;

use crate::library::{self, Record, Rooms, Terms, WORKING};
use crate::model::{Case, Event};
use crate::numbers::Refusal;
use std::ops::ControlFlow;

/// What a run is given from its begin on. Hints and way may be others after a pause.
#[derive(Clone, Debug, PartialEq, Eq)]
pub struct Settings {
    pub hints: Vec<u64>,
    pub edition: u64,
    pub way: u64,
}

/// A blocker as the tables of a run hold it.
#[derive(Clone, Copy, Debug, PartialEq, Eq)]
pub struct Blocker {
    pub case: Case,
    pub level: u32,
    /// The count of steps including the block that made it.
    pub entered: u64,
}

/// A pending case, and the symbol that led to it.
#[derive(Clone, Copy, Debug, PartialEq, Eq)]
pub struct Pending {
    pub case: Case,
    pub symbol: u8,
}

/// A run that can go on: its record, whose answer is [`WORKING`], and what its tables hold.
#[derive(Clone, Debug, PartialEq, Eq)]
pub struct Paused {
    pub record: Record,
    pub blockers: Vec<Blocker>,
    pub pending: Vec<Pending>,
}

pub struct Run {
    pub settings: Settings,
    pub record: Record,
    masks: Vec<u64>,
    levels: Vec<u32>,
    entered: Vec<u64>,
    cases: Vec<u64>,
    symbols: Vec<u8>,
    /// The record and the pending cases before the step that ended the run, where it may have stopped it.
    before: Option<(Record, Vec<Pending>)>,
}

impl Run {
    /// A run that was begun, or why it is refused.
    pub fn begin(
        image: &[u8],
        blocker_places: usize,
        word_places: usize,
        settings: Settings,
    ) -> Result<Self, Refusal> {
        let mut run = Run {
            settings,
            record: Record::default(),
            masks: vec![0; blocker_places],
            levels: vec![0; blocker_places],
            entered: vec![0; blocker_places],
            cases: vec![0; word_places],
            symbols: vec![0; word_places],
            before: None,
        };
        let (rooms, terms, _) = run.lent(0);
        run.record = library::begin(image, rooms, terms);
        match run.record.answer {
            number @ 20.. => Err(Refusal(number)),
            _ => Ok(run),
        }
    }

    /// A begun run put to where a pause left one. What is paused has room.
    pub fn put_to(&mut self, paused: &Paused) {
        for (place, blocker) in paused.blockers.iter().enumerate() {
            self.masks[place] = blocker.case.0;
            self.levels[place] = blocker.level;
            self.entered[place] = blocker.entered;
        }
        for (place, pending) in paused.pending.iter().enumerate() {
            self.cases[place] = pending.case.0;
            self.symbols[place] = pending.symbol;
        }
        self.record = paused.record;
    }

    /// Steps until the run ends or `watch`, which sees the record before each step, breaks it off; or a
    /// step is refused.
    pub fn go_on(
        &mut self,
        image: &[u8],
        allowance: u64,
        mut watch: impl FnMut(&Record) -> ControlFlow<()>,
    ) -> Result<(), Refusal> {
        while self.record.answer == WORKING && watch(&self.record).is_continue() {
            self.before = self
                .may_stop(allowance)
                .then(|| (self.record, self.pending()));
            let (rooms, terms, record) = self.lent(allowance);
            let answer = library::step(image, rooms, terms, record);
            if answer >= 20 {
                return Err(Refusal(answer));
            }
        }
        Ok(())
    }

    /// The next step may find that steps or room are used up.
    fn may_stop(&self, allowance: u64) -> bool {
        self.record.steps >= allowance
            || self.record.held >= self.masks.len() as u64
            || self.record.level >= self.cases.len() as u64
    }

    fn lent(&mut self, allowance: u64) -> (Rooms<'_>, Terms<'_>, &mut Record) {
        let rooms = Rooms {
            masks: &mut self.masks,
            levels: &mut self.levels,
            entered: &mut self.entered,
            cases: &mut self.cases,
            symbols: &mut self.symbols,
        };
        let terms = Terms {
            hints: &self.settings.hints,
            allowance,
            edition: self.settings.edition,
            way: self.settings.way,
        };
        (rooms, terms, &mut self.record)
    }

    /// The number, the steps, the level, the blockers held and the hints accepted.
    pub fn numbers(&self) -> [u64; 5] {
        let record = &self.record;
        [
            record.answer,
            record.steps,
            record.level,
            record.held,
            record.accepted,
        ]
    }

    /// The places of the blocker room and of the word room.
    pub fn places(&self) -> [usize; 2] {
        [self.masks.len(), self.cases.len()]
    }

    /// The blockers held; the frame, after the answer 0.
    pub fn blockers(&self) -> Vec<Blocker> {
        let held = 0..self.record.held as usize;
        let blocker = |place: usize| Blocker {
            case: Case(self.masks[place]),
            level: self.levels[place],
            entered: self.entered[place],
        };
        held.map(blocker).collect()
    }

    fn pending(&self) -> Vec<Pending> {
        let pending = self.record.pending as usize;
        let places = self.cases[..pending].iter().zip(&self.symbols[..pending]);
        let place = |(&mask, &symbol)| Pending {
            case: Case(mask),
            symbol,
        };
        places.map(place).collect()
    }

    /// The symbols of the word, after the answer 1.
    pub fn word(&self) -> Vec<Event> {
        let word = &self.symbols[..self.record.level as usize];
        word.iter().copied().map(Event).collect()
    }

    /// Where the run can go on from: it works, or it was stopped by its last step. A stop changes no
    /// blocker, and leaves out what is pending.
    pub fn paused(&self) -> Option<Paused> {
        let (record, pending) = match (self.record.answer, &self.before) {
            (WORKING, _) => (self.record, self.pending()),
            (2..=4, Some((record, pending))) => (*record, pending.clone()),
            _ => return None,
        };
        Some(Paused {
            record,
            blockers: self.blockers(),
            pending,
        })
    }

    /// Why a case is blocked at a level of this run's blockers.
    pub fn why(&self, initial: Case, level: u64, case: Case) -> library::Why {
        let held = self.record.held as usize;
        let (masks, levels) = (&self.masks[..held], &self.levels[..held]);
        library::why(initial.0, masks, levels, level, case.0)
    }
}
