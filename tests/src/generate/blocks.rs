//! Records and tables for a block or an extend, small to large, that no run has made, on models of few rows
//! to most.

use super::blockers::one_of;
use super::closes::{opened, without_one, Entry};
use super::{small_case, stray_bit};
use crate::acceptance::backward_set;
use crate::compare::steps::Standing;
use crate::image::{all_states, Model, Row};
use crate::random::Random;
use crate::record::Record;
use crate::tables::Tables;

/// What the model, the table and its record are to be like.
#[derive(Clone, Copy, Debug)]
pub struct Wanted {
    pub states: usize,
    pub symbols: usize,
    pub rows: usize,
    pub held: usize,
    /// Places of blocker room.
    pub room: usize,
    /// The level below X's, at which its backward sets are to be blocked.
    pub below: u32,
    /// How many states a blocker lacks at most: where it is few, many cover.
    pub lacking: usize,
}

/// What becomes of the lowest pending case.
#[derive(Clone, Copy, Debug, PartialEq, Eq)]
pub enum Aim {
    Block,
    /// By the last symbol of which the backward set is not settled, if there is one: all others are.
    Extend,
}

impl Wanted {
    /// Most cases have few states.
    pub fn model(&self, random: &mut Random) -> Model {
        let mut model = Model::plain(self.states, self.symbols, 0);
        for _ in 0..self.rows {
            let count = random.within(1..=4);
            let few = small_case(random, self.states, count);
            let many = random.number() & random.number() & all_states(self.states);
            let case = random.pick(&[few, few, few, many]);
            let state = random.below(self.states) as u8;
            model.rows[random.below(self.symbols)].push(Row { state, case });
        }
        model.initial = small_case(random, self.states, 3);
        model.final_set = small_case(random, self.states, 3);
        model
    }

    /// X is what is pending at the level above the one below.
    pub fn standing(&self, random: &mut Random, model: &Model, aim: Aim) -> Standing {
        let case = match (self.below, aim) {
            (0, Aim::Block) => self.settled_at_0(random, model),
            _ => small_case(random, self.states, 3),
        };
        let symbols = 0..self.symbols as u8;
        let sought = symbols.map(|symbol| backward_set(model, symbol, case));
        let sought: Vec<u64> = sought.filter(|&set| set != 0).collect();
        let mut entries = Vec::new();
        entries.resize_with(self.held, || self.entry(random, case, &sought));
        self.settle(random, model, case, aim, &mut entries);
        self.pending(random, model, case, &entries)
    }

    /// A case whose backward sets are settled without blockers: where few are, the empty one, which has
    /// none here.
    fn settled_at_0(&self, random: &mut Random, model: &Model) -> u64 {
        let mut cases = (0..20).map(|_| small_case(random, self.states, 3));
        let settled = cases.find(|&case| self.unsettled(model, &[], case).is_empty());
        settled.unwrap_or(0)
    }

    /// One that lacks some states, or now and then a part of X, or a backward set of it but for one state.
    /// Levels are about the one below.
    fn entry(&self, random: &mut Random, case: u64, sought: &[u64]) -> Entry {
        let below = self.below;
        let dense = all_states(self.states) & !small_case(random, self.states, self.lacking);
        let stray = stray_bit(random, self.states);
        let part = case & random.number();
        let short = below.saturating_sub(1);
        let enough = random.pick(&[below, below, below + 1, below + 2, u32::MAX]);
        match random.below(20) {
            0 => (part, random.pick(&[0, 1, below, below + 1])),
            1 => (part, random.pick(&[below + 1, below + 2, u32::MAX])),
            2 => (dense | stray, 0),
            3..=5 => (dense | stray, short),
            6 | 7 if !sought.is_empty() => {
                let set = random.pick(sought);
                (without_one(random, set), enough)
            }
            _ => (dense | stray, enough),
        }
    }

    /// The symbols whose backward set of the case is neither inside it nor blocked at the level below.
    fn unsettled(&self, model: &Model, entries: &[Entry], case: u64) -> Vec<u8> {
        let settled = |backward: u64| match self.below {
            0 => model.initial & !backward != 0,
            below => entries
                .iter()
                .any(|&(mask, level)| level >= below && backward & !mask == 0),
        };
        let symbols = 0..self.symbols as u8;
        symbols
            .filter(|&symbol| {
                let backward = backward_set(model, symbol, case);
                backward & !case != 0 && !settled(backward)
            })
            .collect()
    }

    /// Puts covers of what is not settled at some places, but for the last symbol of it if that is to extend.
    fn settle(
        &self,
        random: &mut Random,
        model: &Model,
        case: u64,
        aim: Aim,
        entries: &mut [Entry],
    ) {
        let mut unsettled = self.unsettled(model, entries, case);
        if aim == Aim::Extend {
            unsettled.pop();
        }
        if entries.is_empty() || unsettled.is_empty() || self.below == 0 {
            return;
        }
        let backward = |symbol: &u8| backward_set(model, *symbol, case);
        let mut covers: Vec<u64> = unsettled.iter().map(backward).collect();
        if 2 * covers.len() > entries.len() {
            // One for all.
            covers = vec![covers.iter().fold(0, |union, set| union | set)];
        }
        let mut places: Vec<usize> = (0..entries.len()).collect();
        random.shuffle(&mut places);
        for (mask, place) in covers.into_iter().zip(places) {
            entries[place] = (mask, random.pick(&[self.below, self.below + 1, u32::MAX]));
        }
    }

    fn pending(
        &self,
        random: &mut Random,
        model: &Model,
        case: u64,
        entries: &[Entry],
    ) -> Standing {
        let pending = random.within(1..=3);
        let level = self.below + pending as u32;
        let mut standing = opened(random, entries, self.room, level);
        let Standing { record, tables } = &mut standing;
        for place in 0..pending {
            tables.cases[place] = small_case(random, self.states, 5);
            tables.symbols[place] = random.below(model.symbols()) as u8;
        }
        tables.cases[pending - 1] = case;
        record.pending = pending as u64;
        // Few, so that there are hints for them.
        record.blocks = random.below(10) as u64;
        record.accepted = random.below(10) as u64;
        standing
    }
}

/// How many blockers of the level or more cover the case.
pub fn covers(standing: &Standing, case: u64, level: u32) -> usize {
    let Tables { masks, levels, .. } = &standing.tables;
    let held = masks.iter().zip(levels).take(standing.record.held as usize);
    let covering = |&(mask, its_level): &(&u64, &u32)| *its_level >= level && case & !mask == 0;
    held.filter(covering).count()
}

/// X, and the level below its own.
pub fn lowest_pending(standing: &Standing) -> (u64, u32) {
    let Record { level, pending, .. } = standing.record;
    let case = standing.tables.cases[pending as usize - 1];
    (case, (level - pending) as u32)
}

/// A state that the set lacks, or none if it has all.
pub fn one_more(random: &mut Random, states: usize, set: u64) -> u64 {
    match all_states(states) & !set {
        0 => 0,
        lacking => one_of(random, lacking),
    }
}
