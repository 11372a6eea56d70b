//! The second way to grow a blocker, and the test that every blocker passes, with sets of states as
//! sets of numbers and no thought of speed. What stands in quotes is the requirements'.

use crate::acceptance::backward_set;
use crate::image::{all_states, Model};
use crate::why::{why, Question, Reason};
use std::collections::{BTreeMap, BTreeSet};

type States = BTreeSet<u8>;

fn states(mask: u64) -> States {
    (0..64).filter(|state| mask >> state & 1 == 1).collect()
}

fn mask(states: &States) -> u64 {
    states.iter().fold(0, |mask, state| mask | 1 << state)
}

/// What a blocker is grown of: the case X at level i, and the blockers held at that time.
#[derive(Clone, Copy)]
pub struct Growth<'a> {
    pub model: &'a Model,
    pub masks: &'a [u64],
    pub levels: &'a [u32],
    /// i, which is 1 or more.
    pub level: u32,
    /// X.
    pub case: u64,
}

impl Growth<'_> {
    /// "A case Y passes if it contains X, does not contain I, has no bit at n or above, and its
    /// backward set by each symbol is a subset of Y or blocked at i-1."
    pub fn passes(&self, candidate: u64) -> bool {
        let has = states(candidate);
        let inside_or_blocked = |symbol| {
            let backward = backward_set(self.model, symbol, candidate);
            states(backward).is_subset(&has) || self.why_blocked(backward).is_some()
        };
        states(self.case).is_subset(&has)
            && !states(self.model.initial).is_subset(&has)
            && has.is_subset(&states(all_states(self.model.states)))
            && (0..self.model.symbols() as u8).all(inside_or_blocked)
    }

    /// "The blocker is the states not picked." Answers it, and how many sets were forbidden.
    pub fn through_a_hitting_set(&self) -> (u64, usize) {
        let forbidden = self.forbidden();
        let count = forbidden.len();
        let picked = hitting_set(forbidden);
        let states = states(all_states(self.model.states));
        let not_picked = states.difference(&picked).copied().collect();
        (mask(&not_picked), count)
    }

    /// "Forbidden are I and the case of each row of that symbol whose state is outside b. From each, X's
    /// states are taken away; equal ones count once, empty ones not at all."
    fn forbidden(&self) -> BTreeSet<States> {
        let mut forbidden = vec![self.model.initial];
        for (symbol, rows) in self.model.rows.iter().enumerate() {
            let bound = self.bound(symbol as u8);
            let outside = rows.iter().filter(|row| !bound.contains(&row.state));
            forbidden.extend(outside.map(|row| row.case));
        }
        let case = states(self.case);
        let taken_away = |&set: &u64| states(set).difference(&case).copied().collect();
        let sets = forbidden.iter().map(taken_away);
        sets.filter(|set: &States| !set.is_empty()).collect()
    }

    /// "For each symbol let b be X if the backward set lies in X, else the first covering blocker (at
    /// level 0, all states but the lowest absent initial one)." Of a backward set that is not blocked
    /// nothing is said, as its case is not blocked either.
    fn bound(&self, symbol: u8) -> States {
        let backward = backward_set(self.model, symbol, self.case);
        if states(backward).is_subset(&states(self.case)) {
            return states(self.case);
        }
        match self.why_blocked(backward) {
            Some(Reason::Blocker { place, .. }) => states(self.masks[place]),
            Some(Reason::Absent { state }) => {
                let mut others = states(all_states(self.model.states));
                others.remove(&(state as u8));
                others
            }
            None => panic!("{}: symbol {symbol} extends {}", self.model, self.case),
        }
    }

    /// At the level below.
    fn why_blocked(&self, case: u64) -> Option<Reason> {
        why(&Question {
            initial: self.model.initial,
            masks: self.masks,
            levels: self.levels,
            level: u64::from(self.level) - 1,
            case,
        })
    }
}

/// "Pick the state that meets most of those not yet met, lowest number on ties, until all are met".
fn hitting_set(mut unmet: BTreeSet<States>) -> States {
    let mut picked = States::new();
    while !unmet.is_empty() {
        let mut meets = BTreeMap::new();
        for state in unmet.iter().flatten() {
            *meets.entry(*state).or_insert(0_usize) += 1;
        }
        let most = meets.values().copied().max();
        let mut by_number = meets.into_iter();
        let lowest = by_number.find(|&(_, count)| Some(count) == most);
        let (lowest, _) = lowest.expect("a set that is not met has a state");
        unmet.retain(|set| !set.contains(&lowest));
        picked.insert(lowest);
    }
    picked
}
