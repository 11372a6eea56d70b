//! The second way to grow a blocker, through a hitting set of what it must not contain. What stands in
//! quotes is the requirements'.

use super::automaton::{contains, Automaton};
use super::blockers::Blockers;
use super::entered::EnteredTable;

/// As many cases as an image has rows, and I.
const MOST_SETS: usize = 4096 + 1;

/// Sets of states outside X, of which a blocker that contains X must lack a state each. The first are in
/// use.
pub struct Forbidden {
    sets: [u64; MOST_SETS],
    count: usize,
}

impl Forbidden {
    /// Room for the sets of one growth after another.
    pub fn new() -> Self {
        Forbidden {
            sets: [0; MOST_SETS],
            count: 0,
        }
    }

    /// The blocker for the case X at the level i: "the states not picked".
    pub fn grow<Entered: EnteredTable>(
        &mut self,
        automaton: &Automaton,
        blockers: &Blockers<Entered>,
        case: u64,
        level: u32,
    ) -> u64 {
        self.gather(automaton, blockers, case, level);
        self.keep_once();
        automaton.all_states() & !self.pick(automaton.states())
    }

    /// "Forbidden are I and the case of each row of that symbol whose state is outside b."
    fn gather<Entered: EnteredTable>(
        &mut self,
        automaton: &Automaton,
        blockers: &Blockers<Entered>,
        case: u64,
        level: u32,
    ) {
        self.count = 0;
        self.forbid(automaton.initial, case);
        for symbol in 0..automaton.symbols() {
            let bound = bound(automaton, blockers, symbol, case, level);
            for (state, row_case) in automaton.rows(symbol) {
                if bound >> state & 1 == 0 {
                    self.forbid(row_case, case);
                }
            }
        }
    }

    /// "From each, X's states are taken away; [..] empty ones not at all."
    fn forbid(&mut self, set: u64, case: u64) {
        let outside = set & !case;
        if outside != 0 {
            self.sets[self.count] = outside;
            self.count += 1;
        }
    }

    /// "Equal ones count once".
    fn keep_once(&mut self) {
        self.sets[..self.count].sort_unstable();
        let mut kept = 0;
        for place in 0..self.count {
            let set = self.sets[place];
            if kept == 0 || self.sets[kept - 1] != set {
                self.sets[kept] = set;
                kept += 1;
            }
        }
        self.count = kept;
    }

    /// "Pick the state that meets most of those not yet met, lowest number on ties, until all are met".
    fn pick(&mut self, states: u32) -> u64 {
        let mut picked = 0;
        while self.count > 0 {
            let state = self.meets_most(states);
            picked |= 1 << state;
            self.meet(state);
        }
        picked
    }

    fn meets_most(&self, states: u32) -> u32 {
        let (mut best, mut most) = (0, 0);
        for state in 0..states {
            let sets = self.sets[..self.count].iter();
            let met: u64 = sets.map(|set| set >> state & 1).sum();
            if met > most {
                (best, most) = (state, met);
            }
        }
        best
    }

    /// Only those that the state does not meet stay.
    fn meet(&mut self, state: u32) {
        let mut unmet = 0;
        for place in 0..self.count {
            let set = self.sets[place];
            self.sets[unmet] = set;
            unmet += usize::from(set >> state & 1 == 0);
        }
        self.count = unmet;
    }
}

/// "For each symbol let b be X if the backward set lies in X, else the first covering blocker (at level
/// 0, all states but the lowest absent initial one)." A case that is blocked has one of these.
fn bound<Entered: EnteredTable>(
    automaton: &Automaton,
    blockers: &Blockers<Entered>,
    symbol: usize,
    case: u64,
    level: u32,
) -> u64 {
    let backward = automaton.backward_set(symbol, case);
    if contains(case, backward) {
        return case;
    }
    let bound = if level == 1 {
        let absent = automaton.initial & !backward;
        // The lowest bit alone.
        let lowest = absent & absent.wrapping_neg();
        (absent != 0).then_some(automaton.all_states() & !lowest)
    } else {
        blockers.first_covering(backward, level - 1)
    };
    bound.expect("the backward set is blocked")
}
