//! The machine of a run, in the order of the requirements: begin, open, extend, block, close. What
//! stands in quotes is theirs (`docs/FORMAT.md`). It works in place on the tables that a run is lent and
//! allocates nothing. Every test is made whenever they name it; nothing that was found is kept from
//! one step to the next, so that a step can be made of any record and tables.

use crate::checks::{check, Head};
use crate::record::{Record, WORKING};
use crate::tables::{Answer, Rooms, Terms, EDITIONS, WAYS};
use automaton::{contains, Automaton};
use blockers::Blockers;
use entered::EnteredTable;
use hitting::Forbidden;

mod automaton;
mod blockers;
mod entered;
mod hitting;
pub mod print;

/// Of a room and of the hint table.
pub const MOST_PLACES: usize = 65_536;

/// What an observed run tells of its steps.
#[derive(Clone, Copy, Debug, PartialEq, Eq)]
pub enum Event<'a> {
    Opened {
        pending: bool,
    },
    Extended {
        symbol: u8,
    },
    /// No hint was taken: a blocker is grown of the pending case, for which there may be no room.
    Grown {
        pending: u64,
        level: u32,
        /// Those that are held, before any leave.
        masks: &'a [u64],
        levels: &'a [u32],
        blocker: u64,
    },
    Blocked {
        pending: u64,
        blocker: u64,
        by_hint: bool,
        left: usize,
        was_full: bool,
    },
    /// After a block that left nothing pending, F is: it was not what was blocked, as in a record that no
    /// run has made.
    PendingAgain,
    Rose {
        left_before: usize,
        left_behind: usize,
    },
    Closed,
}

pub fn run(image: &[u8], rooms: Rooms, terms: Terms<&[u64]>) -> Answer {
    observed_run(image, rooms, terms, |_| {})
}

/// The run of a machine that has no table of when blockers entered. The one lent is left alone.
pub fn run_without_entered(image: &[u8], rooms: Rooms, terms: Terms<&[u64]>) -> Answer {
    observed_run(image, rooms.without_entered(), terms, |_| {})
}

/// A run on any bytes, in any rooms and on any terms: "begin, then steps".
pub fn observed_run<Entered: EnteredTable>(
    image: &[u8],
    rooms: Rooms<Entered>,
    terms: Terms<&[u64]>,
    observe: impl FnMut(Event),
) -> Answer {
    let head = match check_run(image, &rooms, &terms) {
        Ok(head) => head,
        Err(number) => return Answer::refused(number),
    };
    let mut forbidden = None;
    let growth = Growth::by_way(terms.way, &mut forbidden);
    let mut machine = Machine::new(image, &head, rooms, terms, growth, observe);
    let mut answer = machine.begin();
    while answer == WORKING {
        answer = machine.step();
    }
    machine.record(answer).five_numbers()
}

/// "Begin checks the input and makes the start". It has no allowance, and that of the terms is not asked
/// for.
pub fn begin(image: &[u8], rooms: Rooms, terms: Terms<&[u64]>) -> Record {
    let head = match check_run(image, &rooms, &terms) {
        Ok(head) => head,
        // "A refused begin gives 0 in the other fields."
        Err(number) => return Record::begun(number),
    };
    let mut forbidden = None;
    let growth = Growth::by_way(terms.way, &mut forbidden);
    let mut machine = Machine::new(image, &head, rooms, terms, growth, |_| {});
    let answer = machine.begin();
    machine.record(answer)
}

pub fn step(image: &[u8], rooms: Rooms, terms: Terms<&[u64]>, record: &mut Record) -> u64 {
    observed_step(image, rooms, terms, record, |_| {})
}

/// "A second call checks it again and makes one step", of any record and for the places in use as they
/// stand. "After the checks a finished record (0 to 5) gives its answer again and nothing changes; a
/// refused step changes nothing either, the record included."
pub fn observed_step(
    image: &[u8],
    rooms: Rooms,
    terms: Terms<&[u64]>,
    record: &mut Record,
    observe: impl FnMut(Event),
) -> u64 {
    let head = match check_run(image, &rooms, &terms) {
        Ok(head) => head,
        Err(number) => return number,
    };
    if record.is_broken(rooms.masks.len(), rooms.cases.len()) {
        return 33;
    }
    if !record.is_working() {
        return record.answer;
    }
    let mut forbidden = None;
    let growth = Growth::by_way(terms.way, &mut forbidden);
    let mut machine = Machine::new(image, &head, rooms, terms, growth, observe);
    machine.resume(record);
    let answer = machine.step();
    *record = machine.record(answer);
    answer
}

/// The checks of all that a run takes: the image's head, or the number of the first that applies.
fn check_run<Entered: EnteredTable>(
    image: &[u8],
    rooms: &Rooms<Entered>,
    terms: &Terms<&[u64]>,
) -> Result<Head, u64> {
    let head = check(image)?;
    let (blocker_room, word_room) = (rooms.masks.len(), rooms.cases.len());
    let odd_blocker_room =
        rooms.levels.len() != blocker_room || !rooms.entered.has_length(blocker_room);
    if odd_blocker_room || rooms.symbols.len() != word_room {
        return Err(30);
    }
    if blocker_room.max(word_room).max(terms.hints.len()) > MOST_PLACES {
        return Err(31);
    }
    if !EDITIONS.contains(&terms.edition) {
        return Err(36);
    }
    if !WAYS.contains(&terms.way) {
        return Err(37);
    }
    Ok(head)
}

/// Whether each case is blocked at the level beside it, by I and the blockers that so many places of the
/// tables hold.
pub fn blocked(initial: u64, rooms: Rooms, held: usize, asked: &[(u64, u32)]) -> Vec<bool> {
    let mut blockers = Blockers::new(rooms.masks, rooms.levels, rooms.entered);
    blockers.hold(held);
    let asked = asked.iter();
    asked
        .map(|&(case, level)| blockers.block(initial, case, level))
        .collect()
}

/// The word test: 1 or 0, by whether "F, taken back by its symbols from last to first, gives a set that
/// contains I", or the number under which the image or the word is refused.
pub fn accepts(image: &[u8], word: &[u8]) -> u64 {
    let head = match check(image) {
        Ok(head) => head,
        Err(number) => return number,
    };
    if word.iter().any(|&symbol| u64::from(symbol) >= head.k) {
        return 32;
    }
    let automaton = Automaton::new(image, &head);
    let back = |case, &symbol: &u8| automaton.backward_set(symbol.into(), case);
    let set = word.iter().rev().fold(automaton.final_set, back);
    contains(set, automaton.initial).into()
}

/// "The caller chooses, 0 for 01's way, 1 for this".
enum Growth<'a> {
    StateByState,
    /// With the room that it takes, which is cleared once for a run.
    HittingSet(&'a mut Forbidden),
}

impl<'a> Growth<'a> {
    /// The way is one that there is.
    fn by_way(way: u64, forbidden: &'a mut Option<Forbidden>) -> Self {
        match way {
            0 => Growth::StateByState,
            _ => Growth::HittingSet(forbidden.insert(Forbidden::new())),
        }
    }
}

/// Cases are pending at consecutive levels from N down, so the first place of word room is that of
/// level N and the last one in use that of the lowest.
struct Machine<'a, Entered, Observe> {
    automaton: Automaton<'a>,
    blockers: Blockers<'a, Entered>,
    cases: &'a mut [u64],
    /// The symbol that led to each pending case, 0 for the first.
    symbols: &'a mut [u8],
    terms: Terms<&'a [u64]>,
    growth: Growth<'a>,
    /// N.
    level: u32,
    open: bool,
    /// How many cases are pending.
    pending: usize,
    steps: u64,
    blocks: usize,
    hints_accepted: u64,
    observe: Observe,
}

impl<'a, Entered: EnteredTable, Observe: FnMut(Event)> Machine<'a, Entered, Observe> {
    /// "The level N begins at 0, with no blockers and nothing pending", whatever the tables have in
    /// them.
    fn new(
        image: &'a [u8],
        head: &Head,
        rooms: Rooms<'a, Entered>,
        terms: Terms<&'a [u64]>,
        growth: Growth<'a>,
        observe: Observe,
    ) -> Self {
        Machine {
            automaton: Automaton::new(image, head),
            blockers: Blockers::new(rooms.masks, rooms.levels, rooms.entered),
            cases: rooms.cases,
            symbols: rooms.symbols,
            terms,
            growth,
            level: 0,
            open: false,
            pending: 0,
            steps: 0,
            blocks: 0,
            hints_accepted: 0,
            observe,
        }
    }

    /// Goes on where the record is, which is not broken: the tables hold what is in use.
    fn resume(&mut self, record: &Record) {
        self.blockers.hold(record.held as usize);
        self.level = record.level as u32;
        self.open = record.open != 0;
        self.pending = record.pending as usize;
        self.steps = record.steps;
        self.blocks = record.blocks as usize;
        self.hints_accepted = record.accepted;
    }

    fn record(&self, answer: u64) -> Record {
        Record {
            answer,
            steps: self.steps,
            level: self.level.into(),
            open: self.open.into(),
            held: self.blockers.count() as u64,
            pending: self.pending as u64,
            blocks: self.blocks as u64,
            accepted: self.hints_accepted,
        }
    }

    /// "Start: if I is a subset of F, answer 1 with the empty word and 0 steps. Otherwise steps
    /// follow." Of the editions "1 answers as now, 2 answers such a start by 5".
    fn begin(&mut self) -> u64 {
        self.blockers.clear_all();
        self.cases.fill(0);
        self.symbols.fill(0);
        match contains(self.automaton.final_set, self.automaton.initial) {
            true if self.terms.edition == 2 => 5,
            true => 1,
            false => WORKING,
        }
    }

    /// "Before each step the allowance is tested (2), then the room that the step needs (3 or 4). A
    /// pending case is worked on first; with none, an open N is closed; else a level is opened." "A
    /// working record whose steps have reached or passed the step's allowance gets 2."
    fn step(&mut self) -> u64 {
        let ended = if self.steps >= self.terms.allowance {
            Some(2)
        } else if self.pending > 0 {
            self.extend_or_block()
        } else if self.open {
            self.close()
        } else {
            self.open()
        };
        match ended {
            None => WORKING,
            Some(number) => {
                self.end(number);
                number
            }
        }
    }

    /// "N grows by 1 and is open. If F is not blocked at N, F becomes pending at N."
    fn open(&mut self) -> Option<u64> {
        if self.level as usize == self.cases.len() {
            return Some(4);
        }
        self.steps += 1;
        self.level += 1;
        self.open = true;
        let pending = self.begin_at_final();
        (self.observe)(Event::Opened { pending });
        None
    }

    /// With nothing pending: "After an open, or a block that leaves nothing pending", F becomes pending
    /// at N if it is not blocked there. Answers whether it does.
    fn begin_at_final(&mut self) -> bool {
        let final_set = self.automaton.final_set;
        let pending = !self.blocked(final_set, self.level);
        if pending {
            self.push(final_set, 0);
        }
        pending
    }

    /// "For the pending case X of lowest level i, the symbols are tried from 0 upward, and the first
    /// whose backward set P is neither a subset of X nor blocked at i-1 is taken."
    fn extend_or_block(&mut self) -> Option<u64> {
        let case = self.cases[self.pending - 1];
        let level = self.level - (self.pending - 1) as u32;
        for symbol in 0..self.automaton.symbols() {
            let backward = self.automaton.backward_set(symbol, case);
            if !contains(case, backward) && !self.blocked(backward, level - 1) {
                return self.extend(symbol as u8, backward);
            }
        }
        self.block(case, level)
    }

    /// "If P contains I: answer 1; the word is that symbol, then the symbols that led to the pending
    /// cases from the lowest level up. Otherwise P becomes pending at i-1." No symbol led to the first,
    /// so that the word is as long as cases are pending.
    fn extend(&mut self, symbol: u8, backward: u64) -> Option<u64> {
        self.steps += 1;
        (self.observe)(Event::Extended { symbol });
        if contains(backward, self.automaton.initial) {
            self.symbols[0] = symbol;
            self.symbols[1..self.pending].reverse();
            return Some(1);
        }
        self.push(backward, symbol);
        None
    }

    /// "If t blocks came before and hint t exists and passes, it is taken." Otherwise a blocker is grown:
    /// "hints go first in both" ways. "Blockers of level <= i that are subsets of Y leave and the rest
    /// close up; Y enters at the end with level i; X is no longer pending. Room is judged after the
    /// leaving." It has entered at "the count of steps including the block that made it".
    fn block(&mut self, case: u64, level: u32) -> Option<u64> {
        let hint = self.terms.hints.get(self.blocks).copied();
        let hint = hint.filter(|&hint| self.passes(hint, case, level));
        let blocker = match hint {
            Some(hint) => hint,
            None => self.grow(case, level),
        };
        let was_full = self.blockers.is_full();
        let left = self.blockers.leave(blocker, level);
        // A table that is full now was full before and has lost nothing: it stands as it stood.
        if self.blockers.is_full() {
            return Some(3);
        }
        self.steps += 1;
        self.blockers.enter(blocker, level, self.steps);
        self.blocks += 1;
        self.hints_accepted += u64::from(hint.is_some());
        self.pop();
        (self.observe)(Event::Blocked {
            pending: case,
            blocker,
            by_hint: hint.is_some(),
            left,
            was_full,
        });
        if self.pending == 0 && self.begin_at_final() {
            (self.observe)(Event::PendingAgain);
        }
        None
    }

    fn grow(&mut self, case: u64, level: u32) -> u64 {
        let blocker = match &mut self.growth {
            Growth::StateByState => self.grown_state_by_state(case, level),
            Growth::HittingSet(forbidden) => {
                forbidden.grow(&self.automaton, &self.blockers, case, level)
            }
        };
        let (masks, levels) = self.blockers.held();
        (self.observe)(Event::Grown {
            pending: case,
            level,
            masks,
            levels,
            blocker,
        });
        blocker
    }

    /// "Otherwise Y starts as X; states 0 to n-1 not in X are tried in order, each kept if the set with
    /// it still passes."
    fn grown_state_by_state(&self, case: u64, level: u32) -> u64 {
        let mut blocker = case;
        for state in 0..self.automaton.states() {
            let grown = blocker | 1 << state;
            if grown != blocker && self.passes(grown, case, level) {
                blocker = grown;
            }
        }
        blocker
    }

    /// "A case Y passes if it contains X, does not contain I, has no bit at n or above, and its
    /// backward set by each symbol is a subset of Y or blocked at i-1."
    fn passes(&self, candidate: u64, case: u64, level: u32) -> bool {
        contains(candidate, case)
            && !contains(candidate, self.automaton.initial)
            && contains(self.automaton.all_states(), candidate)
            && (0..self.automaton.symbols()).all(|symbol| {
                let backward = self.automaton.backward_set(symbol, candidate);
                contains(candidate, backward) || self.blocked(backward, level - 1)
            })
    }

    /// "For j from 1 to N, in table order, a blocker of level exactly j all of whose backward sets
    /// are blocked at j rises to j+1 in place; other subsets of it of level <= j+1 leave and the rest
    /// close up. N is then no longer open. If some level from 1 to N then holds no blocker, take the
    /// lowest such j: answer 0; the frame is the blockers above j." Rising "doesn't alter" when a
    /// blocker entered.
    fn close(&mut self) -> Option<u64> {
        self.steps += 1;
        for level in 1..=self.level {
            let mut next = 0;
            while let Some((place, mask)) = self.blockers.at_level(level, next) {
                next = place + 1;
                if self.rises(mask, level) {
                    let (left_before, left_behind) = self.blockers.rise(place);
                    // What stood behind the risen blocker has closed up with it.
                    next -= left_before;
                    (self.observe)(Event::Rose {
                        left_before,
                        left_behind,
                    });
                }
            }
        }
        self.open = false;
        (self.observe)(Event::Closed);
        let vacant = (1..=self.level).find(|&level| !self.blockers.hold_level(level))?;
        self.blockers.keep_above(vacant);
        Some(0)
    }

    fn rises(&self, mask: u64, level: u32) -> bool {
        (0..self.automaton.symbols())
            .all(|symbol| self.blocked(self.automaton.backward_set(symbol, mask), level))
    }

    fn blocked(&self, case: u64, level: u32) -> bool {
        self.blockers.block(self.automaton.initial, case, level)
    }

    fn push(&mut self, case: u64, symbol: u8) {
        self.cases[self.pending] = case;
        self.symbols[self.pending] = symbol;
        self.pending += 1;
    }

    /// The places that are freed become 0.
    fn pop(&mut self) {
        self.pending -= 1;
        self.cases[self.pending] = 0;
        self.symbols[self.pending] = 0;
    }

    /// "Until the run ends, with nothing pending then": the places that were in use become 0, but for
    /// those of the word if the answer is 1.
    fn end(&mut self, number: u64) {
        let word_length = if number == 1 { self.pending } else { 0 };
        self.cases[..self.pending].fill(0);
        self.symbols[word_length..self.pending].fill(0);
        self.pending = 0;
    }
}
