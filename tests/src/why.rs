//! Why a case is blocked at a level, blocker by blocker and state by state. What stands in quotes is the
//! requirements'.

/// What is asked, and of which initial case and blockers.
#[derive(Clone, Copy)]
pub struct Question<'a> {
    pub initial: u64,
    pub masks: &'a [u64],
    pub levels: &'a [u32],
    pub level: u64,
    pub case: u64,
}

impl Question<'_> {
    /// Of masks and levels.
    pub fn lengths(&self) -> [usize; 2] {
        [self.masks.len(), self.levels.len()]
    }

    /// With at most 200 places of each table.
    pub fn shown(&self) -> String {
        let [masks, levels] = self.lengths();
        format!(
            "initial {:x}, level {}, case {:x}, {masks} masks {:x?}, {levels} levels {:?}",
            self.initial,
            self.level,
            self.case,
            &self.masks[..masks.min(200)],
            &self.levels[..levels.min(200)]
        )
    }
}

#[derive(Clone, Copy, Debug, PartialEq, Eq)]
pub enum Reason {
    /// A blocker's place and its own level.
    Blocker { place: usize, level: u32 },
    /// An initial state that the case does not have.
    Absent { state: u32 },
}

/// The number that the library answers and what it finds.
#[derive(Clone, Copy, Debug, PartialEq, Eq)]
pub struct Found {
    pub number: u64,
    pub found: [u64; 2],
}

impl Found {
    pub fn new(reason: Option<Reason>) -> Self {
        let (number, found) = match reason {
            None => (0, [0, 0]),
            Some(Reason::Blocker { place, level }) => (1, [place as u64, u64::from(level)]),
            Some(Reason::Absent { state }) => (2, [u64::from(state), 0]),
        };
        Found { number, found }
    }
}

/// "The place, from 0, of the first covering blocker in table order and its level; at level 0, the
/// lowest initial state absent; none exactly if the case isn't blocked there."
pub fn why(question: &Question) -> Option<Reason> {
    match question.level {
        0 => lowest_absent(question.initial, question.case),
        _ => first_covering(question),
    }
}

/// "Of masks and levels of unlike length, the shorter table says how many blockers there are." A case is
/// covered if it "is a subset of a blocker of level i or more".
fn first_covering(question: &Question) -> Option<Reason> {
    let mut place = 0;
    while place < question.masks.len() && place < question.levels.len() {
        let level = question.levels[place];
        if u64::from(level) >= question.level && is_subset(question.case, question.masks[place]) {
            return Some(Reason::Blocker { place, level });
        }
        place += 1;
    }
    None
}

fn lowest_absent(initial: u64, case: u64) -> Option<Reason> {
    let state = (0..64).find(|&state| has(initial, state) && !has(case, state))?;
    Some(Reason::Absent { state })
}

fn is_subset(part: u64, whole: u64) -> bool {
    (0..64).all(|state| !has(part, state) || has(whole, state))
}

fn has(case: u64, state: u32) -> bool {
    case >> state & 1 == 1
}
