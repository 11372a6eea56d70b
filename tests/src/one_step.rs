//! What holds of every step of a working record, said without the machine.

use crate::compare::steps::Standing;
use crate::record::Record;

pub fn assert_one_step(before: &Standing, after: &Standing, allowance: u64) {
    let (was, is) = (&before.record, &after.record);
    let shown = format!("{was}\nto {is}");
    let word_length = if is.answer == 1 { was.pending } else { 0 };
    assert_rest_stays(before, after, word_length);
    assert_freed_is_cleared(before, after, word_length);
    assert!(is.open <= 1, "{shown}");
    assert_eq!(is.answer == 2, was.steps >= allowance, "{shown}");
    let stopped = matches!(is.answer, 2..=4);
    assert_eq!(is.steps, was.steps + u64::from(!stopped), "{shown}");
    assert!(is.is_working() || is.pending == 0, "{shown}");
    if stopped {
        let same = Record {
            answer: is.answer,
            open: u64::from(was.open != 0),
            pending: 0,
            ..*was
        };
        assert_eq!(*is, same, "{shown}");
    }
    let made = is.blocks - was.blocks;
    let accepted = is.accepted - was.accepted;
    assert!(accepted <= made && made <= 1, "{shown}");
    if made == 1 {
        let last = is.held as usize - 1;
        assert_eq!(after.tables.entered[last], is.steps, "{shown}");
        let level = was.level - was.pending + 1;
        assert_eq!(u64::from(after.tables.levels[last]), level, "{shown}");
    }
}

/// Each place that is in use neither before nor after the step is as it was.
fn assert_rest_stays(before: &Standing, after: &Standing, word_length: u64) {
    let held = before.record.held.max(after.record.held) as usize;
    let pending = before.record.pending.max(after.record.pending);
    let (cases, symbols) = (pending as usize, pending.max(word_length) as usize);
    assert_eq!(before.tables.masks[held..], after.tables.masks[held..]);
    assert_eq!(before.tables.levels[held..], after.tables.levels[held..]);
    assert_eq!(before.tables.entered[held..], after.tables.entered[held..]);
    assert_eq!(before.tables.cases[cases..], after.tables.cases[cases..]);
    assert_eq!(
        before.tables.symbols[symbols..],
        after.tables.symbols[symbols..]
    );
}

/// What was in use before and is no longer is 0, but for a word.
fn assert_freed_is_cleared(before: &Standing, after: &Standing, word_length: u64) {
    let blockers = after.record.held as usize..before.record.held.max(after.record.held) as usize;
    let pending = before.record.pending.max(after.record.pending) as usize;
    let cases = after.record.pending as usize..pending;
    let symbols = after.record.pending.max(word_length) as usize..pending;
    let tables = &after.tables;
    assert!(tables.masks[blockers.clone()].iter().all(|&mask| mask == 0));
    assert!(tables.levels[blockers.clone()]
        .iter()
        .all(|&level| level == 0));
    assert!(tables.entered[blockers].iter().all(|&entered| entered == 0));
    assert!(tables.cases[cases].iter().all(|&case| case == 0));
    assert!(tables.symbols[symbols].iter().all(|&symbol| symbol == 0));
}
