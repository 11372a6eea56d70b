//! Images: the bytes that the checker reads, as `docs/FORMAT.md` has them.

#[cfg(test)]
mod tests;

use crate::library;
use crate::model::{Case, Model, Names, Row, State};
use crate::numbers::Refusal;

const HEAD: usize = 20;
const PAIR: usize = 8;
const ROW: usize = 9;

pub fn write(model: &Model) -> Vec<u8> {
    let mut image = vec![model.states.count() as u8, model.events.count() as u8];
    image.extend((model.row_count() as u16).to_le_bytes());
    image.extend(model.initial.0.to_le_bytes());
    image.extend(model.final_set.0.to_le_bytes());
    let mut offset = HEAD + PAIR * model.events.count();
    for rows in &model.rows {
        let length = ROW * rows.len();
        image.extend((offset as u32).to_le_bytes());
        image.extend((length as u32).to_le_bytes());
        offset += length;
    }
    for row in model.rows.iter().flatten() {
        image.push(row.state.0);
        image.extend(row.case.0.to_le_bytes());
    }
    image
}

/// The model of an image, with numbers as names; or what the library refuses it by.
pub fn read(image: &[u8]) -> Result<Model, Refusal> {
    let [states, events, _, initial, final_set] = library::read(image)?;
    let pairs = &image[HEAD..][..PAIR * events as usize];
    let spans = pairs.chunks_exact(PAIR).map(|pair| {
        let offset = little_endian(&pair[..4]) as usize;
        let length = little_endian(&pair[4..]) as usize;
        image[offset..][..length].chunks_exact(ROW).map(row)
    });
    Ok(Model {
        states: Names::numbered(states as usize),
        events: Names::numbered(events as usize),
        initial: Case(initial),
        final_set: Case(final_set),
        parts: Vec::new(),
        rows: spans.map(Iterator::collect).collect(),
    })
}

fn row(bytes: &[u8]) -> Row {
    Row {
        state: State(bytes[0]),
        case: Case(little_endian(&bytes[1..])),
    }
}

fn little_endian(bytes: &[u8]) -> u64 {
    let digits = bytes.iter().rev();
    digits.fold(0, |number, &byte| number << 8 | u64::from(byte))
}
