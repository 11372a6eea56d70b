//! Tests: a model keeps its image on the way to text and back.

#[allow(dead_code)]
#[path = "../tests/common/random.rs"]
mod random;

use crate::image;
use crate::model::{Case, Model, Names, Part, Row, State};
use crate::text;
use random::Random;
use std::fs;
use std::path::Path;

impl Random {
    fn case(&mut self, state_count: usize) -> Case {
        Case(self.number() & self.number() & (u64::MAX >> (64 - state_count)))
    }

    fn names(&mut self, count: usize) -> Names {
        if self.below(2) == 0 {
            return Names::numbered(count);
        }
        let names = (0..count).map(|number| format!("name-{number}_{}", self.below(100)));
        Names::new(names.collect())
    }

    /// Each state in one of the first parts or in none.
    fn parts(&mut self, state_count: usize) -> Vec<Part> {
        let part_count = 1 + self.below(4);
        let mut states = vec![Case::default(); part_count + 1];
        for state in 0..state_count {
            let part = &mut states[self.below(part_count + 1)];
            *part = part.with(State(state as u8));
        }
        let parts = states[..part_count].iter().enumerate();
        let parts = parts.map(|(number, &states)| Part {
            name: format!("part-{number}"),
            states,
        });
        parts.filter(|part| !part.states.is_empty()).collect()
    }

    fn model(&mut self) -> Model {
        let state_count = 1 + self.below(64);
        let event_count = 1 + self.below(64);
        let mut rows = vec![Vec::new(); event_count];
        for _ in 0..self.below(4 * event_count) {
            let state = State(self.below(state_count) as u8);
            let case = self.case(state_count);
            rows[self.below(event_count)].push(Row { state, case });
        }
        Model {
            states: self.names(state_count),
            events: self.names(event_count),
            initial: self.case(state_count),
            final_set: self.case(state_count),
            parts: self.parts(state_count),
            rows,
        }
    }
}

/// Text to image to text to image.
fn keeps_its_image(text: &[u8]) {
    let model = text::read(text).unwrap_or_else(|fault| panic!("{fault}"));
    let image = image::write(&model);
    let read = image::read(&image).unwrap_or_else(|refusal| panic!("{refusal}"));
    assert_eq!(read.rows, model.rows);
    let again = text::read(text::write(&read).as_bytes());
    let again = again.unwrap_or_else(|fault| panic!("{fault}"));
    assert_eq!(again, read);
    assert_eq!(image::write(&again), image);
}

#[test]
fn files_of_models() {
    let folder = Path::new(env!("CARGO_MANIFEST_DIR")).join("../models");
    let mut count = 0;
    for entry in fs::read_dir(folder).expect("the folder models") {
        let path = entry.unwrap().path();
        if path.extension().is_none_or(|extension| extension != "txt") {
            continue;
        }
        println!("{}", path.display());
        keeps_its_image(&fs::read(path).unwrap());
        count += 1;
    }
    assert!(count >= 8);
}

#[test]
fn random_models() {
    let mut random = Random(1);
    for _ in 0..200 {
        let model = random.model();
        let text = text::write(&model);
        assert_eq!(text::read(text.as_bytes()).as_ref(), Ok(&model));
        keeps_its_image(text.as_bytes());
    }
}
