//! Models A to D with all they accept, and the two ways in which a word test easily goes astray: the
//! empty case taken as dead, and a row's case that must equal the set to count.

use afa_tests::acceptance::{Runs, Start};
use afa_tests::afa::Library;
use afa_tests::compare::{compare_read, compare_word};
use afa_tests::generate::every_word;
use afa_tests::image::{model_a, model_b, model_c, model_d, Model};

/// The library, both references and the language as worked out by hand.
fn assert_language(model: &Model, language: impl Fn(&[u8]) -> bool) {
    let mut library = Library::new();
    let image = model.image();
    let runs = Runs::new(model, Start::EverySuperset);
    for word in every_word(model.symbols(), 8) {
        let expected = language(&word);
        assert_eq!(
            runs.accepts(&word, 100_000),
            Some(expected),
            "{model}, {word:?}"
        );
        let answered = compare_word(&mut library, model, &image, &word);
        assert_eq!(answered, u64::from(expected), "{model}, {word:?}");
    }
}

#[test]
fn heads() {
    let mut library = Library::new();
    for (model, head) in [
        (model_a(), [3, 2, 3, 1, 4]),
        (model_b(), [2, 1, 1, 1, 2]),
        (model_c(), [3, 2, 3, 1, 0]),
        (model_d(), [1, 1, 0, 0, 0]),
    ] {
        let read = compare_read(&mut library, &model.image(), &model);
        assert_eq!(read.map(|read| read.numbers()), Ok(head), "{model}");
    }
}

#[test]
fn image_of_a() {
    let image = model_a().image();
    assert_eq!(image.len(), 63);
    let pairs = [36, 0, 0, 0, 18, 0, 0, 0, 54, 0, 0, 0, 9, 0, 0, 0];
    assert_eq!(image[20..36], pairs);
}

#[test]
fn a_accepts_nothing() {
    assert_language(&model_a(), |_| false);
}

#[test]
fn b_accepts_one_word() {
    assert_language(&model_b(), |word| word == [0]);
}

#[test]
fn c_accepts_what_begins_with_0_1() {
    assert_language(&model_c(), |word| word.starts_with(&[0, 1]));
}

#[test]
fn d_accepts_everything() {
    assert_language(&model_d(), |_| true);
}

#[test]
fn word_test_on_c() {
    let mut library = Library::new();
    let image = model_c().image();
    for (word, expected) in [
        (&[0, 1][..], 1),
        (&[1, 0], 0),
        (&[], 0),
        (&[2], 32),
        (&[0, 1, 2], 32),
        (&[2, 0, 1], 32),
        (&[0, 255, 1], 32),
    ] {
        assert_eq!(library.accepts(&image, word), expected, "C, {word:?}");
    }
}

/// Once nothing is left to run, any symbols may follow.
#[test]
fn empty_case_steps() {
    let model = Model::new(1, 1, 0, &[&[(0, 0)], &[]]);
    assert_language(&model, |word| word.starts_with(&[0]));
}

/// I empty: the empty case is where runs begin.
#[test]
fn empty_initial_case_steps() {
    let model = Model::new(2, 0, 0, &[&[], &[(0, 3)]]);
    assert_language(&model, |_| true);
}

#[test]
fn proper_subset_counts() {
    let model = Model::new(2, 1, 3, &[&[(0, 2)]]);
    assert_language(&model, |word| word.len() <= 1);
    let neither = Model::new(2, 1, 1, &[&[(0, 2)]]);
    assert_language(&neither, |word| word.is_empty());
}

/// A case that overlaps the set without lying inside it does not count, nor does a part of I.
#[test]
fn overlap_does_not_count() {
    let overlapping_row = Model::new(3, 1, 2, &[&[(0, 6)]]);
    assert_language(&overlapping_row, |_| false);
    let overlapping_initial = Model::new(2, 3, 1, &[&[(0, 1)]]);
    assert_language(&overlapping_initial, |_| false);
}
