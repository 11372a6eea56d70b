//! Random models of 1 to 64 states and symbols on random words.

use afa_tests::acceptance::{Runs, Start};
use afa_tests::afa::Library;
use afa_tests::compare::{compare_read, compare_word};
use afa_tests::generate;
use afa_tests::random::Random;

const MODELS: usize = 24_000;
const WORDS: usize = 7;

/// How many picks a search of runs may make. Beyond it the backward sets alone are compared.
const CAP: usize = 3_000;

#[derive(Default)]
struct Counts {
    not_accepted: usize,
    accepted: usize,
    unknown: usize,
    long_accepted: usize,
    long_not_accepted: usize,
    runs_not_accepted: usize,
    runs_accepted: usize,
    models_with_runs: usize,
    all_starts: usize,
    full_size: usize,
    most_rows: usize,
}

#[test]
fn random_models() {
    let mut random = Random::seeded(1);
    let mut library = Library::new();
    let mut counts = Counts::default();
    for _ in 0..MODELS {
        try_model(&mut random, &mut library, &mut counts);
    }
    let words = counts.not_accepted + counts.accepted;
    println!(
        "{MODELS} models, {} of 64 states and 64 symbols, at most {} rows; {words} words: {} not \
         accepted, {} accepted; over 20 symbols {} and {}; {} with an unknown symbol",
        counts.full_size,
        counts.most_rows,
        counts.not_accepted,
        counts.accepted,
        counts.long_not_accepted,
        counts.long_accepted,
        counts.unknown
    );
    println!(
        "by runs too: {} words of {} models, {} not accepted, {} accepted; {} from every start case",
        counts.runs_not_accepted + counts.runs_accepted,
        counts.models_with_runs,
        counts.runs_not_accepted,
        counts.runs_accepted,
        counts.all_starts
    );
    assert!(counts.accepted > 40_000 && counts.not_accepted > 40_000);
    assert!(counts.long_accepted > 8_000 && counts.long_not_accepted > 8_000);
    assert!(counts.unknown > 20_000);
    assert!(counts.full_size > 50 && counts.most_rows == 4096);
    assert!(counts.runs_accepted > 60_000 && counts.runs_not_accepted > 60_000);
    assert!(counts.models_with_runs > 20_000 && counts.all_starts > 50_000);
}

fn try_model(random: &mut Random, library: &mut Library, counts: &mut Counts) {
    let mut model = generate::model(random);
    let symbols = model.symbols();
    let words: Vec<Vec<u8>> = (0..WORDS)
        .map(|_| generate::word(random, symbols))
        .collect();
    if random.chance(50) {
        let word = &words[random.below(WORDS)];
        generate::aim(random, &mut model, word);
    }
    let image = model.image();
    assert!(compare_read(library, &image, &model).is_ok(), "{model}");
    counts.full_size += usize::from(model.states == 64 && symbols == 64);
    counts.most_rows = counts.most_rows.max(model.row_count());

    let runs = Runs::new(&model, Start::Initial);
    let all_starts = (model.states <= 5).then(|| Runs::new(&model, Start::EverySuperset));
    let mut searched = false;
    for word in &words {
        let accepted = compare_word(library, &model, &image, word) == 1;
        if accepted {
            counts.accepted += 1;
            counts.long_accepted += usize::from(word.len() > 20);
        } else {
            counts.not_accepted += 1;
            counts.long_not_accepted += usize::from(word.len() > 20);
        }
        if let Some(by_runs) = runs.accepts(word, CAP) {
            assert_eq!(by_runs, accepted, "by runs from I: {model}\nword {word:?}");
            searched = true;
            if accepted {
                counts.runs_accepted += 1;
            } else {
                counts.runs_not_accepted += 1;
            }
        }
        if let Some(by_runs) = all_starts.as_ref().and_then(|runs| runs.accepts(word, CAP)) {
            assert_eq!(
                by_runs, accepted,
                "by runs from any start: {model}\nword {word:?}"
            );
            counts.all_starts += 1;
        }
    }
    counts.models_with_runs += usize::from(searched);

    let word = generate::unknown_word(random, symbols);
    assert_eq!(compare_word(library, &model, &image, &word), 32);
    counts.unknown += 1;
}
