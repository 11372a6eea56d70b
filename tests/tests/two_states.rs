//! Every model with two states, one symbol and no row twice, on every word up to length 4 of its
//! symbol and the first that it does not have.

use afa_tests::acceptance::{accepts_backwards, Runs, Start};
use afa_tests::afa::Library;
use afa_tests::compare::{compare_read, compare_word};
use afa_tests::generate::{every_word, two_states};

#[test]
fn all_models() {
    let mut library = Library::new();
    let words = every_word(2, 4);
    let mut answers = [0_usize; 33];
    for i in 0..4096 {
        let model = two_states(i);
        let image = model.image();
        assert!(
            compare_read(&mut library, &image, &model).is_ok(),
            "{model}"
        );
        let all_starts = Runs::new(&model, Start::EverySuperset);
        let one_start = Runs::new(&model, Start::Initial);
        for word in &words {
            let answer = compare_word(&mut library, &model, &image, word);
            answers[answer as usize] += 1;
            if answer != 32 {
                let expected = Some(accepts_backwards(&model, word));
                for runs in [&all_starts, &one_start] {
                    let by_runs = runs.accepts(word, usize::MAX);
                    assert_eq!(by_runs, expected, "{model}, word {word:?}");
                }
            }
        }
    }
    println!(
        "4096 models of two states: {} words not accepted, {} accepted, {} with an unknown symbol",
        answers[0], answers[1], answers[32]
    );
    assert_eq!(answers[0] + answers[1], 4096 * 5);
    assert!(answers[0] > 5_000 && answers[1] > 5_000);
}
