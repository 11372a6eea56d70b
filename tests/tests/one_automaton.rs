//! Images that differ only in the order of a symbol's rows and in how often each stands hold one
//! automaton: the word test answers alike.

use afa_tests::afa::Library;
use afa_tests::compare::{compare_read, compare_word};
use afa_tests::generate;
use afa_tests::random::Random;
use afa_tests::rearrange::{repeated, shuffled, without_repeats};

#[test]
fn order_and_repeats_do_not_matter() {
    let mut random = Random::seeded(3);
    let mut library = Library::new();
    let mut answers = [0_usize; 2];
    for _ in 0..500 {
        let mut model = generate::model(&mut random);
        let words: Vec<Vec<u8>> = (0..8)
            .map(|_| generate::word(&mut random, model.symbols()))
            .collect();
        generate::aim(&mut random, &mut model, &words[0]);
        let image = model.image();
        let compare = |word: &Vec<u8>| compare_word(&mut library, &model, &image, word);
        let expected: Vec<u64> = words.iter().map(compare).collect();

        let in_other_order = shuffled(&mut random, &model);
        let others = [
            repeated(&mut random, &model, 1),
            repeated(&mut random, &model, 40),
            repeated(&mut random, &in_other_order, 4096),
            without_repeats(&model),
            in_other_order,
        ];
        for other in &others {
            let image = other.image();
            assert!(compare_read(&mut library, &image, other).is_ok());
            for (word, &expected) in words.iter().zip(&expected) {
                let answer = compare_word(&mut library, other, &image, word);
                assert_eq!(answer, expected, "{model}\nas {other}\nword {word:?}");
                answers[answer as usize] += 1;
            }
        }
    }
    println!(
        "500 models in 5 other images each: {} words not accepted, {} accepted",
        answers[0], answers[1]
    );
    assert!(answers[0] > 5_000 && answers[1] > 5_000);
}
