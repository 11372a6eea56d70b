//! Images damaged in one or several ways, from valid ones of many sizes.

use afa_tests::afa::Library;
use afa_tests::compare::compare_image;
use afa_tests::damage::damage;
use afa_tests::generate;
use afa_tests::random::Random;

const IMAGES: usize = 130_000;

#[test]
fn damaged_images() {
    let mut random = Random::seeded(2);
    let mut library = Library::new();
    let valid: Vec<Vec<u8>> = (0..800)
        .map(|_| generate::model(&mut random).image())
        .collect();
    let mut by_number = [0_usize; 28];
    let mut by_number_after_several = [0_usize; 28];
    for _ in 0..IMAGES {
        let mut image = valid[random.below(valid.len())].clone();
        let symbols = usize::from(image[1]);
        let damages = random.pick(&[1, 1, 1, 2, 2, 3, 4]);
        let origin = damage(&mut image, &mut random, damages);
        // One of them would give 32 if the image were not refused before.
        let words = [
            generate::word(&mut random, symbols),
            generate::unknown_word(&mut random, symbols),
        ];
        let number = compare_image(&mut library, &image, &words, &origin);
        by_number[number as usize] += 1;
        by_number_after_several[number as usize] += usize::from(damages > 1);
    }
    println!("{IMAGES} damaged images; by number, in all and after several damages:");
    for number in [0, 20, 21, 22, 23, 24, 25, 26, 27] {
        let (all, several) = (by_number[number], by_number_after_several[number]);
        println!("{number}: {all}, {several}");
        assert!(all >= 2_000 && several >= 1_000, "{number} is too rare");
    }
}
