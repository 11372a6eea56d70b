//! The checks in their order: of all that apply, the first answers.

use afa_tests::afa::Library;
use afa_tests::compare::expect_number;
use afa_tests::image::broken_model_c;

/// Each check from 21 on broken or not, in all ways.
#[test]
fn order_of_checks() {
    let mut library = Library::new();
    for broken in 0..1 << 7 {
        let is_broken = |number: u64| broken >> (number - 21) & 1 == 1;
        for (n, k) in [(0, 0), (65, 65), (0, 200), (255, 0)] {
            for mask_at in [4, 12] {
                let image = broken_model_c(is_broken, mask_at, n, k);
                let first = (21..=27).find(|&number| is_broken(number));
                expect_number(&mut library, &image, first.unwrap_or(0));
                expect_number(&mut library, &image[..19], 20);
            }
        }
    }
}
