//! The image of A byte by byte, and the number of each check.

use super::*;
use crate::text;

const A: &str = "states 3\nevents 2\ninitial 0\nfinal 2\n\
                 row 0 0 : 1\nrow 0 0 : 1 2\nrow 2 1 : 0\n";

fn image_of_a() -> Vec<u8> {
    write(&text::read(A.as_bytes()).unwrap())
}

/// The number that the image of A gets with `bytes` written over it from `place` on.
fn number_with(place: usize, bytes: &[u8]) -> Option<u64> {
    let mut image = image_of_a();
    image[place..place + bytes.len()].copy_from_slice(bytes);
    read(&image).err().map(|refusal| refusal.0)
}

fn plain(state_count: u8, row_count: u16) -> Vec<u8> {
    let mut image = vec![0; HEAD + PAIR + ROW * usize::from(row_count)];
    image[..2].copy_from_slice(&[state_count, 1]);
    image[2..4].copy_from_slice(&row_count.to_le_bytes());
    image[HEAD] = (HEAD + PAIR) as u8;
    let length = (ROW * usize::from(row_count)) as u32;
    image[HEAD + 4..HEAD + 8].copy_from_slice(&length.to_le_bytes());
    image
}

#[test]
fn image_of_a_byte_by_byte() {
    let mut expected = vec![3, 2, 3, 0];
    expected.extend([1, 0, 0, 0, 0, 0, 0, 0]);
    expected.extend([4, 0, 0, 0, 0, 0, 0, 0]);
    expected.extend([36, 0, 0, 0, 18, 0, 0, 0]);
    expected.extend([54, 0, 0, 0, 9, 0, 0, 0]);
    expected.extend([0, 2, 0, 0, 0, 0, 0, 0, 0]);
    expected.extend([0, 6, 0, 0, 0, 0, 0, 0, 0]);
    expected.extend([2, 1, 0, 0, 0, 0, 0, 0, 0]);
    assert_eq!(expected.len(), 63);
    assert_eq!(image_of_a(), expected);
}

#[test]
fn each_check_has_its_number() {
    assert_eq!(number_with(0, &[]), None);
    assert_eq!(read(&image_of_a()[..19]), Err(Refusal(20)));
    assert_eq!(number_with(0, &[0]), Some(21));
    assert_eq!(number_with(0, &[65]), Some(21));
    assert_eq!(number_with(1, &[0]), Some(22));
    assert_eq!(number_with(1, &[65]), Some(22));
    assert_eq!(number_with(2, &[1, 16]), Some(23));
    assert_eq!(number_with(2, &[2]), Some(24));
    assert_eq!(read(&image_of_a()[..62]), Err(Refusal(24)));
    assert_eq!(number_with(4, &[8]), Some(25));
    assert_eq!(number_with(19, &[128]), Some(25));
    assert_eq!(number_with(20, &[35]), Some(26));
    assert_eq!(number_with(24, &[17]), Some(26));
    assert_eq!(number_with(24, &[255, 255, 255, 255]), Some(26));
    assert_eq!(number_with(28, &[45]), Some(26));
    assert_eq!(number_with(32, &[0]), Some(26));
    assert_eq!(number_with(32, &[18]), Some(26));
    assert_eq!(number_with(36, &[3]), Some(27));
    assert_eq!(number_with(37, &[8]), Some(27));
}

#[test]
fn the_first_check_that_fails_answers() {
    assert_eq!(number_with(0, &[0, 0, 255, 255, 8]), Some(21));
    assert_eq!(number_with(1, &[0, 255, 255, 8]), Some(22));
    assert_eq!(number_with(2, &[255, 255, 8]), Some(23));
    assert_eq!(number_with(2, &[2, 0, 8]), Some(24));
    assert_eq!(number_with(19, &[128, 0]), Some(25));
    let mut image = image_of_a();
    image[32] = 0;
    image[36] = 3;
    assert_eq!(read(&image), Err(Refusal(26)));
}

#[test]
fn the_largest_sizes_are_read() {
    assert_eq!(read(&plain(64, 4096)).unwrap().row_count(), 4096);
    assert_eq!(read(&plain(64, 4097)), Err(Refusal(23)));
    assert_eq!(read(&plain(65, 0)), Err(Refusal(21)));
}
