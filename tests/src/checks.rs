//! The checks of an image, 20 to 27, in the order of `docs/FORMAT.md`, on any bytes. All numbers are
//! taken as 64 bits wide, where no offset or length can wrap.

/// What an image that no check refuses says of itself.
#[derive(Clone, Copy, Debug, PartialEq, Eq)]
pub struct Head {
    pub n: u64,
    pub k: u64,
    pub m: u64,
    pub initial: u64,
    pub final_set: u64,
}

impl Head {
    pub fn numbers(&self) -> [u64; 5] {
        [self.n, self.k, self.m, self.initial, self.final_set]
    }
}

/// The head, or the number of the first check that applies.
pub fn check(image: &[u8]) -> Result<Head, u64> {
    let image_length = image.len() as u64;
    if image_length < 20 {
        return Err(20);
    }
    let head = Head {
        n: little_endian(image, 0, 1),
        k: little_endian(image, 1, 1),
        m: little_endian(image, 2, 2),
        initial: little_endian(image, 4, 8),
        final_set: little_endian(image, 12, 8),
    };
    if head.n == 0 || head.n > 64 {
        return Err(21);
    }
    if head.k == 0 || head.k > 64 {
        return Err(22);
    }
    if head.m > 4096 {
        return Err(23);
    }
    if image_length != 20 + 8 * head.k + 9 * head.m {
        return Err(24);
    }
    if exceeds(head.n, head.initial) || exceeds(head.n, head.final_set) {
        return Err(25);
    }
    let mut span_end = 20 + 8 * head.k;
    for pair in 0..head.k {
        let offset = little_endian(image, 20 + 8 * pair, 4);
        let length = little_endian(image, 24 + 8 * pair, 4);
        if offset != span_end || !length.is_multiple_of(9) {
            return Err(26);
        }
        span_end = offset.checked_add(length).expect("two numbers of 32 bits");
    }
    if span_end != image_length {
        return Err(26);
    }
    for row in 0..head.m {
        let at = 20 + 8 * head.k + 9 * row;
        let state = little_endian(image, at, 1);
        let case = little_endian(image, at + 1, 8);
        if state >= head.n || exceeds(head.n, case) {
            return Err(27);
        }
    }
    Ok(head)
}

/// Whether the case has a bit at n or above.
fn exceeds(n: u64, case: u64) -> bool {
    (n..64).any(|bit| case >> bit & 1 == 1)
}

fn little_endian(image: &[u8], at: u64, width: u64) -> u64 {
    let bytes = &image[at as usize..(at + width) as usize];
    bytes
        .iter()
        .rev()
        .fold(0, |number, &byte| number << 8 | u64::from(byte))
}
