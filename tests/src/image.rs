//! An automaton as data, the writer of its image, the reader of an image that no check refuses, and
//! the models A to D of `models/`.

use std::fmt;

/// A state and a case; the symbol is the place in [`Model::rows`].
#[derive(Clone, Copy, Debug, PartialEq, Eq, PartialOrd, Ord)]
pub struct Row {
    pub state: u8,
    pub case: u64,
}

#[derive(Clone, Debug, PartialEq, Eq)]
pub struct Model {
    /// n, the number of states.
    pub states: usize,
    /// I.
    pub initial: u64,
    /// F.
    pub final_set: u64,
    /// The rows of each symbol in the image's order. There are k symbols.
    pub rows: Vec<Vec<Row>>,
}

/// The states 0 to n - 1 as a case.
pub fn all_states(states: usize) -> u64 {
    assert!((1..=64).contains(&states));
    u64::MAX >> (64 - states)
}

impl Model {
    pub fn new(states: usize, initial: u64, final_set: u64, rows: &[&[(u8, u64)]]) -> Self {
        let row = |&(state, case): &(u8, u64)| Row { state, case };
        let rows = rows.iter().map(|rows| rows.iter().map(row).collect());
        Model {
            states,
            initial,
            final_set,
            rows: rows.collect(),
        }
    }

    /// I and F empty, and as many rows (0, 0) as said, shared out evenly.
    pub fn plain(states: usize, symbols: usize, row_count: usize) -> Self {
        let mut model = Model::new(states, 0, 0, &vec![&[][..]; symbols]);
        for row in 0..row_count {
            model.rows[row * symbols / row_count].push(Row { state: 0, case: 0 });
        }
        model
    }

    /// k.
    pub fn symbols(&self) -> usize {
        self.rows.len()
    }

    /// m.
    pub fn row_count(&self) -> usize {
        self.rows.iter().map(Vec::len).sum()
    }

    /// n, k and m, as text.
    pub fn sizes(&self) -> String {
        let (n, k, m) = (self.states, self.symbols(), self.row_count());
        format!("n {n}, k {k}, m {m}")
    }

    /// Whether I is a subset of F, so that the empty word is accepted.
    pub fn starts_final(&self) -> bool {
        self.initial & !self.final_set == 0
    }

    /// The image's bytes. Nothing is checked here beyond what the fields' widths demand, so that
    /// models out of range can be written too.
    pub fn image(&self) -> Vec<u8> {
        let mut image = Vec::with_capacity(20 + 8 * self.symbols() + 9 * self.row_count());
        image.push(u8::try_from(self.states).expect("n fits its byte"));
        image.push(u8::try_from(self.symbols()).expect("k fits its byte"));
        let row_count = u16::try_from(self.row_count()).expect("m fits its bytes");
        image.extend(row_count.to_le_bytes());
        image.extend(self.initial.to_le_bytes());
        image.extend(self.final_set.to_le_bytes());
        let mut offset = 20 + 8 * self.symbols();
        for rows in &self.rows {
            let length = 9 * rows.len();
            image.extend(u32::try_from(offset).unwrap().to_le_bytes());
            image.extend(u32::try_from(length).unwrap().to_le_bytes());
            offset += length;
        }
        for row in self.rows.iter().flatten() {
            image.push(row.state);
            image.extend(row.case.to_le_bytes());
        }
        assert_eq!(image.len(), offset);
        image
    }

    /// The model that an image holds. The image must be one that no check refuses.
    pub fn of_image(image: &[u8]) -> Self {
        let rows = (0..usize::from(image[1])).map(|symbol| {
            let pair = &image[20 + 8 * symbol..28 + 8 * symbol];
            let offset = u32::from_le_bytes(pair[..4].try_into().unwrap()) as usize;
            let length = u32::from_le_bytes(pair[4..].try_into().unwrap()) as usize;
            let rows = image[offset..offset + length].chunks_exact(9);
            rows.map(|row| Row {
                state: row[0],
                case: u64::from_le_bytes(row[1..].try_into().unwrap()),
            })
            .collect()
        });
        Model {
            states: usize::from(image[0]),
            initial: u64::from_le_bytes(image[4..12].try_into().unwrap()),
            final_set: u64::from_le_bytes(image[12..20].try_into().unwrap()),
            rows: rows.collect(),
        }
    }
}

/// On one line, cases as numbers. Symbols without rows are left out.
impl fmt::Display for Model {
    fn fmt(&self, out: &mut fmt::Formatter<'_>) -> fmt::Result {
        let (n, k) = (self.states, self.symbols());
        write!(
            out,
            "n {n}, k {k}, I {}, F {}",
            self.initial, self.final_set
        )?;
        for (symbol, rows) in self.rows.iter().enumerate() {
            let mut before = format!("; symbol {symbol}: ");
            for row in rows {
                write!(out, "{before}({}, {})", row.state, row.case)?;
                before = ", ".to_string();
            }
        }
        Ok(())
    }
}

pub fn model_a() -> Model {
    Model::new(3, 1, 4, &[&[(0, 2), (0, 6)], &[(2, 1)]])
}

pub fn model_b() -> Model {
    Model::new(2, 1, 2, &[&[(0, 2)]])
}

pub fn model_c() -> Model {
    Model::new(3, 1, 0, &[&[(0, 6)], &[(1, 0), (2, 0)]])
}

/// Model C's image with the checks from 21 to 27 that are named broken: n and k take the values
/// given, and of I and F the one at `mask_at` a bit too many. None is mended by breaking another.
pub fn broken_model_c(is_broken: impl Fn(u64) -> bool, mask_at: usize, n: u8, k: u8) -> Vec<u8> {
    let mut image = model_c().image();
    if is_broken(27) {
        image[54] = 255;
    }
    if is_broken(26) {
        image[28] += 9;
    }
    if is_broken(25) {
        image[mask_at] |= 8;
    }
    if is_broken(24) {
        image.push(0);
    }
    if is_broken(23) {
        image[2..4].copy_from_slice(&4097_u16.to_le_bytes());
    }
    if is_broken(22) {
        image[1] = k;
    }
    if is_broken(21) {
        image[0] = n;
    }
    image
}

pub fn model_d() -> Model {
    Model::new(1, 0, 0, &[&[]])
}

/// Coprime rings: one symbol moves every state of a ring on, I has the first state of each and F the
/// last.
pub fn rings(sizes: &[usize]) -> Model {
    let mut model = Model::plain(sizes.iter().sum(), 1, 0);
    let mut first = 0;
    for &size in sizes {
        model.initial |= 1 << first;
        model.final_set |= 1 << (first + size - 1);
        model.rows[0].extend((0..size).map(|place| Row {
            state: (first + place) as u8,
            case: 1 << (first + (place + 1) % size),
        }));
        first += size;
    }
    model
}
