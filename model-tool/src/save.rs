//! Saved runs: what a run needs to go on, as text. `docs/FORMAT.md` has the lines in their order.
//!
//! The image stands in the file whole, so a run goes on with no other; the last line is a digest of the
//! lines above it, so that damage is noticed.

#[cfg(test)]
mod tests;

use crate::fault::{quoted, Fault};
use crate::library::{self, Record, MOST_PLACES, WORKING};
use crate::model::{decimal, Case, MOST_STATES};
use crate::run::{Blocker, Paused, Pending, Settings};
use crate::words::{lines, Line};

const FIRST: &str = "saved-run 1";

#[derive(Clone, Debug, PartialEq, Eq)]
pub struct Saved {
    pub image: Vec<u8>,
    /// The places of the blocker room and of the word room.
    pub places: [usize; 2],
    pub settings: Settings,
    pub paused: Paused,
}

pub fn write(saved: &Saved) -> String {
    let image: String = saved
        .image
        .iter()
        .map(|byte| format!("{byte:02x}"))
        .collect();
    let [blocker_places, word_places] = saved.places;
    let Settings {
        hints,
        edition,
        way,
    } = &saved.settings;
    let record = saved
        .paused
        .record
        .numbers()
        .map(|number| number.to_string());
    let mut text = format!(
        "{FIRST}\nimage {image}\nrooms {blocker_places} {word_places}\nedition {edition}\nway {way}\n\
         hints {}\nrecord {}\n",
        hints.len(),
        record.join(" ")
    );
    for hint in hints {
        text += &format!("hint {hint}\n");
    }
    for blocker in &saved.paused.blockers {
        let Blocker {
            case,
            level,
            entered,
        } = blocker;
        text += &format!("blocker {} {level} {entered}\n", case.0);
    }
    for Pending { case, symbol } in &saved.paused.pending {
        text += &format!("pending {} {symbol}\n", case.0);
    }
    let digest = digest(text.as_bytes());
    format!("{text}digest {digest:016x}\n")
}

/// FNV-1a in 64 bits: two texts that differ in one byte alone never have the same, others hardly ever.
fn digest(bytes: &[u8]) -> u64 {
    bytes.iter().fold(0xcbf2_9ce4_8422_2325, |state, &byte| {
        (state ^ u64::from(byte)).wrapping_mul(0x0000_0100_0000_01b3)
    })
}

pub fn read(text: &[u8]) -> Result<Saved, Fault> {
    let first = text.split(|&byte| byte == b'\n').next();
    if first != Some(FIRST.as_bytes()) {
        return Err(Fault {
            line: 1,
            column: 1,
            what: format!("no saved run: expected the line '{FIRST}'"),
        });
    }
    let above = check_digest(text)?;
    let mut reader = Reader {
        lines: lines(above, "").collect::<Result<_, _>>()?,
        next: 1,
    };
    let saved = reader.saved()?;
    match reader.lines.get(reader.next) {
        None => Ok(saved),
        Some(line) => Err(line.fault(1, "a line too many: expected the digest".to_owned())),
    }
}

/// The lines above the digest, if it is theirs.
fn check_digest(text: &[u8]) -> Result<&[u8], Fault> {
    let body = text.strip_suffix(b"\n").unwrap_or(text);
    let start = body.iter().rposition(|&byte| byte == b'\n');
    let (above, last) = text.split_at(start.map_or(0, |place| place + 1));
    let line = above.iter().filter(|&&byte| byte == b'\n').count() + 1;
    let fault = |what: String| Fault {
        line,
        column: 1,
        what,
    };
    if !last.starts_with(b"digest ") {
        let what = "the file is cut short: expected its last line 'digest ..'";
        return Err(fault(what.to_owned()));
    }
    if last != format!("digest {:016x}\n", digest(above)).as_bytes() {
        let what = "the file is damaged: the lines above have another digest";
        return Err(fault(what.to_owned()));
    }
    Ok(above)
}

/// The lines of a file whose digest is right: they are as they were written, if by this tool.
struct Reader<'a> {
    lines: Vec<Line<'a>>,
    next: usize,
}

impl<'a> Reader<'a> {
    fn saved(&mut self) -> Result<Saved, Fault> {
        let image = self.image()?;
        let head = library::read(&image);
        let head = head.map_err(|refusal| self.fault(1, refusal.to_string()));
        let [states, events, ..] = head?;
        let places = self.numbers("rooms", "BLOCKERS WORD")?;
        for (place, number) in (1..).zip(places) {
            self.within(place, 0, number, MOST_PLACES as u64)?;
        }
        let [edition] = self.numbers("edition", "EDITION")?;
        self.within(1, 1, edition, 2)?;
        let [way] = self.numbers("way", "WAY")?;
        self.within(1, 0, way, 1)?;
        let [hint_count] = self.numbers("hints", "COUNT")?;
        self.within(1, 0, hint_count, MOST_PLACES as u64)?;
        let record = self.record(places)?;
        let mut hints = Vec::new();
        for _ in 0..hint_count {
            let [hint] = self.numbers("hint", "MASK")?;
            hints.push(self.case(hint, states)?.0);
        }
        let blockers = (0..record.held).map(|_| self.blocker(states, &record));
        let blockers = blockers.collect::<Result<_, _>>()?;
        let pending = (0..record.pending).map(|_| self.pending(states, events));
        let pending = pending.collect::<Result<_, _>>()?;
        Ok(Saved {
            image,
            places: places.map(|places| places as usize),
            settings: Settings {
                hints,
                edition,
                way,
            },
            paused: Paused {
                record,
                blockers,
                pending,
            },
        })
    }

    /// A record of a run that works, within the bounds that the library checks at every step.
    fn record(&mut self, [blocker_places, word_places]: [u64; 2]) -> Result<Record, Fault> {
        let numbers = self.numbers("record", "EIGHT NUMBERS")?;
        let record = Record::from_numbers(numbers);
        let most = [
            WORKING,
            u64::MAX,
            word_places,
            1,
            blocker_places,
            record.level,
            record.steps,
            record.steps,
        ];
        for (place, (number, most)) in (1..).zip(numbers.into_iter().zip(most)) {
            self.within(place, 0, number, most)?;
        }
        self.within(1, WORKING, record.answer, WORKING)?;
        Ok(record)
    }

    fn blocker(&mut self, states: u64, record: &Record) -> Result<Blocker, Fault> {
        let [mask, level, entered] = self.numbers("blocker", "MASK LEVEL STEP")?;
        self.within(2, 1, level, u64::from(u32::MAX))?;
        self.within(3, 1, entered, record.steps)?;
        Ok(Blocker {
            case: self.case(mask, states)?,
            level: level as u32,
            entered,
        })
    }

    fn pending(&mut self, states: u64, events: u64) -> Result<Pending, Fault> {
        let [mask, symbol] = self.numbers("pending", "MASK SYMBOL")?;
        self.within(2, 0, symbol, events - 1)?;
        Ok(Pending {
            case: self.case(mask, states)?,
            symbol: symbol as u8,
        })
    }

    /// The line that was read last.
    fn fault(&self, place: usize, what: String) -> Fault {
        self.lines[self.next - 1].fault_at(place, what)
    }

    /// A mask, at place 1.
    fn case(&self, mask: u64, states: u64) -> Result<Case, Fault> {
        self.within(1, 0, mask, u64::MAX >> (MOST_STATES as u64 - states))?;
        Ok(Case(mask))
    }

    /// The number that was read at this place lies between two others.
    fn within(&self, place: usize, least: u64, number: u64, most: u64) -> Result<(), Fault> {
        if (least..=most).contains(&number) {
            return Ok(());
        }
        let expected = match least == most {
            true => least.to_string(),
            false => format!("{least} to {most}"),
        };
        Err(self.fault(place, format!("{number}: expected {expected}")))
    }

    /// The next line, if `word` is its first.
    fn line(&mut self, word: &str, shape: &str) -> Result<&Line<'a>, Fault> {
        self.next += 1;
        let expected = format!("expected: {word} {shape}");
        match self.lines.get(self.next - 1) {
            Some(line) if line.words.first().map(|first| first.text) == Some(word) => Ok(line),
            Some(line) => Err(line.fault(1, expected)),
            None => Err(Fault {
                line: self.lines.len() + 1,
                column: 1,
                what: expected,
            }),
        }
    }

    fn numbers<const COUNT: usize>(
        &mut self,
        word: &str,
        shape: &str,
    ) -> Result<[u64; COUNT], Fault> {
        let line = self.line(word, shape)?;
        if line.words.len() != COUNT + 1 {
            return Err(line.fault_at(COUNT + 1, format!("expected: {word} {shape}")));
        }
        let mut numbers = [0; COUNT];
        for (place, number) in (1..).zip(&mut numbers) {
            let word = line.words[place].text;
            let wrong = || format!("{}: expected a decimal number", quoted(word));
            *number = decimal(word).ok_or_else(|| line.fault_at(place, wrong()))?;
        }
        Ok(numbers)
    }

    fn image(&mut self) -> Result<Vec<u8>, Fault> {
        let line = self.line("image", "BYTES")?;
        let expected =
            || line.fault_at(1, "expected bytes, two hexadecimal digits each".to_owned());
        let [_, word] = line.words[..] else {
            return Err(expected());
        };
        let digits = word.text.bytes().all(|byte| byte.is_ascii_hexdigit());
        if !digits || word.text.len() % 2 == 1 {
            return Err(expected());
        }
        let places = (0..word.text.len()).step_by(2);
        let byte = |place| u8::from_str_radix(&word.text[place..place + 2], 16);
        let bytes = places.map(byte).collect::<Result<_, _>>();
        bytes.map_err(|_| expected())
    }
}
