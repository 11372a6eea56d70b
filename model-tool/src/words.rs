//! The lines of a text, each as words with their columns.

use crate::fault::Fault;

/// A word, and the column of its first letter, from 1.
#[derive(Clone, Copy, Debug, PartialEq, Eq)]
pub struct Word<'a> {
    pub text: &'a str,
    pub column: usize,
}

/// What a line says, without its comment.
#[derive(Debug, PartialEq, Eq)]
pub struct Line<'a> {
    /// From 1.
    pub number: usize,
    pub words: Vec<Word<'a>>,
    /// The column behind the last word.
    pub end: usize,
}

impl Line<'_> {
    pub fn fault(&self, column: usize, what: String) -> Fault {
        Fault {
            line: self.number,
            column,
            what,
        }
    }

    /// At the word at this place, or behind the last.
    pub fn fault_at(&self, place: usize, what: String) -> Fault {
        let column = self.words.get(place).map_or(self.end, |word| word.column);
        self.fault(column, what)
    }
}

/// Every line of the text. Words are separated by white space; each of the letters `alone` is a word by
/// itself, and `#` begins a comment.
pub fn lines<'a>(
    text: &'a [u8],
    alone: &'a str,
) -> impl Iterator<Item = Result<Line<'a>, Fault>> + 'a {
    let text = text.strip_suffix(b"\n").unwrap_or(text);
    let lines = text.split(|&byte| byte == b'\n').zip(1..);
    lines.map(move |(bytes, number)| match std::str::from_utf8(bytes) {
        Ok(line) => Ok(words(line, number, alone)),
        Err(error) => {
            let before = String::from_utf8_lossy(&bytes[..error.valid_up_to()]);
            Err(Fault {
                line: number,
                column: before.chars().count() + 1,
                what: "a byte that is not text: expected UTF-8".to_owned(),
            })
        }
    })
}

fn words<'a>(line: &'a str, number: usize, alone: &str) -> Line<'a> {
    let mut words: Vec<Word> = Vec::new();
    // Where a word that has not ended begins: its byte and its column.
    let mut open: Option<(usize, usize)> = None;
    let said = line.split('#').next().unwrap_or("");
    let mut end = 1;
    for ((place, letter), column) in said.char_indices().zip(1..) {
        let is_alone = alone.contains(letter);
        if is_alone || letter.is_whitespace() {
            words.extend(open.take().map(|(from, column)| Word {
                text: &said[from..place],
                column,
            }));
        }
        if is_alone {
            let text = &said[place..place + letter.len_utf8()];
            words.push(Word { text, column });
        } else if !letter.is_whitespace() {
            open.get_or_insert((place, column));
        }
        if !letter.is_whitespace() {
            end = column + 1;
        }
    }
    words.extend(open.map(|(from, column)| Word {
        text: &said[from..],
        column,
    }));
    Line { number, words, end }
}

#[cfg(test)]
mod tests {
    use super::*;

    #[test]
    fn words_have_columns() {
        let text = b"  row \xc3\xa4b tick:x # a: b\n\nend";
        let lines: Vec<Line> = lines(text, ":").map(Result::unwrap).collect();
        let found: Vec<(&str, usize)> = lines[0]
            .words
            .iter()
            .map(|word| (word.text, word.column))
            .collect();
        let expected = [
            ("row", 3),
            ("\u{e4}b", 7),
            ("tick", 10),
            (":", 14),
            ("x", 15),
        ];
        assert_eq!(found, expected);
        assert_eq!((lines[0].number, lines[0].end), (1, 16));
        assert_eq!((lines[1].words.len(), lines[1].end), (0, 1));
        assert_eq!((lines[2].words[0].text, lines[2].number), ("end", 3));
        assert_eq!(lines.len(), 3);
    }

    #[test]
    fn bytes_that_are_no_text() {
        let mut lines = lines(b"a\n\xc3\xa4 \xff\n", "");
        assert!(lines.next().unwrap().is_ok());
        let fault = lines.next().unwrap().unwrap_err();
        assert_eq!((fault.line, fault.column), (2, 3));
    }
}
