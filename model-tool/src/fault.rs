//! What is wrong with a text, and where.

use crate::model::{Names, Part};
use std::fmt;

/// What was found and what was expected, at a line and a column, both from 1.
#[derive(Debug, PartialEq, Eq)]
pub struct Fault {
    pub line: usize,
    pub column: usize,
    pub what: String,
}

impl fmt::Display for Fault {
    fn fmt(&self, formatter: &mut fmt::Formatter) -> fmt::Result {
        write!(formatter, "{}:{}: {}", self.line, self.column, self.what)
    }
}

/// A word as a message shows it: in quotes, without what a terminal would obey, and not too long.
pub fn quoted(word: &str) -> String {
    format!("'{}'", shortened(word))
}

/// The same without quotes.
pub fn shortened(word: &str) -> String {
    const MOST: usize = 40;
    let start: String = word.chars().take(MOST).collect();
    let cut = if start.len() < word.len() { ".." } else { "" };
    let harmless = start.escape_debug().to_string();
    harmless.replace("\\'", "'") + cut
}

/// A message without what a terminal would obey, but for the ends of its lines.
pub fn harmless(message: &str) -> String {
    let mut shown = String::new();
    for letter in message.chars() {
        match letter.is_control() && letter != '\n' {
            true => shown.extend(letter.escape_default()),
            false => shown.push(letter),
        }
    }
    shown
}

/// That a word is no state, or no event, and which there are.
pub fn unknown(word: &str, what: &str, names: &Names) -> String {
    unknown_with_parts(word, what, names, &[])
}

/// The same where the name of a part may stand too.
pub fn unknown_with_parts(word: &str, what: &str, names: &Names, parts: &[Part]) -> String {
    let numbers = format!("a number from 0 to {}", names.count() - 1);
    let mut known: Vec<&str> = parts.iter().map(|part| part.name.as_str()).collect();
    if !names.are_numbers() {
        known.splice(0..0, names.all().iter().map(String::as_str));
    }
    let word_quoted = quoted(word);
    if known.is_empty() {
        return format!("{word_quoted} is no {what}: expected {numbers}");
    }
    let expected = expected_one_of(word, known);
    format!("{word_quoted} is no {what}{expected}, or {numbers}")
}

/// The known word that is nearest, if one is near, and all of them, or the first of many.
pub fn expected_one_of(word: &str, known: Vec<&str>) -> String {
    const MOST: usize = 24;
    let asked = match nearest(word, &known) {
        Some(near) => format!("; did you mean {}? Expected", quoted(near)),
        None => ": expected".to_owned(),
    };
    let first: Vec<String> = known
        .iter()
        .take(MOST)
        .map(|name| shortened(name))
        .collect();
    match (&first[..], known.len()) {
        ([only], _) => format!("{asked} {only}"),
        (_, 0..=MOST) => format!("{asked} one of {}", first.join(", ")),
        (_, count) => {
            let more = count - MOST;
            format!("{asked} one of {} and {more} more", first.join(", "))
        }
    }
}

/// The first known word to which the fewest changes lead, if they are at most a third of its letters, or
/// one: a letter more, a letter less, another letter, or two neighbours in the other order.
fn nearest<'a>(word: &str, known: &[&'a str]) -> Option<&'a str> {
    let word: Vec<char> = word.to_lowercase().chars().take(100).collect();
    let near = known.iter().filter_map(|&name| {
        let letters: Vec<char> = name.to_lowercase().chars().collect();
        let changes = changes(&word, &letters);
        let few = changes <= (letters.len() / 3).max(1) && changes < letters.len();
        few.then_some((changes, name))
    });
    near.min_by_key(|&(changes, _)| changes)
        .map(|(_, name)| name)
}

/// How many changes lead from one word to the other.
fn changes(from: &[char], to: &[char]) -> usize {
    // What leads from the first letters of `from`, as many as the row's number, to each start of `to`.
    let mut rows: Vec<Vec<usize>> = vec![(0..=to.len()).collect()];
    for (i, letter) in from.iter().enumerate() {
        let mut row = vec![i + 1];
        for (j, other) in to.iter().enumerate() {
            let mut least = rows[i][j] + usize::from(letter != other);
            least = least.min(rows[i][j + 1] + 1).min(row[j] + 1);
            if i > 0 && j > 0 && from[i - 1] == *other && *letter == to[j - 1] {
                least = least.min(rows[i - 1][j - 1] + 1);
            }
            row.push(least);
        }
        rows.push(row);
    }
    rows[from.len()][to.len()]
}

#[cfg(test)]
mod tests {
    use super::*;

    fn nearest_of(word: &str) -> Option<&'static str> {
        nearest(word, &["tick", "expire", "refresh", "draw", "a"])
    }

    #[test]
    fn the_nearest_name() {
        for (word, near) in [
            ("tikc", Some("tick")),
            ("tic", Some("tick")),
            ("ticks", Some("tick")),
            ("TICK", Some("tick")),
            ("refehs", Some("refresh")),
            ("exprie", Some("expire")),
            ("drwa", Some("draw")),
            ("drawing", None),
            ("b", None),
            ("", None),
            ("volatility", None),
        ] {
            assert_eq!(nearest_of(word), near, "{word}");
        }
    }

    #[test]
    fn words_are_shown_harmless() {
        assert_eq!(quoted("it's"), "'it's'");
        assert_eq!(quoted("a\u{1b}[2Jb"), "'a\\u{1b}[2Jb'");
        assert_eq!(harmless("a\u{1b}[2Jb\t\n\u{e4}"), "a\\u{1b}[2Jb\\t\n\u{e4}");
        let long = "x".repeat(41);
        assert_eq!(quoted(&long), format!("'{}..'", "x".repeat(40)));
        assert_eq!(quoted(&long[1..]), format!("'{}'", "x".repeat(40)));
    }
}
