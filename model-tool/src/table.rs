//! An accepting run as a table: a line for each case reached, with a column for each part of the model.

use crate::finding::Moment;
use crate::model::{Case, Model};

pub struct Table {
    /// The names of the columns behind the event's.
    pub heads: Vec<String>,
    pub lines: Vec<Line>,
}

pub struct Line {
    /// The event's name, or nothing on the first line.
    pub event: String,
    pub cells: Vec<Cell>,
}

/// What a part has of a case.
#[derive(Clone, Debug, PartialEq, Eq)]
pub struct Cell {
    /// The names of the states, with a space between.
    pub names: String,
    /// The line above has another.
    pub is_changed: bool,
}

impl Table {
    pub fn of(model: &Model, run: &[Moment]) -> Self {
        let columns = columns(model, run.iter().map(|moment| moment.case));
        let mut lines: Vec<Line> = Vec::new();
        for moment in run {
            let cells = columns.iter().enumerate().map(|(place, (_, states))| {
                let names = model.names_of(moment.case.intersection(*states)).join(" ");
                let above = lines.last().map(|line| &line.cells[place].names);
                let is_changed = above.is_some_and(|above| *above != names);
                Cell { names, is_changed }
            });
            let cells = cells.collect();
            let event = moment.event.map(|event| model.event_name(event));
            lines.push(Line {
                event: event.unwrap_or_default().to_owned(),
                cells,
            });
        }
        Table {
            heads: columns.into_iter().map(|(head, _)| head).collect(),
            lines,
        }
    }

    /// The table as text, each line behind two spaces. A cell without a state is a dash.
    pub fn text(&self) -> String {
        let mut heads = vec![String::new(), "event".to_owned()];
        heads.extend(self.heads.iter().cloned());
        let mut lines = vec![heads];
        for (number, line) in self.lines.iter().enumerate() {
            let mut words = vec![number.to_string(), line.event.clone()];
            words.extend(line.cells.iter().map(|cell| match cell.names.as_str() {
                "" => "-".to_owned(),
                names => names.to_owned(),
            }));
            lines.push(words);
        }
        let width = |column: usize| lines.iter().map(|line| line[column].chars().count()).max();
        let widths: Vec<usize> = (0..lines[0].len()).filter_map(width).collect();
        let written = lines.iter().map(|line| {
            let words = line.iter().zip(&widths).enumerate();
            let words = words.map(|(column, (word, &width))| match column {
                0 => format!("  {word:>width$}"),
                _ => format!("  {word:width$}"),
            });
            words.collect::<String>().trim_end().to_owned() + "\n"
        });
        written.collect()
    }
}

/// The head of the column for states that are in no part. It is no part's name.
const REST: &str = "other states";

/// The columns for these cases, by their names and states: the parts, then what is in none of them and in
/// a case. Where there are no parts, one column has the whole case.
pub fn columns(model: &Model, mut cases: impl Iterator<Item = Case>) -> Vec<(String, Case)> {
    let parts = model.parts.iter();
    let mut columns: Vec<_> = parts.map(|part| (part.name.clone(), part.states)).collect();
    let rest = model.rest();
    if columns.is_empty() {
        columns.push(("case".to_owned(), rest));
    } else if cases.any(|case| !case.intersection(rest).is_empty()) {
        columns.push((REST.to_owned(), rest));
    }
    columns
}
