//! What a page has in backquotes, and what stands before it.

/// One span between backquotes.
pub struct Span {
    /// From 1.
    pub line: usize,
    pub text: String,
    /// What stands before it, from the span before it on or from where its paragraph, row or entry begins.
    pub before: String,
    /// Whether it is the first of its paragraph, row or entry.
    pub is_first: bool,
    /// The name of its column, in a table.
    pub column: Option<String>,
}

/// The spans of a page, without its examples, which are indented.
pub fn spans(page: &str) -> Vec<Span> {
    let mut spans = Vec::new();
    let (mut before, mut is_first) = (String::new(), true);
    let mut columns: Vec<&str> = Vec::new();
    for (number, line) in page.lines().enumerate() {
        let is_row = line.starts_with('|');
        if line.is_empty() || is_row || line.starts_with('#') || line.starts_with("- ") {
            is_first = true;
            before.clear();
        } else {
            before.push(' ');
        }
        match is_row {
            true if columns.is_empty() => columns = line.split('|').map(str::trim).collect(),
            true => {}
            false => columns.clear(),
        }
        if line.starts_with("    ") {
            continue;
        }
        let mut column = 0;
        for (place, part) in line.split('`').enumerate() {
            if place % 2 == 0 {
                column += part.matches('|').count();
                before.push_str(part);
                continue;
            }
            spans.push(Span {
                line: number + 1,
                text: part.to_owned(),
                before: std::mem::take(&mut before),
                is_first,
                column: columns.get(column).map(|column| column.to_string()),
            });
            is_first = false;
        }
    }
    spans
}
