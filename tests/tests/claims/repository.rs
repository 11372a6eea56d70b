//! The files of the repository and the names that they declare: in Rattle, in specifications and proofs,
//! in Rust and in the C header. They are read line by line, by how each language begins a declaration.

use std::collections::{BTreeMap, HashMap};
use std::fs;
use std::path::Path;

/// A name where it is declared.
pub struct Declared {
    pub file: String,
    /// The record, struct, enum, trait or impl that it belongs to.
    pub inside: Option<String>,
    /// From its first line up to the next declaration.
    pub text: String,
}

/// All files by their paths from the root, with the text of those that declare names.
pub struct Repository {
    files: BTreeMap<String, String>,
    declared: HashMap<String, Vec<Declared>>,
}

impl Repository {
    /// What stands in the folder; what was built, and what is git's own, does not.
    pub fn read(root: &Path) -> Self {
        let mut files = BTreeMap::new();
        read_folder(root, "", &mut files);
        Self::of(files)
    }

    pub fn of(files: BTreeMap<String, String>) -> Self {
        let mut declared: HashMap<String, Vec<Declared>> = HashMap::new();
        for (file, text) in files.iter().filter(|(file, _)| is_source(file)) {
            for (name, found) in declarations(file, text) {
                declared.entry(name).or_default().push(found);
            }
        }
        Self { files, declared }
    }

    pub fn files(&self) -> impl Iterator<Item = &str> {
        self.files.keys().map(String::as_str)
    }

    pub fn is_file(&self, path: &str) -> bool {
        self.files.contains_key(path)
    }

    pub fn is_folder(&self, path: &str) -> bool {
        let folder = format!("{}/", path.trim_end_matches('/'));
        self.files().any(|file| file.starts_with(&folder))
    }

    /// The text of a file that declares names, as it stands.
    pub fn text(&self, file: &str) -> &str {
        &self.files[file]
    }

    /// Where the name is declared.
    pub fn declared(&self, name: &str) -> &[Declared] {
        self.declared.get(name).map_or(&[], Vec::as_slice)
    }

    /// The names of which a declaration is such.
    pub fn names(&self, is_such: impl Fn(&Declared) -> bool) -> Vec<&str> {
        let all = self.declared.iter();
        let such = all.filter(|(_, places)| places.iter().any(&is_such));
        such.map(|(name, _)| name.as_str()).collect()
    }

    /// The names that the record, struct, enum, trait or impl has.
    pub fn members(&self, of: &str) -> Vec<&str> {
        self.names(|found| found.inside.as_deref() == Some(of))
    }
}

fn read_folder(root: &Path, folder: &str, files: &mut BTreeMap<String, String>) {
    for entry in fs::read_dir(root.join(folder)).expect("a folder") {
        let entry = entry.expect("an entry");
        let name = entry.file_name().into_string().expect("a name");
        if name == "target" || name == ".git" {
            continue;
        }
        let path = Path::new(folder).join(name);
        let path = path.to_str().expect("a path").to_owned();
        if is_built(&path) {
            continue;
        }
        if entry.file_type().expect("a type").is_dir() {
            read_folder(root, &path, files);
            continue;
        }
        let text = match is_source(&path) {
            true => fs::read_to_string(entry.path()).expect("text"),
            false => String::new(),
        };
        files.insert(path, text);
    }
}

/// Whether a folder is a crate's `out/`, with what was built of it and what its checks keep.
fn is_built(path: &str) -> bool {
    let parts: Vec<_> = path.split('/').collect();
    matches!(parts[..], ["crates", _, "out"])
}

/// Whether a file declares names. What a function's folder in `proofs/` has are some that its proof alone uses.
pub fn is_source(path: &str) -> bool {
    let ends = [".antt", ".rt", ".rs", ".h"];
    ends.iter().any(|end| path.ends_with(end)) && !is_proof_of_one(path)
}

fn is_proof_of_one(path: &str) -> bool {
    let parts: Vec<_> = path.split('/').collect();
    match parts[..] {
        ["crates", _, "proofs", _, .., "Answers.antt" | "Invariants.antt"] => true,
        _ => path.ends_with("/Proof.antt"),
    }
}

/// What a declaration has inside: its lines are indented more than its first.
struct Around {
    keyword: &'static str,
    name: String,
    indent: usize,
}

impl Around {
    fn begun(content: &str, indent: usize) -> Option<Self> {
        for keyword in ["record ", "data ", "struct ", "enum ", "trait ", "impl"] {
            let Some(rest) = content.strip_prefix(keyword) else {
                continue;
            };
            let rest = match keyword {
                "impl" => behind_parameters(rest),
                _ => rest,
            };
            let of = rest.split_once(" for ").map_or(rest, |(_, of)| of);
            let name = identifier(of).to_owned();
            return (!name.is_empty()).then_some(Self {
                keyword,
                name,
                indent,
            });
        }
        None
    }
}

fn declarations(file: &str, text: &str) -> Vec<(String, Declared)> {
    let specifies = file.ends_with(".antt");
    let comment = if specifies { "--" } else { "//" };
    let mut found: Vec<(String, Declared)> = Vec::new();
    let mut around: Option<Around> = None;
    for line in text.lines() {
        let content = line.trim_start();
        if content.is_empty() || content.starts_with(comment) {
            continue;
        }
        let indent = line.len() - content.len();
        let content = bare(content);
        around = around.filter(|around| around.indent < indent);
        let names = match specifies {
            true => specified(content),
            false => coded(content, around.as_ref()).into_iter().collect(),
        };
        if let ([], Some((_, last))) = (&names[..], found.last_mut()) {
            last.text += &format!("\n{content}");
        }
        for name in names {
            let declared = Declared {
                file: file.to_owned(),
                inside: around.as_ref().map(|around| around.name.clone()),
                text: content.to_owned(),
            };
            found.push((name.to_owned(), declared));
        }
        around = around.or_else(|| Around::begun(content, indent));
    }
    found
}

/// A line without the words that say who may see or unfold what it declares.
fn bare(content: &str) -> &str {
    let words = "pub |pub(crate) |pub(super) |extern \"C\" |unfoldable |abbrev ";
    let mut rest = words
        .split('|')
        .filter_map(|word| content.strip_prefix(word));
    rest.next().map_or(content, bare)
}

/// What follows a space, or parameters in angle brackets and a space.
fn behind_parameters(text: &str) -> &str {
    let mut depth = 0;
    for (at, c) in text.char_indices() {
        match c {
            '<' => depth += 1,
            '>' => depth -= 1,
            ' ' if depth == 0 => return &text[at + 1..],
            _ => {}
        }
    }
    ""
}

/// The letters, digits and underscores in front.
fn identifier(text: &str) -> &str {
    let end = text.find(|c: char| !c.is_ascii_alphanumeric() && c != '_');
    &text[..end.unwrap_or(text.len())]
}

/// The names of a line of a specification: a record's, a type's, a module's, or those before a colon.
fn specified(content: &str) -> Vec<&str> {
    let is_name = |word: &&str| !word.is_empty() && !word.contains(|c| "(){}.,;=|\"".contains(c));
    for keyword in ["record ", "data ", "mod "] {
        if let Some(rest) = content.strip_prefix(keyword) {
            return rest.split(' ').take(1).filter(is_name).collect();
        }
    }
    let before = content.split_once(" :").map_or("", |(before, _)| before);
    let names: Vec<_> = before.split(' ').collect();
    match names[0] != "let" && names.iter().all(is_name) {
        true => names,
        false => Vec::new(),
    }
}

/// The name of a line of code: an item's, a function's of the C header, a field's or a variant's.
fn coded<'a>(content: &'a str, around: Option<&Around>) -> Option<&'a str> {
    let items = "fn |const fn |struct |enum |trait |mod |const |static |type |uint64_t ";
    let mut rest = items
        .split('|')
        .filter_map(|item| content.strip_prefix(item));
    if let Some(rest) = rest.next() {
        return Some(identifier(rest));
    }
    let name = identifier(content);
    let behind = &content[name.len()..];
    let is_member = match around?.keyword {
        "struct " => behind.starts_with(": "),
        "enum " => behind.is_empty() || behind.starts_with(['(', ',', ' ']),
        _ => false,
    };
    Some(name).filter(|name| is_member && !name.is_empty())
}
