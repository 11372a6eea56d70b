//! Whether a name that a page cites stands where it should.

use crate::page::Span;
use crate::repository::{is_source, Declared, Repository};
use crate::rules::{Cited, JOINTS};

pub const PROMISES: &str = "crates/machine/specs/Promises.antt";

pub struct Names<'a>(pub &'a Repository);

impl Names<'_> {
    /// A file or a folder: from the root, from `crates/` or from `model-tool/`.
    fn path(&self, text: &str) -> Option<String> {
        let bases = ["", "crates/", "model-tool/"].iter();
        let mut paths = bases.map(|base| format!("{base}{}", text.trim_end_matches('/')));
        paths.find(|path| self.0.is_file(path) || self.0.is_folder(path))
    }

    /// Such a path, or a folder that crates have.
    pub fn is_there(&self, path: &str) -> bool {
        let inside = format!("/{path}");
        let is_inside = |file: &str| file.starts_with("crates/") && file.contains(&inside);
        self.path(path).is_some() || path.ends_with('/') && self.0.files().any(is_inside)
    }

    /// Where the first of a list is said to stand: behind the last is "in" or "of", and a place. A name
    /// whose field follows is not meant, nor one that is such a place itself.
    pub fn place<'a>(&self, list: &'a [Span]) -> Option<&'a str> {
        let leads_to = |span: &Span| [" in ", " of "].contains(&span.before.as_str());
        let mut after = list[1..].iter().take_while(|span| !span.is_first);
        if leads_to(&list[0]) || after.clone().next()?.before == " ." {
            return None;
        }
        let last = after.find(|span| !JOINTS.contains(&span.before.as_str()))?;
        (leads_to(last) && self.is_place(&last.text)).then_some(&last.text)
    }

    fn is_place(&self, text: &str) -> bool {
        let is_there = is_path(text) && self.path(text).is_some();
        let has_members = || !self.0.members(text).is_empty() || self.has_clause(text, None);
        is_there || self.is_module(text) || has_members()
    }

    /// Whether a file, a module or a record declares the name, a folder has a file of that name, or a
    /// function's contract a clause.
    pub fn stands_in(&self, name: &str, place: &str) -> bool {
        let module = || {
            let (file, names) = self.module(place)?;
            names.is_empty().then_some(file)
        };
        let Some(path) = self.path(place).filter(|_| is_path(place)).or_else(module) else {
            return self.0.members(place).contains(&name) || self.has_clause(place, Some(name));
        };
        let folder = format!("{path}/");
        let mut files = self.0.files().filter_map(|file| file.strip_prefix(&folder));
        let is_it = |found: &&Declared| found.file == path;
        files.any(|file| file == name || stem(file) == name) || self.code(name).iter().any(is_it)
    }

    /// The file of a crate's module, and what else a path of code names in it.
    fn module<'a>(&self, path: &'a str) -> Option<(String, Vec<&'a str>)> {
        let parts: Vec<_> = path.split("::").collect();
        let file = |module: &str| format!("crates/{}/src/{module}.rt", parts[0]);
        let module = parts.get(1)?;
        if self.0.is_file(&file(module)) {
            return Some((file(module), parts[2..].to_vec()));
        }
        let is_crate = self.0.is_file(&file("lib"));
        is_crate.then(|| (file("lib"), parts[1..].to_vec()))
    }

    fn is_module(&self, path: &str) -> bool {
        self.module(path).is_some_and(|(_, names)| names.is_empty())
    }

    /// Where a name is declared, or a path from a crate, or one from a module or a type.
    fn code(&self, path: &str) -> Vec<&Declared> {
        let Some((of, name)) = path.rsplit_once("::") else {
            return self.0.declared(path).iter().collect();
        };
        let found = self.0.declared(name).iter();
        let is_of =
            |found: &&Declared| found.inside.as_deref() == Some(of) || stem(&found.file) == of;
        let Some((file, names)) = self.module(path) else {
            return found.filter(is_of).collect();
        };
        let inside = match names[..] {
            [_] => None,
            [of, _] => Some(of),
            _ => return Vec::new(),
        };
        let is_it = |found: &&Declared| found.file == file && found.inside.as_deref() == inside;
        found.filter(is_it).collect()
    }

    /// Whether `of` is a record that has the field, or is declared by one.
    pub fn is_field(&self, of: &str, field: &str) -> bool {
        let fields = self.0.declared(field).iter();
        let mut records = fields.filter_map(|found| found.inside.as_deref());
        records.any(|record| {
            let by_it = |found: &Declared| words(&found.text).any(|word| word == record);
            record == of || self.0.declared(of).iter().any(by_it)
        })
    }

    pub fn is_promise(&self, name: &str) -> bool {
        let mut found = self.0.declared(name).iter();
        found.any(|found| found.file == PROMISES)
    }

    /// A function of Rattle that has a contract, or a crate of such.
    pub fn has_contract(&self, name: &str) -> bool {
        let is_it = |found: &&Declared| clauses(found).next().is_some();
        self.0.is_folder(&format!("crates/{name}")) || self.code(name).iter().any(is_it)
    }

    /// Whether a function's contract has a clause of that name, or, where none is asked for, one that has a name.
    fn has_clause(&self, function: &str, name: Option<&str>) -> bool {
        let found = self.code(function).into_iter();
        let mut named = found.flat_map(clauses).filter(|clause| !clause.is_empty());
        named.any(|clause| name.is_none_or(|name| name == clause))
    }

    /// The files of a test, of the library's or of the console's.
    fn test_files<'a>(&'a self, test: &'a str) -> impl Iterator<Item = &'a str> {
        self.0.files().filter(move |file| {
            let packages = ["tests/tests/", "model-tool/tests/"].iter();
            let mut files =
                packages.filter_map(|package| file.strip_prefix(package)?.strip_prefix(test));
            files.any(|rest| rest == ".rs" || rest.starts_with('/'))
        })
    }

    pub fn is_test(&self, name: &str) -> bool {
        self.test_files(name).next().is_some()
    }

    pub fn is_in_test(&self, test: &str, name: &str) -> bool {
        let found = self.0.declared(name);
        let mut files = self.test_files(test);
        files.any(|file| found.iter().any(|found| found.file == file))
    }

    /// A name, a path of code, or a phrase of words that are known.
    pub fn is_known(&self, text: &str, cited: &mut Cited) -> bool {
        if text.contains("::") {
            return self.is_module(text) || !self.code(text).is_empty();
        }
        let mut words = words(text).peekable();
        words.peek().is_some() && words.all(|word| self.is_word(word, cited))
    }

    /// A name, an operator, a file, a module or a test; a word with which a string of the console begins;
    /// or one in capitals, which stands for others.
    fn is_word(&self, word: &str, cited: &mut Cited) -> bool {
        let is_declared = |name: &str| !self.0.declared(name).is_empty();
        is_letter(word)
            || !word.contains(char::is_lowercase)
            || is_declared(word)
            || is_declared(&format!("◌{word}◌"))
            || self.path(word).is_some()
            || self.is_test(word)
            || self
                .0
                .files()
                .any(|file| is_source(file) && stem(file) == word)
            || self.begins_string(word)
            || cited.is_exception(word)
    }

    fn begins_string(&self, word: &str) -> bool {
        let files = self.0.files();
        let sources = files.filter(|file| file.starts_with("model-tool/src/"));
        let mut strings = sources.flat_map(|file| self.0.text(file).split('"').skip(1));
        strings.any(|string| {
            let rest = string.strip_prefix(word);
            rest.is_some_and(|rest| !rest.starts_with(is_of_word))
        })
    }
}

/// Whether a text is meant as a path.
pub fn is_path(text: &str) -> bool {
    let ends = [".antt", ".rt", ".rs", ".txt", ".md", ".h"];
    let has_end = ends.iter().any(|end| text.ends_with(end));
    !text.contains(' ') && (text.contains('/') || has_end)
}

/// The clauses of a function's contract, by their names; one that stands alone may have none.
fn clauses(found: &Declared) -> impl Iterator<Item = &str> {
    let is_code = found.file.ends_with(".rt");
    let lines = found.text.lines().filter(move |_| is_code);
    lines.filter_map(|line| {
        let (name, _) = line.strip_prefix("ensures ")?.split_once('{')?;
        Some(name.trim_end())
    })
}

/// A letter stands for something else.
pub fn is_letter(text: &str) -> bool {
    text.chars().count() == 1
}

/// A file's name without folders and ending.
fn stem(file: &str) -> &str {
    let name = file.rsplit('/').next().unwrap_or(file);
    name.split('.').next().unwrap_or(name)
}

fn is_of_word(c: char) -> bool {
    c.is_alphanumeric() || "-_'".contains(c)
}

/// Names, options and numbers.
fn words(text: &str) -> impl Iterator<Item = &str> {
    let words = text.split(|c| !is_of_word(c));
    words.filter(|word| !word.is_empty())
}
