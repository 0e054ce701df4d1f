//! The files of the repository and what stands in them.

use crate::markdown::Page;
use std::collections::{BTreeMap, BTreeSet, HashSet};
use std::fs;
use std::path::Path;

pub struct Repository {
    /// By their paths from the root.
    files: BTreeMap<String, File>,
    /// The must-fail edits, each as `CRATE/TITLE`.
    edits: BTreeSet<String>,
}

struct File {
    text: String,
    words: HashSet<String>,
    /// The names that its lines begin with: those of declarations, fields and cases.
    declared: HashSet<String>,
}

/// Files in which a line begins with what it declares; in others every word may be declared.
const CODE: [&str; 3] = [".antt", ".rt", ".rs"];

/// Words in front of the name that a line declares.
const KEYWORDS: [&str; 17] = [
    "pub", "super", "extern", "C", "abbrev", "record", "data", "ruleset", "mod", "fn", "const",
    "static", "struct", "enum", "impl", "type", "trait",
];

impl Repository {
    pub fn read(root: &Path) -> Repository {
        let mut files = Vec::new();
        walk(root, "", &mut files);
        Repository::of(files)
    }

    /// Of files by path and text.
    pub fn of(files: Vec<(String, String)>) -> Repository {
        let edits = files.iter().flat_map(|(path, text)| edits_in(path, text));
        let edits = edits.collect();
        let read = |(path, text): (String, String)| (path.clone(), File::new(&path, text));
        let files = files.into_iter().map(read).collect();
        Repository { files, edits }
    }

    pub fn pages(&self) -> Vec<Page> {
        let pages = self.files.keys().filter(|path| is_page(path));
        pages.filter_map(|path| self.page(path)).collect()
    }

    /// The text of a file that has to be there.
    pub fn text(&self, path: &str) -> &str {
        let file = self.files.get(path);
        &file.unwrap_or_else(|| panic!("{path} is missing")).text
    }

    pub fn page(&self, path: &str) -> Option<Page> {
        let file = self.files.get(path)?;
        Some(Page::new(path, &file.text))
    }

    /// The files that a path leads to: the file itself, or all below a folder. A '*' stands for
    /// anything inside one part of the path.
    pub fn matching(&self, path: &str) -> Vec<&str> {
        let parts: Vec<&str> = path.split('/').collect();
        let files = self.files.keys().map(String::as_str);
        files.filter(|file| begins_with(file, &parts)).collect()
    }

    pub fn has_edit(&self, name: &str) -> bool {
        let parts: Vec<&str> = name.split('/').collect();
        self.edits.iter().any(|edit| begins_with(edit, &parts))
    }

    /// The folder with the code of a crate, or of a package in Rust.
    pub fn sources_of(&self, name: &str) -> Option<String> {
        match name {
            "cup_check" => Some("rust/src".to_string()),
            "cup_bridge" => Some("rust/bridge/src".to_string()),
            name => {
                let listed = self.files.get("crates.txt").map_or("", |file| &file.text);
                let mut names = listed.lines().filter_map(crate_on);
                let folder = names.find(|own| *own == name);
                folder.map(|name| format!("crates/{name}/src"))
            }
        }
    }

    pub fn declares(&self, path: &str, name: &str) -> bool {
        let file = self.files.get(path);
        file.is_some_and(|file| file.declared.contains(name))
    }

    pub fn files_declaring(&self, name: &str) -> Vec<&str> {
        let files = self.files.keys().map(String::as_str);
        let files = files.filter(|path| !only_speaks(path));
        files.filter(|path| self.declares(path, name)).collect()
    }

    /// Whether a word stands somewhere, or is the title of an edit.
    pub fn knows(&self, word: &str) -> bool {
        let mut files = self.files.iter().filter(|(path, _)| !only_speaks(path));
        files.any(|(_, file)| file.words.contains(word)) || self.has_edit(&format!("*/{word}"))
    }
}

/// The crate on a line of crates.txt, behind which can stand that it is a static library.
pub fn crate_on(line: &str) -> Option<&str> {
    let (named, _) = line.split_once(':')?;
    named.split_whitespace().next()
}

impl File {
    fn new(path: &str, text: String) -> File {
        let is_code = CODE.iter().any(|ending| path.ends_with(ending));
        let mut words = HashSet::new();
        let mut declared = HashSet::new();
        // What a comment alone says is not there.
        let lines = text.lines().map(str::trim_start);
        for line in lines.filter(|line| !line.starts_with("--") && !line.starts_with("//")) {
            let own = words_of(line);
            let names = match is_code && !line.starts_with("pub use ") {
                true => Vec::from_iter(declared_by(line, &own, path.ends_with(".antt"))),
                false => own.clone(),
            };
            declared.extend(names.into_iter().map(str::to_string));
            words.extend(own.into_iter().map(str::to_string));
        }
        File {
            text,
            words,
            declared,
        }
    }
}

/// The name that a line declares. In a definition's file it is the first that is no keyword. In code it
/// follows a keyword, or it is a field, with a colon, or a case, with a comma or in capitals.
fn declared_by<'l>(line: &str, words: &[&'l str], is_definition: bool) -> Option<&'l str> {
    let first = words.iter().position(|word| !KEYWORDS.contains(word))?;
    let name = words[first];
    let after = line.strip_prefix(name).unwrap_or_default();
    let is_field = after.starts_with(':') && !after.starts_with("::");
    let is_case = after.starts_with(',') || (after.starts_with('(') && starts_large(name));
    (is_definition || first > 0 || is_field || is_case).then_some(name)
}

pub fn starts_large(name: &str) -> bool {
    name.starts_with(char::is_uppercase)
}

/// Pages, edits and the made-up pages of this test hold names that need not be there.
fn only_speaks(path: &str) -> bool {
    path.ends_with(".md") || path.ends_with(".edit") || path.starts_with("rust/tests/pages/")
}

/// The records of the port and of the design pass begin with commits and name what is no more.
const RECORDS: [&str; 2] = ["docs/PORT.md", "docs/DESIGN-PASS.md"];

/// Folders whose names begin with a dot hold none.
fn is_page(path: &str) -> bool {
    path.ends_with(".md") && !path.starts_with('.') && !RECORDS.contains(&path)
}

/// Adds the files below a folder. What a build or a check made is left out, and so is all whose name begins
/// with a dot, but for the folder of the gate, which pages name.
fn walk(folder: &Path, before: &str, files: &mut Vec<(String, String)>) {
    for entry in fs::read_dir(folder).expect("a folder of the repository") {
        let entry = entry.expect("an entry of a folder");
        let own = entry.file_name().to_string_lossy().to_string();
        let whole = format!("{before}{own}");
        let kind = entry.file_type().expect("a file or a folder");
        let is_made = own == "target" || own == "out";
        if is_made || (own.starts_with('.') && own != ".ci") {
            continue;
        } else if kind.is_dir() {
            walk(&entry.path(), &(whole + "/"), files);
        } else if kind.is_file() {
            let bytes = fs::read(entry.path()).unwrap_or_else(|error| panic!("{whole}: {error}"));
            files.push((whole, String::from_utf8_lossy(&bytes).to_string()));
        }
    }
}

/// The edits of a file of them: those that it gives a title, and the file's own name.
fn edits_in(path: &str, text: &str) -> Vec<String> {
    let parts: Vec<&str> = path.split('/').collect();
    let ["crates", name, "must-fail", file] = parts[..] else {
        return Vec::new();
    };
    let titled = text.lines().filter_map(|line| {
        line.strip_prefix("body: ")
            .or_else(|| line.strip_prefix("wrong: "))
    });
    let titles = titled.chain(file.strip_suffix(".edit"));
    titles.map(|title| format!("{name}/{title}")).collect()
}

/// The whole words of a line. A name of the definitions can have a hyphen or a prime inside.
fn words_of(line: &str) -> Vec<&str> {
    let whole = line.split(|c: char| !is_in_a_name(c));
    let whole = whole.map(|word| word.trim_matches('-'));
    let all = whole.flat_map(|word| [word].into_iter().chain(word.split('\'')));
    all.filter(|word| !word.is_empty()).collect()
}

pub fn is_in_a_name(c: char) -> bool {
    c.is_alphanumeric() || "_-'".contains(c)
}

fn begins_with(path: &str, parts: &[&str]) -> bool {
    let mut own = path.split('/');
    parts
        .iter()
        .all(|part| own.next().is_some_and(|own| part_matches(part, own)))
}

fn part_matches(pattern: &str, part: &str) -> bool {
    let Some((start, rest)) = pattern.split_once('*') else {
        return pattern == part;
    };
    let Some(left) = part.strip_prefix(start) else {
        return false;
    };
    (0..=left.len()).any(|at| left.is_char_boundary(at) && part_matches(rest, &left[at..]))
}
