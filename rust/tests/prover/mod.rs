//! A repository of the toolchain's in a folder of its own: of the crates of this one those with the
//! definitions, and a crate of cases beside them.

pub mod antt;

use std::collections::BTreeSet;
use std::fs;
use std::path::{Path, PathBuf};
use std::process::Command;

/// The crate with the definitions of what the calls answer: the cases see it, and what it sees.
const CALLS_CRATE: &str = "calls";
/// Where the table of the calls' worked examples stands. The cases use what it uses and open what
/// it opens.
const EXAMPLES_FILE: &str = "crates/workedexamples/specs/Calls.antt";

/// A declaration of the module of cases.
#[derive(Clone, Debug)]
pub enum Declaration {
    /// A value that several cases speak of.
    Literal {
        name: String,
        kind: &'static str,
        term: String,
    },
    /// Cases, each an equation that holds by computation alone.
    Theorem { name: String, cases: Vec<String> },
}

impl Declaration {
    /// How many cases it has.
    pub fn cases(&self) -> usize {
        match self {
            Declaration::Literal { .. } => 0,
            Declaration::Theorem { cases, .. } => cases.len(),
        }
    }

    /// Its text, where a theorem opens the definitions that it computes by.
    fn text(&self, opened: &str) -> String {
        match self {
            Declaration::Literal { name, kind, term } => {
                format!("\nabbrev {name} : {kind}\n{name} = {term}\n")
            }
            Declaration::Theorem { name, cases } => {
                assert!(!cases.is_empty(), "{name} would hold of nothing");
                let (proof, cases) = ("refl & ".repeat(cases.len()), cases.join("\n    ∷ "));
                format!(
                    "\n{name} : AllRight (\n    {cases}\n    ∷ [])\nunfolding {opened}\n{name} = {proof}end\n"
                )
            }
        }
    }
}

/// What the prover says of the module.
pub struct Verdict {
    /// Whether it accepts them all.
    pub proved: bool,
    /// The names of those it refuses.
    pub refused: BTreeSet<String>,
    /// Everything it printed.
    pub printed: String,
}

/// The folder is removed with the value.
pub struct Repository {
    folder: PathBuf,
    /// The lines that name what the cases speak of.
    uses: String,
    /// The definitions that a theorem has to open.
    opened: String,
}

impl Repository {
    /// Copies of the crate with the definitions and of those that it sees, with their definitions, sources
    /// and proofs. The cases need no other, and one that is not built as it stands is proved here.
    pub fn beside_the_crates() -> Repository {
        let root = Path::new(env!("CARGO_MANIFEST_DIR")).join("..");
        let table = fs::read_to_string(root.join(EXAMPLES_FILE)).expect(EXAMPLES_FILE);
        let name = format!("cup-check-definitions-{}", std::process::id());
        // The value stands before there is a folder, so that a failure on the way removes it too.
        let repository = Repository {
            folder: std::env::temp_dir().join(name),
            uses: uses_of(&table),
            opened: opened_by(&table),
        };
        let listed = fs::read_to_string(root.join("crates.txt")).expect("crates.txt");
        let crates = with_those_it_sees(CALLS_CRATE, &listed);
        repository.clear();
        for name in &crates {
            repository.copy_crate(&root, name);
        }
        repository.add_cases(&listed, &crates);
        repository
    }

    /// Makes the folder anew: one may have been left by a run that was killed.
    fn clear(&self) {
        if self.folder.exists() {
            fs::remove_dir_all(&self.folder).expect("what was left is removed");
        }
        fs::create_dir(&self.folder).expect("a folder of its own");
    }

    /// A library that the toolchain has built already of the same files it does not build again.
    fn copy_crate(&self, root: &Path, name: &str) {
        for part in ["src", "specs", "proofs", "out/rlib"] {
            let place = format!("crates/{name}/{part}");
            if root.join(&place).exists() {
                copy(&root.join(&place), &self.folder.join(&place));
            }
        }
    }

    /// Lists the crates that are copied, and a crate of cases, without code, that sees them all.
    fn add_cases(&self, listed: &str, crates: &[&str]) {
        let is_copied = |line: &&str| name_of(line).is_some_and(|name| crates.contains(&name));
        let copied: Vec<&str> = listed.lines().filter(is_copied).collect();
        let lines = format!("{}\ncases: {}\n", copied.join("\n"), crates.join(" "));
        self.write("crates.txt", &lines);
        self.write("crates/cases/src/lib.rt", "// Cases alone: no code.\n");
        self.write("crates/cases/proofs/Lib.antt", "pub mod Cases\n");
    }

    /// Has the prover check a module of declarations, among which there must be cases.
    pub fn check(&self, declarations: &[Declaration]) -> Verdict {
        let cases = declarations.iter().map(Declaration::cases);
        assert_ne!(cases.sum::<usize>(), 0, "there is nothing to check");
        let texts = declarations.iter().map(|entry| entry.text(&self.opened));
        let module = self.uses.clone() + &texts.collect::<String>();
        self.write("crates/cases/proofs/Cases.antt", &module);
        let checked = Command::new("rt")
            .arg("check")
            .current_dir(self.folder.join("crates/cases"))
            .output()
            .expect("rt runs");
        let printed = [checked.stdout, checked.stderr].concat();
        let printed = String::from_utf8_lossy(&printed).into_owned();
        Verdict {
            proved: checked.status.success() && printed.contains("\nlogic=proved "),
            refused: printed.lines().filter_map(refused_by).collect(),
            printed,
        }
    }

    fn write(&self, place: &str, text: &str) {
        let path = self.folder.join(place);
        fs::create_dir_all(path.parent().expect("a folder")).expect("a folder of its own");
        fs::write(path, text).expect("a file");
    }
}

impl Drop for Repository {
    fn drop(&mut self) {
        let _ = fs::remove_dir_all(&self.folder);
    }
}

/// The theorem that a printed line refuses: "FILE:LINE:COLUMN: error: `NAME`: ..".
fn refused_by(line: &str) -> Option<String> {
    let (_, error) = line.split_once(": error: `")?;
    let (name, _) = error.split_once('`')?;
    Some(name.to_string())
}

/// The name on a line of crates.txt.
fn name_of(line: &str) -> Option<&str> {
    line.split_once(':')
        .map(|(name, _)| name)
        .filter(|name| !name.starts_with('#'))
}

/// A crate, and those that it sees by its line of crates.txt.
fn with_those_it_sees<'l>(name: &'l str, listed: &'l str) -> Vec<&'l str> {
    let is_its = |line: &&str| name_of(line) == Some(name);
    let line = listed.lines().find(is_its).expect("a line of the crate");
    let (_, seen) = line.split_once(':').expect("what it sees");
    seen.split_whitespace().chain([name]).collect()
}

/// The lines of a module that bring names in.
fn uses_of(table: &str) -> String {
    let lines = table.lines().filter(|line| line.starts_with("use "));
    lines.map(|line| format!("{line}\n")).collect()
}

/// What the table's theorem opens, but for the table itself.
fn opened_by(table: &str) -> String {
    let (_, rest) = table
        .split_once("\nunfolding examples ")
        .expect("an unfolding line");
    let (names, _) = rest.split_once("\nexamples_right =").expect("the theorem");
    names.split_whitespace().collect::<Vec<_>>().join(" ")
}

/// Copies a file, or a folder with all that is in it.
fn copy(from: &Path, to: &Path) {
    if !from.is_dir() {
        fs::create_dir_all(to.parent().expect("a folder")).expect("a folder of its own");
        fs::copy(from, to).expect("a copy");
        return;
    }
    fs::create_dir_all(to).expect("a folder of its own");
    for entry in fs::read_dir(from).expect("a folder") {
        let name = entry.expect("an entry").file_name();
        copy(&from.join(&name), &to.join(&name));
    }
}
