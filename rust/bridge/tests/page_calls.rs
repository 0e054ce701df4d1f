//! How docs/API.md declares the calls, compared with the header, the package for Rust and the proved code.

mod common;

use common::{in_one_line, root, text_of};

/// A declaration of the page, in one line.
struct Declared {
    language: &'static str,
    text: String,
}

const LANGUAGES: [&str; 3] = ["Rattle", "C", "Rust"];

/// Where the declarations of a block begin, behind the language.
const COLUMN: usize = 12;

/// The blocks of the page: a line that begins with a language, a line that begins with another declaration
/// of that language, and a line that goes on with the last one.
fn declared_on(page: &str) -> Vec<Declared> {
    let mut found: Vec<Declared> = Vec::new();
    let mut language = None;
    for line in page.lines() {
        let Some((label, text)) = line.split_at_checked(COLUMN) else {
            language = None;
            continue;
        };
        let named = LANGUAGES
            .into_iter()
            .find(|name| label.strip_prefix("    ").map(str::trim_end) == Some(name));
        language = match (named, label.trim()) {
            (Some(name), _) => Some(name),
            (None, "") => language,
            _ => None,
        };
        let Some(language) = language else {
            continue;
        };
        match found.last_mut() {
            Some(last) if text.starts_with(' ') => {
                last.text = in_one_line(&format!("{} {text}", last.text));
            }
            _ => found.push(Declared {
                language,
                text: in_one_line(text),
            }),
        }
    }
    found
}

fn of_language(declared: &[Declared], language: &str) -> Vec<String> {
    let of = declared.iter().filter(|it| it.language == language);
    let mut texts: Vec<String> = of.map(|it| it.text.clone()).collect();
    texts.sort();
    texts
}

/// The functions that a file of Rust or Rattle makes public, up to the body or the contract.
fn public_functions(source: &str) -> Vec<String> {
    let items = source.split("\npub ").skip(1);
    let functions = items.filter(|item| item.lines().next().is_some_and(|it| it.contains("fn ")));
    let declared = functions.map(|item| {
        let ends = [" {", "\n{", "\n    ensures"].map(|end| item.find(end));
        let end = ends.into_iter().flatten().min().expect("a body");
        // rustfmt may have put each argument on a line of its own.
        let text = in_one_line(&item[..end]);
        format!("pub {}", text.replace("( ", "(").replace(", )", ")"))
    });
    declared.collect()
}

/// The functions of some files, in the order of `of_language`.
fn public_functions_of(places: &[String]) -> Vec<String> {
    let sources = places.iter().map(|place| text_of(place));
    let mut functions: Vec<String> = sources.flat_map(|text| public_functions(&text)).collect();
    functions.sort();
    assert!(!functions.is_empty(), "{places:?}");
    functions
}

/// The files with the code of a crate.
fn files_of_crate(name: &str) -> Vec<String> {
    let folder = format!("crates/{name}/src");
    let files = std::fs::read_dir(root().join(&folder)).expect("the crate's code");
    let names = files.map(|file| {
        file.expect("a file")
            .file_name()
            .into_string()
            .expect("a name")
    });
    names.map(|name| format!("{folder}/{name}")).collect()
}

/// The functions that the header declares.
fn declared_in_header(header: &str) -> Vec<String> {
    let comments = header.split("/*").map(|part| part.split_once("*/"));
    let code = comments.flatten().map(|(_, code)| code);
    let lines = code
        .flat_map(str::lines)
        .filter(|line| !line.starts_with('#'));
    let code = lines.collect::<Vec<_>>().join("\n");
    let declarations = code.split_inclusive([';', '{', '}']).map(in_one_line);
    let mut functions: Vec<String> = declarations.filter(|text| text.contains('(')).collect();
    functions.sort();
    assert!(!functions.is_empty());
    functions
}

/// The name of each function that is declared.
fn names_of(declared: &[String]) -> Vec<&str> {
    let before = declared.iter().filter_map(|text| text.split('(').next());
    let mut names: Vec<&str> = before
        .filter_map(|text| text.split_whitespace().last())
        .collect();
    names.sort();
    names
}

#[test]
fn the_page_declares_every_function_of_the_header() {
    let page = declared_on(&text_of("docs/API.md"));
    let header = declared_in_header(&text_of("include/cup.h"));
    assert_eq!(of_language(&page, "C"), header);
}

/// That the two agree in their arguments is for echo.rs and the tests of the calls.
#[test]
fn the_header_declares_every_function_of_the_library() {
    let exports = public_functions_of(&files_of_crate("cup_c"));
    assert!(exports
        .iter()
        .all(|text| text.starts_with("pub extern \"C\" fn cup_")));
    let header = declared_in_header(&text_of("include/cup.h"));
    assert_eq!(names_of(&exports), names_of(&header));
}

#[test]
fn the_page_declares_every_call_of_the_package_for_rust() {
    let page = declared_on(&text_of("docs/API.md"));
    let package = ["lib.rs", "machine.rs"].map(|file| format!("rust/bridge/src/{file}"));
    assert_eq!(of_language(&page, "Rust"), public_functions_of(&package));
}

#[test]
fn the_page_declares_every_public_call_of_the_proved_code() {
    let page = declared_on(&text_of("docs/API.md"));
    let crates = ["simulator", "runcalls"];
    let files = crates.map(files_of_crate).concat();
    assert_eq!(of_language(&page, "Rattle"), public_functions_of(&files));
}

#[test]
fn declarations_are_read_as_the_page_lays_them_out() {
    let page =
        "    C       int one(int a,\n                    int b);\n            int two(void);\n\
                \n    Rust    fn one()\n\nWords.\n";
    let found = declared_on(page);
    assert_eq!(
        of_language(&found, "C"),
        ["int one(int a, int b);", "int two(void);"]
    );
    assert_eq!(of_language(&found, "Rust"), ["fn one()"]);
    assert_eq!(found.len(), 3);
}
