//! A page: its lines, which of them are code, and the spans of code, links and headings in them.

use std::collections::{BTreeSet, HashMap};

pub struct Page {
    /// From the repository's root.
    pub path: String,
    pub lines: Vec<Line>,
}

pub struct Line {
    /// Counted from 1.
    pub number: usize,
    pub text: String,
    /// In a fenced or an indented block.
    pub is_code: bool,
}

/// A text in backticks.
pub struct Span {
    pub line: usize,
    pub text: String,
    /// What stands between the span in front of it and this one, a line's end as a space.
    pub before: String,
}

pub struct Link {
    pub line: usize,
    pub target: String,
}

impl Page {
    pub fn new(path: &str, text: &str) -> Page {
        let path = path.to_string();
        let lines = lines_of(text);
        Page { path, lines }
    }

    /// The folder that the page stands in; that of the root is empty.
    pub fn folder(&self) -> &str {
        self.path.rsplit_once('/').map_or("", |(folder, _)| folder)
    }

    /// The file's own name.
    pub fn name(&self) -> &str {
        self.path.rsplit('/').next().unwrap_or_default()
    }

    pub fn fault(&self, line: usize, words: &str) -> String {
        format!("{}, line {line}: {words}", self.path)
    }

    /// The lines that are no code.
    pub fn prose(&self) -> impl Iterator<Item = &Line> {
        self.lines.iter().filter(|line| !line.is_code)
    }

    pub fn spans(&self) -> Vec<Span> {
        let mut spans = Vec::new();
        let mut before = String::new();
        for line in &self.lines {
            if line.is_code || line.text.trim().is_empty() {
                before.push_str("(another paragraph)");
                continue;
            }
            for (index, part) in line.text.split('`').enumerate() {
                if index % 2 == 0 {
                    before.push_str(part);
                    continue;
                }
                spans.push(Span {
                    line: line.number,
                    text: part.to_string(),
                    before: with_single_spaces(&std::mem::take(&mut before)),
                });
            }
            before.push(' ');
        }
        spans
    }

    /// The links, with those whose target stands on a line `[name]: target`, and bare addresses.
    pub fn links(&self) -> Vec<Link> {
        let mut links = Vec::new();
        for line in self.prose() {
            // A link's text may be code, its target is none.
            let outside: String = line.text.split('`').step_by(2).collect();
            let inline = outside.split("](").skip(1);
            let named = outside.strip_prefix('[');
            let named = named.and_then(|rest| Some(rest.split_once("]: ")?.1));
            let targets = inline.chain(named).map(|rest| rest.split([')', ' ']));
            let targets = targets.filter_map(|mut parts| parts.next());
            let words = outside.split([' ', '(', ')', '<', '>']);
            let bare = words.filter(|word| word.contains("://"));
            let targets: BTreeSet<&str> = targets.chain(bare).collect();
            links.extend(targets.into_iter().map(|target| Link {
                line: line.number,
                target: target.to_string(),
            }));
        }
        links
    }

    /// The headings with their marks, as `## Numbers`.
    pub fn headings(&self) -> impl Iterator<Item = &str> {
        let texts = self.prose().map(|line| line.text.as_str());
        texts.filter(|text| text.trim_start_matches('#').starts_with(' ') && text.starts_with('#'))
    }

    /// What a link can name behind a '#', by GitHub's rule.
    pub fn anchors(&self) -> Vec<String> {
        let mut met: HashMap<String, usize> = HashMap::new();
        let mut numbered = |anchor: String| {
            let count = met.entry(anchor.clone()).or_default();
            *count += 1;
            match *count {
                1 => anchor,
                count => format!("{anchor}-{}", count - 1),
            }
        };
        self.headings().map(|text| numbered(anchor(text))).collect()
    }
}

fn anchor(heading: &str) -> String {
    let lower = heading.trim_start_matches('#').trim().to_lowercase();
    let is_kept = |c: char| c.is_alphanumeric() || "-_ ".contains(c);
    lower.replace(|c| !is_kept(c), "").replace(' ', "-")
}

fn with_single_spaces(text: &str) -> String {
    let mut short = String::new();
    for c in text.chars() {
        if !c.is_whitespace() {
            short.push(c);
        } else if !short.ends_with(' ') {
            short.push(' ');
        }
    }
    short
}

/// An indented block begins behind an empty line, indented by four more than the text of its list.
fn lines_of(text: &str) -> Vec<Line> {
    let mut lines = Vec::new();
    let mut fence = None;
    let mut margin = 0;
    let mut may_begin = true;
    for (index, text) in text.lines().enumerate() {
        let bare = text.trim_start();
        let indent = text.len() - bare.len();
        let mut marks = ["```", "~~~"].into_iter();
        let mark = marks.find(|mark| bare.starts_with(mark));
        let fenced = fence.is_some() || mark.is_some();
        if fence.is_none() {
            fence = mark;
        } else if fence == mark {
            fence = None;
        }
        let item = list_mark(bare);
        if !fenced && item > 0 && indent < margin + 4 {
            margin = indent + item;
        } else if !bare.is_empty() && may_begin && indent == 0 {
            margin = 0;
        }
        let indented = may_begin && !bare.is_empty() && indent >= margin + 4;
        may_begin = bare.is_empty() || indented || fenced;
        lines.push(Line {
            number: index + 1,
            text: text.to_string(),
            is_code: fenced || indented,
        });
    }
    lines
}

/// How long the mark of a list's item is, with its space; 0 where there is none.
fn list_mark(bare: &str) -> usize {
    let digits = bare.trim_start_matches(|c: char| c.is_ascii_digit());
    let number = bare.len() - digits.len();
    if bare.starts_with("- ") || bare.starts_with("* ") {
        2
    } else if number > 0 && digits.starts_with(". ") {
        number + 2
    } else {
        0
    }
}
