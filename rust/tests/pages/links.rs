//! Links between pages.

use crate::markdown::Page;
use crate::repository::Repository;
use std::collections::BTreeSet;

/// A path from a folder, as one from the root; none where it leaves the repository.
pub fn joined(folder: &str, path: &str) -> Option<String> {
    let mut parts: Vec<&str> = Vec::new();
    for part in folder.split('/').chain(path.split('/')) {
        match part {
            "" | "." => {}
            ".." => drop(parts.pop()?),
            part => parts.push(part),
        }
    }
    Some(parts.join("/"))
}

/// Links that nothing can follow here: to another site, to no file, or to no heading of a page.
pub fn faults(page: &Page, repository: &Repository) -> Vec<String> {
    let links = page.links();
    let wrong = links.iter().filter_map(|link| {
        let reason = reason(page, &link.target, repository)?;
        let words = format!("the link to '{}' {reason}", link.target);
        Some(page.fault(link.line, &words))
    });
    wrong.collect()
}

fn reason(page: &Page, target: &str, repository: &Repository) -> Option<&'static str> {
    let outside = Some("leads out of the repository");
    if target.is_empty() {
        return Some("leads nowhere");
    }
    if target.contains(':') || target.starts_with('/') {
        return outside;
    }
    let Some(path) = path_of(page, target) else {
        return outside;
    };
    // In a link a '*' is no wildcard.
    if path.contains('*') || repository.matching(&path).is_empty() {
        return Some("leads to no file");
    }
    let (_, anchor) = target.split_once('#')?;
    let anchors = repository.page(&path).map(|page| page.anchors());
    let has = anchors.unwrap_or_default().iter().any(|own| own == anchor);
    (!has).then_some("leads to no heading")
}

/// The path that a link names, from the root; that of its own page where it is an anchor alone.
fn path_of(page: &Page, target: &str) -> Option<String> {
    match target.split_once('#').map_or(target, |(path, _)| path) {
        "" => Some(page.path.clone()),
        path => joined(page.folder(), path),
    }
}

/// Pages that no chain of links from the README leads to.
pub fn unreached(repository: &Repository) -> Vec<String> {
    let mut reached = BTreeSet::from(["README.md".to_string()]);
    let mut waiting: Vec<String> = reached.iter().cloned().collect();
    while let Some(path) = waiting.pop() {
        // A link to a page that is missing is a fault of its own.
        let Some(page) = repository.page(&path) else {
            continue;
        };
        for link in page.links() {
            let path = path_of(&page, &link.target).filter(|path| path.ends_with(".md"));
            waiting.extend(path.filter(|path| reached.insert(path.clone())));
        }
    }
    let pages = repository.pages();
    let others = pages.iter().filter(|page| !reached.contains(&page.path));
    others
        .map(|page| page.fault(1, "no links lead here from README.md"))
        .collect()
}
