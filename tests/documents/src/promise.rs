//! The files of the promise: those that the contracts of the calls and the theorems about them reach by their `use` lines.

use std::collections::BTreeMap;

use crate::sources::{cited, read};

/// Where the promise starts: what the calls answer and leave, what C sees of it, and the theorems about the calls.
const STARTS: [&str; 6] = [
    "engine/specs/Answers.antt",
    "engine/specs/Interface.antt",
    "results/specs/Results.antt",
    "results/specs/Words.antt",
    "theorems/specs/Results.antt",
    "theorems/specs/Records.antt",
];

/// Files below `crates/`, each with the number of its lines.
pub type Files = BTreeMap<String, usize>;

pub fn reached() -> Files {
    let mut files = Files::new();
    let mut open: Vec<String> = STARTS.map(String::from).to_vec();
    while let Some(path) = open.pop() {
        if files.contains_key(&path) {
            continue;
        }
        let text = read(&format!("crates/{path}"));
        open.extend(text.lines().filter_map(used_file));
        files.insert(path, text.lines().count());
    }
    files
}

/// The file of a crate's specs that a `use` line names: `use Rattle.CRATE.specs.FILE.{..}`. What is declared in the code,
/// and the library's modules, have no such file.
fn used_file(line: &str) -> Option<String> {
    let module = line.strip_prefix("use Rattle.")?;
    let (owner, rest) = module.split_once(".specs.")?;
    let name = rest.split(['.', ' ']).next()?;
    let path = format!("{owner}/specs/{name}.antt");
    cited(&path).exists().then_some(path)
}

/// What a section of a document lists: `path` (lines).
pub fn listed(section: &str) -> Files {
    let mut files = Files::new();
    for piece in section.split('`').collect::<Vec<_>>().windows(2) {
        let lines = piece[1]
            .strip_prefix(" (")
            .and_then(|rest| rest.split_once(')'));
        if let Some((count, _)) = lines {
            if let Ok(count) = count.parse() {
                files.insert(piece[0].into(), count);
            }
        }
    }
    files
}

/// The text under a heading, up to the next of its rank.
pub fn section<'a>(document: &'a str, heading: &str) -> &'a str {
    let start = document
        .find(heading)
        .unwrap_or_else(|| panic!("no heading '{heading}'"));
    let text = &document[start + heading.len()..];
    text.split("\n## ").next().unwrap_or(text)
}

#[test]
fn a_section_lists_paths_with_their_lines() {
    let document =
        "# A\n## B\nFirst `a/b.antt` (12), then `c.antt` (3) and `d` (no).\n## C\n`e` (4)\n";
    let expected = [("a/b.antt".to_string(), 12), ("c.antt".to_string(), 3)];
    assert_eq!(listed(section(document, "## B")), Files::from(expected));
}
