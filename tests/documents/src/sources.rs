//! The files of the repository.

use std::collections::HashSet;
use std::fs;
use std::path::{Path, PathBuf};

fn root() -> PathBuf {
    Path::new(env!("CARGO_MANIFEST_DIR")).join("../..")
}

fn crates() -> PathBuf {
    root().join("crates")
}

/// A path that a document cites: below `crates/`, else from the top.
pub fn cited(path: &str) -> PathBuf {
    let below = crates().join(path);
    if below.exists() {
        return below;
    }
    root().join(path)
}

pub fn read(path: &str) -> String {
    text_of(&root().join(path))
}

fn text_of(path: &Path) -> String {
    fs::read_to_string(path).unwrap_or_else(|error| panic!("{}: {error}", path.display()))
}

/// Without the folders `out`, in which checks of the crates keep their work.
fn files_below(folder: &Path) -> Vec<PathBuf> {
    let entries =
        fs::read_dir(folder).unwrap_or_else(|error| panic!("{}: {error}", folder.display()));
    let paths = entries.map(|entry| entry.expect("an entry of a folder").path());
    let kept = paths.filter(|path| !path.ends_with("out"));
    kept
        .flat_map(|path| {
            if path.is_dir() {
                files_below(&path)
            } else {
                vec![path]
            }
        })
        .collect()
}

fn stem(path: &Path) -> String {
    path.file_stem()
        .expect("a file's name")
        .to_string_lossy()
        .into()
}

/// The names of the must-fail edits of all crates.
pub fn edits() -> Vec<String> {
    let is_edit = |path: &PathBuf| path.extension().is_some_and(|ending| ending == "edit");
    files_below(&crates())
        .iter()
        .filter(|path| is_edit(path))
        .map(|path| stem(path))
        .collect()
}

fn words(text: &str) -> impl Iterator<Item = &str> {
    text.split(|c: char| !(c.is_alphanumeric() || "_-₁₂′".contains(c)))
}

/// A file has the word; a folder has a file of that name, or one that has the word.
pub fn has_word(path: &Path, word: &str) -> bool {
    if path.is_dir() {
        return files_below(path)
            .iter()
            .any(|file| stem(file) == word || has_word(file, word));
    }
    path.exists() && words(&text_of(path)).any(|each| each == word)
}

/// All words of the crates, the tests and the bindings, and the names of their files and folders.
pub fn all_words() -> HashSet<String> {
    let folders = ["crates", "tests", "bindings"].map(|folder| root().join(folder));
    let files: Vec<PathBuf> = folders
        .iter()
        .flat_map(|folder| files_below(folder))
        .collect();
    let mut found: HashSet<String> = HashSet::new();
    for file in &files {
        found.insert(stem(file));
        found.extend(file.iter().map(|part| part.to_string_lossy().into_owned()));
        if let Ok(text) = fs::read_to_string(file) {
            found.extend(words(&text).map(String::from));
        }
    }
    found
}
