//! What a document cites: names in backquotes, and the files that stand behind them in brackets.

/// Names one after the other, and the paths in the brackets behind them, if there are any.
#[derive(Debug, PartialEq)]
pub struct Citation {
    pub names: Vec<String>,
    pub paths: Vec<String>,
}

/// A piece of text in backquotes, and the text before it.
struct Quote<'a> {
    before: &'a str,
    text: &'a str,
}

pub fn citations(document: &str) -> Vec<Citation> {
    document.lines().flat_map(citations_of_line).collect()
}

fn citations_of_line(line: &str) -> Vec<Citation> {
    let mut found: Vec<Citation> = Vec::new();
    for Quote { before, text } in quotes(line) {
        let joined = [", ", " and "].contains(&before);
        if is_path(text) {
            match found.last_mut() {
                Some(last) if joined || before == " (" => last.paths.push(text.into()),
                _ => found.push(Citation {
                    names: vec![],
                    paths: vec![text.into()],
                }),
            }
        } else if is_name(text) {
            match found.last_mut() {
                Some(last) if joined && last.paths.is_empty() => last.names.extend(parts(text)),
                _ => found.push(Citation {
                    names: parts(text).collect(),
                    paths: vec![],
                }),
            }
        }
    }
    found
}

fn quotes(line: &str) -> Vec<Quote<'_>> {
    let pieces: Vec<&str> = line.split('`').collect();
    pieces
        .chunks_exact(2)
        .map(|pair| Quote {
            before: pair[0],
            text: pair[1],
        })
        .collect()
}

/// `Record.field` and `module::item` are two names.
fn parts(text: &str) -> impl Iterator<Item = String> + '_ {
    text.split(['.', ':'])
        .filter(|part| !part.is_empty())
        .map(String::from)
}

fn is_path(text: &str) -> bool {
    text.contains('/') && !text.contains(' ')
}

/// Words of the crates: no file's name, no formula, no command.
fn is_name(text: &str) -> bool {
    let plain = |c: char| c.is_alphanumeric() || "_-.:₁₂′".contains(c);
    text.starts_with(char::is_alphabetic) && text.chars().all(plain) && !text.contains(".r")
}

#[test]
fn names_belong_to_the_paths_in_brackets_behind_them() {
    let cited = citations("`one`, `two` (`a/b.rt`, `a/c.rt`); the law: `three` | `four.five`");
    let citation = |names: &[&str], paths: &[&str]| Citation {
        names: names.iter().map(|name| name.to_string()).collect(),
        paths: paths.iter().map(|path| path.to_string()).collect(),
    };
    assert_eq!(
        cited,
        [
            citation(&["one", "two"], &["a/b.rt", "a/c.rt"]),
            citation(&["three"], &[]),
            citation(&["four", "five"], &[]),
        ]
    );
}
