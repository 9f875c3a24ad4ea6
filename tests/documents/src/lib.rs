//! Holds the documents to the repository: what `docs/CLAIMS.md` cites exists, and it cites every must-fail edit;
//! `docs/ARCHITECTURE.md` lists the files of the promise.

#[cfg(test)]
mod citations;
#[cfg(test)]
mod promise;
#[cfg(test)]
mod sources;

#[cfg(test)]
mod tests {
    use crate::citations::{citations, Citation};
    use crate::promise;
    use crate::sources::{all_words, cited, edits, has_word, read};

    fn claims() -> Vec<Citation> {
        citations(&read("docs/CLAIMS.md"))
    }

    fn none_missing(missing: Vec<String>) {
        assert!(
            missing.is_empty(),
            "docs/CLAIMS.md cites what is not there:\n{}",
            missing.join("\n")
        );
    }

    #[test]
    fn every_path_that_claims_cites_exists() {
        let paths = claims().into_iter().flat_map(|citation| citation.paths);
        none_missing(paths.filter(|path| !cited(path).exists()).collect());
    }

    /// A name with files behind it stands in one of them: as a word, or as the name of a file in a folder.
    #[test]
    fn every_name_that_claims_cites_stands_in_its_file() {
        let missing = |citation: Citation| {
            let Citation { names, paths } = citation;
            let stands = move |name: &String| {
                paths.is_empty() || paths.iter().any(|path| has_word(&cited(path), name))
            };
            names.into_iter().filter(move |name| !stands(name))
        };
        none_missing(claims().into_iter().flat_map(missing).collect());
    }

    #[test]
    fn every_name_that_claims_cites_stands_somewhere() {
        let words = all_words();
        let names = claims().into_iter().flat_map(|citation| citation.names);
        none_missing(names.filter(|name| !words.contains(name)).collect());
    }

    #[test]
    fn claims_cites_every_edit() {
        let cited: Vec<String> = claims()
            .into_iter()
            .flat_map(|citation| citation.names)
            .collect();
        let missing: Vec<String> = edits()
            .into_iter()
            .filter(|edit| !cited.contains(edit))
            .collect();
        assert!(
            missing.is_empty(),
            "docs/CLAIMS.md leaves out:\n{}",
            missing.join("\n")
        );
    }

    #[test]
    fn architecture_lists_the_files_of_the_promise() {
        let document = read("docs/ARCHITECTURE.md");
        let listed = promise::listed(promise::section(&document, "## What a reader must believe"));
        assert_eq!(listed, promise::reached());
    }
}
