//! What the pages in `docs/` say of where definitions stand: each name that a page gives for a file is in that file.

use std::fs;
use std::path::Path;

/// A name that a page says stands in one of some files.
pub struct Claim {
    pub line: usize,
    pub name: String,
    pub files: Vec<String>,
}

/// What stands in backticks, in order.
fn quoted(text: &str) -> impl Iterator<Item = &str> {
    text.split('`').skip(1).step_by(2)
}

/// Whether it is a file of definitions or of code.
fn is_file(word: &str) -> bool {
    word.ends_with(".antt") || word.ends_with(".rt")
}

/// A file as a page names it: whole, or in the folder of the one before it.
fn whole(file: &str, before: Option<&String>) -> String {
    let folder = before.and_then(|b| b.rsplit_once('/'));
    match folder {
        Some((folder, _)) if !file.contains('/') => format!("{folder}/{file}"),
        _ => file.to_string(),
    }
}

/// The names in a piece of text: the first word of each that is no file, folder or command, without a field of it.
fn names(text: &str) -> impl Iterator<Item = String> + '_ {
    quoted(text)
        .filter(|word| !is_file(word) && !word.contains('/'))
        .filter_map(|word| word.split([' ', '.']).next())
        .map(str::to_string)
}

/// The claims of tables: names in the second column, their files in the third; "the same" is the row above.
pub fn in_tables(text: &str) -> Vec<Claim> {
    let mut claims = Vec::new();
    let mut before: Vec<String> = Vec::new();
    for (at, line) in text.lines().enumerate() {
        let cells: Vec<&str> = line.trim_matches('|').split(" | ").collect();
        let [_, defined, places] = cells[..] else {
            continue;
        };
        let mut files: Vec<String> = Vec::new();
        if places.contains("the same") {
            files.clone_from(&before);
        }
        for file in quoted(places).filter(|word| is_file(word)) {
            let named = whole(file, files.last().or(before.last()));
            files.push(named);
        }
        if files.is_empty() {
            continue;
        }
        before.clone_from(&files);
        claims.extend(names(defined).map(|name| Claim {
            line: at + 1,
            name,
            files: files.clone(),
        }));
    }
    claims
}

/// The claims of paragraphs that start with "Definitions:": after each file its names, in parentheses.
pub fn in_paragraphs(text: &str) -> Vec<Claim> {
    let mut claims = Vec::new();
    let mut file: Option<String> = None;
    for (at, line) in text.lines().enumerate() {
        if line.starts_with("Definitions:") {
            file = Some(String::new());
        } else if line.is_empty() {
            file = None;
        }
        for word in quoted(line) {
            match &mut file {
                Some(named) if is_file(word) => *named = whole(word, Some(named)),
                Some(named) if !named.is_empty() && !word.contains('/') => claims.push(Claim {
                    line: at + 1,
                    name: word.to_string(),
                    files: vec![named.clone()],
                }),
                _ => {}
            }
        }
    }
    claims
}

/// Whether a text has a name as a word of its own.
fn has(text: &str, name: &str) -> bool {
    let inner = |c: char| c.is_alphanumeric() || c == '_' || c == '-' || c == '\'';
    text.match_indices(name).any(|(at, _)| {
        let ends = !text[at + name.len()..].starts_with(inner);
        ends && !text[..at].ends_with(inner)
    })
}

/// The claims that do not hold, as lines of a report.
pub fn wrong(page: &str, claims: &[Claim], crates: &Path) -> Vec<String> {
    let text = |file: &String| fs::read_to_string(crates.join(file)).unwrap_or_default();
    let missing = |claim: &&Claim| !claim.files.iter().any(|file| has(&text(file), &claim.name));
    let told = |claim: &Claim| {
        let (line, name, files) = (claim.line, &claim.name, claim.files.join(", "));
        format!("      {page}:{line}: {name} is not in {files}\n")
    };
    claims.iter().filter(missing).map(told).collect()
}

#[cfg(test)]
mod tests {
    use super::*;

    #[test]
    fn a_row_names_its_files_or_those_of_the_row_above() {
        let claims = in_tables("| a | `one`, `two x` | `row/specs/Row.antt`; `Field.antt` |\n| b | `three` | the same |\n");
        let told: Vec<(&str, usize)> = claims
            .iter()
            .map(|c| (c.name.as_str(), c.files.len()))
            .collect();
        assert_eq!(told, [("one", 2), ("two", 2), ("three", 2)]);
        assert_eq!(claims[0].files[1], "row/specs/Field.antt");
    }

    #[test]
    fn a_paragraph_names_a_file_and_then_its_names() {
        let claims = in_paragraphs("Definitions: `text/specs/Run.antt` (`runTo`,\n`blanks`), `Bytes.antt` (`isBlank`).\n\n`other`\n");
        let told: Vec<(&str, &str)> = claims
            .iter()
            .map(|c| (c.name.as_str(), c.files[0].as_str()))
            .collect();
        let run = "text/specs/Run.antt";
        assert_eq!(
            told,
            [
                ("runTo", run),
                ("blanks", run),
                ("isBlank", "text/specs/Bytes.antt")
            ]
        );
    }

    #[test]
    fn a_name_is_a_word_of_its_own() {
        assert!(has("pub gap : ℕ", "gap"));
        assert!(!has("pub gapAt : ℕ", "gap"));
        assert!(!has("pub hard-gap : ℕ", "gap"));
    }
}
