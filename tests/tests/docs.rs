//! The documents held against the tree: a name that README.md or docs/ cites exists there, a section of the manual that
//! is cited exists in it, and no file cites by number what a reader doesn't have.

use std::collections::HashSet;
use std::fs;
use std::path::Path;

/// What a reader reads, beside the files that stand at the repository's root.
const FOLDERS: [&str; 7] = [".ci", "bench", "crates", "docs", "examples", "include", "tests"];

/// Notes tell what was: the names in them were those of their day.
const HISTORY: [&str; 1] = ["docs/notes/"];

/// Names that stand elsewhere, or that are examples of what must not be in the tree: a function of C,
/// two files that the gate refuses, and N for a number or NAME for a crate's name.
const ELSEWHERE: [&str; 6] =
    ["memmove", "crates/stray", "notes.rt", "qN", "okN", "crates/NAME/must-fail"];

/// Files that still cite by number. An entry goes as soon as what it names is mended, and none is added.
const STILL_CITING: [&str; 0] = [];

struct File {
    path: String,
    text: String,
}

fn gather(root: &Path, path: &Path, found: &mut Vec<File>) {
    let name = path.file_name().and_then(|name| name.to_str()).expect("a plain name");
    if path.is_dir() {
        if matches!(name, "out" | "target") {
            return;
        }
        for entry in fs::read_dir(path).expect("a folder") {
            gather(root, &entry.expect("an entry").path(), found);
        }
        return;
    }
    let inside = path.strip_prefix(root).expect("inside the repository");
    let path_inside = inside.to_str().expect("a plain name").to_string();
    let bytes = fs::read(path).expect("readable");
    found.push(File { path: path_inside, text: String::from_utf8_lossy(&bytes).into_owned() });
}

/// Every file of the repository, but what is built in it.
fn files() -> Vec<File> {
    let root =
        Path::new(env!("CARGO_MANIFEST_DIR")).parent().expect("tests stands in the repository");
    let mut found = Vec::new();
    for entry in fs::read_dir(root).expect("the repository") {
        let path = entry.expect("an entry").path();
        let name =
            path.file_name().and_then(|name| name.to_str()).expect("a plain name").to_string();
        if path.is_file() || FOLDERS.contains(&name.as_str()) {
            gather(root, &path, &mut found);
        }
    }
    found
}

fn begins(path: &str, places: &[&str]) -> bool {
    places.iter().any(|place| path.starts_with(place))
}

fn is_document(path: &str) -> bool {
    path == "README.md" || path.starts_with("docs/")
}

fn is_name(word: &str) -> bool {
    word.chars().all(|c| c.is_alphanumeric() || c == '_')
        && !word.starts_with(|c: char| c.is_numeric())
        && !word.is_empty()
}

fn is_path(word: &str) -> bool {
    let ends = [".antt", ".rt", ".md", ".rs", ".h", ".c", ".sh", ".edit", ".toml", ".txt"];
    let plain = word.chars().all(|c| c.is_alphanumeric() || "_./-".contains(c));
    plain
        && word.chars().any(|c| c.is_alphanumeric())
        && (word.contains('/') || ends.iter().any(|end| word.ends_with(end)))
}

/// What a document sets in backticks, on one line and outside of blocks.
fn cited(text: &str) -> Vec<String> {
    let mut words = Vec::new();
    let mut in_block = false;
    for line in text.lines() {
        if line.trim_start().starts_with("```") {
            in_block = !in_block;
        } else if !in_block {
            words.extend(line.split('`').skip(1).step_by(2).map(str::to_string));
        }
    }
    words
}

/// The tree's names and paths.
struct Tree {
    words: HashSet<String>,
    paths: HashSet<String>,
}

impl Tree {
    fn of(files: &[File]) -> Tree {
        let mut tree = Tree { words: HashSet::new(), paths: HashSet::new() };
        for file in files {
            let parts: Vec<&str> = file.path.split('/').collect();
            // every way to end the path of the file, or of a folder that it stands in
            for end in 1..=parts.len() {
                for start in 0..end {
                    tree.paths.insert(parts[start..end].join("/"));
                }
            }
            // what this file says in its own tests is no name of the tree
            if !is_document(&file.path) && file.path != "tests/tests/docs.rs" {
                let text = file
                    .path
                    .split(['/', '.'])
                    .chain(file.text.split(|c: char| !c.is_alphanumeric() && c != '_'));
                tree.words.extend(text.map(str::to_string));
            }
        }
        tree
    }

    /// A part of a word may be a name's beginning, as `said_`.
    fn has_word(&self, word: &str) -> bool {
        self.words.contains(word)
            || (word.ends_with('_') && self.words.iter().any(|other| other.starts_with(word)))
    }

    /// A leading capital, as in `R/Types.antt`, is the document's own short name for a folder.
    fn has_path(&self, path: &str) -> bool {
        let path = path.trim_start_matches("./").trim_end_matches('/');
        let rest = match path.split_once('/') {
            Some((first, rest)) if first.len() == 1 => rest,
            _ => path,
        };
        rest.len() == 1 || self.paths.contains(rest)
    }

    fn has(&self, cited: &str) -> bool {
        if ELSEWHERE.contains(&cited) {
            true
        } else if is_path(cited) {
            self.has_path(cited)
        } else if cited.split("::").all(is_name) {
            cited.split("::").all(|word| self.has_word(word))
        } else {
            true
        }
    }
}

#[test]
fn names_that_documents_cite_exist() {
    let files = files();
    let tree = Tree::of(&files);
    let mut unknown = Vec::new();
    let mut asked = 0;
    for file in files.iter().filter(|file| {
        is_document(&file.path) && !begins(&file.path, &HISTORY) && file.path.ends_with(".md")
    }) {
        for word in cited(&file.text) {
            asked += 1;
            if !tree.has(&word) {
                unknown.push(format!("{}: {word}", file.path));
            }
        }
    }
    assert!(asked > 50, "only {asked} names are cited");
    assert!(unknown.is_empty(), "cited, and nowhere in the tree:\n{}", unknown.join("\n"));
}

#[test]
fn names_that_do_not_exist_are_noticed() {
    let tree = Tree::of(&files());
    for word in [
        "Term",
        "Term::nowhere_at_all",
        "is_value",
        "is_val_",
        "is_val",
        "crates/rules",
        "crates/rules/specs/Types.antt",
        "R/Types.antt",
        "./report",
    ] {
        assert_eq!(
            tree.has(word),
            !matches!(word, "Term::nowhere_at_all" | "is_val_" | "is_val"),
            "{word}"
        );
    }
    assert!(!tree.has("crates/rules/specs/Nowhere.antt"));
    assert!(!tree.has("N/Nowhere.antt"));
}

/// A word for a paper or a part of one, with its number after a space, a hyphen, an underscore or nothing: what a reader
/// can't look up.
fn citation(line: &str) -> Option<&str> {
    let lower = line.to_ascii_lowercase();
    for noun in ["documents", "document", "demands", "demand", "items", "item", "tables", "table"] {
        for (at, _) in lower.match_indices(noun) {
            // `in_table 0` is a call
            let in_name = noun.starts_with("table") && lower[..at].ends_with('_');
            let alone = !in_name && !lower[..at].ends_with(|c: char| c.is_ascii_alphanumeric());
            let after = lower[at + noun.len()..].trim_start_matches([' ', '-', '_', '`']);
            if alone && after.starts_with(|c: char| c.is_ascii_digit()) {
                return line.get(at..);
            }
        }
    }
    None
}

#[test]
fn citations_by_number_are_noticed() {
    // Taken apart here, so that this file has none.
    for (noun, number) in [
        ("document", " 01"),
        ("Item", " 8"),
        ("demands", " 1 to 3"),
        ("item", "-07"),
        ("document", "_01"),
        ("Demand", "2"),
        ("Table", " 3"),
        ("tables", " 1 to 3"),
    ] {
        let line = format!("see {noun}{number}, below");
        assert!(citation(&line).is_some(), "{line}");
    }
    for line in [
        "question 21",
        "items in 3 rows",
        "demanded 2",
        "the document says 01",
        concat!("redocument", " 01"),
        "a types table has 1 to 4,096 records",
        "in_table 0 rows",
    ] {
        assert_eq!(citation(line), None, "{line}");
    }
}

#[test]
fn nothing_cites_by_number_what_a_reader_does_not_have() {
    let mut citing = Vec::new();
    let mut read = 0;
    for file in files() {
        if begins(&file.path, &STILL_CITING) {
            continue;
        }
        read += 1;
        let named = citation(&file.path).map(|_| format!("{}: its name", file.path));
        let lines = file.text.lines().enumerate().filter_map(|(at, line)| {
            citation(line).map(|_| format!("{}:{}: {line}", file.path, at + 1))
        });
        citing.extend(named.into_iter().chain(lines));
    }
    assert!(read > 100, "only {read} files were read");
    assert!(citing.is_empty(), "cited by number:\n{}", citing.join("\n"));
}

/// The numbers of the manual's headings, such as 7 and 7.10.
fn sections(manual: &str) -> HashSet<&str> {
    let headings = manual.lines().filter(|line| line.starts_with("##"));
    headings
        .filter_map(|line| line.trim_start_matches('#').split_whitespace().next())
        .map(|number| number.trim_end_matches('.'))
        .collect()
}

/// The text with its line breaks, and what begins a comment's lines, taken for spaces.
fn in_one_line(text: &str) -> String {
    let lines =
        text.lines().map(|line| line.trim_start().trim_start_matches(['/', '!', '*', '-', '#']));
    lines.flat_map(str::split_whitespace).collect::<Vec<_>>().join(" ")
}

/// The sections in 'manual, 7.9 and 7.10'.
fn sections_cited(text: &str) -> Vec<String> {
    let text = in_one_line(text);
    let mut cited = Vec::new();
    for (at, noun) in text.match_indices("manual, ") {
        for word in text[at + noun.len()..].split(' ').filter(|&word| word != "and") {
            let number = word.trim_end_matches(|c: char| !c.is_ascii_digit());
            let plain = number.chars().all(|c| c.is_ascii_digit() || c == '.');
            if number.is_empty() || !plain {
                break;
            }
            cited.push(number.to_string());
            if number != word {
                break;
            }
        }
    }
    cited
}

#[test]
fn sections_that_are_cited_are_read() {
    let cited = |text| sections_cited(text).join(" ");
    assert_eq!(cited("/// Marks (manual,\n/// 2.4). 3 of them"), "2.4");
    assert_eq!(cited("//! Names (manual, 7.9 and 7.10): 28"), "7.9 7.10");
    assert_eq!(cited("-- (manual, 4.8)\n# (manual, 11) 12"), "4.8 11");
    assert_eq!(cited("by the manual, and by 3 others"), "");
    let found = sections("# Manual\n\n## 2. Groups\n\n### 2.1 The table\n\n2.2 no heading\n");
    assert_eq!(found, HashSet::from(["2", "2.1"]));
}

#[test]
fn sections_of_the_manual_that_are_cited_exist() {
    let files = files();
    let manual = files.iter().find(|file| file.path == "docs/MANUAL.md").expect("the manual");
    let there = sections(&manual.text);
    let mut unknown = Vec::new();
    let mut asked = 0;
    // what this file has in its own tests is no citation
    for file in files.iter().filter(|file| file.path != "tests/tests/docs.rs") {
        for number in sections_cited(&file.text) {
            asked += 1;
            if !there.contains(number.as_str()) {
                unknown.push(format!("{}: manual, {number}", file.path));
            }
        }
    }
    assert!(asked > 50, "only {asked} sections are cited");
    assert!(unknown.is_empty(), "not in the manual:\n{}", unknown.join("\n"));
}
