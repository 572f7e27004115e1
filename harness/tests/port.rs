//! docs/PORT-OTHER.md is true: each name of a row stands in the file that the row gives, and every function of the source has a row.

use std::collections::BTreeSet;
use std::fs;
use std::path::{Path, PathBuf};

fn root() -> PathBuf {
    Path::new(env!("CARGO_MANIFEST_DIR")).join("..")
}

fn read(path: &str) -> String {
    fs::read_to_string(root().join(path)).unwrap_or_else(|e| panic!("{path}: {e}"))
}

/// The names in back quotes of a text.
fn quoted(text: &str) -> Vec<&str> {
    text.split('`').skip(1).step_by(2).collect()
}

/// Whether a line of the text declares the name by one of the words.
fn declares(text: &str, words: &[&str], name: &str, after: &[char]) -> bool {
    text.lines().any(|line| {
        words.iter().any(|word| {
            line.find(&format!("{word} {name}")).is_some_and(|at| {
                let rest = &line[at + word.len() + 1 + name.len()..];
                rest.is_empty() || rest.starts_with(after)
            })
        })
    })
}

const AFTER_RUST: &[char] = &['(', '<', ' ', ';', '{'];

/// Whether a definition's file has the name: a function, a type, or a constructor.
fn defines(text: &str, name: &str) -> bool {
    let starts = |line: &str| line.strip_prefix(name).is_some_and(|rest| rest.starts_with([' ', ':']));
    text.lines().any(|line| {
        let mut line = line.trim_start();
        for word in ["unfoldable ", "abbrev ", "pub ", "data ", "record "] {
            line = line.strip_prefix(word).unwrap_or(line);
        }
        starts(line)
    })
}

/// The rows of the tables of a section, as cells.
fn rows(section: &str) -> Vec<Vec<&str>> {
    section
        .lines()
        .filter(|line| line.starts_with('|') && !line.starts_with("|---") && !line.starts_with("| source"))
        .map(|line| line.trim_matches('|').split(" | ").map(str::trim).collect())
        .collect()
}

/// Each name in back quotes with the file before it: `file(words before the quote)` says which.
fn placed<'a>(cell: &'a str, file: impl Fn(&str) -> Option<String>) -> Vec<(String, &'a str)> {
    let mut at = None;
    let mut found = Vec::new();
    for (i, piece) in cell.split('`').enumerate() {
        if i % 2 == 0 {
            at = file(piece.rsplit(';').next().unwrap_or(piece)).or(at);
        } else {
            found.push((at.clone().unwrap_or_else(|| panic!("no file before `{piece}`")), piece));
        }
    }
    found
}

fn spec_file(words: &str) -> Option<String> {
    let words: Vec<&str> = words.split([' ', ',']).filter(|w| !w.is_empty() && !w.contains(['(', ')', ':'])).collect();
    let module = words.iter().find(|w| w.starts_with(char::is_uppercase))?;
    let name = words.iter().find(|w| root().join("crates").join(w).is_dir()).unwrap_or(&"rewrite");
    let path = format!("crates/{name}/specs/{module}.antt");
    root().join(&path).is_file().then_some(path)
}

fn code_file(words: &str) -> Option<String> {
    let path = words.split([' ', ',']).find(|w| w.ends_with(".rt"))?;
    let (name, file) = path.split_once('/')?;
    Some(format!("crates/{name}/src/{file}"))
}

fn check_places(definition: &str, code: &str) -> usize {
    let mut names = 0;
    if !definition.starts_with("none") {
        for (file, name) in placed(definition, spec_file) {
            assert!(defines(&read(&file), name), "{file} does not define {name}");
            names += 1;
        }
    }
    if !code.starts_with("none") {
        for (file, name) in placed(code, code_file) {
            assert!(declares(&read(&file), &["fn", "struct", "enum"], name, AFTER_RUST), "{file} has no {name}");
            names += 1;
        }
    }
    names
}

#[test]
fn every_row_is_there() {
    let port = read("docs/PORT-OTHER.md");
    let (mut count, mut names) = (0, 0);
    for section in port.split("\n## ").skip(1) {
        let file = section.lines().next().unwrap();
        if !file.ends_with(".rs") {
            for row in rows(section) {
                names += check_places(row[1], row[2]);
                count += 1;
            }
            continue;
        }
        let source = read(&format!("docs/src/src/{file}"));
        let mut told = BTreeSet::new();
        let mut last = 0;
        for row in rows(section) {
            assert_eq!(row.len(), 4, "{file}: {row:?}");
            let line: usize = row[1].parse().unwrap_or_else(|_| panic!("{file}: no line in {row:?}"));
            assert!(last < line, "{file}: the row of line {line} stands behind that of line {last}");
            last = line;
            for name in quoted(row[0]) {
                assert!(declares(&source, &["fn", "struct"], name, AFTER_RUST), "{file} has no {name}");
                told.insert(name);
            }
            if !row[0].contains(':') {
                let first = quoted(row[0])[0];
                let here = source.lines().nth(line - 1).unwrap();
                assert!(declares(here, &["fn", "struct"], first, AFTER_RUST), "{file}:{line} is not {first}");
            }
            names += check_places(row[2], row[3]);
            count += 1;
        }
        for line in source.lines() {
            let line = line.trim_start();
            for word in ["fn ", "pub fn ", "pub(crate) fn ", "struct ", "pub struct ", "pub(crate) struct "] {
                if let Some(rest) = line.strip_prefix(word) {
                    let name = rest.split(|c: char| !c.is_alphanumeric() && c != '_').next().unwrap();
                    assert!(told.contains(name), "{file}: {name} has no row in docs/PORT-OTHER.md");
                }
            }
        }
    }
    println!("{count} rows, {names} names");
    assert!(40 <= count);
}
