//! What the pages name is there: a name in back quotes stands in the sources, outside their comments, a path is one of the tree's, and a
//! link leads to a file and a heading.
//!
//! A quotation is taken apart at blanks and signs: `c >= 5` is the name c, `World .fun` two names, `crates/plan` a path. Numbers, words in
//! capitals (NULL, CRATE) and blocks of code are passed over, and so are the first two words of a command of `rt`, `cargo` or `valgrind`.

use std::fs;
use std::path::{Path, PathBuf};

const PAGES: &str = "README.md docs/FORMAT.md docs/MEANING.md docs/REWRITE.md docs/GLOSSARY.md docs/TRUST.md \
    docs/PORT-OTHER.md docs/DECISIONS.md docs/DIFFERENCES.md docs/SPEED.md docs/PROGRAMS.md harness/README.md \
    bindings/rust/README.md tools/plan/README.md examples/plans/README.md packaging/README.md \
    CONTRIBUTING.md SECURITY.md CHANGELOG.md";
const SOURCES: [&str; 12] =
    [".rt", ".antt", ".edit", ".rs", ".toml", ".c", ".h", ".sh", "Makefile", "crates.txt", "run", "test"];
const ENDINGS: [&str; 6] = [".rt", ".antt", ".edit", ".rs", ".md", ".txt"];
const COMMANDS: [&str; 3] = ["rt ", "cargo ", "valgrind "];

fn root() -> PathBuf {
    Path::new(env!("CARGO_MANIFEST_DIR")).join("..")
}

/// All files and folders below, by their paths from the root; not what is built, and not what is hidden.
fn walk(folder: &Path, from: &str, tree: &mut Vec<String>) {
    for entry in fs::read_dir(folder).unwrap().map(Result::unwrap) {
        let name = entry.file_name().into_string().unwrap();
        if name == "target" || name == "out" || name.starts_with('.') {
            continue;
        }
        let path = format!("{from}{name}");
        if entry.path().is_dir() {
            walk(&entry.path(), &format!("{path}/"), tree);
        }
        tree.push(path);
    }
}

/// The text of the sources without their comments, and without this file.
fn sources(tree: &[String]) -> String {
    let mut text = String::new();
    for path in tree.iter().filter(|path| SOURCES.iter().any(|ending| path.ends_with(ending))) {
        if path.ends_with("tests/names.rs") || root().join(path).is_dir() {
            continue;
        }
        let comment = match path.rsplit_once('.') {
            Some((_, "antt")) => "-- ",
            Some((_, "toml" | "txt")) | None => "# ",
            _ => "//",
        };
        for line in fs::read_to_string(root().join(path)).unwrap_or_else(|e| panic!("{path}: {e}")).lines() {
            text += line.split(comment).next().unwrap();
            text.push('\n');
        }
    }
    text
}

fn in_name(c: char) -> bool {
    c.is_alphanumeric() || "_-?'".contains(c)
}

/// Whether the name stands in the text and is no part of a longer one.
fn stands(text: &str, name: &str) -> bool {
    let alone = |at: usize| !text[..at].ends_with(in_name) && !text[at + name.len()..].starts_with(in_name);
    text.match_indices(name).any(|(at, _)| alone(at))
}

/// Whether the word is the end of a path of the tree. `src` after a crate may be left out, and the ending of a module or an edit.
fn is_path(tree: &[String], word: &str) -> bool {
    let word = word.trim_start_matches(['.', '/']).trim_end_matches('/');
    let ends = ["", ".antt", ".edit"].map(|ending| format!("/{word}{ending}"));
    let fits = |path: &str| ends.iter().any(|end| path.ends_with(end));
    tree.iter()
        .any(|path| fits(&format!("/{path}")) || path.starts_with("crates/") && fits(&path.replace("/src/", "/")))
}

/// The words of a text between blanks and signs, dots inside them kept.
fn words(text: &str) -> impl Iterator<Item = &str> {
    text.split(|c: char| !in_name(c) && !"/.*".contains(c))
        .map(|w| w.trim_end_matches('.'))
        .filter(|w| !w.contains('*'))
}

/// The words of a quotation that are there neither by name nor by path.
fn missing_quoted<'a>(tree: &[String], text: &str, quoted: &'a str) -> Vec<&'a str> {
    let command = COMMANDS.iter().any(|command| quoted.starts_with(command));
    let mut missing = Vec::new();
    for word in quoted.split_whitespace().skip(if command { 2 } else { 0 }).flat_map(words) {
        if word.contains('/') || ENDINGS.iter().any(|ending| word.ends_with(ending)) {
            missing.extend((!is_path(tree, word) && !stands(text, word)).then_some(word));
        } else {
            missing.extend(word.split('.').filter(|name| name.contains(char::is_lowercase) && !stands(text, name)));
        }
    }
    missing
}

/// The paths outside back quotes that are not there: words that begin with a folder of the root, of crates/ or of a crate.
fn missing_paths<'a>(tree: &[String], plain: &'a str) -> Vec<&'a str> {
    let begins = |word: &str| {
        let places =
            ["", "crates/", "crates/rewrite/"].map(|place| place.to_string() + word.split('/').next().unwrap());
        word.contains('/') && tree.iter().any(|path| places.contains(path))
    };
    words(plain).filter(|word| begins(word) && !is_path(tree, word)).collect()
}

#[test]
fn every_name_is_there() {
    let mut tree = Vec::new();
    walk(&root(), "", &mut tree);
    let text = sources(&tree);
    let (mut count, mut wrong) = (0, Vec::new());
    for page in PAGES.split(' ') {
        let whole = fs::read_to_string(root().join(page)).unwrap_or_else(|e| panic!("{page}: {e}"));
        let (mut block, mut quoted) = (false, false);
        for (number, line) in (1..).zip(whole.lines()) {
            block ^= line.starts_with("```");
            if block || line.starts_with("```") || line.starts_with("    cargo") {
                continue;
            }
            for (i, piece) in line.split('`').enumerate() {
                quoted ^= 0 < i;
                count += usize::from(quoted);
                let missing = if quoted { missing_quoted(&tree, &text, piece) } else { missing_paths(&tree, piece) };
                wrong.extend(missing.iter().map(|name| format!("{page}:{number}: {name}")));
            }
        }
        assert!(!quoted && !block, "{page}: a back quote too many");
    }
    println!("{count} quotations");
    assert!(wrong.is_empty(), "these stand nowhere:\n{}", wrong.join("\n"));
}

/// The headings of a page, as links name them.
fn headings(page: &str) -> Vec<String> {
    let mut block = false;
    let mut found = Vec::new();
    for line in page.lines() {
        block ^= line.starts_with("```");
        if let Some(title) = line.trim_start_matches('#').strip_prefix(' ').filter(|_| !block && line.starts_with('#'))
        {
            let plain = title.to_lowercase().replace(' ', "-");
            found.push(plain.chars().filter(|c| c.is_alphanumeric() || "-_".contains(*c)).collect());
        }
    }
    found
}

fn has_heading(page: &Path, heading: &str) -> bool {
    headings(&fs::read_to_string(page).unwrap()).iter().any(|found| found == heading)
}

/// The links of a page, by what stands between their round brackets.
fn links(page: &str) -> impl Iterator<Item = &str> {
    page.split("](").skip(1).filter_map(|rest| rest.split(')').next())
}

/// A link leads to a file, and to a heading of it if it names one.
#[test]
fn every_link_leads_somewhere() {
    let (mut count, mut wrong) = (0, Vec::new());
    for page in PAGES.split(' ') {
        let folder = root().join(page).parent().unwrap().to_path_buf();
        let whole = fs::read_to_string(root().join(page)).unwrap_or_else(|e| panic!("{page}: {e}"));
        for link in links(&whole) {
            let (file, heading) = link.split_once('#').unwrap_or((link, ""));
            let path = if file.is_empty() { root().join(page) } else { folder.join(file) };
            let is_there = path.exists() && (heading.is_empty() || has_heading(&path, heading));
            wrong.extend((!is_there).then(|| format!("{page}: {link}")));
            count += 1;
        }
    }
    println!("{count} links");
    assert!(wrong.is_empty(), "these lead nowhere:\n{}", wrong.join("\n"));
}
