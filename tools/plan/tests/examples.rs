//! The examples, examples/plans, as a user runs them. expected/NAME.txt holds commands, each behind a '$', and what they print; every plan
//! has such a file, and every such file its plan.
//!
//! With WRITE_EXPECTED=1 in the environment the files are written anew, from the commands that stand in them.

mod shell;

use shell::{first_difference, folder, run_again};
use std::collections::BTreeSet;
use std::path::Path;

fn text(path: &Path) -> String {
    std::fs::read_to_string(path).unwrap_or_else(|error| panic!("{}: {error}", path.display()))
}

/// The names of the files of a folder that end so, without the ending.
fn names(folder: &Path, ending: &str) -> BTreeSet<String> {
    let files = std::fs::read_dir(folder).unwrap_or_else(|error| panic!("{}: {error}", folder.display()));
    let files =
        files.map(|file| file.expect("a file of the folder").file_name().into_string().expect("a name in letters"));
    files.filter_map(|name| name.strip_suffix(ending).map(str::to_string)).collect()
}

#[test]
fn every_example_prints_what_is_expected() {
    let expected = folder().join("expected");
    let plans = names(&folder(), ".plan");
    assert!(plans.len() > 30, "the examples are there");
    assert_eq!(names(&expected, ".txt"), plans, "every plan has its expected output, and nothing else has");
    let write = std::env::var_os("WRITE_EXPECTED").is_some();
    let mut commands = 0;
    for name in plans {
        let file = expected.join(format!("{name}.txt"));
        let text = text(&file);
        let asked: Vec<&str> = text.lines().filter(|line| line.starts_with("$ ")).collect();
        assert!(asked.iter().any(|line| line.contains(&format!("{name}.plan"))), "{name}.txt runs {name}.plan");
        let found = run_again(&text);
        commands += asked.len();
        if write {
            std::fs::write(&file, &found).expect("the expected file is written");
            continue;
        }
        assert!(found == text, "expected/{name}.txt: {}", first_difference(&found, &text));
    }
    println!("{commands} commands");
}

#[test]
fn every_example_says_what_it_shows() {
    let table = text(&folder().join("README.md"));
    for name in names(&folder(), ".plan") {
        assert!(text(&folder().join(format!("{name}.plan"))).starts_with("# "), "{name}.plan begins with a comment");
        assert!(table.contains(&format!("| [{name}.plan]({name}.plan) |")), "README.md has a row for {name}.plan");
    }
    let rows = table.lines().filter(|line| line.starts_with("| [")).count();
    assert_eq!(rows, names(&folder(), ".plan").len(), "a row for each plan");
}
