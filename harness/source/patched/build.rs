//! Copies the four files of docs/src, with the differences D1 to D5 put in, to where the crate includes them from.
//! A text to be replaced must stand in its file exactly once.

#[path = "differences.rs"]
mod differences;

use differences::{DIFFERENCES, Difference};
use std::path::{Path, PathBuf};
use std::{env, fs};

/// Each file, and the module that it is.
const FILES: [(&str, &str); 4] = [
    ("push_down_filter.rs", "push_down_filter"),
    ("utils.rs", "utils"),
    ("simplify_expressions/reorder_predicates.rs", "reorder"),
    ("simplify_expressions/simplify_predicates.rs", "simplify"),
];

fn main() {
    println!("cargo:rerun-if-changed=build.rs");
    println!("cargo:rerun-if-changed=differences.rs");
    let source = folder("CARGO_MANIFEST_DIR").join("../../../docs/src/src");
    let made = folder("OUT_DIR");
    let mut modules = String::new();
    for (file, module) in FILES {
        println!("cargo:rerun-if-changed={}", source.join(file).display());
        let path = made.join(format!("{module}.rs"));
        write(&path, &patched(file, &read(&source.join(file))));
        modules.push_str(&format!("#[path = {path:?}]\npub mod {module};\n"));
    }
    write(&made.join("modules.rs"), &modules);
}

fn folder(name: &str) -> PathBuf {
    PathBuf::from(env::var(name).unwrap_or_else(|_| panic!("cargo sets {name}")))
}

fn patched(file: &str, text: &str) -> String {
    let here = DIFFERENCES.iter().filter(|difference| difference.file == file);
    here.fold(text.to_string(), |text, Difference { name, from, to, .. }| {
        assert_eq!(text.matches(from).count(), 1, "{name}: {file} does not hold this text once:\n{from}");
        text.replace(from, to)
    })
}

fn read(path: &Path) -> String {
    fs::read_to_string(path).unwrap_or_else(|error| panic!("{}: {error}", path.display()))
}

fn write(path: &Path, text: &str) {
    fs::write(path, text).unwrap_or_else(|error| panic!("{}: {error}", path.display()));
}
