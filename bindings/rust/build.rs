//! Names the static library to the linker, if the feature `library` asks for it.

use std::{env, path::PathBuf, process::exit};

const FOLDER: &str = "PUSH_DOWN_FILTER_LIB_DIR";

fn main() {
    println!("cargo:rerun-if-changed=build.rs");
    println!("cargo:rerun-if-env-changed={FOLDER}");
    if env::var_os("CARGO_FEATURE_LIBRARY").is_none() {
        return;
    }
    let folder = folder();
    let library = folder.join("libpush_down_filter.a");
    if !library.is_file() {
        missing(&library);
    }
    println!("cargo:rerun-if-changed={}", library.display());
    println!("cargo:rustc-link-search=native={}", folder.display());
    println!("cargo:rustc-link-lib=static=push_down_filter");
}

/// Where the library stands: the folder that the environment names, else the one where `./run` puts it.
fn folder() -> PathBuf {
    let here = PathBuf::from(env::var_os("CARGO_MANIFEST_DIR").unwrap_or_default());
    let named = env::var_os(FOLDER).filter(|folder| !folder.is_empty());
    named.map_or_else(|| here.join("../../target/staticlib"), PathBuf::from)
}

/// Says what is missing, and ends the build.
fn missing(library: &std::path::Path) -> ! {
    let what = format!("{} is not there", library.display());
    let help = format!("./run at the root of the repository makes it; or name its folder in {FOLDER}");
    println!("cargo:warning={what}: {help}");
    eprintln!("{what}: {help}");
    eprintln!("without it: 'default-features = false' where you depend on this crate, which leaves the calls out");
    exit(1)
}
