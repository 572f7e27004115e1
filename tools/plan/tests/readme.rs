//! README.md holds what the tool prints of itself.

mod shell;

use plan::help;
use shell::{first_difference, run_again};
use std::process::Command;

const README: &str = include_str!("../README.md");

fn printed(words: &[&str]) -> String {
    let output = Command::new(env!("CARGO_BIN_EXE_plan")).args(words).output().expect("plan can be run");
    assert!(output.status.success());
    String::from_utf8(output.stdout).expect("plan prints text")
}

/// Whether the text is a whole block of the page.
fn is_block(text: &str) -> bool {
    README.contains(&format!("```\n{text}```\n"))
}

#[test]
fn the_help_is_the_readme_s() {
    assert_eq!(printed(&["--help"]), help::whole());
    assert!(is_block(help::USAGE), "README.md holds what plan --help begins with");
    assert!(is_block(push_down_filter::text::GRAMMAR), "README.md holds the grammar");
}

#[test]
fn the_help_of_every_command_is_the_readme_s() {
    for name in ["check", "show", "write", "rewrite", "pass", "row"] {
        let help = printed(&[name, "--help"]);
        assert!(is_block(&help), "README.md holds what plan {name} --help prints");
        assert!(help::USAGE.contains(&format!("plan {name} ")), "plan --help names {name}");
    }
}

#[test]
fn the_commands_of_the_readme_print_what_it_says() {
    let blocks = README.split("```\n").filter(|block| block.starts_with("$ "));
    let mut commands = 0;
    for block in blocks {
        let found = run_again(block);
        // a page that shows a refusal need not say its exit status
        let found = found.strip_suffix("exit status 1\n").unwrap_or(&found);
        assert!(found == block, "{block}: {}", first_difference(found, block));
        commands += 1;
    }
    assert!(commands >= 5, "{commands} commands");
}

#[test]
fn the_version_is_that_of_the_bindings() {
    let version = env!("CARGO_PKG_VERSION");
    let bindings = include_str!("../../../bindings/rust/Cargo.toml");
    assert!(bindings.contains(&format!("\nversion = \"{version}\"\n")), "the bindings have another version");
    assert_eq!(printed(&["--version"]), format!("plan {version}\nlibrary {version}\n"));
}
