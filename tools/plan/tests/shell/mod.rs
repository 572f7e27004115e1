//! Commands as a user gives them to a shell, in the folder of the examples.

use std::path::{Path, PathBuf};
use std::process::Command;

pub fn folder() -> PathBuf {
    Path::new(env!("CARGO_MANIFEST_DIR")).join("../../examples/plans")
}

/// What a shell prints of a command, standard error included, and its exit status if it is not 0. `plan` is the tool under test.
fn printed(command: &str) -> String {
    let tools = Path::new(env!("CARGO_BIN_EXE_plan")).parent().expect("the folder of the tool").to_path_buf();
    let others = std::env::var_os("PATH").unwrap_or_default();
    let path =
        std::env::join_paths([tools].into_iter().chain(std::env::split_paths(&others))).expect("a path of folders");
    let mut shell = Command::new("sh");
    shell.args(["-c", &format!("{command} 2>&1")]).current_dir(folder()).env("PATH", path);
    let output = shell.output().expect("there is a shell");
    let text = String::from_utf8(output.stdout).expect("plan prints text");
    match output.status.code() {
        Some(0) => text,
        status => format!("{text}exit status {}\n", status.expect("the command ends by itself")),
    }
}

/// The commands of a text, each behind a '$', and what is printed of them.
pub fn run_again(text: &str) -> String {
    let commands = text.lines().filter_map(|line| line.strip_prefix("$ "));
    commands.map(|command| format!("$ {command}\n{}", printed(command))).collect()
}

/// The first line in which two texts differ, in words.
pub fn first_difference(found: &str, expected: &str) -> String {
    let lines = (1..).zip(found.lines().map(Some).chain([None]).zip(expected.lines().map(Some).chain([None])));
    let differ = lines.into_iter().find(|(_, (found, expected))| found != expected);
    let said = |line: Option<&str>| line.map_or("no line".to_string(), |line| format!("'{line}'"));
    differ.map_or("they end differently".to_string(), |(number, (found, expected))| {
        format!("line {number} is {}, {} is printed", said(expected), said(found))
    })
}
