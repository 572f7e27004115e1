//! The commands, by their names.

mod calls;
mod reads;
mod row;

use crate::arguments::{Arguments, Takes};
use crate::input::Input;
use crate::{help, Answer, Failure, Outcome};
use push_down_filter::image::Tree;
use push_down_filter::text::{self, Names};

struct Command {
    name: &'static str,
    help: &'static str,
    takes: Takes,
    run: fn(&Arguments) -> Outcome,
}

const COMMANDS: [Command; 6] = [
    Command {
        name: "check",
        help: help::CHECK,
        takes: Takes { valued: &["--from", "--names"], flags: &["--help"] },
        run: reads::check,
    },
    Command {
        name: "show",
        help: help::SHOW,
        takes: Takes { valued: &["--from", "--names"], flags: &["--help", "--records"] },
        run: reads::show,
    },
    Command {
        name: "write",
        help: help::WRITE,
        takes: Takes { valued: &["--from", "--names"], flags: &["--help"] },
        run: reads::write,
    },
    Command {
        name: "rewrite",
        help: help::REWRITE,
        takes: Takes { valued: &["--from", "--names", "--node", "--to"], flags: &["--help"] },
        run: calls::rewrite,
    },
    Command {
        name: "pass",
        help: help::PASS,
        takes: Takes { valued: &["--from", "--names", "--budget", "--to", "--html"], flags: &["--help"] },
        run: calls::pass,
    },
    Command {
        name: "row",
        help: help::ROW,
        takes: Takes { valued: &["--from", "--names", "--node"], flags: &["--help"] },
        run: row::row,
    },
];

/// What the words of a command line ask for.
pub fn run(words: &[&str]) -> Outcome {
    match words {
        ["--help"] => Ok(help::whole().into()),
        ["--version"] => Ok(help::version().into()),
        [name, words @ ..] => match COMMANDS.iter().find(|command| command.name == *name) {
            Some(command) => command.run(words),
            None => Err(misused(format!("plan: there is no command {name}\n\n{}", help::USAGE))),
        },
        [] => Err(misused(help::USAGE.to_string())),
    }
}

impl Command {
    /// Runs it. What is said of misused words is put behind its name and before its usage.
    fn run(&self, words: &[&str]) -> Outcome {
        let Command { name, help, takes, run } = self;
        let arguments = Arguments::read(words, *takes).map_err(misused);
        let outcome = arguments.and_then(|arguments| match arguments.has("--help") {
            true => Ok(help.to_string().into()),
            false => run(&arguments),
        });
        outcome.map_err(|failure| match failure {
            Failure::Misused(why) => Failure::Misused(format!("plan {name}: {why}\n\n{help}")),
            other => other,
        })
    }
}

fn misused(why: impl Into<String>) -> Failure {
    Failure::Misused(why.into())
}

const NO_FILE: &str = "there is no FILE; - is standard input";

/// The input of a command that reads one file and nothing more.
fn only_input(arguments: &Arguments) -> Result<Input, Failure> {
    match arguments.words.as_slice() {
        [file] => Input::read(file, arguments),
        [] => Err(misused(NO_FILE)),
        [_, word, ..] => Err(misused(format!("a word too many: {word}"))),
    }
}

/// The record that --node asks for.
fn node(arguments: &Arguments) -> Result<u32, Failure> {
    let node = arguments.number("--node").map_err(misused)?;
    node.ok_or_else(|| misused("--node N is missing: the record of a plan, as 'plan show --records' prints it"))
}

/// A plan alone, as --to asks for it.
fn to(wanted: &str, plan: &Tree, names: &Names) -> Answer {
    match wanted {
        "image" => Answer { output: plan.image(), granted: true },
        _ => text::write(plan, names).into(),
    }
}
