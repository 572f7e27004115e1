//! The command line: words in, output and exit status out.

use plan::{commands, Answer, Failure};
use std::io::{ErrorKind, IsTerminal, Write};
use std::process::ExitCode;

const GRANTED: u8 = 0;
const REFUSED: u8 = 1;
const UNUSABLE: u8 = 2;

fn main() -> ExitCode {
    let words: Vec<String> = std::env::args_os().skip(1).map(|word| word.to_string_lossy().into_owned()).collect();
    let words: Vec<&str> = words.iter().map(String::as_str).collect();
    ExitCode::from(match commands::run(&words) {
        Ok(answer) => print(&answer),
        Err(Failure::Refused(why)) => fail(&why, REFUSED),
        Err(Failure::Unusable(why) | Failure::Misused(why)) => fail(&why, UNUSABLE),
    })
}

fn fail(why: &str, status: u8) -> u8 {
    eprintln!("{}", why.trim_end());
    status
}

/// Writes an answer to standard output. That its reader stopped reading is no failure.
fn print(answer: &Answer) -> u8 {
    let mut out = std::io::stdout();
    if answer.output.contains(&0) && out.is_terminal() {
        return fail("an image is no text: send it to a file or to another command", UNUSABLE);
    }
    match out.write_all(&answer.output).and_then(|()| out.flush()) {
        Err(error) if error.kind() != ErrorKind::BrokenPipe => fail(&format!("standard output: {error}"), UNUSABLE),
        _ if answer.granted => GRANTED,
        _ => REFUSED,
    }
}
