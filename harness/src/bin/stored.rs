//! The stored list of calls and answers, crates/replay/stdin, which the program `replay` runs. Answers every call of it anew, by
//! the harness's checker and evaluator and by the patched source, and says which lines differ; with the feature `library`
//! the exported functions must give the same.
//!
//! `--write` writes the list with those answers, and what `replay` must print of it, crates/replay/stdout. The calls stay as
//! they stand in the list. `--add FILE` puts the calls of a plan, written as text, behind them first.

use harness::checker::{check, Verdict};
use harness::ffi;
use harness::stored::{answer, calls, exported, read, sort, written, Line};
use harness::text::{self, Names};
use std::collections::BTreeMap;
use std::path::{Path, PathBuf};
use std::process::ExitCode;

fn main() -> ExitCode {
    let words: Vec<String> = std::env::args().skip(1).collect();
    let words: Vec<&str> = words.iter().map(String::as_str).collect();
    let outcome = match words.as_slice() {
        [] => compare(),
        ["--write"] => write(Vec::new()),
        ["--add", file] => plan_lines(file).and_then(write),
        _ => Err("usage: stored [--write | --add FILE]".to_string()),
    };
    match outcome {
        Ok(said) => {
            println!("{said}");
            ExitCode::SUCCESS
        }
        Err(trouble) => {
            eprintln!("{trouble}");
            ExitCode::FAILURE
        }
    }
}

fn path(name: &str) -> PathBuf {
    Path::new(env!("CARGO_MANIFEST_DIR")).join("../crates/replay").join(name)
}

fn text_of(name: &str) -> Result<String, String> {
    std::fs::read_to_string(path(name)).map_err(|error| format!("{}: {error}", path(name).display()))
}

fn lines_of(text: &str) -> Result<Vec<Line>, String> {
    read(text).map_err(|line| format!("crates/replay/stdin:{line}: cannot be read"))
}

/// Of the lines that differ so many are printed.
const PRINTED: usize = 20;

fn compare() -> Result<String, String> {
    let text = text_of("stdin")?;
    let lines = lines_of(&text)?;
    let anew = written(&lines);
    let differ: Vec<(usize, &str)> =
        (1..).zip(text.lines().zip(anew.lines())).filter(|(_, (a, b))| a != b).map(|(at, (_, b))| (at, b)).collect();
    for (at, line) in differ.iter().take(PRINTED) {
        println!("crates/replay/stdin:{at}: the harness answers\n  {line}");
    }
    if text != anew {
        return Err(format!("{} lines of the stored list differ from what the harness answers", differ.len()));
    }
    if text_of("stdout")? != printed(&lines) {
        return Err("crates/replay/stdout is not what the program must print of the list".to_string());
    }
    let unlike = exported_unlike(&lines);
    if let Some(at) = unlike.first() {
        return Err(format!(
            "crates/replay/stdin:{at}: the exported function answers otherwise, in {} lines",
            unlike.len()
        ));
    }
    Ok(counts(&lines))
}

/// The lines of which the exported functions answer otherwise.
fn exported_unlike(lines: &[Line]) -> Vec<usize> {
    let mut image: &[u8] = &[];
    let mut unlike = Vec::new();
    for (at, line) in (1..).zip(lines) {
        match line {
            Line::Comment(_) => {}
            Line::Image(bytes) => image = bytes,
            Line::Call(call) => {
                if exported(call, image).is_some_and(|exported| exported != answer(call, image)) {
                    unlike.push(at);
                }
            }
        }
    }
    unlike
}

fn write(more: Vec<Line>) -> Result<String, String> {
    let lines = [lines_of(&text_of("stdin")?)?, more].concat();
    for (name, text) in [("stdin", written(&lines)), ("stdout", printed(&lines))] {
        std::fs::write(path(name), text).map_err(|error| format!("{}: {error}", path(name).display()))?;
    }
    Ok(format!("written: {}", counts(&lines)))
}

/// The image of a plan and its calls.
fn plan_lines(file: &str) -> Result<Vec<Line>, String> {
    let text = std::fs::read_to_string(file).map_err(|error| format!("{file}: {error}"))?;
    let image = text::read(&text, &Names::NONE).map_err(|trouble| format!("{file}:{trouble}"))?.plan.image();
    match check(&image) {
        Verdict::ACCEPTED => {}
        refusal => return Err(format!("{file}: the plan is refused, {refusal}")),
    }
    let calls = calls(&image).into_iter().map(Line::Call);
    Ok([Line::Comment(String::new()), Line::Image(image)].into_iter().chain(calls).collect())
}

/// How many lines there are of a sort.
fn count(lines: &[Line], of: &str) -> usize {
    let is_of = |line: &&Line| match line {
        Line::Image(_) => of == "images",
        Line::Call(call) => of == sort(call),
        Line::Comment(_) => false,
    };
    lines.iter().filter(is_of).count()
}

/// What `replay` prints if nothing differs.
fn printed(lines: &[Line]) -> String {
    let sorts = ["images", "checks", "rewrites", "passes", "row tests", "other lines"];
    sorts.iter().map(|of| format!("{} {of}, 0 differ\n", count(lines, of))).collect()
}

/// How many calls there are by sort and number.
fn counts(lines: &[Line]) -> String {
    let mut image: &[u8] = &[];
    let mut numbers: BTreeMap<(&str, u64), usize> = BTreeMap::new();
    for line in lines {
        match line {
            Line::Comment(_) => {}
            Line::Image(bytes) => image = bytes,
            Line::Call(call) => *numbers.entry((sort(call), answer(call, image).numbers[0])).or_default() += 1,
        }
    }
    let of_sort = |of: &str| {
        let of_number = numbers.iter().filter(|((sort, _), _)| *sort == of);
        let numbers: Vec<String> = of_number.map(|((_, number), count)| format!("{count} with {number}")).collect();
        format!("{of}: {}\n", numbers.join(", "))
    };
    let sorts: String = ["checks", "rewrites", "passes", "row tests"].into_iter().map(of_sort).collect();
    let exported =
        if ffi::LINKED { "the exported functions answer the same" } else { "the exported functions are not linked" };
    format!(
        "{sorts}stored list: {} images, {} calls, 0 differ; {exported}",
        count(lines, "images"),
        numbers.values().sum::<usize>()
    )
}
