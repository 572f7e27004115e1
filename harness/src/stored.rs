//! The stored list of calls and answers, crates/replay/stdin: how its lines are read, answered and written; and the calls
//! that are stored of a new plan.

use crate::checker::{check, Verdict};
use crate::ffi;
use crate::image::{self, Tree, RECORD_BYTES, WORD_BYTES};
use crate::kinds::*;
use crate::limits::RECORDS;
use crate::rewriting::{self, Passed, Rewritten};
use crate::row_tests::{self, literals, types, Tested};
use crate::source::{Build, ALL};

/// A line of the list. A call is about the image above it.
#[derive(Clone, Debug, PartialEq, Eq)]
pub enum Line {
    Comment(String),
    Image(Vec<u8>),
    Call(Call),
}

#[derive(Clone, Debug, PartialEq, Eq)]
pub enum Call {
    Check,
    Rewrite { node: u32, room: usize },
    Pass { budget: u64, room: usize },
    Test { node: u32, values: Vec<i64>, marks: Vec<u8> },
}

/// What a call hands back: the numbers of its result in their order, and the whole output.
#[derive(Debug, PartialEq, Eq)]
pub struct Answer {
    pub numbers: Vec<u64>,
    pub output: Vec<u8>,
}

/// What calls like this one are called.
pub fn sort(call: &Call) -> &'static str {
    match call {
        Call::Check => "checks",
        Call::Rewrite { .. } => "rewrites",
        Call::Pass { .. } => "passes",
        Call::Test { .. } => "row tests",
    }
}

// Answers

/// By the checker, the patched source and the meaning of this harness.
pub fn answer(call: &Call, image: &[u8]) -> Answer {
    const PATCHED: Build = Build::Patched(ALL);
    match call {
        Call::Check => of_check(check(image)),
        Call::Rewrite { node, room } => of_rewrite(rewriting::rewrite(PATCHED, image, *node, *room)),
        Call::Pass { budget, room } => of_pass(rewriting::pass(PATCHED, image, *budget, *room)),
        Call::Test { node, values, marks } => of_test(row_tests::row_test(image, *node, values, marks)),
    }
}

/// By the exported functions, where they are linked.
pub fn exported(call: &Call, image: &[u8]) -> Option<Answer> {
    match call {
        Call::Check => ffi::check(image).map(of_check),
        Call::Rewrite { node, room } => ffi::rewrite(image, *node, *room).map(of_rewrite),
        Call::Pass { budget, room } => ffi::pass(image, *budget, *room).map(of_pass),
        Call::Test { node, values, marks } => ffi::row_test(image, *node, values, marks).map(of_test),
    }
}

fn of_check(Verdict { number, record }: Verdict) -> Answer {
    Answer { numbers: vec![number.into(), record.into()], output: Vec::new() }
}

fn of_rewrite((result, output): (Rewritten, Vec<u8>)) -> Answer {
    let Rewritten { number, record, flag, records } = result;
    Answer { numbers: vec![number.into(), record.into(), flag.into(), records.into()], output }
}

fn of_pass((result, output): (Passed, Vec<u8>)) -> Answer {
    let Passed { number, record, visits, changed, finished, records } = result;
    let numbers = vec![number.into(), record.into(), visits, changed, finished.into(), records.into()];
    Answer { numbers, output }
}

fn of_test(Tested { number, record, truth }: Tested) -> Answer {
    Answer { numbers: vec![number.into(), record.into(), truth.into()], output: Vec::new() }
}

// Writing

/// The list with every call's answer.
pub fn written(lines: &[Line]) -> String {
    let (mut image, mut spelt) = (Vec::new(), Vec::new());
    let mut text = String::new();
    for line in lines {
        match line {
            Line::Comment(comment) => text += comment,
            Line::Image(bytes) => {
                image.clone_from(bytes);
                spelt.clear();
                text += &format!("image {}: {}", bytes.len(), words(bytes));
            }
            Line::Call(call) => text += &answered(call, &image, &mut spelt),
        }
        text.truncate(text.trim_end().len());
        text.push('\n');
    }
    text
}

/// A call and its answer. An output that is the image itself is not spelt, one that was spelt last is not spelt again.
fn answered(call: &Call, image: &[u8], spelt: &mut Vec<u8>) -> String {
    let Answer { numbers, output } = answer(call, image);
    let length = match call {
        Call::Rewrite { .. } | Call::Pass { .. } => numbers[numbers.len() - 1] as usize * RECORD_BYTES,
        Call::Check | Call::Test { .. } => 0,
    };
    let made = &output[..length];
    let line = format!("{}: {}", asked(call), spaced(&numbers));
    if made.is_empty() || made == image {
        line
    } else if made == spelt {
        line + " again"
    } else {
        *spelt = made.to_vec();
        format!("{line}, {}", words(made))
    }
}

fn asked(call: &Call) -> String {
    match call {
        Call::Check => "check".to_string(),
        Call::Rewrite { node, room } => format!("rewrite {node} {room}"),
        Call::Pass { budget, room } => format!("pass {budget} {room}"),
        Call::Test { node, values, marks } => {
            let values = [vec![values.len() as i64], values.clone()].concat();
            let marks = [vec![marks.len()], marks.iter().map(|&mark| usize::from(mark)).collect()].concat();
            format!("test {node} values {} marks {}", spaced(&values), spaced(&marks))
        }
    }
}

fn spaced<N: ToString>(numbers: &[N]) -> String {
    numbers.iter().map(N::to_string).collect::<Vec<_>>().join(" ")
}

/// Records of eight words; bytes left over at the end make a word with zeros behind them.
fn words(bytes: &[u8]) -> String {
    let word = |bytes: &[u8]| {
        let mut four = [0; WORD_BYTES];
        four[..bytes.len()].copy_from_slice(bytes);
        u32::from_le_bytes(four)
    };
    let record = |bytes: &[u8]| spaced(&bytes.chunks(WORD_BYTES).map(word).collect::<Vec<u32>>());
    bytes.chunks(RECORD_BYTES).map(record).collect::<Vec<_>>().join(", ")
}

// Reading

/// The lines of a list, or the number of the first that cannot be read. What stands behind a call's colon is its answer,
/// which is not read, and may be missing.
pub fn read(text: &str) -> Result<Vec<Line>, usize> {
    (1..).zip(text.lines()).map(|(number, line)| read_line(line).ok_or(number)).collect()
}

fn read_line(line: &str) -> Option<Line> {
    if line.is_empty() || line.starts_with('#') {
        return Some(Line::Comment(line.to_string()));
    }
    let (asked, rest) = line.split_once(':').unwrap_or((line, ""));
    let tokens: Vec<&str> = asked.split_whitespace().collect();
    Some(match tokens.as_slice() {
        ["image", length] => Line::Image(bytes(length.parse().ok()?, rest)?),
        ["check"] => Line::Call(Call::Check),
        ["rewrite", node, room] => Line::Call(Call::Rewrite { node: node.parse().ok()?, room: room.parse().ok()? }),
        ["pass", budget, room] => Line::Call(Call::Pass { budget: budget.parse().ok()?, room: room.parse().ok()? }),
        ["test", node, "values", rest @ ..] => {
            let (values, rest) = counted(rest)?;
            let ["marks", rest @ ..] = rest else { return None };
            let (marks, []) = counted(rest)? else { return None };
            Line::Call(Call::Test { node: node.parse().ok()?, values, marks })
        }
        _ => return None,
    })
}

/// As many numbers as the first says, and what is left behind them.
fn counted<'a, N: std::str::FromStr>(tokens: &'a [&'a str]) -> Option<(Vec<N>, &'a [&'a str])> {
    let (count, rest) = tokens.split_first()?;
    let (numbers, rest) = rest.split_at_checked(count.parse().ok()?)?;
    let numbers: Option<Vec<N>> = numbers.iter().map(|number| number.parse().ok()).collect();
    Some((numbers?, rest))
}

fn bytes(length: usize, words: &str) -> Option<Vec<u8>> {
    let words = words.split([' ', ',']).filter(|word| !word.is_empty());
    let words: Option<Vec<u32>> = words.map(|word| word.parse().ok()).collect();
    let mut bytes: Vec<u8> = words?.into_iter().flat_map(u32::to_le_bytes).collect();
    if bytes.len() != length.next_multiple_of(WORD_BYTES) || bytes[length..].iter().any(|byte| *byte != 0) {
        return None;
    }
    bytes.truncate(length);
    Some(bytes)
}

// The calls of a new image

/// The check; of an accepted image rewrites, passes and row tests; of a refused one each call once.
pub fn calls(image: &[u8]) -> Vec<Call> {
    if check(image) != Verdict::ACCEPTED {
        let room = 40;
        let test = Call::Test { node: 0, values: Vec::new(), marks: Vec::new() };
        return vec![Call::Check, Call::Rewrite { node: 0, room }, Call::Pass { budget: 1, room }, test];
    }
    let plan = Tree::of_records(&image::read(image));
    [vec![Call::Check], rewrites(image, &plan), passes(image, &plan), tests(&plan)].concat()
}

/// An image of at most so many records is asked about more than another.
const SMALL: usize = 40;

/// At every record of a small image, at the Filters and joins of another, and at two that are absent, with room for just
/// the answer. At the first that alters the plan also with more room, with a byte too few, and with none.
fn rewrites(image: &[u8], plan: &Tree) -> Vec<Call> {
    let nodes = plan.parent_first();
    let is_chosen = |at: &usize| nodes.len() <= SMALL || [FILTER, JOIN].contains(&nodes[*at].1.label.kind);
    let chosen = (0..nodes.len()).filter(is_chosen).chain([nodes.len(), u32::MAX as usize]);
    let mut calls = Vec::new();
    let mut is_first = true;
    for node in chosen.map(|at| at as u32) {
        let made = made(image, |room| Call::Rewrite { node, room });
        let room = made.len();
        calls.push(Call::Rewrite { node, room });
        if made != image && is_first {
            is_first = false;
            calls.extend([room + 37, MOST, room - 1, 0].map(|room| Call::Rewrite { node, room }));
        }
    }
    calls
}

/// Budgets that end before the first visit, after it, between, one before the last, just at the last, and after it, of a
/// large image fewer; and a byte too few for the last answer.
fn passes(image: &[u8], plan: &Tree) -> Vec<Call> {
    let nodes = plan.parent_first();
    let plans = nodes.iter().filter(|(_, tree)| is_plan(tree.label.kind)).count() as u64;
    let mut budgets = match nodes.len() <= SMALL {
        true => vec![0, 1, plans / 2, plans - 1, plans, 10_000, u64::MAX],
        false => vec![0, 1, plans / 2, 10_000],
    };
    budgets.sort();
    budgets.dedup();
    let room = |budget: u64| made(image, |room| Call::Pass { budget, room }).len();
    let mut calls: Vec<Call> = budgets.iter().map(|&budget| Call::Pass { budget, room: room(budget) }).collect();
    calls.push(Call::Pass { budget: 10_000, room: room(10_000) - 1 });
    calls
}

/// Room for every answer.
const MOST: usize = RECORDS * RECORD_BYTES;

/// The answer of a call that has room for it; of a refused one the image.
fn made(image: &[u8], call: impl Fn(usize) -> Call) -> Vec<u8> {
    let Answer { numbers, mut output } = answer(&call(MOST), image);
    if numbers[0] != 0 {
        return image.to_vec();
    }
    output.truncate(numbers[numbers.len() - 1] as usize * RECORD_BYTES);
    output
}

/// At the first Filter, and at the last record, which is none.
fn tests(plan: &Tree) -> Vec<Call> {
    let nodes = plan.parent_first();
    let filters = (0..nodes.len()).filter(|&at| nodes[at].1.label.kind == FILTER).take(1);
    let tests = filters.flat_map(|at| rows(nodes[at].1).into_iter().map(move |row| (at, row)));
    let tests = tests.chain([(nodes.len() - 1, (Vec::new(), Vec::new()))]);
    tests.map(|(at, (values, marks))| Call::Test { node: at as u32, values, marks }).collect()
}

/// Values and marks for a Filter: its literals, those beside them, NULL alone; then a value too few, a mark too many, a mark
/// that is none, and a boolean that is none.
fn rows(filter: &Tree) -> Vec<(Vec<i64>, Vec<u8>)> {
    let types = types(&filter.children[1]);
    let literals = [literals(&filter.children[0]), vec![0]].concat();
    let row = |shift: usize| -> Vec<i64> {
        let value = |(place, of): (usize, &u32)| match *of {
            OF_BOOLEAN => ((place + shift) % 2) as i64,
            _ => literals[(place + shift / 3) % literals.len()].wrapping_add(shift as i64 % 3 - 1),
        };
        types.iter().enumerate().map(value).collect()
    };
    let (known, unknown) = (vec![0; types.len()], vec![1; types.len()]);
    let mut rows: Vec<_> = (0..6).map(|shift| (row(shift), known.clone())).collect();
    rows.push((vec![7; types.len()], unknown));
    rows.push((row(1).into_iter().skip(1).collect(), known.clone()));
    rows.push((row(1), [known.clone(), vec![0]].concat()));
    rows.push((row(1), known.iter().map(|_| 2).collect()));
    if types.contains(&OF_BOOLEAN) {
        rows.push((vec![2; types.len()], known));
    }
    rows
}

#[cfg(test)]
mod tests {
    use super::*;

    #[test]
    fn what_is_written_is_read() {
        let image = filter(boolean(true), scan(1, vec![field(1, 1, OF_INTEGER, true)])).image();
        let test = Call::Test { node: 0, values: vec![-7], marks: vec![0] };
        let calls = [Call::Check, Call::Pass { budget: u64::MAX, room: 0 }, Call::Rewrite { node: 9, room: 31 }, test];
        let short = Line::Image(image[..33].to_vec());
        let lines = [vec![Line::Comment("# one".to_string()), Line::Image(image)], calls.map(Line::Call).to_vec()];
        let lines = [lines.concat(), vec![short, Line::Image(Vec::new()), Line::Call(Call::Check)]].concat();
        let text = written(&lines);
        assert_eq!(read(&text), Ok(lines));
        let ends: Vec<&str> = text.lines().filter_map(|line| line.split_once(": ")).map(|(_, end)| end).collect();
        assert_eq!(ends[1..5], ["0 0", "12 0 0 0 0 0", "8 9 0 0", "0 0 1"]);
    }

    #[test]
    fn wrong_lines_are_named() {
        for line in
            ["image 4: 4294967296", "image 5: 1", "image 1: 256", "rewrite 0", "test 0 values 1 marks 0", "what"]
        {
            assert_eq!(read(&format!("# one\n{line}\n")), Err(2), "{line}");
        }
    }
}
