//! Runs lists of rewrites and passes, at random records, with random budgets and output lengths, on random plans without
//! volatile functions. A granted call leaves its answer, a refused one the image it got; the next call gets that. After every
//! call the image must be accepted, by the exported check too if it is linked, and its rows over random tables must be those
//! of the first image, as often and in the same order; and an output must be the answer, then zeros.
//!
//! The calls are the library's with the feature `library`, else the patched source's. Options: --cases N --seed S.
//! Stops at the first difference, prints the plan and the calls, and exits non-zero.

use harness::calls::{self, answered_by};
use harness::checker::{check, Verdict};
use harness::ffi;
use harness::image::{read, to_hex, Tree, RECORD_BYTES};
use harness::kinds::{is_plan, FILTER, FUNCTION, JOIN};
use harness::limits::RECORDS;
use harness::random::Random;
use harness::rewrites::{budget, case};
use harness::rows::{RowCounts, Rows};
use std::collections::BTreeMap;
use std::process::ExitCode;
use std::time::Instant;

struct Options {
    cases: u64,
    seed: u64,
}

/// A list has at most so many calls.
const CALLS: usize = 12;

#[derive(Clone, Copy, Debug)]
enum Call {
    Rewrite { node: u32, room: usize },
    Pass { budget: u64, room: usize },
}

/// What a call left: its number, how many records the answer has, and the whole output.
struct Left {
    number: u32,
    records: usize,
    output: Vec<u8>,
}

#[derive(Default)]
struct Counts {
    not_accepted: u64,
    rewrites: BTreeMap<u32, u64>,
    passes: BTreeMap<u32, u64>,
    altered: u64,
    /// Lists by how many of their calls altered the plan.
    lists: BTreeMap<u64, u64>,
    rows: RowCounts,
}

fn main() -> ExitCode {
    let Some(options) = options() else {
        eprintln!("usage: sequences [--cases N] [--seed S]");
        return ExitCode::FAILURE;
    };
    println!("rewrites and passes by {}", answered_by());
    println!("the exported check is {}", if ffi::LINKED { "asked as well" } else { "not linked" });
    println!("running: seed {}, {} plans", options.seed, options.cases);
    let start = Instant::now();
    let mut counts = Counts::default();
    for number in 0..options.cases {
        if let Err(difference) = run_case(&options, number, &mut counts) {
            println!("plan {number}: {difference}");
            return ExitCode::FAILURE;
        }
    }
    print(&counts);
    if let Err(trouble) = counts.rows.print() {
        println!("{trouble}");
        return ExitCode::FAILURE;
    }
    let calls: u64 = counts.rewrites.values().chain(counts.passes.values()).sum();
    println!("all: {calls} calls on {} plans, 0 differ, {:.1} s", options.cases, start.elapsed().as_secs_f64());
    ExitCode::SUCCESS
}

fn options() -> Option<Options> {
    let mut options = Options { cases: 5000, seed: 1 };
    let mut words = std::env::args().skip(1);
    while let Some(word) = words.next() {
        let number = words.next()?.parse().ok()?;
        match word.as_str() {
            "--cases" => options.cases = number,
            "--seed" => options.seed = number,
            _ => return None,
        }
    }
    Some(options)
}

fn print(counts: &Counts) {
    println!("plans beyond a limit, left out: {}", counts.not_accepted);
    for (what, numbers) in [("rewrites", &counts.rewrites), ("passes", &counts.passes)] {
        for (number, count) in numbers {
            println!("{what} with number {number}: {count}");
        }
    }
    for (altered, count) in &counts.lists {
        println!("lists of which {altered} calls altered the plan: {count}");
    }
    println!("calls that altered the plan: {}, rows compared after each, in two worlds", counts.altered);
}

/// A plan and a list of calls.
fn run_case(options: &Options, number: u64, counts: &mut Counts) -> Result<(), String> {
    let mut plan = case(options.seed, number).plan;
    make_stable(&mut plan);
    let first = plan.image();
    if check(&first) != Verdict::ACCEPTED {
        counts.not_accepted += 1;
        return Ok(());
    }
    let random = &mut Random::of_case(options.seed ^ u64::MAX, number);
    let rows = Rows::of(random, &plan);
    let (mut image, mut calls) = (first.clone(), Vec::new());
    let altered = counts.altered;
    for _ in 0..random.within(1, CALLS) {
        let call = drawn_call(random, &image);
        calls.push(call);
        image = run_call(call, image, &rows, counts)
            .map_err(|difference| format!("{difference}\ncalls {calls:?}, image:\n{}", to_hex(&first)))?;
    }
    *counts.lists.entry(counts.altered - altered).or_default() += 1;
    Ok(())
}

/// Takes the mark from all functions that are volatile.
fn make_stable(tree: &mut Tree) {
    if tree.label.kind == FUNCTION {
        tree.label.q &= 2;
    }
    tree.children.iter_mut().for_each(make_stable);
}

/// Mostly a rewrite, of a Filter or a Join more often than not; now and then of a record that is no plan or absent. Mostly
/// with room for every answer.
fn drawn_call(random: &mut Random, image: &[u8]) -> Call {
    let plan = Tree::of_records(&read(image));
    let room = match random.chance(85) {
        true => RECORDS * RECORD_BYTES,
        false => random.below(2 * image.len()),
    };
    if random.chance(20) {
        return Call::Pass { budget: budget(random, &plan), room };
    }
    let nodes = plan.parent_first();
    let wanted = random.below(100);
    let is_wanted = |kind: u32| match wanted {
        0..60 => kind == FILTER || kind == JOIN,
        60..90 => is_plan(kind),
        _ => true,
    };
    let fitting: Vec<usize> = (0..nodes.len()).filter(|&at| is_wanted(nodes[at].1.label.kind)).collect();
    let is_absent = fitting.is_empty() || random.chance(2);
    let node = if is_absent { nodes.len() + random.below(9) } else { *random.pick(&fitting) };
    Call::Rewrite { node: node as u32, room }
}

/// The image that the call leaves.
fn run_call(call: Call, image: Vec<u8>, rows: &Rows, counts: &mut Counts) -> Result<Vec<u8>, String> {
    let Left { number, records, output } = left_by(call, &image);
    let numbers = match call {
        Call::Rewrite { .. } => &mut counts.rewrites,
        Call::Pass { .. } => &mut counts.passes,
    };
    *numbers.entry(number).or_default() += 1;
    let (answer, rest) =
        output.split_at_checked(records * RECORD_BYTES).ok_or("more records than there is room for")?;
    if rest.iter().any(|byte| *byte != 0) {
        return Err("no zeros after the answer".to_string());
    }
    if number != 0 {
        return if records == 0 { Ok(image) } else { Err(format!("{number} with an answer")) };
    }
    let verdicts = [check(answer), ffi::check(answer).unwrap_or(Verdict::ACCEPTED)];
    if verdicts != [Verdict::ACCEPTED; 2] {
        return Err(format!("checker {}, exported check {} of the answer", verdicts[0], verdicts[1]));
    }
    if answer != image {
        counts.altered += 1;
        rows.compare(&Tree::of_records(&read(answer)), &mut counts.rows)?;
    }
    Ok(answer.to_vec())
}

fn left_by(call: Call, image: &[u8]) -> Left {
    match call {
        Call::Rewrite { node, room } => {
            let (result, output) = calls::rewrite(image, node, room);
            Left { number: result.number, records: result.records as usize, output }
        }
        Call::Pass { budget, room } => {
            let (result, output) = calls::pass(image, budget, room);
            Left { number: result.number, records: result.records as usize, output }
        }
    }
}
