//! Runs rewrites of random plans, and passes over them, through the source, unchanged and with D1 to D5, and, with the
//! feature `library`, through the exported functions. Every plan is rewritten at every record, present or not,
//! and passed over once. Compared are
//! - the unchanged source with the patched one: a difference must be one of D1 to D5, and with all five switched off there
//!   must be none;
//! - the patched source with the exported functions: number, record, flag, counts, records and every byte of the output,
//!   for damaged images too;
//! - the rows of a plan without volatile functions before and after each rewrite, and after a pass, over small tables.
//!
//! Options: --plans N --seed S. Stops at the first difference, prints the plan as hex, and exits non-zero.

use harness::checker::{check, Verdict};
use harness::damage;
use harness::differences::{grounds, name, reason};
use harness::ffi;
use harness::image::{to_hex, Tree};
use harness::kinds::{is_plan, FILTER, JOIN, SCAN};
use harness::random::Random;
use harness::rewrites::{budget, case, nodes, room, Case};
use harness::rewriting::*;
use harness::rows::{RowCounts, Rows};
use harness::source::{Build, ALL, NONE};
use harness::text::words::{JOINS, PLANS};
use std::collections::BTreeMap;
use std::fmt::{Debug, Display};
use std::process::ExitCode;
use std::time::Instant;

struct Options {
    plans: u64,
    seed: u64,
}

/// What ran, by sort.
#[derive(Default)]
struct Counts {
    families: BTreeMap<&'static str, u64>,
    not_accepted: u64,
    calls: u64,
    nodes: BTreeMap<String, NodeCounts>,
    numbers: BTreeMap<u32, u64>,
    flags: u64,
    altered: u64,
    differences: BTreeMap<String, u64>,
    rows_changed_by_source: BTreeMap<String, u64>,
    exported: u64,
    passes: BTreeMap<u32, u64>,
    unfinished: u64,
    exported_passes: u64,
    rows: RowCounts,
}

/// Of one sort of nodes: all rewrites, those that altered the plan, and comparisons of rows of which there were some.
#[derive(Default)]
struct NodeCounts {
    calls: u64,
    altered: u64,
    with_rows: u64,
}

fn main() -> ExitCode {
    let Some(options) = options() else {
        eprintln!("usage: rewrite_images [--plans N] [--seed S]");
        return ExitCode::FAILURE;
    };
    let exported = match ffi::LINKED {
        true => ", and the exported rewrite and pass",
        false => "; the exported rewrite and pass are not linked",
    };
    println!(
        "running the source, unchanged and with D1 to D5{exported}: seed {}, {} plans",
        options.seed, options.plans
    );
    let start = Instant::now();
    let mut counts = Counts::default();
    for number in 0..options.plans {
        let compared =
            compare_plan(&options, number, &mut counts).and_then(|()| compare_damaged(&options, number, &mut counts));
        if let Err(difference) = compared {
            println!("plan {number}: {difference}");
            return ExitCode::FAILURE;
        }
    }
    print(&counts);
    if let Err(trouble) = counts.rows.print() {
        println!("{trouble}");
        return ExitCode::FAILURE;
    }
    println!("all: {} rewrites of {} plans, {:.1} s", counts.calls, options.plans, start.elapsed().as_secs_f64());
    ExitCode::SUCCESS
}

fn options() -> Option<Options> {
    let mut options = Options { plans: 3000, seed: 1 };
    let mut words = std::env::args().skip(1);
    while let Some(word) = words.next() {
        let number = words.next()?.parse().ok()?;
        match word.as_str() {
            "--plans" => options.plans = number,
            "--seed" => options.seed = number,
            _ => return None,
        }
    }
    Some(options)
}

fn print(counts: &Counts) {
    print_all("plans", &counts.families);
    println!("plans beyond a limit, not rewritten: {}", counts.not_accepted);
    for (sort, NodeCounts { calls, altered, with_rows }) in &counts.nodes {
        println!("rewrites of {sort}: {calls}, altered {altered}, compared with rows {with_rows}");
    }
    print_all("rewrites with number", &counts.numbers);
    println!("flag raised: {}, plan altered, by passes too: {}", counts.flags, counts.altered);
    print_all("unchanged and patched source differ by", &counts.differences);
    print_all("of these the unchanged source changes the rows, by", &counts.rows_changed_by_source);
    print_all("passes with number", &counts.passes);
    println!("passes that were granted and left nodes unvisited: {}", counts.unfinished);
    println!("compared with the exported rewrite: {}, pass: {}", counts.exported, counts.exported_passes);
}

fn print_all<K: Display>(what: &str, counts: &BTreeMap<K, u64>) {
    for (sort, count) in counts {
        println!("{what} {sort}: {count}");
    }
}

/// All rewrites of a plan, and a pass over it.
fn compare_plan(options: &Options, number: u64, counts: &mut Counts) -> Result<(), String> {
    let Case { family, plan } = case(options.seed, number);
    let image = plan.image();
    *counts.families.entry(family).or_default() += 1;
    if check(&image) != Verdict::ACCEPTED {
        counts.not_accepted += 1;
        return Ok(());
    }
    let random = &mut Random::of_case(options.seed ^ u64::MAX, number);
    let before = Rows::of(random, &plan);
    for node in nodes(random, &plan) {
        let named = |difference: String| format!("rewrite at {node}: {difference}\n{}", to_hex(&image));
        let answer = compare_builds(&plan, node, &before, counts).map_err(named)?;
        let made = match &answer {
            Answer::Granted { plan, .. } => Some(plan),
            Answer::Refused(_) => None,
        };
        let expected = handed_back(&answer, room(random, &image, made));
        compare_exported(&image, node, expected, counts).map_err(named)?;
        let (altered, with_rows) = (counts.altered, counts.rows.not_empty);
        if let Some(after) = made {
            compare_plans(&plan, after, &before, counts).map_err(named)?;
        }
        let of_sort = counts.nodes.entry(sort_of(plan.node(node as usize))).or_default();
        of_sort.calls += 1;
        of_sort.altered += counts.altered - altered;
        of_sort.with_rows += counts.rows.not_empty - with_rows;
    }
    compare_pass(random, &plan, &before, counts)
}

/// What a rewrite made is accepted, and has the rows that were there before.
fn compare_plans(plan: &Tree, after: &Tree, before: &Rows, counts: &mut Counts) -> Result<(), String> {
    if after == plan {
        return Ok(());
    }
    counts.altered += 1;
    match check(&after.image()) {
        Verdict::ACCEPTED => before.compare(after, &mut counts.rows),
        refusal => Err(format!("the answer is refused with {refusal}")),
    }
}

fn compare_pass(random: &mut Random, plan: &Tree, before: &Rows, counts: &mut Counts) -> Result<(), String> {
    let (image, budget) = (plan.image(), budget(random, plan));
    let named = |difference: String| format!("pass of {budget}: {difference}\n{}", to_hex(&image));
    let answer = pass_over(Build::Patched(ALL), plan, budget);
    let made = match &answer {
        PassAnswer::Passed { plan, .. } => Some(plan),
        PassAnswer::Refused(_) => None,
    };
    let expected = pass_handed_back(&answer, room(random, &image, made));
    compare_exported_pass(&image, budget, expected, counts).map_err(named)?;
    made.map_or(Ok(()), |after| compare_plans(plan, after, before, counts)).map_err(named)
}

/// The answer of the patched source, if the unchanged one differs from it by D1 to D5 alone.
fn compare_builds(plan: &Tree, node: u32, before: &Rows, counts: &mut Counts) -> Result<Answer, String> {
    let unchanged = rewrite_at(Build::Unchanged, plan, node);
    if rewrite_at(Build::Patched(NONE), plan, node) != unchanged {
        return Err("the patched source differs from the unchanged one with D1 to D5 switched off".to_string());
    }
    let patched = rewrite_at(Build::Patched(ALL), plan, node);
    if patched == unchanged {
        return Ok(patched);
    }
    let which = reason(plan, node, &patched);
    let ground = plan.node(node as usize).map_or(NONE, grounds);
    if (0..5).any(|at| which[at] && !ground[at]) {
        return Err(format!("{} make a difference, without ground", name(which)));
    }
    *counts.differences.entry(name(which)).or_default() += 1;
    if let Answer::Granted { plan: after, .. } = &unchanged {
        if before.compare(after, &mut RowCounts::default()).is_err() {
            *counts.rows_changed_by_source.entry(name(which)).or_default() += 1;
        }
    }
    Ok(patched)
}

/// A Filter by what it stands over, a join by its kind, another plan by its name.
fn sort_of(node: Option<&Tree>) -> String {
    let name = |tree: &Tree| match tree.label.kind {
        JOIN => format!("{} join", JOINS[tree.label.p as usize - 1]),
        kind => PLANS[(kind - SCAN) as usize].to_string(),
    };
    match node {
        Some(filter) if filter.label.kind == FILTER => format!("Filter over {}", name(&filter.children[1])),
        Some(plan) if is_plan(plan.label.kind) => name(plan),
        Some(_) => "a record that is no plan".to_string(),
        None => "an absent record".to_string(),
    }
}

/// The result and every byte of the output.
fn same<R: Debug + PartialEq>(expected: &(R, Vec<u8>), exported: &(R, Vec<u8>)) -> Result<(), String> {
    if expected == exported {
        return Ok(());
    }
    let room = expected.1.len();
    let byte = (0..room).find(|&at| expected.1[at] != exported.1[at]);
    let output = byte.map_or("the same".to_string(), |at| format!("other from byte {at} on"));
    let results = format!("the source gives {:?}, the export {:?}", expected.0, exported.0);
    Err(format!("room {room}: {results}, the output is {output}"))
}

/// What the caller sees must be what the export hands back.
fn compare_exported(
    image: &[u8],
    node: u32,
    expected: (Rewritten, Vec<u8>),
    counts: &mut Counts,
) -> Result<(), String> {
    counts.calls += 1;
    *counts.numbers.entry(expected.0.number).or_default() += 1;
    counts.flags += u64::from(expected.0.flag);
    let room = expected.1.len();
    let Some(exported) = ffi::rewrite(image, node, room) else { return Ok(()) };
    counts.exported += 1;
    same(&expected, &exported)
}

/// The same for a pass.
fn compare_exported_pass(
    image: &[u8],
    budget: u64,
    expected: (Passed, Vec<u8>),
    counts: &mut Counts,
) -> Result<(), String> {
    *counts.passes.entry(expected.0.number).or_default() += 1;
    counts.unfinished += u64::from(expected.0.number == 0 && expected.0.finished == 0);
    let room = expected.1.len();
    let Some(exported) = ffi::pass(image, budget, room) else { return Ok(()) };
    counts.exported_passes += 1;
    same(&expected, &exported)
}

/// A rewrite and a pass of an image that most often is refused.
fn compare_damaged(options: &Options, number: u64, counts: &mut Counts) -> Result<(), String> {
    let image = damage::case(options.seed, number).image;
    let random = &mut Random::of_case(options.seed ^ u64::MAX, number);
    let (node, room) = (random.below(4) as u32, random.below(image.len() + 100));
    let named = |difference: String| format!("damaged image, at {node}: {difference}\n{}", to_hex(&image));
    let expected = rewrite(Build::Patched(ALL), &image, node, room);
    compare_exported(&image, node, expected, counts).map_err(named)?;
    // a pass of as many visits as the node's number
    let budget = u64::from(node);
    let expected = pass(Build::Patched(ALL), &image, budget, room);
    compare_exported_pass(&image, budget, expected, counts).map_err(named)
}
