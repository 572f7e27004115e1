//! Measures the exported rewrite and the exported pass, on fixed sets of images, beside the patched
//! source over the stand-ins in the same run. The lines that it prints first say what is counted.
//! Options: the names of sets, for these alone; --count SET N [each|turn|pass], for N exported calls of one set, or N images
//! rewritten in turn, and nothing else.

use harness::ffi;
use harness::image::{read, Tree, RECORD_BYTES};
use harness::kinds::is_plan;
use harness::limits::RECORDS;
use harness::rewriting::{pass_over, PassAnswer};
use harness::sets::{rewrite_sets, sets, Set};
use harness::source::rule::{at_root, built, forget_merges, top_down, tree, LogicalPlan};
use harness::source::{Build, ALL};
use std::hint::black_box;
use std::process::ExitCode;
use std::time::{Duration, Instant};

const COUNTED: &str = "\
each      a rewrite at every plan of every image, microseconds a call
turn      rewrites at all plans of an image in turn, each of what the one before left, microseconds an image
pass      a pass over an image, microseconds an image
exported  the library, from image to image: check, rewrite, the answer's records, zeros to the end of 2,048 records
rule      PushDownFilter::rewrite of the patched source, compiled over the stand-ins, on a LogicalPlan that is built already;
          for turn and pass at the root, then below it, as an optimizer does; building and dropping plans is not counted
whole     image to LogicalPlan, that rule, LogicalPlan to image, zeros to the end of 2,048 records; nothing is checked;
          for turn at every plan, as the library does, and for pass once around the whole
ratios    exported by rule, and exported by whole
";

/// The length of every output.
const ROOM: usize = RECORDS * RECORD_BYTES;

/// A batch is about this long, or one round over the calls: short and many, so that the median is of batches that no other
/// program interrupted. The sides take turns.
const BATCH: Duration = Duration::from_millis(2);
const BATCHES: usize = 41;
/// Where a round is longer than this there are fewer batches.
const LONG: Duration = Duration::from_millis(200);
const LONG_BATCHES: usize = 5;

#[derive(Clone, Copy, PartialEq, Eq)]
enum Job {
    Each,
    Turn,
    Pass,
}

const JOBS: [(&str, Job); 3] = [("each", Job::Each), ("turn", Job::Turn), ("pass", Job::Pass)];

#[derive(Clone, Copy)]
enum Side {
    Exported,
    Rule,
    Whole,
}

const SIDES: [Side; 3] = [Side::Exported, Side::Rule, Side::Whole];

/// An image and the record of a plan in it; for turn and pass that is the root.
type Call<'a> = (&'a [u8], u32);

type Rule = fn(LogicalPlan) -> LogicalPlan;

fn main() -> ExitCode {
    let words: Vec<String> = std::env::args().skip(1).collect();
    let words: Vec<&str> = words.iter().map(String::as_str).collect();
    let done = match words[..] {
        ["--count", set, number] => count(set, number, "each"),
        ["--count", set, number, job] => count(set, number, job),
        _ => compare(&words),
    };
    match done {
        Ok(()) => ExitCode::SUCCESS,
        Err(trouble) => {
            eprintln!("{trouble}");
            ExitCode::FAILURE
        }
    }
}

fn set_of(name: &str) -> Result<Set, String> {
    let mut all = rewrite_sets().into_iter().chain(sets());
    all.find(|set| set.name == name).ok_or(format!("no set {name}"))
}

/// Runs N calls of a job on one set, its images in turn.
fn count(set: &str, number: &str, job: &str) -> Result<(), String> {
    let usage = "usage: bench_rewrite --count SET N [each|turn|pass]";
    let number: usize = number.parse().map_err(|_| usage)?;
    let (_, job) = JOBS.into_iter().find(|(name, _)| *name == job).ok_or(usage)?;
    let images = set_of(set)?.images();
    let mut buffers = [vec![0; ROOM], vec![0; ROOM]];
    for call in calls(job, &images).into_iter().cycle().take(number) {
        black_box(exported(job, black_box(call), &mut buffers));
    }
    Ok(())
}

fn compare(names: &[&str]) -> Result<(), String> {
    let chosen = match names {
        [] => rewrite_sets(),
        _ => names.iter().map(|name| set_of(name)).collect::<Result<Vec<Set>, String>>()?,
    };
    println!("{COUNTED}");
    let titles = ["exported us", "rule us", "ratio", "whole us", "ratio"].map(|title| format!("{title:>12}"));
    println!("{:<26} {:>5} {:>7} {:>7}{}", "set", "job", "records", "calls", titles.concat());
    for set in chosen {
        let mut images = set.images();
        measure(&set.name, Job::Each, &images)?;
        images.retain(|image| is_granted(image));
        measure(&set.name, Job::Turn, &images)?;
        measure(&set.name, Job::Pass, &images)?;
    }
    Ok(())
}

/// Whether all rewrites of a pass stay within the limits: a refused pass hands back no plan.
fn is_granted(image: &[u8]) -> bool {
    matches!(pass_over(Build::Patched(ALL), &plan_of(image), u64::MAX), PassAnswer::Passed { .. })
}

fn measure(set: &str, job: Job, images: &[Vec<u8>]) -> Result<(), String> {
    let (name, _) = JOBS[job as usize];
    let calls = calls(job, images);
    if calls.is_empty() {
        println!("{set:<26} {name:>5}: every pass is refused");
        return Ok(());
    }
    match differences(job, &calls) {
        0 => {}
        differ => return Err(format!("{set}, {name}: {differ} answers of the library are not the source's")),
    }
    let [ours, rule, whole] = medians(job, &calls).map(|seconds| seconds * 1e6 / calls.len() as f64);
    let records = images.iter().map(Vec::len).sum::<usize>() / RECORD_BYTES / images.len();
    print!("{set:<26} {name:>5} {records:>7} {:>7}", calls.len());
    println!("{ours:>12.2}{rule:>12.2}{:>12.2}{whole:>12.2}{:>12.2}", ours / rule, ours / whole);
    Ok(())
}

// The calls

fn plan_of(image: &[u8]) -> Tree {
    Tree::of_records(&read(image))
}

/// Every plan of every image, or the roots alone.
fn calls(job: Job, images: &[Vec<u8>]) -> Vec<Call<'_>> {
    let nodes = |image: &[u8]| match job {
        Job::Each => (0..(image.len() / RECORD_BYTES) as u32).filter(|&at| is_plan_at(image, at)).collect(),
        _ => vec![0],
    };
    images.iter().flat_map(|image| nodes(image).into_iter().map(|node| (&image[..], node))).collect()
}

fn is_plan_at(image: &[u8], at: u32) -> bool {
    let kind = &image[at as usize * RECORD_BYTES..][..4];
    is_plan(u32::from_le_bytes([kind[0], kind[1], kind[2], kind[3]]))
}

/// The library's call. The answer stands in the first buffer; how many records it has, 0 where it is refused.
fn exported(job: Job, (image, node): Call, buffers: &mut [Vec<u8>; 2]) -> usize {
    let records = match job {
        Job::Each => ffi::rewrite_into(image, node, &mut buffers[0]).map(|result| result.records as usize),
        Job::Turn => Some(in_turn(image, buffers, |image, node, output| {
            ffi::rewrite_into(image, node, output).map(|result| result.records as usize).unwrap_or(0)
        })),
        Job::Pass => ffi::pass_into(image, u64::MAX, &mut buffers[0]).map(|result| result.records as usize),
    };
    records.expect("built with the feature library")
}

/// Rewrites at all plans, parents first, each from image to image; a rewrite answers how many records it left, 0 where it is
/// refused. The buffers change places.
fn in_turn(image: &[u8], [now, next]: &mut [Vec<u8>; 2], rewrite: impl Fn(&[u8], u32, &mut [u8]) -> usize) -> usize {
    now[..image.len()].copy_from_slice(image);
    let mut records = image.len() / RECORD_BYTES;
    let mut at = 0;
    while (at as usize) < records {
        if is_plan_at(now, at) {
            let left = rewrite(&now[..records * RECORD_BYTES], at, next);
            if left != 0 {
                std::mem::swap(now, next);
                records = left;
            }
        }
        at += 1;
    }
    records
}

/// The source's call, from image to image. The answer stands in the first buffer.
fn by_the_source(job: Job, call: Call, buffers: &mut [Vec<u8>; 2]) {
    match job {
        Job::Each => there_and_back(at_root, call, &mut buffers[0]),
        Job::Turn => in_turn(call.0, buffers, |image, node, output| there_and_back(at_root, (image, node), output)),
        Job::Pass => there_and_back(top_down, call, &mut buffers[0]),
    };
}

fn rule_of(job: Job) -> Rule {
    match job {
        Job::Each => at_root,
        _ => top_down,
    }
}

/// Image to plan, the rule, and back to an image with zeros after it; how many records it has. One that is too long is cut off,
/// and has none.
fn there_and_back(rule: Rule, (image, node): Call, output: &mut [u8]) -> usize {
    let mut plan = plan_of(image);
    let at = plan.node_mut(node as usize).expect("the node is one of the image");
    *at = tree(&rule(built(at)));
    let image = plan.image();
    let length = image.len().min(output.len());
    output[..length].copy_from_slice(&image[..length]);
    output[length..].fill(0);
    if length < image.len() {
        return 0;
    }
    length / RECORD_BYTES
}

/// How often the library and the source leave different plans, refusals aside.
fn differences(job: Job, calls: &[Call]) -> usize {
    let mut buffers = [vec![0; ROOM], vec![0; ROOM]];
    let mut outputs = buffers.clone();
    let mut differ = 0;
    for call in calls {
        let length = exported(job, *call, &mut buffers) * RECORD_BYTES;
        by_the_source(job, *call, &mut outputs);
        let output = &outputs[0];
        let is_same = buffers[0][..length] == output[..length] && output[length..].iter().all(|byte| *byte == 0);
        differ += usize::from(length > 0 && !is_same);
    }
    forget_merges();
    differ
}

// The time

/// Seconds for a round over the calls, for each side: the medians of batches.
fn medians(job: Job, calls: &[Call]) -> [f64; 3] {
    let nodes: Vec<Tree> = calls.iter().map(|(image, node)| subtree(&plan_of(image), *node)).collect();
    let mut buffers = [vec![0; ROOM], vec![0; ROOM]];
    let mut round = |side: Side| match side {
        Side::Exported => exported_round(job, calls, &mut buffers),
        Side::Rule => rule_round(job, &nodes),
        Side::Whole => whole_round(job, calls, &mut buffers),
    };
    let first = SIDES.map(&mut round);
    let repeats = first.map(|time| 1 + (BATCH.as_nanos() / time.as_nanos().max(1)) as u32);
    let batches = if first.iter().all(|time| *time < LONG) { BATCHES } else { LONG_BATCHES };
    let mut times = [const { Vec::new() }; 3];
    for _ in 0..batches {
        for side in SIDES {
            let repeats = repeats[side as usize];
            let batch: Duration = (0..repeats).map(|_| round(side)).sum();
            times[side as usize].push(batch / repeats);
        }
    }
    times.map(|mut times| {
        times.sort();
        times[batches / 2].as_secs_f64()
    })
}

fn subtree(plan: &Tree, node: u32) -> Tree {
    plan.node(node as usize).expect("the node is one of the image").clone()
}

fn exported_round(job: Job, calls: &[Call], buffers: &mut [Vec<u8>; 2]) -> Duration {
    let start = Instant::now();
    for call in calls {
        black_box(exported(job, black_box(*call), buffers));
    }
    start.elapsed()
}

/// Plans are built before the time begins and dropped after it has ended.
fn rule_round(job: Job, nodes: &[Tree]) -> Duration {
    let plans: Vec<LogicalPlan> = nodes.iter().map(built).collect();
    let start = Instant::now();
    let made: Vec<LogicalPlan> = plans.into_iter().map(rule_of(job)).collect();
    let time = start.elapsed();
    drop(black_box(made));
    forget_merges();
    time
}

fn whole_round(job: Job, calls: &[Call], buffers: &mut [Vec<u8>; 2]) -> Duration {
    let start = Instant::now();
    for call in calls {
        by_the_source(job, black_box(*call), black_box(buffers));
    }
    let time = start.elapsed();
    forget_merges();
    time
}
