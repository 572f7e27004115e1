//! Measures the exported check on fixed sets of images, beside the harness's own checker in the same run.
//! One line for each set: its name, records of an image, microseconds for each check of both, and their ratio.
//! Options: the names of sets, for these alone; --count SET N, for N checks of one set and nothing else.

use harness::checker::{check, Verdict};
use harness::ffi;
use harness::image::RECORD_BYTES;
use harness::sets::sets;
use std::hint::black_box;
use std::process::ExitCode;
use std::time::{Duration, Instant};

/// A batch is about this long, or one round over the set: short and many, so that the median is of batches that no other
/// program interrupted.
const BATCH: Duration = Duration::from_millis(2);
const BATCHES: usize = 41;
/// Sets whose round is longer than this get fewer batches.
const LONG: Duration = Duration::from_millis(200);
const LONG_BATCHES: usize = 5;

type Check = fn(&[u8]) -> Verdict;

fn main() -> ExitCode {
    let words: Vec<String> = std::env::args().skip(1).collect();
    let done = match words.first().map(String::as_str) {
        Some("--count") => count(&words[1..]),
        _ => compare(&words),
    };
    match done {
        Ok(()) => ExitCode::SUCCESS,
        Err(trouble) => {
            eprintln!("{trouble}");
            ExitCode::FAILURE
        }
    }
}

fn exported(image: &[u8]) -> Verdict {
    ffi::check(image).expect("built with the feature library")
}

/// Runs N checks of one set, its images in turn.
fn count(words: &[String]) -> Result<(), String> {
    let usage = "usage: bench_check --count SET N";
    let [name, number] = words else { return Err(usage.into()) };
    let number: usize = number.parse().map_err(|_| usage)?;
    let set = sets().into_iter().find(|set| set.name == *name).ok_or(format!("no set {name}"))?;
    for image in set.images().iter().cycle().take(number) {
        black_box(exported(black_box(image)));
    }
    Ok(())
}

fn compare(names: &[String]) -> Result<(), String> {
    if let Some(unknown) = names.iter().find(|name| sets().iter().all(|set| set.name != **name)) {
        return Err(format!("no set {unknown}"));
    }
    println!("{:<32} {:>8} {:>12} {:>12} {:>8}", "set", "records", "check us", "checker us", "ratio");
    for set in sets().iter().filter(|set| names.is_empty() || names.contains(&set.name)) {
        let (name, images) = (&set.name, set.images());
        accepted_by_both(name, &images)?;
        let records = images.iter().map(Vec::len).sum::<usize>() / RECORD_BYTES / images.len();
        let (ours, theirs) = (microseconds(&images, exported), microseconds(&images, check));
        println!("{name:<32} {records:>8} {ours:>12.2} {theirs:>12.2} {:>8.2}", ours / theirs);
    }
    Ok(())
}

fn accepted_by_both(name: &str, images: &[Vec<u8>]) -> Result<(), String> {
    for image in images {
        let verdicts = (exported(image), check(image));
        if verdicts != (Verdict::ACCEPTED, Verdict::ACCEPTED) {
            return Err(format!("{name}: exported check {}, checker {}", verdicts.0, verdicts.1));
        }
    }
    Ok(())
}

/// The time for each check: the median of batches.
fn microseconds(images: &[Vec<u8>], check: Check) -> f64 {
    let round = batch(images, check, 1);
    let rounds = 1 + (BATCH.as_nanos() / round.as_nanos().max(1)) as usize;
    let batches = if round < LONG { BATCHES } else { LONG_BATCHES };
    let mut times: Vec<Duration> = (0..batches).map(|_| batch(images, check, rounds)).collect();
    times.sort();
    times[batches / 2].as_secs_f64() * 1e6 / (rounds * images.len()) as f64
}

fn batch(images: &[Vec<u8>], check: Check, rounds: usize) -> Duration {
    let start = Instant::now();
    for _ in 0..rounds {
        for image in images {
            black_box(check(black_box(image)));
        }
    }
    start.elapsed()
}
