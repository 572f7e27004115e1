//! Runs edges, sweeps, random and damaged images through the harness's checker and, with the feature `library`, through the
//! exported check, and compares number and record. Options: --cases N --seed S.

use harness::checker::{check, Verdict};
use harness::damage::{case, Case};
use harness::edges::edges;
use harness::ffi;
use harness::image::to_hex;
use harness::sweeps::sweeps;
use std::process::ExitCode;
use std::time::Instant;

struct Options {
    cases: u64,
    seed: u64,
}

fn main() -> ExitCode {
    let Some(options) = options() else {
        eprintln!("usage: check_images [--cases N] [--seed S]");
        return ExitCode::FAILURE;
    };
    let compared = match ffi::LINKED {
        true => "the checker and the exported check",
        false => "the checker alone (built without the feature library)",
    };
    println!("running {compared}: seed {}, {} images", options.seed, options.cases);
    match edges_agree().and_then(|()| sweeps_agree()).and_then(|()| cases_agree(&options)) {
        Ok(()) => ExitCode::SUCCESS,
        Err(difference) => {
            println!("{difference}");
            ExitCode::FAILURE
        }
    }
}

fn options() -> Option<Options> {
    let mut options = Options { cases: 100_000, seed: 1 };
    let mut words = std::env::args().skip(1);
    while let Some(word) = words.next() {
        let number = words.next()?.parse().ok()?;
        match word.as_str() {
            "--cases" => options.cases = number,
            "--seed" => options.seed = number,
            _ => return None,
        }
    }
    Some(options)
}

/// Both checks must give the verdict that is written beside each edge.
fn edges_agree() -> Result<(), String> {
    let edges = edges();
    for edge in &edges {
        let verdict = compared(&edge.name, &edge.image)?;
        if verdict != edge.verdict {
            return Err(format!("edge {}: expected {}, got {verdict}", edge.name, edge.verdict));
        }
    }
    println!("edges: {} as expected", edges.len());
    Ok(())
}

fn sweeps_agree() -> Result<(), String> {
    for (name, images) in sweeps() {
        let mut counts = [0u64; 8];
        for image in &images {
            counts[compared(name, image)?.number as usize] += 1;
        }
        println!("sweep of {name}: {} images, by number {counts:?}", images.len());
    }
    Ok(())
}

fn cases_agree(options: &Options) -> Result<(), String> {
    let start = Instant::now();
    let mut counts = [0u64; 8];
    let mut bytes = 0;
    for number in 0..options.cases {
        let Case { family, image } = case(options.seed, number);
        let verdict = compared(&format!("case {number} ({family})"), &image)?;
        counts[verdict.number as usize] += 1;
        bytes += image.len();
    }
    for (number, count) in counts.iter().enumerate() {
        println!("number {number}: {count} images");
    }
    let seconds = start.elapsed().as_secs_f64();
    println!("all: {} images, {bytes} bytes, 0 differ, {seconds:.1} s", options.cases);
    Ok(())
}

/// The verdict, if both checks give the same.
fn compared(name: &str, image: &[u8]) -> Result<Verdict, String> {
    let verdict = check(image);
    match ffi::check(image) {
        Some(other) if other != verdict => Err(format!(
            "{name} differs: checker {verdict}, exported check {other}, image of {} bytes:\n{}",
            image.len(),
            to_hex(image)
        )),
        _ => Ok(verdict),
    }
}
