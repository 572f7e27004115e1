//! Runs row tests of random plans and rows, some of them damaged or wrong, through the exported function and compares
//! number, record and truth with those that docs/FORMAT.md and MEANING.md settle. Options: --cases N --seed S. Stops at the first
//! difference, prints the call, and exits non-zero.

use harness::ffi;
use harness::image::to_hex;
use harness::row_tests::{call, row_test, Call, Tested};
use std::collections::BTreeMap;
use std::process::ExitCode;
use std::time::Instant;

struct Options {
    cases: u64,
    seed: u64,
}

/// What ran, by sort.
#[derive(Default)]
struct Counts {
    families: BTreeMap<&'static str, u64>,
    numbers: [u64; 11],
    truths: [u64; 3],
    compared: u64,
}

fn main() -> ExitCode {
    let Some(options) = options() else {
        eprintln!("usage: row_tests [--cases N] [--seed S]");
        return ExitCode::FAILURE;
    };
    let compared = match ffi::LINKED {
        true => "the exported row test beside the harness's own",
        false => "the harness's own row test alone (built without the feature library)",
    };
    println!("running {compared}: seed {}, {} calls", options.seed, options.cases);
    let start = Instant::now();
    let mut counts = Counts::default();
    for number in 0..options.cases {
        if let Err(difference) = compare(&call(options.seed, number), &mut counts) {
            println!("call {number} {difference}");
            return ExitCode::FAILURE;
        }
    }
    print(&counts);
    let seconds = start.elapsed().as_secs_f64();
    match counts.compared {
        0 => println!("all: {} calls, nothing was compared, {seconds:.1} s", options.cases),
        compared => println!("all: {} calls, {compared} compared, 0 differ, {seconds:.1} s", options.cases),
    }
    ExitCode::SUCCESS
}

fn options() -> Option<Options> {
    let mut options = Options { cases: 100_000, seed: 1 };
    let mut words = std::env::args().skip(1);
    while let Some(word) = words.next() {
        let number = words.next()?.parse().ok()?;
        match word.as_str() {
            "--cases" => options.cases = number,
            "--seed" => options.seed = number,
            _ => return None,
        }
    }
    Some(options)
}

fn print(counts: &Counts) {
    for (family, count) in &counts.families {
        println!("at {family}: {count} calls");
    }
    for (number, count) in counts.numbers.iter().enumerate() {
        println!("number {number}: {count} calls");
    }
    let [no, yes, unknown] = counts.truths;
    println!("of number 0: FALSE {no}, TRUE {yes}, UNKNOWN {unknown}");
}

fn compare(call: &Call, counts: &mut Counts) -> Result<(), String> {
    let Call { family, image, node, values, marks } = call;
    let expected = row_test(image, *node, values, marks);
    match ffi::row_test(image, *node, values, marks) {
        Some(exported) if exported != expected => return Err(difference(call, expected, exported)),
        Some(_) => counts.compared += 1,
        None => {}
    }
    *counts.families.entry(family).or_default() += 1;
    counts.numbers[expected.number as usize] += 1;
    if expected.number == 0 {
        counts.truths[expected.truth as usize] += 1;
    }
    Ok(())
}

fn difference(call: &Call, expected: Tested, exported: Tested) -> String {
    let Call { family, image, node, values, marks } = call;
    format!(
        "(at {family}) differs: expected {expected}, exported {exported}, node {node}, values {values:?}, marks {marks:?}, \
         image of {} bytes:\n{}",
        image.len(),
        to_hex(image)
    )
}
