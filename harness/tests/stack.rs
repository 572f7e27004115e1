//! The stack that a call needs, which no proof covers: the hardest images known here, checked, rewritten at the first of their plans,
//! passed over and tried on a row, each call in a thread that has no more stack than include/push_down_filter.h says is enough. A call
//! that needs more ends the whole test by a signal: its frames of over a page touch every page of theirs.
//!
//! `cargo test --release --features library --test stack -- --ignored --nocapture` finds the least that is enough for each call.
#![cfg(feature = "library")]

use std::env;
use std::process::{Command, Stdio};
use std::sync::Arc;
use std::thread;

use harness::edges::edges;
use harness::ffi;
use harness::image::{read, write, Record, Tree, RECORD_BYTES};
use harness::kinds::{alias, and, boolean, filter, is_plan, join, not, scan, union};
use harness::limits::{DEPTH, RECORDS};
use harness::rewrites;
use harness::row_tests;
use harness::sets::{rewrite_sets, sets};

/// What the header says is enough, in KiB.
const ENOUGH: [(&str, usize); 4] = [("check", 640), ("rewrite", 704), ("pass", 768), ("row_test", 640)];

/// A byte less than the longest image has, which makes a call use a buffer of its own.
const ROOM: usize = RECORDS * RECORD_BYTES - 1;

/// Records that hang on each other by one link alone, as many as an image may have: links are read to any depth and length.
fn chained(link: fn(&mut Record, u32)) -> Vec<u8> {
    let mut records = vec![Record::of_words([6, 0, 0, 0, 0, 0, 0, 0]); RECORDS];
    for (at, record) in records.iter_mut().enumerate().take(RECORDS - 1).skip(1) {
        link(record, at as u32 + 1);
    }
    records[0] = Record::of_words([32, 1, 0, 0, 0, 0, 1, 0]);
    write(&records)
}

/// As many Filters as an image may have, one over the other, over each plan: each is merged into the next, one call inside the other, and
/// the arm is called inside all of them.
fn stacked_filters() -> Vec<Vec<u8>> {
    let inputs = || vec![scan(1, vec![]), scan(1, vec![])];
    let stack = |bottom, height| (0..height).fold(bottom, |input, _| filter(boolean(true), input)).image();
    let deep = |input: Tree| stack(input, DEPTH - 2);
    vec![
        stack(scan(1, vec![]), DEPTH - 1),
        deep(join(1, inputs())),
        deep(union(inputs())),
        deep(alias(1, scan(1, vec![]))),
    ]
}

/// A Filter whose predicate is as deep as an image may be: one step of the evaluation inside the other.
fn deep_predicates() -> Vec<Vec<u8>> {
    let deep = |step: fn(Tree) -> Tree| {
        let predicate = (0..DEPTH - 2).fold(boolean(true), |operand, _| step(operand));
        filter(predicate, scan(1, vec![])).image()
    };
    vec![deep(not), deep(|operand| and(boolean(true), operand)), deep(|operand| and(operand, boolean(true)))]
}

fn images() -> Vec<Vec<u8>> {
    let mut images = vec![chained(|record, to| record.first = to), chained(|record, to| record.next = to)];
    images.extend(stacked_filters());
    images.extend(deep_predicates());
    images.extend(edges().into_iter().map(|edge| edge.image));
    images.extend(sets().iter().chain(&rewrite_sets()).flat_map(|set| set.images()));
    images.extend((0..200).map(|case| rewrites::case(9, case).plan.image()));
    images
}

fn rewrite_all(images: &[Vec<u8>]) {
    let mut out = vec![0; ROOM];
    for image in images {
        let records = read(image);
        let plans = records.iter().enumerate().filter(|(_, record)| is_plan(record.label.kind));
        for (at, _) in plans.take(40) {
            ffi::rewrite_into(image, at as u32, &mut out);
        }
    }
}

fn pass_all(images: &[Vec<u8>]) {
    let mut out = vec![0; ROOM];
    for image in images {
        ffi::pass_into(image, u64::MAX, &mut out);
    }
}

/// Rows as they are drawn, and all images with no row, of which those with a Filter over no fields are granted.
fn test_all(images: &[Vec<u8>]) {
    for image in images {
        ffi::row_test(image, 0, &[], &[]);
    }
    for case in 0..2000 {
        let call = row_tests::call(9, case);
        ffi::row_test(&call.image, call.node, &call.values, &call.marks);
    }
}

fn call_all(call: &str, images: &[Vec<u8>]) {
    match call {
        "check" => images.iter().for_each(|image| assert!(ffi::check(image).is_some())),
        "rewrite" => rewrite_all(images),
        "pass" => pass_all(images),
        "row_test" => test_all(images),
        _ => panic!("there is no call {call}"),
    }
}

fn call_in_thread(call: &'static str, kib: usize, images: &Arc<Vec<Vec<u8>>>) {
    let images = Arc::clone(images);
    let calls = thread::Builder::new().stack_size(kib << 10).spawn(move || call_all(call, &images));
    calls.expect("a thread").join().expect("no call panics");
}

#[test]
fn calls_need_no_more_stack_than_the_header_says() {
    let images = Arc::new(images());
    for (call, kib) in ENOUGH {
        call_in_thread(call, kib, &images);
    }
}

/// One call in one size, in a process of its own: run by the test below.
#[test]
#[ignore]
fn tried() {
    let (call, kib) = (env::var("STACK_CALL"), env::var("STACK_KIB"));
    let (Ok(call), Ok(kib)) = (call, kib) else { return };
    let (call, _) = ENOUGH.into_iter().find(|(name, _)| *name == call).expect("STACK_CALL is a call");
    call_in_thread(call, kib.parse().expect("STACK_KIB is a number"), &Arc::new(images()));
}

fn is_enough(call: &str, kib: usize) -> bool {
    let mut child = Command::new(env::current_exe().expect("this program"));
    child.args(["--ignored", "--exact", "tried"]).env("STACK_CALL", call).env("STACK_KIB", kib.to_string());
    let status = child.stdout(Stdio::null()).stderr(Stdio::null()).status();
    status.expect("this program runs").success()
}

#[test]
#[ignore]
fn least() {
    const STEP: usize = 4;
    for (call, enough) in ENOUGH {
        let (mut not, mut is) = (0, enough / STEP);
        assert!(is_enough(call, enough), "{call} needs more than {enough} KiB");
        while not + 1 < is {
            let middle = (not + is) / 2;
            if is_enough(call, STEP * middle) {
                is = middle;
            } else {
                not = middle;
            }
        }
        println!("{call}: {} KiB are enough, {} KiB are not", STEP * is, STEP * not);
    }
}
