//! The Rust crate's own reading of images beside the checker: which images are of a plan, and what is said of those that are refused.

use harness::checker::{check, Verdict};
use harness::damage;
use harness::edges::edges;
use harness::image::Tree;
use harness::random::{accepted, size, Random};
use harness::rewrites;
use harness::sweeps::sweeps;
use push_down_filter::{explain, Names, Plan, Reason, Refusal};

/// All edges and sweeps, and some drawn and damaged images.
fn images() -> impl Iterator<Item = Vec<u8>> {
    let swept = sweeps().into_iter().flat_map(|(_, images)| images);
    let damaged = (0..8_000).map(|number| damage::case(31, number).image);
    edges().into_iter().map(|edge| edge.image).chain(swept).chain(damaged)
}

/// An image is read as a plan unless the checker gives it a number of the tests 1 to 5, which reading gives too, at the same record.
/// What was read is written as it was.
#[test]
fn images_are_read_if_the_tests_1_to_5_pass() {
    let mut counts = [0; 8];
    for image in images() {
        let Verdict { number, record } = check(&image);
        counts[number as usize] += 1;
        match Plan::from_image(&image) {
            Ok(plan) => {
                assert!(matches!(number, 0 | 6 | 7), "{number} at {record} was read");
                assert!(plan.to_image() == image, "{number} at {record} is written otherwise");
            }
            Err(error) => assert_eq!((error.refusal.number(), error.refusal.record), (number, record), "{error}"),
        }
    }
    assert!(counts.iter().all(|count| *count > 100), "too few images of a number: {counts:?}");
}

fn drawn() -> impl Iterator<Item = Tree> {
    let plans = (0..3000).map(|number| {
        let random = &mut Random::of_case(32, number);
        let records = size(random);
        accepted(random, records).plan
    });
    let near_limits = (0..3000).map(|number| rewrites::case(32, number).plan);
    plans.chain(near_limits).filter(|plan| check(&plan.image()) == Verdict::ACCEPTED)
}

#[test]
fn drawn_plans_come_back_from_images_and_texts() {
    let mut count = 0;
    for (number, tree) in drawn().enumerate() {
        count += 1;
        let image = tree.image();
        let plan = Plan::from_image(&image).unwrap_or_else(|error| panic!("case {number}: {error}"));
        assert!(plan.to_image() == image, "case {number}");
        assert_eq!(Plan::from_text(&plan.to_text(&Names::NONE), &Names::NONE), Ok(plan), "case {number}");
    }
    assert!(count > 5000, "{count} plans were accepted");
}

/// The words for a number that stand where nothing better is known.
fn general(refusal: Refusal) -> String {
    format!(": {}", refusal.reason.words())
}

/// Every refusal of the tests 1 to 7 is explained: its record is named, and more is said than what its number means.
#[test]
fn refused_images_are_explained() {
    let mut counts = [0; 8];
    for image in images() {
        let Verdict { number, record } = check(&image);
        if number == 0 {
            continue;
        }
        let refusal = Refusal::new(number, record);
        let line = explain(&image, refusal, &Names::NONE);
        let named = [":", " ("].iter().any(|after| line.starts_with(&format!("record {record}{after}")));
        assert!(named && !line.contains('\n'), "{refusal}\n{line}");
        assert!(!line.ends_with(&general(refusal)), "{refusal}\n{line}");
        counts[number as usize] += 1;
    }
    assert!(counts[1..].iter().all(|count| *count > 100), "too few images of a number: {counts:?}");
}

/// Refusals that are not the image's own, at any record, are told of in peace.
#[test]
fn any_refusal_of_any_image_is_told_of() {
    let random = &mut Random::of_case(33, 0);
    for (place, image) in images().enumerate() {
        // all numbers of some images, some of all
        let numbers = if place % 16 == 0 {
            1..=14
        } else {
            let number = random.within(2, 8) as u32;
            number..=number
        };
        for number in numbers {
            let record = match random.below(8) {
                0 => u32::MAX,
                _ => random.below(image.len() / 32 + 2) as u32,
            };
            let line = explain(&image, Refusal::new(number, record), &Names::NONE);
            assert!(line.starts_with(&format!("record {record}")), "{number} at {record}: {line}");
        }
    }
    let bytes: Vec<u8> = (0..4096).map(|_| random.below(256) as u8).collect();
    for length in 0..bytes.len() {
        explain(&bytes[..length], Refusal { reason: Reason::Type, record: 0 }, &Names::NONE);
        explain(&bytes[..length], Refusal { reason: Reason::Link, record: 1 }, &Names::NONE);
    }
}
