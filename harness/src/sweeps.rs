//! Small images without chance: every word of every kind at the values where a rule begins or ends, every way to link
//! up to three records, and every short row of children below every kind.

use crate::image::{self, Record, Tree, FIRST};
use crate::kinds::*;

/// A sweep's name and its images.
pub fn sweeps() -> [(&'static str, Vec<Vec<u8>>); 3] {
    [("words", words()), ("links", links()), ("children", children())]
}

/// A node of each kind with its words in range and as few children as it may have.
fn samples() -> Vec<Tree> {
    let table = || scan(1, vec![]);
    let group = || entry(1, 1, integer(1));
    let count = || aggregate_entry(1, 1, COUNT, integer(1));
    let window = || window_entry(1, 1, COUNT, vec![integer(1)]);
    vec![
        column(1, 1),
        integer(1),
        boolean(true),
        null(OF_INTEGER),
        binary(EQ, integer(1), integer(1)),
        and(boolean(true), boolean(true)),
        not(boolean(true)),
        test(1, integer(1)),
        between(false, integer(1), integer(1), integer(1)),
        in_list(false, vec![integer(1), integer(1)]),
        function(1, 0, OF_BOOLEAN, vec![]),
        table(),
        filter(boolean(true), table()),
        over(PROJECTION, vec![group()], table()),
        join(1, vec![table(), table()]),
        alias(1, table()),
        union(vec![table(), table()]),
        distinct(table()),
        sort(None, vec![], table()),
        sort(Some(1), vec![], table()),
        repartition(table()),
        limit(1, 0, table()),
        over(AGGREGATE, vec![count()], table()),
        over(WINDOW, vec![window()], table()),
        field(1, 1, OF_INTEGER, true),
        group(),
        key_pair(integer(1), integer(1)),
        sort_key(false, integer(1)),
        count(),
        window(),
    ]
}

/// A plan in which the node stands where its kind belongs.
fn plan_around(node: Tree) -> Tree {
    let table = || scan(1, vec![]);
    match node.label.kind {
        kind if is_plan(kind) => node,
        kind if is_expr(kind) => filter(node, table()),
        FIELD => scan(1, vec![node]),
        ENTRY => over(PROJECTION, vec![node], table()),
        KEY_PAIR => join(1, vec![table(), table(), node]),
        SORT_KEY => sort(None, vec![node], table()),
        AGGREGATE_ENTRY => over(AGGREGATE, vec![node], table()),
        _ => over(WINDOW, vec![node], table()),
    }
}

fn words() -> Vec<Vec<u8>> {
    let values = (0..=60).chain([255, 256, 257, 1 << 8 | 33, 1 << 16, 1 << 31, u32::MAX - 1, u32::MAX]);
    let values: Vec<u32> = values.collect();
    let mut images = Vec::new();
    for sample in samples() {
        let plan = plan_around(sample.clone());
        let records = plan.records();
        let at = records.iter().position(|record| record.label == sample.label).expect("the sample is in its plan");
        for place in 0..FIRST {
            for &value in &values {
                let mut changed = records.clone();
                let mut words = changed[at].words();
                words[place] = value;
                changed[at] = Record::of_words(words);
                images.push(image::write(&changed));
            }
        }
    }
    images
}

/// All links from 0 to one past the number of records, over one, two and three records.
fn links() -> Vec<Vec<u8>> {
    let mut images = Vec::new();
    for count in 1..=3u32 {
        let values = count + 2;
        for drawn in 0..values.pow(2 * count) {
            let digit = |place: u32| drawn / values.pow(place) % values;
            let label = distinct(scan(1, vec![])).label;
            let record = |at: u32| Record { label, first: digit(2 * at), next: digit(2 * at + 1) };
            images.push(image::write(&(0..count).map(record).collect::<Vec<_>>()));
        }
    }
    images
}

/// Every kind above every row of up to three children, and above every row of four where rows follow each other.
fn children() -> Vec<Vec<u8>> {
    let below = [COLUMN, BOOLEAN, SCAN, FIELD, ENTRY, KEY_PAIR, SORT_KEY, AGGREGATE_ENTRY, WINDOW_ENTRY];
    let samples = samples();
    let sample = |kind: u32| samples.iter().find(|tree| tree.label.kind == kind).expect("each kind has one").clone();
    let below: Vec<Tree> = below.into_iter().map(sample).collect();
    let mut images = Vec::new();
    for parent in &samples {
        let longest = if [SCAN, JOIN, AGGREGATE].contains(&parent.label.kind) { 4 } else { 3 };
        for length in 0..=longest {
            for drawn in 0..below.len().pow(length) {
                let child = |place: u32| below[drawn / below.len().pow(place) % below.len()].clone();
                let node = Tree { label: parent.label, children: (0..length).map(child).collect() };
                images.push(plan_around(node).image());
            }
        }
    }
    images
}

#[cfg(test)]
mod tests {
    use super::*;
    use crate::checker::{check, Verdict};
    use std::collections::BTreeSet;

    fn numbers(images: &[Vec<u8>]) -> BTreeSet<u32> {
        images.iter().map(|image| check(image).number).collect()
    }

    #[test]
    fn every_sample_is_accepted_but_for_the_lone_column() {
        for sample in samples() {
            let kind = sample.label.kind;
            let verdict = check(&plan_around(sample).image());
            match kind {
                COLUMN => assert_eq!(verdict.number, 6),
                INTEGER | NULL => assert_eq!(verdict.number, 7),
                _ => assert_eq!(verdict, Verdict::ACCEPTED, "kind {kind}"),
            }
        }
    }

    #[test]
    fn sweeps_fall_on_both_sides() {
        assert!(numbers(&words()).is_superset(&BTreeSet::from([0, 2, 5, 6, 7])));
        assert_eq!(numbers(&links()), BTreeSet::from([3, 5]));
        assert!(numbers(&children()).is_superset(&BTreeSet::from([0, 5, 6, 7])));
    }
}
