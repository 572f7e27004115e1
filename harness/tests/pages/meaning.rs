//! docs/MEANING.md: plans with their rows, expressions with their values.

use super::{blocks, number, Block};
use harness::ffi;
use harness::image::Tree;
use harness::kinds::*;
use harness::meaning::{value_on, Row, Value, World};
use harness::row_tests::{types, Tested, FALSE, TRUE, UNKNOWN};
use harness::text::{self, Names};
use std::collections::{BTreeMap, BTreeSet};

fn value(place: &str, word: &str) -> Value {
    match word {
        "NULL" | "UNKNOWN" => Value::Null,
        "TRUE" => Value::Truth(true),
        "FALSE" => Value::Truth(false),
        _ => Value::Integer(number(place, word)),
    }
}

fn row(place: &str, line: &str) -> Row {
    line.split_whitespace().map(|word| value(place, word)).collect()
}

/// One row a line; `no rows` for none.
fn rows(place: &str, lines: &[String]) -> Vec<Row> {
    lines.iter().filter(|line| *line != "no rows").map(|line| row(place, line)).collect()
}

fn tables(block: &Block) -> BTreeMap<u32, Vec<Row>> {
    let mut tables: BTreeMap<u32, Vec<Row>> = BTreeMap::new();
    let mut current = 0;
    for line in &block.lines {
        match line.strip_prefix("table ") {
            Some(table) => {
                current = number(&block.place, table);
                tables.insert(current, Vec::new());
            }
            None => tables.entry(current).or_default().extend(rows(&block.place, std::slice::from_ref(line))),
        }
    }
    tables
}

/// Every row of a scanned table has a value of the field's type, or NULL, for each field.
fn assert_fit(place: &str, plan: &Tree, tables: &BTreeMap<u32, Vec<Row>>) {
    let fits = |(of, value): (&u32, &Value)| match value {
        Value::Null => true,
        Value::Integer(_) => *of == OF_INTEGER,
        Value::Truth(_) => *of == OF_BOOLEAN,
    };
    for (_, scan) in plan.parent_first().into_iter().filter(|(_, tree)| tree.label.kind == SCAN) {
        let fields = types(scan);
        for row in tables.get(&scan.label.p).unwrap_or_else(|| panic!("{place}: no table {}", scan.label.p)) {
            assert!(row.len() == fields.len() && fields.iter().zip(row).all(fits), "{place}: {row:?} does not fit");
        }
    }
}

/// `EXPR -> VALUE`, with no columns; by the exported row test too, where it is linked.
fn assert_value(place: &str, item: &str) {
    let (expr, stated) = item.split_once("->").unwrap_or_else(|| panic!("{place}: {item} has no value"));
    let scan = scan(1, vec![]);
    let read = text::read(&format!("Filter {expr}\n  TableScan 1 []"), &Names::NONE)
        .unwrap_or_else(|e| panic!("{place}: {expr}: {e}"));
    let stated = value(place, stated.trim());
    assert_eq!(value_on(&read.plan.children[0], &scan, &[]), stated, "{place}: {expr}");
    if let Some(tested) = ffi::row_test(&read.plan.image(), 0, &[], &[]) {
        let truth = match stated {
            Value::Truth(false) => FALSE,
            Value::Truth(true) => TRUE,
            _ => UNKNOWN,
        };
        assert_eq!(tested, Tested { number: 0, record: 0, truth }, "{place}: {expr}");
    }
}

#[test]
fn every_plan_has_the_rows_stated() {
    let mut given = BTreeMap::new();
    let (mut plan, mut met, mut joins) = (None, BTreeSet::new(), BTreeSet::new());
    for block in blocks("MEANING.md") {
        match block.label.as_str() {
            "tables" => given = tables(&block),
            "values" => {
                block.lines.iter().flat_map(|line| line.split('|')).for_each(|item| assert_value(&block.place, item))
            }
            "plan" => plan = Some(block.plan()),
            "rows" => {
                let plan = plan.take().unwrap_or_else(|| panic!("{}: rows of no plan", block.place));
                assert_fit(&block.place, &plan, &given);
                let stated = rows(&block.place, &block.lines);
                assert_eq!(World::of_tables(given.clone()).rows(&plan), Some(stated), "{}", block.place);
                met.insert(plan.label.kind);
                joins.extend((plan.label.kind == JOIN).then_some(plan.label.p));
            }
            "text" => {}
            label => panic!("{}: a block of {label}", block.place),
        }
        assert!(plan.is_none() || block.label == "plan", "{}: behind a plan stand its rows", block.place);
    }
    assert_eq!(met, (SCAN..=WINDOW).collect(), "the kinds of plans with rows in docs/MEANING.md");
    assert_eq!(joins, (INNER..=RIGHT_ANTI).collect(), "the joins with rows in docs/MEANING.md");
}
