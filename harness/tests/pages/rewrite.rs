//! docs/REWRITE.md: plans before and after a rewrite at the root or a pass, the cases, and row tests.

use super::format::row_tested;
use super::{blocks, number, plan_of, Block, PATCHED, ROOM};
use harness::calls;
use harness::image::{self, Tree, RECORD_BYTES};
use harness::kinds::*;
use harness::meaning::World;
use harness::random::Random;
use harness::rewriting;
use harness::text::{self, Names};
use std::collections::BTreeSet;

fn lines_of(written: &str) -> Vec<String> {
    written.lines().map(|line| line.trim_end().to_string()).filter(|line| !line.is_empty()).collect()
}

/// The columns of lines side by side, each as a text.
fn columns<const N: usize>(lines: &[String]) -> [String; N] {
    let mut columns = [(); N].map(|_| String::new());
    for line in lines {
        for (column, cell) in columns.iter_mut().zip(line.split(" |")) {
            *column += cell.strip_prefix(' ').unwrap_or(cell).trim_end();
            column.push('\n');
        }
    }
    columns
}

/// The plan in an output.
fn answer(output: &[u8], records: u32) -> Tree {
    Tree::of_records(&image::read(&output[..records as usize * RECORD_BYTES]))
}

/// Over drawn tables both plans have the same rows. Of plans with volatile functions nothing is claimed.
fn assert_same_rows(place: &str, before: &Tree, after: &Tree) {
    let is_volatile = |tree: &Tree| tree.label.kind == FUNCTION && tree.label.q % 2 == 1;
    if before.parent_first().iter().any(|(_, tree)| is_volatile(tree)) {
        return;
    }
    for seed in 0..20 {
        let world = World::for_plan(&mut Random::of_seed(seed), before);
        assert_eq!(world.rows(before), world.rows(after), "{place}: rows");
    }
}

/// Compares a plan with what a rewrite at its root makes of it, by the library where it is linked and by the patched source.
fn assert_rewritten(place: &str, before: &str, after: &str, flag: u32) -> Tree {
    let plan = plan_of(place, before);
    for (result, output) in
        [calls::rewrite(&plan.image(), 0, ROOM), rewriting::rewrite(PATCHED, &plan.image(), 0, ROOM)]
    {
        assert_eq!((result.number, result.flag), (0, flag), "{place}: number and flag");
        let made = answer(&output, result.records);
        assert_eq!(lines_of(&text::write(&made, &Names::NONE)), lines_of(after), "{place}");
        assert_same_rows(place, &plan, &made);
    }
    plan
}

/// The first line is `before | after, flag F`.
fn assert_rewrite(block: &Block) -> Tree {
    let (title, lines) = block.lines.split_first().unwrap_or_else(|| panic!("{}: an empty block", block.place));
    let flag = title.rsplit_once("after, flag ").unwrap_or_else(|| panic!("{}: no flag", block.place)).1;
    let [before, after] = columns(&lines.iter().map(|line| format!(" {line}")).collect::<Vec<_>>());
    assert_rewritten(&block.place, &before, &after, number(&block.place, flag))
}

/// How wide the name of a case is, with the blanks behind it.
const CASE: usize = 5;

/// The cases of a block by name; each begins with a line that has its name and its flag.
fn assert_cases(block: &Block) -> Vec<(String, Tree)> {
    let mut cases: Vec<(String, Vec<String>)> = Vec::new();
    for line in block.lines.iter().skip(1) {
        let (name, rest) = line.split_at(CASE);
        if !name.trim().is_empty() {
            cases.push((name.trim().to_string(), Vec::new()));
        }
        cases.last_mut().expect("a case has a name").1.push(format!(" {rest}"));
    }
    let compared = |(name, lines): (String, Vec<String>)| {
        let place = format!("{}: {name}", block.place);
        let [before, after, flag] = columns(&lines);
        let plan = assert_rewritten(&place, &before, &after, number(&place, flag.trim()));
        (name, plan)
    };
    cases.into_iter().map(compared).collect()
}

/// The first line is `before, budget B | after`, the last one the counts.
fn assert_pass(block: &Block) {
    let place = &block.place;
    let [title, lines @ .., counts] = &block.lines[..] else { panic!("{place}: an empty block") };
    let budget = title.split(['|', ' ']).find(|word| word.parse::<u64>().is_ok());
    let budget = number(place, budget.unwrap_or_else(|| panic!("{place}: no budget")));
    let [before, after] = columns(&lines.iter().map(|line| format!(" {line}")).collect::<Vec<_>>());
    let plan = plan_of(place, &before);
    let image = plan.image();
    for (result, output) in [calls::pass(&image, budget, ROOM), rewriting::pass(PATCHED, &image, budget, ROOM)] {
        let answered = format!("visits {} changed {} finished {}", result.visits, result.changed, result.finished);
        assert_eq!((result.number, &answered), (0, counts), "{place}");
        let made = answer(&output, result.records);
        assert_eq!(lines_of(&text::write(&made, &Names::NONE)), lines_of(&after), "{place}");
        assert_same_rows(place, &plan, &made);
    }
}

/// The plan's lines, then a line for each row: `values .. marks ..: TRUTH`.
fn assert_row_tests(block: &Block) {
    let (tests, plan): (Vec<&String>, Vec<&String>) = block.lines.iter().partition(|line| line.starts_with("values"));
    let plan: Vec<String> = plan.into_iter().cloned().collect();
    let image = plan_of(&block.place, &plan.join("\n")).image();
    assert!(!tests.is_empty(), "{}: no rows", block.place);
    for test in tests {
        let (row, stated) = test.split_once(": ").unwrap_or_else(|| panic!("{}: no truth", block.place));
        let row: Vec<&str> = row.split_whitespace().skip(1).collect();
        for answer in row_tested(&block.place, &image, 0, &row) {
            assert_eq!(answer, stated, "{}: {test}", block.place);
        }
    }
}

/// The kind below a Filter, and which join it is.
fn input_kind(plan: &Tree) -> Option<(u32, u32)> {
    let input = plan.children.last().filter(|_| plan.label.kind == FILTER)?;
    Some((input.label.kind, if input.label.kind == JOIN { input.label.p } else { 0 }))
}

#[test]
fn every_plan_becomes_the_one_stated() {
    let (mut inputs, mut cases) = (BTreeSet::new(), BTreeSet::new());
    for block in blocks("REWRITE.md") {
        match block.label.as_str() {
            "rewrite" => inputs.extend(input_kind(&assert_rewrite(&block))),
            "cases" => cases.extend(assert_cases(&block).into_iter().map(|(name, _)| name)),
            "pass" => assert_pass(&block),
            "row_test" => assert_row_tests(&block),
            "text" => {}
            label => panic!("{}: a block of {label}", block.place),
        }
    }
    let stated: BTreeSet<String> = (1..=12).map(|case| format!("K{case}")).collect();
    assert_eq!(cases.intersection(&stated).count(), 12, "docs/REWRITE.md has the cases {cases:?}");
    let joins = (INNER..=RIGHT_ANTI).map(|which| (JOIN, which));
    let all = (SCAN..=WINDOW).filter(|kind| *kind != JOIN).map(|kind| (kind, 0)).chain(joins);
    let missing: Vec<_> = all.filter(|input| !inputs.contains(input)).collect();
    assert!(missing.is_empty(), "docs/REWRITE.md has no Filter over the plans {missing:?} (kind, join)");
}
