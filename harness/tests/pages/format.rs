//! docs/FORMAT.md: images and calls with their answers, and the tables of kinds and numbers.

use super::{blocks, number, page, Block, PATCHED, ROOM};
use harness::calls;
use harness::checker::{check, Verdict};
use harness::ffi;
use harness::image::{self, Tree, RECORD_BYTES};
use harness::kinds::*;
use harness::rewriting::{self, Passed, Rewritten};
use harness::row_tests::{row_test, Tested};
use harness::text::{self, Names};
use std::collections::BTreeSet;

/// The bytes of the records of an image block, and its calls with their answers.
fn image_of(block: &Block) -> (Vec<u8>, Vec<(&str, &str)>) {
    let (mut bytes, mut calls) = (Vec::new(), Vec::new());
    for line in &block.lines {
        let without_comment = line.split(';').next().unwrap_or("");
        match without_comment.split_once(": ") {
            Some(call) => calls.push(call),
            None => bytes.extend(records(&block.place, without_comment, (bytes.len() / RECORD_BYTES) as u32)),
        }
    }
    assert!(!calls.is_empty(), "{}: an image without a call", block.place);
    (bytes, calls)
}

/// The bytes of a line, whose first record has the number.
fn records(place: &str, line: &str, first: u32) -> Vec<u8> {
    let (words, times) = line.split_once(" x ").map_or((line, 1), |(words, x)| (words, number(place, x.trim())));
    let word = |word: &str, n: u32| match word {
        "n" => n,
        "n+1" => n + 1,
        _ => number(place, word),
    };
    let record = |n: u32| words.split_whitespace().map(move |w| word(w, n)).flat_map(u32::to_le_bytes);
    (first..first + times).flat_map(record).collect()
}

/// What the harness answers to a call, and the library where it is linked.
fn answers(place: &str, image: &[u8], call: &str) -> Vec<String> {
    let words: Vec<&str> = call.split_whitespace().collect();
    match words[..] {
        ["check"] => [Some(check(image)), ffi::check(image)].into_iter().flatten().map(spelled).collect(),
        ["rewrite", "node", node, "room", room] => {
            let (node, room) = (number(place, node), number(place, room));
            let both = [Some(rewriting::rewrite(PATCHED, image, node, room)), ffi::rewrite(image, node, room)];
            both.into_iter().flatten().map(|(result, output)| rewritten(result, &output)).collect()
        }
        ["pass", "budget", budget, "room", room] => {
            let (budget, room) = (number(place, budget), number(place, room));
            let both = [Some(rewriting::pass(PATCHED, image, budget, room)), ffi::pass(image, budget, room)];
            both.into_iter().flatten().map(|(result, output)| passed(result, &output)).collect()
        }
        ["row_test", "node", node, "values", ref row @ ..] => row_tested(place, image, number(place, node), row),
        _ => panic!("{place}: {call} is no call"),
    }
}

/// The row is values, the word `marks`, marks.
pub fn row_tested(place: &str, image: &[u8], node: u32, row: &[&str]) -> Vec<String> {
    let at = row.iter().position(|word| *word == "marks").unwrap_or_else(|| panic!("{place}: no marks"));
    let values: Vec<i64> = row[..at].iter().map(|word| number(place, word)).collect();
    let marks: Vec<u8> = row[at + 1..].iter().map(|word| number(place, word)).collect();
    let both = [Some(row_test(image, node, &values, &marks)), ffi::row_test(image, node, &values, &marks)];
    both.into_iter().flatten().map(tested).collect()
}

fn spelled(verdict: Verdict) -> String {
    match verdict {
        Verdict::ACCEPTED => "accepted".to_string(),
        refusal => refusal.to_string(),
    }
}

fn tested(Tested { number, record, truth }: Tested) -> String {
    match number {
        0 => Tested { number, record, truth }.to_string(),
        _ => {
            assert_eq!(truth, 0, "the truth of a refusal");
            Verdict { number, record }.to_string()
        }
    }
}

fn rewritten(Rewritten { number, record, flag, records }: Rewritten, output: &[u8]) -> String {
    assert_output(number, records, output);
    match number {
        0 => format!("flag {flag}, records {records}"),
        _ => {
            assert_eq!((flag, records), (0, 0), "the fields of a refusal");
            Verdict { number, record }.to_string()
        }
    }
}

fn passed(result: Passed, output: &[u8]) -> String {
    let Passed { number, record, visits, changed, finished, records } = result;
    assert_output(number, records, output);
    match number {
        0 => format!("visits {visits}, changed {changed}, finished {finished}, records {records}"),
        _ => {
            assert_eq!((visits, changed, finished, records), (0, 0, 0, 0), "the fields of a refusal");
            Verdict { number, record }.to_string()
        }
    }
}

/// An accepted image, then zeros; zeros alone where the call is refused.
fn assert_output(number: u32, records: u32, output: &[u8]) {
    let (answer, zeros) = output.split_at(records as usize * RECORD_BYTES);
    assert!(zeros.iter().all(|byte| *byte == 0), "the end of an output");
    assert!(number != 0 || check(answer) == Verdict::ACCEPTED, "an answer that is not accepted");
}

#[test]
fn every_call_gets_the_answer_stated() {
    let (mut last_plan, mut last_image, mut met) = (None, Vec::new(), BTreeSet::new());
    for block in blocks("FORMAT.md") {
        match block.label.as_str() {
            "plan" => last_plan = Some(block.plan()),
            "image" => {
                let (image, calls) = image_of(&block);
                if let Some(plan) = last_plan.take() {
                    assert_eq!(image::read(&image), plan.records(), "{}: the image of the plan", block.place);
                }
                for (call, stated) in calls {
                    for answer in answers(&block.place, &image, call) {
                        assert_eq!(answer, stated, "{}: {call}", block.place);
                    }
                    met.insert(stated.split(" at ").next().unwrap_or("").to_string());
                }
                last_image = image;
            }
            "bytes" => assert_eq!(image::to_hex(&last_image), block.text().replace([' ', '\n'], ""), "{}", block.place),
            "listing" => assert_eq!(listing(&plan_image()), block.lines, "{}", block.place),
            "text" => {}
            label => panic!("{}: a block of {label}", block.place),
        }
    }
    let missing: Vec<String> = (1..=12).map(|n| n.to_string()).filter(|n| !met.contains(n)).collect();
    assert!(missing.is_empty(), "docs/FORMAT.md has no image for the numbers {missing:?}");
}

/// The image of the page's first plan.
fn plan_image() -> Vec<u8> {
    let first = blocks("FORMAT.md").into_iter().find(|block| block.label == "plan");
    first.expect("the page has a plan").plan().image()
}

/// What the lister prints.
fn listing(image: &[u8]) -> Vec<String> {
    let (result, output) = calls::pass(image, 10_000, ROOM);
    let plan = Tree::of_records(&image::read(&output[..result.records as usize * RECORD_BYTES]));
    let line = |(level, tree): (usize, &Tree)| {
        let image::Label { kind, p, q, r, lo, hi } = tree.label;
        format!("{level} {kind} {p} {q} {r} {lo} {hi}")
    };
    let counts = format!("visits {} changed {} finished {}", result.visits, result.changed, result.finished);
    plan.parent_first().into_iter().map(line).chain([counts]).collect()
}

// FORMAT: the tables of kinds

/// Whether a cell of the tables of kinds lets a word pass, and the least that it does.
fn allows(cell: &str, p: u32, word: u32) -> bool {
    match cell.split_once(" to ") {
        Some((low, high)) => (number::<u32>(cell, low)..=number(cell, high)).contains(&word),
        None if cell == "any" || cell == "any if p is 1, else 0" && p == 1 => true,
        None if cell == "from 1" => word >= 1,
        None => {
            assert!(cell == "0" || cell.starts_with("any if"), "{cell} says nothing of a word");
            word == 0
        }
    }
}

/// Every word of every kind, at the ends of its range and beside them, with every word p: test 2 is met just where the table says.
#[test]
fn the_tables_of_kinds_say_what_test_2_lets_pass() {
    let words = [0, 1, 2, 3, 4, 8, 9, u32::MAX];
    let mut kinds = BTreeSet::new();
    for line in page("FORMAT.md").lines().filter(|line| line.starts_with("| ")) {
        let cells: Vec<&str> = line.trim_matches('|').split('|').map(str::trim).collect();
        let (Ok(kind), [_, _, cells @ .., _]) = (cells[0].parse::<u32>(), &cells[..]) else { continue };
        assert_eq!(cells.len(), 5, "kind {kind}: the words p to hi");
        kinds.insert(kind);
        for (p, place, word) in words.iter().flat_map(|p| (0..5).flat_map(move |at| words.map(|word| (*p, at, word)))) {
            let mut record: Vec<u32> = cells.iter().map(|cell| u32::from(!allows(cell, p, 0))).collect();
            record[0] = p;
            record[place] = word;
            let allowed = cells.iter().zip(&record).all(|(cell, word)| allows(cell, record[0], *word));
            let image: Vec<u8> =
                [&[kind], &record[..], &[0, 0]].concat().into_iter().flat_map(u32::to_le_bytes).collect();
            for verdict in [Some(check(&image)), ffi::check(&image)].into_iter().flatten() {
                assert_eq!(verdict.number != 2, allowed, "kind {kind} with {record:?}");
            }
        }
    }
    let all: BTreeSet<u32> = (COLUMN..=FUNCTION).chain(SCAN..=WINDOW).chain(FIELD..=WINDOW_ENTRY).collect();
    assert_eq!(kinds, all, "the kinds in the tables of docs/FORMAT.md");
}

/// How the text form writes what the page names.
fn as_text(name: &str) -> String {
    let of_sign = [("Eq", "="), ("NotEq", "!="), ("Lt", "<"), ("LtEq", "<="), ("Gt", ">"), ("GtEq", ">=")];
    let of_word = [("And", "AND"), ("Or", "OR"), ("integer", "int"), ("boolean", "bool")];
    let found = of_sign.into_iter().chain(of_word).find(|(named, _)| *named == name).map(|(_, text)| text.to_string());
    let spaced = |c: char| if c.is_uppercase() { format!(" {c}") } else { c.to_uppercase().to_string() };
    match name.starts_with("Is") {
        true => name.chars().map(spaced).collect::<String>().trim().to_string(),
        false => found.unwrap_or_else(|| name.to_string()),
    }
}

/// The table of numbers in words: each name stands in the column of its number, as the text form has it.
#[test]
fn the_numbers_in_words_are_those_of_the_text_form() {
    let table = || scan(1, vec![]);
    let yes = || boolean(true);
    let written = |title: &str, n: u32, name: &str| match title {
        "operator" => (filter(binary(n, yes(), yes()), table()), format!("Filter TRUE {name} TRUE")),
        "test" => (filter(test(n, yes()), table()), format!("Filter TRUE {name}")),
        "join" => (join(n, vec![table(), table()]), format!("Join {name}")),
        "aggregate" => {
            let entry = aggregate_entry(0, 1, n, yes());
            (over(AGGREGATE, vec![entry], table()), format!("Aggregate entries [c1 := {name}(TRUE)]"))
        }
        _ => (filter(null(n), table()), format!("Filter NULL:{name}")),
    };
    let titles = ["operator", "test", "join", "aggregate", "type"];
    let mut count = 0;
    for line in page("FORMAT.md").lines().skip_while(|line| *line != "### Numbers in words").take(12) {
        let cells: Vec<&str> = line.trim_matches('|').split('|').map(str::trim).collect();
        let Some(title) = titles.iter().find(|title| cells[0].starts_with(**title)) else { continue };
        for (n, name) in (1..).zip(&cells[1..]).filter(|(_, name)| !name.is_empty()) {
            let (plan, stated) = written(title, n, &as_text(name));
            assert_eq!(text::write(&plan, &Names::NONE).lines().next(), Some(stated.as_str()), "{title} {n}");
            count += 1;
        }
    }
    assert_eq!(count, 8 + 8 + 8 + 3 + 2, "the numbers in the table");
}
