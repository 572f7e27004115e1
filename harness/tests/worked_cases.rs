//! The worked cases K1 to K12 (docs/REWRITE.md), answered by the patched source; what the unchanged source makes of the smallest input of each
//! difference; and the refusals of a call.

use harness::image::{Tree, RECORD_BYTES};
use harness::kinds::*;
use harness::rewriting::{pass, pass_over, rewrite, rewrite_at, Answer, PassAnswer, Passed, Rewritten};
use harness::source::{Build, ALL};

const PATCHED: Build = Build::Patched(ALL);

fn c() -> Tree {
    column(1, 1)
}

/// A scan with integer fields 1 and 2 under the qualifier, none of them marked.
fn table(qualifier: u32) -> Tree {
    scan(qualifier, (1..=2).map(|name| field(qualifier, name, OF_INTEGER, false)).collect())
}

fn compared(operator: u32, left: Tree, value: i64) -> Tree {
    binary(operator, left, integer(value))
}

fn flipped(operator: u32, value: i64, right: Tree) -> Tree {
    binary(operator, integer(value), right)
}

fn granted(flag: bool, plan: Tree) -> Answer {
    Answer::Granted { flag, plan }
}

/// A Filter over a scan that takes nothing becomes a Filter with another predicate, flag no.
fn simplifies(build: Build, predicate: Tree, simplified: Tree) {
    let answer = rewrite_at(build, &filter(predicate, table(1)), 0);
    assert_eq!(answer, granted(false, filter(simplified, table(1))));
}

#[test]
fn k1_to_k6_simplify_and_reorder() {
    simplifies(PATCHED, and(compared(GT, c(), 3), compared(GT_EQ, c(), 7)), compared(GT_EQ, c(), 7));
    simplifies(PATCHED, and(compared(GT_EQ, c(), 5), flipped(LT, 5, c())), flipped(LT, 5, c()));
    simplifies(PATCHED, and(compared(EQ, c(), 5), flipped(EQ, 5, c())), flipped(EQ, 5, c()));
    simplifies(PATCHED, and(compared(EQ, c(), 1), compared(EQ, c(), 2)), boolean(false));
    let above_null = || binary(GT, c(), null(OF_INTEGER));
    simplifies(PATCHED, and(above_null(), compared(GT, c(), 5)), above_null());
    let f = |marks: u32| function(1, marks, OF_BOOLEAN, vec![]);
    simplifies(PATCHED, and(f(0), compared(GT, c(), 1)), and(compared(GT, c(), 1), f(0)));
    simplifies(PATCHED, and(f(1), compared(GT, c(), 1)), and(f(1), compared(GT, c(), 1)));
}

#[test]
fn k7_to_k10_push_through_joins() {
    let joined = |which: u32, left: Tree, right: Tree, rest: Vec<Tree>| join(which, [vec![left, right], rest].concat());
    let (la, lk, rb, rk) = (|| column(1, 1), || column(1, 2), || column(2, 1), || column(2, 2));
    let or = |left: Tree, right: Tree| binary(OR, left, right);
    let side = |left: i64, right: i64| and(compared(EQ, la(), left), compared(EQ, rb(), right));
    let ors = || or(side(1, 2), side(3, 4));
    let left = filter(or(compared(EQ, la(), 1), compared(EQ, la(), 3)), table(1));
    let right = filter(or(compared(EQ, rb(), 2), compared(EQ, rb(), 4)), table(2));
    let answer = rewrite_at(PATCHED, &filter(ors(), joined(INNER, table(1), table(2), vec![])), 0);
    assert_eq!(answer, granted(true, joined(INNER, left, right, vec![ors()])));

    let no_clause = || or(compared(EQ, la(), 1), compared(EQ, rb(), 2));
    let answer = rewrite_at(PATCHED, &filter(no_clause(), joined(INNER, table(1), table(2), vec![])), 0);
    assert_eq!(answer, granted(true, joined(INNER, table(1), table(2), vec![no_clause()])));

    let keys = || vec![key_pair(lk(), rk())];
    let answer = rewrite_at(PATCHED, &filter(compared(GT, lk(), 5), joined(INNER, table(1), table(2), keys())), 0);
    let (left, right) = (filter(compared(GT, lk(), 5), table(1)), filter(compared(GT, rk(), 5), table(2)));
    assert_eq!(answer, granted(true, joined(INNER, left, right, keys())));

    let kept = filter(compared(GT, rb(), 0), joined(LEFT, table(1), table(2), keys()));
    assert_eq!(rewrite_at(PATCHED, &kept, 0), granted(false, kept));
}

#[test]
fn k11_and_k12_stay() {
    let n = || column(0, 9);
    let counted = || over(AGGREGATE, vec![aggregate_entry(0, 9, COUNT, c())], table(1));
    let given = filter(and(compared(EQ, n(), 1), compared(EQ, n(), 2)), counted());
    assert_eq!(rewrite_at(PATCHED, &given, 0), granted(false, filter(boolean(false), counted())));
    let over_limit = filter(compared(GT, c(), 0), limit(1, 0, table(1)));
    assert_eq!(rewrite_at(PATCHED, &over_limit, 0), granted(false, over_limit));
}

/// The column 'the source' of docs/DIFFERENCES.md, as far as the stand-ins are true to the crates that they stand for.
#[test]
fn the_unchanged_source_differs_by_d1_to_d5() {
    simplifies(Build::Unchanged, and(compared(EQ, c(), 5), flipped(EQ, 5, c())), boolean(false));
    simplifies(Build::Unchanged, and(compared(GT_EQ, c(), 5), flipped(LT, 5, c())), compared(GT_EQ, c(), 5));
    let above_null = binary(GT, c(), null(OF_INTEGER));
    simplifies(Build::Unchanged, and(above_null, compared(GT, c(), 5)), compared(GT, c(), 5));

    let counted = |input: Tree| over(AGGREGATE, vec![aggregate_entry(0, 9, COUNT, c())], input);
    let pushed = counted(filter(boolean(false), table(1)));
    let answer = rewrite_at(Build::Unchanged, &filter(boolean(false), counted(table(1))), 0);
    assert_eq!(answer, granted(true, pushed));

    let joined = |left: Tree, right: Tree| join(LEFT, vec![left, right, key_pair(c(), column(2, 1))]);
    let given = filter(compared(GT, c(), 5), joined(table(1), table(2)));
    let inferred = filter(compared(GT, column(2, 1), 5), table(2));
    let left = filter(compared(GT, c(), 5), table(1));
    let answer = rewrite_at(Build::Unchanged, &given, 0);
    assert_eq!(answer, granted(true, joined(left.clone(), inferred)));
    assert_eq!(rewrite_at(PATCHED, &given, 0), granted(true, joined(left, table(2))));
}

/// The lister's example: a Filter t.c > 5 over a table whose c is marked.
#[test]
fn a_call_settles_every_byte() {
    let marked = |filters: Vec<Tree>| scan(1, [vec![field(1, 1, OF_INTEGER, true)], filters].concat());
    let given = filter(compared(GT, c(), 5), marked(vec![]));
    let made = marked(vec![compared(GT, c(), 5)]);
    let bytes = made.image().len();
    let refused = |number: u32, record: u32| Rewritten { number, record, flag: 0, records: 0 };

    let (result, output) = rewrite(PATCHED, &given.image(), 0, bytes + 7);
    assert_eq!(result, Rewritten { number: 0, record: 0, flag: 1, records: 5 });
    assert_eq!(output, [made.image(), vec![0; 7]].concat());
    assert_eq!(rewrite(PATCHED, &given.image(), 0, bytes - 1), (refused(12, 0), vec![0; bytes - 1]));
    assert_eq!(rewrite(PATCHED, &given.image(), 1, bytes), (refused(8, 1), vec![0; bytes]));
    assert_eq!(rewrite(PATCHED, &given.image(), 6, 0), (refused(8, 6), vec![]));
    assert_eq!(rewrite(PATCHED, &[0; RECORD_BYTES], 0, 3), (refused(2, 0), vec![0; 3]));

    let passed = |visits, changed, finished, plan| PassAnswer::Passed { visits, changed, finished, plan };
    assert_eq!(pass_over(PATCHED, &given, 10_000), passed(1, 1, true, made.clone()));
    assert_eq!(pass_over(PATCHED, &given, 0), passed(0, 0, false, given.clone()));

    let refused = |number, record| Passed { number, record, visits: 0, changed: 0, finished: 0, records: 0 };
    let (result, output) = pass(PATCHED, &given.image(), u64::MAX, bytes + 7);
    assert_eq!(result, Passed { number: 0, record: 0, visits: 1, changed: 1, finished: 1, records: 5 });
    assert_eq!(output, [made.image(), vec![0; 7]].concat());
    assert_eq!(pass(PATCHED, &given.image(), 1, bytes - 1), (refused(12, 0), vec![0; bytes - 1]));
    assert_eq!(pass(PATCHED, &[0; RECORD_BYTES], 0, 3), (refused(2, 0), vec![0; 3]));
}

/// Merges are seen by the sets that the source collects: it must collect them nowhere else.
#[test]
fn the_source_collects_a_set_where_filters_merge_and_nowhere_else() {
    let files = [
        include_str!("../../docs/src/src/push_down_filter.rs"),
        include_str!("../../docs/src/src/utils.rs"),
        include_str!("../../docs/src/src/simplify_expressions/simplify_predicates.rs"),
        include_str!("../../docs/src/src/simplify_expressions/reorder_predicates.rs"),
    ];
    assert_eq!(files.map(|text| text.matches("IndexSet<").count()), [1, 0, 0, 0]);
}
