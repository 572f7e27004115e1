//! Where the source and the rewrite may differ: D1 to D5, judged by the plan alone, in the words of docs/DIFFERENCES.md.

use crate::image::{Label, Tree};
use crate::kinds::*;
use crate::rewriting::{rewrite_at, Answer};
use crate::source::{Build, Switches};

/// For each difference whether the node gives ground for it. A node without ground for any must be rewritten alike.
pub fn grounds(node: &Tree) -> Switches {
    let (predicates, input) = filters_and_input(node);
    let conjuncts: Vec<&Tree> = predicates.into_iter().flat_map(conjuncts).collect();
    let bounds: Vec<Bound> = conjuncts.iter().filter_map(|conjunct| bound(conjunct)).collect();
    let equalities = || bounds.iter().filter(|bound| bound.operator == EQ);
    let strict_flipped = |bound: &Bound| bound.flipped && matches!(bound.operator, LT | GT);
    [
        equalities().any(|one| equalities().any(|other| one.column == other.column && one.flipped != other.flipped)),
        bounds.iter().any(strict_flipped),
        bounds.iter().any(|bound| bound.literal.kind == NULL),
        input.label.kind == AGGREGATE && input.children.iter().all(|part| part.label.kind != ENTRY),
        input.label.kind == JOIN && input.label.p != INNER && mentions_key(input, &conjuncts),
    ]
}

/// The predicates of the Filters that stand at the node, one above the other, and what they stand over.
fn filters_and_input(node: &Tree) -> (Vec<&Tree>, &Tree) {
    let mut predicates = Vec::new();
    let mut input = node;
    while input.label.kind == FILTER {
        predicates.push(&input.children[0]);
        input = &input.children[1];
    }
    (predicates, input)
}

fn conjuncts(predicate: &Tree) -> Vec<&Tree> {
    match (predicate.label.kind, predicate.label.p) {
        (BINARY, AND) => predicate.children.iter().flat_map(conjuncts).collect(),
        _ => vec![predicate],
    }
}

/// A column compared with a literal, which is flipped if it stands on the left.
struct Bound {
    operator: u32,
    column: Label,
    literal: Label,
    flipped: bool,
}

fn bound(conjunct: &Tree) -> Option<Bound> {
    let operator = conjunct.label.p;
    if conjunct.label.kind != BINARY || !matches!(operator, EQ | LT | LT_EQ | GT | GT_EQ) {
        return None;
    }
    let (left, right) = (conjunct.children[0].label, conjunct.children[1].label);
    let is_literal = |label: Label| matches!(label.kind, INTEGER | BOOLEAN | NULL);
    if left.kind == COLUMN && is_literal(right) {
        Some(Bound { operator, column: left, literal: right, flipped: false })
    } else if right.kind == COLUMN && is_literal(left) {
        Some(Bound { operator, column: right, literal: left, flipped: true })
    } else {
        None
    }
}

/// A predicate above the join, or its own filter, mentions a column that is a join key.
fn mentions_key(join: &Tree, above: &[&Tree]) -> bool {
    let pairs = join.children.iter().filter(|child| child.label.kind == KEY_PAIR);
    let keys: Vec<Label> = pairs.flat_map(|pair| &pair.children).map(|key| key.label).collect();
    let own = join.children.iter().filter(|child| is_expr(child.label.kind));
    let mentions = |predicate: &Tree| {
        predicate.parent_first().iter().any(|(_, tree)| tree.label.kind == COLUMN && keys.contains(&tree.label))
    };
    above.iter().copied().chain(own).any(mentions)
}

/// The smallest set of differences that leads from the unchanged source to the patched one.
pub fn reason(plan: &Tree, node: u32, patched: &Answer) -> Switches {
    let switches = |set: u32| -> Switches { std::array::from_fn(|at| set >> at & 1 == 1) };
    let mut sets: Vec<u32> = (0..32).collect();
    sets.sort_by_key(|set| set.count_ones());
    let leads_there = |set: &u32| rewrite_at(Build::Patched(switches(*set)), plan, node) == *patched;
    switches(sets.into_iter().find(leads_there).expect("all five lead there"))
}

pub fn name(which: Switches) -> String {
    let names: Vec<String> = (0..5).filter(|at| which[*at]).map(|at| format!("D{}", at + 1)).collect();
    names.join(" and ")
}
