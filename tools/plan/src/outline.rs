//! A plan as its plans in the order of their records, and the conjuncts that stand at each.

use push_down_filter::image::Tree;
use push_down_filter::kinds::*;
use std::ops::Range;

/// Where a conjunct stands. Rewrites make, merge and drop Filters, and leave the sequence of all other plans as it is. So a place is
/// counted by those, and means the same in every state of a pass.
#[derive(Clone, Copy, Debug, PartialEq, Eq, PartialOrd, Ord)]
pub struct Place {
    /// The number, among the plans that are no Filter, of the one at or below the place.
    pub anchor: usize,
    pub slot: Slot,
}

#[derive(Clone, Copy, Debug, PartialEq, Eq, PartialOrd, Ord)]
pub enum Slot {
    /// In a Filter with so many Filters between it and the anchor.
    Above(usize),
    /// In the join's own filter, or among the filters of the scan.
    Own,
}

/// A conjunct of a Filter or of a join's filter, or a filter of a scan.
#[derive(Clone, Debug)]
pub struct Conjunct<'a> {
    pub place: Place,
    pub expr: &'a Tree,
    /// The number of its plan among the nodes of the outline.
    pub node: usize,
}

#[derive(Clone, Debug)]
pub struct Node<'a> {
    pub tree: &'a Tree,
    pub record: usize,
    /// How many plans stand above it.
    pub depth: usize,
    /// Which input of a Join it is.
    pub edge: Option<&'static str>,
    /// Which conjuncts of the outline are its own.
    pub conjuncts: Range<usize>,
}

/// A plan that is no Filter.
#[derive(Clone, Debug)]
pub struct Anchor<'a> {
    pub tree: &'a Tree,
    /// The anchor above it, and which of its inputs this one is.
    pub above: Option<(usize, usize)>,
}

#[derive(Clone, Debug, Default)]
pub struct Outline<'a> {
    pub nodes: Vec<Node<'a>>,
    pub conjuncts: Vec<Conjunct<'a>>,
    pub anchors: Vec<Anchor<'a>>,
}

/// The plans that a plan reads.
pub fn inputs(plan: &Tree) -> impl Iterator<Item = &Tree> {
    plan.children.iter().filter(|child| is_plan(child.label.kind))
}

/// How many Filters stand right below a Filter.
fn filters_below(filter: &Tree) -> usize {
    let mut filters = 0;
    let mut below = &filter.children[1];
    while below.label.kind == FILTER {
        below = &below.children[1];
        filters += 1;
    }
    filters
}

/// The operands of the ANDs at the top, left before right.
pub fn split(expr: &Tree) -> Vec<&Tree> {
    let mut conjuncts = Vec::new();
    let mut waiting = vec![expr];
    while let Some(expr) = waiting.pop() {
        match (expr.label.kind, expr.label.p) {
            (BINARY, AND) => waiting.extend(expr.children.iter().rev()),
            _ => conjuncts.push(expr),
        }
    }
    conjuncts
}

/// The conjuncts that a plan holds itself.
fn held(plan: &Tree) -> Vec<&Tree> {
    let exprs = plan.children.iter().filter(|child| is_expr(child.label.kind));
    match plan.label.kind {
        SCAN => exprs.collect(),
        FILTER | JOIN => exprs.flat_map(split).collect(),
        _ => Vec::new(),
    }
}

impl<'a> Outline<'a> {
    /// The outline of an accepted plan.
    pub fn of(plan: &'a Tree) -> Outline<'a> {
        let mut outline = Outline::default();
        let root = Position { record: 0, depth: 0, above: None, edge: None };
        outline.add(plan, root);
        outline
    }

    /// The anchors right below an anchor, each with which input it is.
    pub fn inputs_of(&self, anchor: usize) -> Vec<(usize, usize)> {
        let below =
            |(at, other): (usize, &Anchor)| other.above.filter(|above| above.0 == anchor).map(|above| (at, above.1));
        self.anchors.iter().enumerate().filter_map(below).collect()
    }

    /// Adds a plan and those below it; answers the record number behind them.
    fn add(&mut self, tree: &'a Tree, Position { record, depth, above, edge }: Position) -> usize {
        let is_filter = tree.label.kind == FILTER;
        let (anchor, node, first) = (self.anchors.len(), self.nodes.len(), self.conjuncts.len());
        let slot = if is_filter { Slot::Above(filters_below(tree)) } else { Slot::Own };
        let place = Place { anchor, slot };
        self.conjuncts.extend(held(tree).into_iter().map(|expr| Conjunct { place, expr, node }));
        self.nodes.push(Node { tree, record, depth, edge, conjuncts: first..self.conjuncts.len() });
        if !is_filter {
            self.anchors.push(Anchor { tree, above });
        }
        let (mut next, mut input) = (record + 1, 0);
        for child in &tree.children {
            if !is_plan(child.label.kind) {
                next += child.size();
                continue;
            }
            let above = if is_filter { above } else { Some((anchor, input)) };
            let edge = ["left", "right"].get(input).copied().filter(|_| tree.label.kind == JOIN);
            next = self.add(child, Position { record: next, depth: depth + 1, above, edge });
            input += 1;
        }
        next
    }
}

/// Where a plan stands that is to be added.
struct Position {
    record: usize,
    depth: usize,
    above: Option<(usize, usize)>,
    edge: Option<&'static str>,
}

#[cfg(test)]
mod tests {
    use super::*;
    use push_down_filter::text::{expr, lines, read, Names};

    const TEXT: &str = "\
Filter t1.c1 > 5 AND (t1.c1 = 1 AND t2.c1 = 2)
  Filter TRUE
    Join Inner on [t1.c1 = t2.c1] filter t1.c1 > 6 AND t1.c1 > 7
      TableScan 1 [t1.c1:int] filters [t1.c1 > 8 AND t1.c1 > 9]
      Filter t2.c1 > 10
        Distinct
          TableScan 2 [t2.c1:int]
";

    #[test]
    fn places_count_plans_that_are_no_filter() {
        let plan = read(TEXT, &Names::NONE).unwrap().plan;
        let outline = Outline::of(&plan);
        let held = |at: &Conjunct| (expr(at.expr, &Names::NONE), at.place.anchor, at.place.slot, at.node);
        let found: Vec<_> = outline.conjuncts.iter().map(held).collect();
        let expected = [
            ("t1.c1 > 5", 0, Slot::Above(1), 0),
            ("t1.c1 = 1", 0, Slot::Above(1), 0),
            ("t2.c1 = 2", 0, Slot::Above(1), 0),
            ("TRUE", 0, Slot::Above(0), 1),
            ("t1.c1 > 6", 0, Slot::Own, 2),
            ("t1.c1 > 7", 0, Slot::Own, 2),
            ("t1.c1 > 8 AND t1.c1 > 9", 1, Slot::Own, 3),
            ("t2.c1 > 10", 2, Slot::Above(0), 4),
        ];
        assert_eq!(found, expected.map(|(text, anchor, slot, node)| (text.to_string(), anchor, slot, node)));
        let above: Vec<_> = outline.anchors.iter().map(|anchor| anchor.above).collect();
        assert_eq!(above, [None, Some((0, 0)), Some((0, 1)), Some((2, 0))]);
    }

    #[test]
    fn records_and_depths_are_those_of_the_text() {
        let plan = read(TEXT, &Names::NONE).unwrap().plan;
        let nodes = Outline::of(&plan).nodes;
        let indents = TEXT.lines().map(|line| (line.len() - line.trim_start().len()) / 2);
        assert!(nodes.iter().map(|node| node.depth).eq(indents));
        assert!(nodes.iter().map(|node| node.record).eq(lines(&plan, &Names::NONE).into_iter().map(|line| line.0)));
    }
}
