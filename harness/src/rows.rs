//! Rows of a plan before and after a rewrite, over small tables and any meaning of functions.

use crate::image::Tree;
use crate::kinds::*;
use crate::meaning::{Row, World};
use crate::random::Random;
use crate::text::words::{word, JOINS, PLANS};
use std::collections::{BTreeMap, BTreeSet};

/// A plan's rows are compared over so many worlds of tables and functions.
const WORLDS: usize = 2;

/// So often a world is drawn for one in which the plan has rows.
const DRAWS: usize = 12;

/// Comparisons of rows; those of rows that are not empty; those left out, as there were too many rows.
#[derive(Default)]
pub struct RowCounts {
    pub compared: u64,
    pub not_empty: u64,
    pub too_many: u64,
    /// By the kinds of plans and joins that the plan holds, and by a NULL literal in its InLists: those of rows that are not empty, and
    /// all.
    kinds: BTreeMap<String, (u64, u64)>,
}

impl RowCounts {
    fn count(&mut self, kinds: &BTreeSet<String>, is_empty: bool) {
        self.compared += 1;
        self.not_empty += u64::from(!is_empty);
        for kind in kinds {
            let (not_empty, all) = self.kinds.entry(kind.clone()).or_default();
            *not_empty += u64::from(!is_empty);
            *all += 1;
        }
    }

    /// Prints the counts. An error if less than half of the rows that were compared are not empty.
    pub fn print(&self) -> Result<(), String> {
        for (kind, (not_empty, all)) in &self.kinds {
            println!("rows of plans that hold a {kind}: {not_empty} of {all} not empty, {}%", 100 * not_empty / all);
        }
        let RowCounts { compared, not_empty, too_many, .. } = self;
        println!(
            "rows compared: {compared}, of these not empty {not_empty}; left out, as there were too many: {too_many}"
        );
        match 2 * not_empty < *compared {
            true => Err("less than half of the rows that were compared are not empty".to_string()),
            false => Ok(()),
        }
    }
}

/// The worlds over which a plan is read, and its rows in each; none of a plan with volatile functions.
pub struct Rows {
    worlds: Vec<(World, Option<Vec<Row>>)>,
    kinds: BTreeSet<String>,
}

impl Rows {
    pub fn of(random: &mut Random, plan: &Tree) -> Rows {
        let nodes = plan.parent_first();
        let is_volatile = |tree: &Tree| tree.label.kind == FUNCTION && tree.label.q & 1 == 1;
        if nodes.iter().any(|(_, tree)| is_volatile(tree)) {
            return Rows { worlds: Vec::new(), kinds: BTreeSet::new() };
        }
        let kinds = nodes.iter().filter_map(|(_, tree)| kind(tree)).collect();
        Rows { worlds: (0..WORLDS).map(|_| drawn(random, plan)).collect(), kinds }
    }

    /// As many rows, and the same at each place.
    pub fn compare(&self, after: &Tree, counts: &mut RowCounts) -> Result<(), String> {
        for (world, rows) in &self.worlds {
            let (Some(rows), Some(rows_after)) = (rows, world.rows(after)) else {
                counts.too_many += 1;
                continue;
            };
            counts.count(&self.kinds, rows.is_empty());
            if *rows != rows_after {
                return Err(format!("rows before {rows:?}, after {rows_after:?}"));
            }
        }
        Ok(())
    }
}

/// The first world drawn in which the plan has rows, and not too many; else the last.
fn drawn(random: &mut Random, plan: &Tree) -> (World, Option<Vec<Row>>) {
    let mut draw = || {
        let world = World::for_plan(random, plan);
        let rows = world.rows(plan);
        (world, rows)
    };
    let mut last = draw();
    for _ in 1..DRAWS {
        if last.1.as_ref().is_some_and(|rows| !rows.is_empty()) {
            break;
        }
        last = draw();
    }
    last
}

/// A join by its kind, another plan by its name; and an InList with a NULL literal among its items.
fn kind(tree: &Tree) -> Option<String> {
    let has_null_item = || tree.children[1..].iter().any(|item| item.label.kind == NULL);
    match tree.label.kind {
        IN_LIST if has_null_item() => Some("NULL in an InList".to_string()),
        JOIN => Some(format!("{} join", word(&JOINS, tree.label.p))),
        kind if is_plan(kind) => Some(PLANS[(kind - SCAN) as usize].to_string()),
        _ => None,
    }
}

#[cfg(test)]
mod tests {
    use super::*;
    use crate::meaning::bent;

    fn table(number: u32) -> Tree {
        let fields = [1, 2].map(|name| field(number, name, OF_INTEGER, false));
        scan(number, fields.to_vec())
    }

    fn has_rows(plan: &Tree) -> bool {
        let random = &mut Random::of_seed(1);
        (0..10).any(|_| drawn(random, plan).1.is_some_and(|rows| !rows.is_empty()))
    }

    /// A literal far from the small numbers that tables hold otherwise, behind an alias and a key.
    #[test]
    fn tables_have_the_literals_of_the_plan() {
        let keys = key_pair(column(7, 1), column(2, 1));
        let joined = join(INNER, vec![alias(7, table(1)), table(2), keys]);
        assert!(has_rows(&filter(binary(EQ, column(7, 2), integer(123_456_789)), joined)));
    }

    #[test]
    fn a_plan_is_bent_until_it_has_rows() {
        let one = binary(EQ, column(1, 1), integer(1));
        let none = binary(GT, column(1, 2), null(OF_INTEGER));
        let plan = limit(0, 5, filter(and(and(one, binary(LT, column(1, 1), integer(1))), none), table(1)));
        assert!(!has_rows(&plan));
        let bent: Vec<Tree> = (0..10).map(|seed| bent(&mut Random::of_seed(seed), plan.clone())).collect();
        assert!(bent.iter().filter(|plan| has_rows(plan)).count() > 5);
    }
}
