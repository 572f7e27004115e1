//! A plan bent to tables: where no row passes a predicate, those of its conjuncts that are not TRUE on one row are changed so that
//! they are. Drawn predicates contradict each other, or meet a NULL, more often than not.

use super::values::{Row, Value};
use super::{compared, schema, Name, World};
use crate::image::Tree;
use crate::kinds::*;
use crate::random::Random;
use Value::{Integer, Null, Truth};

/// The plan, changed so that over some small tables it has rows, where that can be had by its predicates.
pub fn bent(random: &mut Random, mut plan: Tree) -> Tree {
    let world = World::for_plan(random, &plan);
    world.bend(random, &mut plan);
    plan
}

impl World {
    fn bend(&self, random: &mut Random, plan: &mut Tree) {
        for input in plan.children.iter_mut().filter(|child| is_plan(child.label.kind)) {
            self.bend(random, input);
        }
        match plan.label.kind {
            SCAN => self.bend_predicates(random, plan, &self.tables[&plan.label.p]),
            FILTER => self.bend_predicates(random, plan, &self.input(plan).unwrap_or_default()),
            // an anti join has rows where none match
            JOIN if [LEFT_ANTI, RIGHT_ANTI].contains(&plan.label.p) => {}
            JOIN => self.bend_predicates(random, plan, &self.keyed_pairs(plan)),
            LIMIT => (plan.label.lo, plan.label.hi) = (plan.label.lo.max(1), plan.label.hi.min(1)),
            SORT => plan.label.lo = plan.label.lo.max(plan.label.p),
            _ => {}
        }
    }

    /// The rows of both inputs of a join, side by side, where its keys are equal.
    fn keyed_pairs(&self, plan: &Tree) -> Vec<Row> {
        let keys = plan.children.iter().filter(|child| !is_expr(child.label.kind)).cloned().collect();
        self.rows(&join(INNER, keys)).unwrap_or_default()
    }

    /// Makes all predicates of the plan TRUE on the row that passes most of their conjuncts.
    fn bend_predicates(&self, random: &mut Random, plan: &mut Tree, rows: &[Row]) {
        let names: Vec<Name> = match plan.label.kind {
            JOIN => [schema(&plan.children[0]), schema(&plan.children[1])].concat(),
            _ => schema(plan),
        };
        let predicates = || plan.children.iter().filter(|child| is_expr(child.label.kind));
        let passed = |row: &&Row| predicates().map(|predicate| self.passed(predicate, &names, row)).sum::<usize>();
        let Some(row) = rows.iter().max_by_key(passed).cloned() else { return };
        for predicate in plan.children.iter_mut().filter(|child| is_expr(child.label.kind)) {
            self.make_true(random, predicate, &names, &row);
        }
    }

    /// How many conjuncts of the predicate are TRUE.
    fn passed(&self, predicate: &Tree, names: &[Name], row: &Row) -> usize {
        match (predicate.label.kind, predicate.label.p) {
            (BINARY, AND) => predicate.children.iter().map(|conjunct| self.passed(conjunct, names, row)).sum(),
            _ => usize::from(self.is_true(predicate, names, row)),
        }
    }

    fn make_true(&self, random: &mut Random, expr: &mut Tree, names: &[Name], row: &Row) {
        let value = self.value(expr, names, row);
        if value == Truth(true) {
            return;
        }
        match (expr.label.kind, expr.label.p) {
            (BINARY, AND) => expr.children.iter_mut().for_each(|child| self.make_true(random, child, names, row)),
            (BINARY, OR) => {
                let chosen = random.below(2);
                self.make_true(random, &mut expr.children[chosen], names, row);
            }
            (BOOLEAN | NULL, _) => *expr = boolean(true),
            (BINARY, _) if self.compare_known(expr, names, row) => self.turn_operator(random, expr, names, row),
            // NOT of what is FALSE, IS UNKNOWN of what is UNKNOWN
            _ if value == Null => *expr = test(5, expr.clone()),
            _ => *expr = not(expr.clone()),
        }
    }

    /// Whether both operands are known, a literal NULL being replaced by the other operand's value.
    fn compare_known(&self, comparison: &mut Tree, names: &[Name], row: &Row) -> bool {
        for (at, other) in [(0, 1), (1, 0)] {
            let value = self.value(&comparison.children[other], names, row);
            if comparison.children[at].label.kind == NULL {
                match value {
                    Null => {}
                    Integer(number) => comparison.children[at] = integer(number),
                    Truth(truth) => comparison.children[at] = boolean(truth),
                }
            }
        }
        comparison.children.iter().all(|operand| self.value(operand, names, row) != Null)
    }

    /// The comparison with an operator that is TRUE of its operands.
    fn turn_operator(&self, random: &mut Random, comparison: &mut Tree, names: &[Name], row: &Row) {
        let [left, right] = [0, 1].map(|at| self.value(&comparison.children[at], names, row));
        let operators = [EQ, NOT_EQ, LT, LT_EQ, GT, GT_EQ];
        let fitting: Vec<u32> = operators.into_iter().filter(|of| compared(*of, left, right) == Truth(true)).collect();
        comparison.label.p = *random.pick(&fitting);
    }
}
