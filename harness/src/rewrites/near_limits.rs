//! Plans that a rewrite makes as long, as deep or as large as test 11 allows, or a little more.

use crate::edges::{conjunction, Nesting};
use crate::image::Tree;
use crate::kinds::*;
use crate::limits::{DEPTH, LIST, RECORDS};
use crate::random::Random;

/// Lists that a rewrite makes 126 to 130 long: Filters merged, a scan's filters, a join's filter, a side of a join.
pub fn near_list(random: &mut Random) -> Tree {
    let length = random.within(LIST - 2, LIST + 2);
    let mut lower = numbered(random, length);
    let upper = lower.split_off(random.within(1, length - 1));
    let nesting = *random.pick(&[Nesting::Left, Nesting::Right, Nesting::Balanced]);
    let joined_up = |conjuncts: Vec<Tree>| conjunction(conjuncts, nesting);
    match random.below(5) {
        0 => filter(joined_up(upper), filter(joined_up(lower), merged_over(random))),
        1 => bounds_over(random, joined_up([lower, upper].concat())),
        2 => filter(joined_up(upper), scan(1, [table(random, 1).children, lower].concat())),
        3 => {
            let both_sides = |conjunct: Tree| binary(OR, conjunct, test(1, column(2, 1)));
            let own = joined_up(lower.into_iter().map(both_sides).collect());
            let above = joined_up(upper.into_iter().map(both_sides).collect());
            filter(above, join(INNER, vec![table(random, 1), table(random, 2), own]))
        }
        _ => {
            let which = random.within(INNER as usize, RIGHT_ANTI as usize) as u32;
            let keys = key_pair(column(1, 1), column(2, 1));
            let joined = join(which, vec![table(random, 1), table(random, 2), keys, joined_up(upper)]);
            filter(joined_up(lower), joined)
        }
    }
}

/// A scan with the fields 1 and 2 of integers, both marked or none.
fn table(random: &mut Random, number: u32) -> Tree {
    let marked = random.chance(50);
    scan(number, (1..=2).map(|name| field(number, name, OF_INTEGER, marked)).collect())
}

fn merged_over(random: &mut Random) -> Tree {
    let table = table(random, 1);
    if random.chance(50) {
        table
    } else {
        limit(1, 0, table)
    }
}

/// One or two Filters of bounds, which fall together before they merge with the Filter below.
fn bounds_over(random: &mut Random, lower: Tree) -> Tree {
    let plan = filter(lower, merged_over(random));
    (0..random.within(1, 2)).fold(plan, |plan, _| {
        let bounds = (0..random.within(1, 40)).map(|value| binary(GT, column(1, 2), integer(value as i64)));
        filter(conjunction(bounds.collect(), Nesting::Left), plan)
    })
}

/// So many predicates on the field 1.1, none of them a bound; in one list of two some are equal, and fall away.
fn numbered(random: &mut Random, length: usize) -> Vec<Tree> {
    let different = if random.chance(50) { length } else { length - 2 };
    let predicate = |at: usize| binary(NOT_EQ, column(1, 1), integer((at % different) as i64));
    (0..length).map(predicate).collect()
}

/// Plans that a rewrite makes 254 to 258 deep: by a list joined anew, by an entry put in a column's place, or by a Filter
/// that moves below a node.
pub fn near_depth(random: &mut Random) -> Tree {
    let depth = random.within(DEPTH - 2, DEPTH + 2);
    let table = || scan(1, vec![field(1, 1, OF_BOOLEAN, false)]);
    let nots = |count: usize| (0..count).fold(column(1, 1), |operand, _| not(operand));
    let nodes_above = |plan: Tree, count: usize| (0..count).fold(plan, |plan, _| repartition(plan));
    match random.below(3) {
        0 => {
            // each conjunct has three levels; the first of them gets the whole list above it
            let length = random.within(LIST - 30, LIST);
            let conjuncts = (0..length).map(|at| binary(EQ, column(1, 1), test(1, integer(at as i64)))).collect();
            let counted = window_entry(0, 9, COUNT, vec![integer(1)]);
            let plan = filter(conjunction(conjuncts, Nesting::Balanced), over(WINDOW, vec![counted], table()));
            nodes_above(plan, depth - length - 3)
        }
        1 => {
            let (above, inside) = (random.within(0, 100), random.within(1, 100));
            let entries = vec![entry(1, 1, nots(inside))];
            nodes_above(filter(nots(depth - above - inside - 3), over(PROJECTION, entries, table())), above)
        }
        _ => {
            let above = random.within(0, 100);
            nodes_above(filter(nots(depth - above - 3), distinct(table())), above)
        }
    }
}

/// Plans that a rewrite makes about 2,048 records long: a predicate for each input of a Union, an entry in each place of a
/// column, a predicate inferred for the other side.
pub fn near_records(random: &mut Random) -> Tree {
    let records = random.within(RECORDS - 2, RECORDS + 2);
    let table = |qualifier: u32| scan(1, vec![field(qualifier, 1, OF_INTEGER, false)]);
    let call = |arguments: usize| function(1, 0, OF_BOOLEAN, vec![column(1, 1); arguments]);
    match random.below(3) {
        0 => {
            // each input has four records beside the arguments: the Filter, the function, the scan, its field
            let inputs = random.within(2, 40);
            let arguments = (records - 1) / inputs - 4;
            filter(call(arguments), union((0..inputs).map(|_| table(1)).collect()))
        }
        1 => {
            let (columns, inside) = (random.within(2, 40), random.within(20, 45));
            let arguments = vec![integer(7); inside];
            let entries = vec![entry(1, 1, function(1, 0, OF_INTEGER, arguments))];
            let filled = (records - 6 - inside).saturating_sub(columns * (inside + 1));
            let predicate = Tree { children: [call(columns).children, vec![integer(1); filled]].concat(), ..call(0) };
            filter(predicate, over(PROJECTION, entries, table(1)))
        }
        _ => {
            let keys = key_pair(column(1, 1), column(2, 1));
            let arguments = (records - 12) / 2;
            filter(call(arguments), join(INNER, vec![table(1), table(2), keys]))
        }
    }
}

#[cfg(test)]
mod tests {
    use super::*;
    use crate::checker::{check, Verdict};
    use crate::rewriting::{list, rewrite_at, Answer};
    use crate::source::{Build, ALL};

    /// Of the plans near a limit some answers are just within it, and some are refused.
    #[test]
    fn answers_fall_on_both_sides_of_the_limits() {
        let answers = |draw: fn(&mut Random) -> Tree| -> Vec<Answer> {
            let plans = (0..400).map(|number| draw(&mut Random::of_case(4, number)));
            let accepted = plans.filter(|plan| check(&plan.image()) == Verdict::ACCEPTED);
            accepted.map(|plan| rewrite_at(Build::Patched(ALL), &plan, top_filter(&plan))).collect()
        };
        let refused = |answers: &[Answer]| answers.iter().any(|a| matches!(a, Answer::Refused(v) if v.number == 11));
        let granted = |answers: &[Answer], at_limit: fn(&Tree) -> bool| {
            answers.iter().any(|a| matches!(a, Answer::Granted { flag: true, plan } if at_limit(plan)))
        };
        let (lists, depths, records) = (answers(near_list), answers(near_depth), answers(near_records));
        assert!(refused(&lists) && refused(&depths) && refused(&records));
        assert!(granted(&lists, |plan| longest_list(plan) == LIST));
        assert!(granted(&depths, |plan| plan.depth() == DEPTH));
        assert!(granted(&records, |plan| plan.size() == RECORDS));
    }

    fn top_filter(plan: &Tree) -> u32 {
        let is_filter = |(_, tree): &(usize, &Tree)| tree.label.kind == FILTER;
        plan.parent_first().iter().position(is_filter).expect("the plan has a Filter") as u32
    }

    fn longest_list(plan: &Tree) -> usize {
        plan.parent_first().iter().map(|(_, tree)| list(tree)).max().unwrap_or(0)
    }
}
