//! Plans for the rewrite, from a seed. Each comes with the name of the way in which it was drawn.

mod near_limits;

use crate::edges::{conjunction, near, Nesting};
use crate::image::{Tree, RECORD_BYTES};
use crate::kinds::*;
use crate::limits::RECORDS;
use crate::meaning::bent;
use crate::random::{accepted, drawn_for, size, Aim, Draw, Field, Random};
use near_limits::{near_depth, near_list, near_records};

/// A plan, and how it was drawn. Plans near a limit may lie beyond it.
pub struct Case {
    pub family: &'static str,
    pub plan: Tree,
}

/// A way of drawing plans, how many of 100 are drawn so, and whether some are bent: those near a limit stay where they are.
struct Family {
    percent: usize,
    name: &'static str,
    draw: fn(&mut Random) -> Tree,
    bends: bool,
}

/// So many of 100 plans are bent to tables over which they have rows; the others stay as they were drawn.
const BENT: usize = 80;

/// A plan of more records than this is not bent, which would take long.
const MOST_BENT: usize = 400;

const FAMILIES: [Family; 12] = [
    Family { percent: 30, name: "drawn for the rewrite", draw: drawn, bends: true },
    Family { percent: 8, name: "InLists", draw: listed, bends: true },
    Family { percent: 6, name: "drawn for the check", draw: drawn_for_check, bends: true },
    Family { percent: 10, name: "stacked Filters", draw: stacked, bends: true },
    Family { percent: 10, name: "bounds", draw: bounds, bends: true },
    Family { percent: 14, name: "joins with keys", draw: keyed_join, bends: true },
    Family { percent: 6, name: "Projections of functions", draw: projected, bends: true },
    Family { percent: 3, name: "Aggregates without groups", draw: groupless, bends: true },
    Family { percent: 6, name: "lists near 128", draw: near_list, bends: false },
    Family { percent: 2, name: "depth near 256", draw: near_depth, bends: false },
    Family { percent: 3, name: "records near 2,048", draw: near_records, bends: false },
    Family { percent: 2, name: "images near a limit", draw: near, bends: false },
];

pub fn case(seed: u64, number: u64) -> Case {
    let random = &mut Random::of_case(seed, number);
    let mut drawn = random.below(100);
    for Family { percent, name, draw, bends } in FAMILIES {
        if drawn < percent {
            let plan = draw(random);
            let is_bent = bends && random.chance(BENT) && plan.size() <= MOST_BENT;
            return Case { family: name, plan: if is_bent { bent(random, plan) } else { plan } };
        }
        drawn -= percent;
    }
    unreachable!("the families are 100 of 100")
}

/// All records of a small image. Of a large one the Filters and joins, some other plans, which a rewrite leaves alone, and
/// a record of any sort. And three records that are absent.
pub fn nodes(random: &mut Random, plan: &Tree) -> Vec<u32> {
    let all = plan.parent_first();
    let records = all.len();
    let mut is_chosen = |at: &usize| match all[*at].1.label.kind {
        FILTER | JOIN => true,
        kind => records <= 40 || is_plan(kind) && random.chance(25),
    };
    let mut nodes: Vec<u32> = (0..records).filter(&mut is_chosen).map(|at| at as u32).collect();
    nodes.extend([random.below(records) as u32, records as u32, (records + random.below(RECORDS)) as u32, u32::MAX]);
    nodes
}

/// Mostly room for the plan that was made, or for more, or for less. A call that made none may have any.
pub fn room(random: &mut Random, image: &[u8], made: Option<&Tree>) -> usize {
    let needed = made.map_or(image.len(), |plan| plan.image().len());
    match random.below(10) {
        0 => needed - 1,
        1 => random.below(needed),
        2 => 0,
        3 => needed + random.below(100),
        4 => RECORDS * RECORD_BYTES,
        _ => needed,
    }
}

/// Budgets that end before, at and after the last node.
pub fn budget(random: &mut Random, plan: &Tree) -> u64 {
    let plans = plan.parent_first().iter().filter(|(_, tree)| is_plan(tree.label.kind)).count();
    let some = random.below(plans + 2) as u64;
    *random.pick(&[0, 1, 2, 5, some, some, 10_000, 10_000, u64::MAX])
}

/// One plan in three may hold volatile functions; the others can be compared by their rows.
fn aim(random: &mut Random) -> Aim {
    Aim::Rewrite { volatile: random.chance(33) }
}

fn drawn(random: &mut Random) -> Tree {
    let (aim, records) = (aim(random), size(random));
    drawn_for(aim, random, records).plan
}

fn drawn_for_check(random: &mut Random) -> Tree {
    let records = size(random);
    accepted(random, records).plan
}

/// Two to five Filters over a small plan.
fn stacked(random: &mut Random) -> Tree {
    let (aim, records) = (aim(random), random.within(1, 25));
    let input = drawn_for(aim, random, records);
    let mut draw = Draw::for_aim(aim, random, 200);
    let filters = draw.random.within(2, 5);
    (0..filters).fold(input.plan, |plan, _| filter(draw.conjunction(&input.fields), plan))
}

/// InLists, most of them with a NULL among their items, over a small plan or a join.
fn listed(random: &mut Random) -> Tree {
    let (aim, records) = (aim(random), random.within(1, 40));
    let input = drawn_for(aim, random, records);
    let mut draw = Draw::for_aim(aim, random, 200);
    let length = draw.random.within(1, 4);
    let conjuncts = (0..length).map(|_| draw.listed(&input.fields)).collect();
    filter(conjunction(conjuncts, Nesting::Left), input.plan)
}

/// Many bounds on one or two columns, most of them with the same literal, over a plan that takes some of them or none.
fn bounds(random: &mut Random) -> Tree {
    let (aim, of) = (aim(random), *random.pick(&[OF_INTEGER, OF_INTEGER, OF_BOOLEAN]));
    let mut draw = Draw::for_aim(aim, random, 200);
    let columns = draw.random.within(1, 2);
    let fields = draw.names_for(&vec![of; columns], &[]);
    let input = table(draw.random, 1, &fields);
    let input = if draw.random.chance(30) { draw.pass_through(input) } else { input };
    let length = draw.random.within(2, 7);
    let conjuncts = (0..length).map(|_| near_bound(&mut draw, &fields)).collect();
    filter(conjunction(conjuncts, Nesting::Balanced), input)
}

fn near_bound(draw: &mut Draw, fields: &[Field]) -> Tree {
    let field = *draw.random.pick(fields);
    let literal = match (draw.random.below(10), field.of) {
        (0, of) => null(of),
        (1, OF_BOOLEAN) => boolean(true),
        (_, OF_BOOLEAN) => boolean(false),
        (1, _) => integer(2),
        _ => integer(1),
    };
    let operator = *draw.random.pick(&[EQ, EQ, LT, LT_EQ, GT, GT_EQ]);
    draw.compared(operator, &field, literal)
}

/// A Filter over a join of two scans whose keys are columns, some of them in several pairs.
fn keyed_join(random: &mut Random) -> Tree {
    let aim = aim(random);
    let which = random.within(INNER as usize, RIGHT_ANTI as usize) as u32;
    let mut draw = Draw::for_aim(aim, random, 300);
    let left: Vec<Field> = fields(1, &[OF_INTEGER, OF_INTEGER, OF_BOOLEAN]);
    let right: Vec<Field> = fields(2, &[OF_INTEGER, OF_INTEGER, OF_BOOLEAN]);
    let mut children = vec![table(draw.random, 1, &left), table(draw.random, 2, &right)];
    for _ in 0..draw.random.within(1, 3) {
        let place = draw.random.below(2);
        children.push(key_pair(left[place].reference(), right[draw.random.below(2)].reference()));
    }
    let both = [left.clone(), right.clone()].concat();
    if draw.random.chance(50) {
        children.push(draw.conjunction(&both));
    }
    let above = match which {
        LEFT_SEMI | LEFT_ANTI => left,
        RIGHT_SEMI | RIGHT_ANTI => right,
        _ => both,
    };
    let joined = join(which, children);
    if draw.random.chance(20) {
        return joined;
    }
    filter(draw.conjunction(&above), joined)
}

fn fields(qualifier: u32, types: &[u32]) -> Vec<Field> {
    (1..).zip(types).map(|(name, &of)| Field { qualifier, name, of }).collect()
}

fn table(random: &mut Random, number: u32, fields: &[Field]) -> Tree {
    let part = |made: &Field| field(made.qualifier, made.name, made.of, random.chance(50));
    scan(number, fields.iter().map(part).collect())
}

/// Conjuncts over a Projection whose entries are columns and functions, some of them volatile or leafward; in some plans
/// all conjuncts read such an entry, so that nothing moves.
fn projected(random: &mut Random) -> Tree {
    let aim = aim(random);
    let input = drawn_for(aim, random, 10);
    let mut draw = Draw::for_aim(aim, random, 200);
    let made = draw.names_for(&[OF_INTEGER, OF_BOOLEAN, OF_INTEGER], &[]);
    let of_field = |field: &Field| entry(field.qualifier, field.name, draw.call_or_column(&input.fields, field.of, 1));
    let entries: Vec<Tree> = made.iter().map(of_field).collect();
    let is_blocked = |part: &Tree| part.children[0].label.kind == FUNCTION && part.children[0].label.q != 0;
    let blocked = made.iter().zip(&entries).filter(|(_, part)| is_blocked(part)).map(|(field, _)| *field);
    let blocked: Vec<Field> = blocked.collect();
    let predicate = match !blocked.is_empty() && draw.random.chance(50) {
        true => conjunction((0..3).map(|_| draw.bound(&blocked)).collect(), Nesting::Right),
        false => draw.conjunction(&made),
    };
    filter(predicate, over(PROJECTION, entries, input.plan))
}

/// Predicates, some of them without columns, over an Aggregate of one row.
fn groupless(random: &mut Random) -> Tree {
    let aim = aim(random);
    let input = drawn_for(aim, random, 12);
    let mut draw = Draw::for_aim(aim, random, 100);
    let made = draw.names_for(&[OF_INTEGER], &[]);
    let counted = aggregate_entry(made[0].qualifier, made[0].name, COUNT, integer(1));
    let conjuncts = (0..draw.random.within(1, 3)).map(|_| match draw.random.chance(50) {
        true => draw.column_free(),
        false => draw.bound(&made),
    });
    let predicate = conjunction(conjuncts.collect(), Nesting::Left);
    filter(predicate, over(AGGREGATE, vec![counted], input.plan))
}

#[cfg(test)]
mod tests {
    use super::*;
    use crate::checker::{check, Verdict};
    use std::collections::BTreeMap;

    #[test]
    fn most_cases_are_accepted_and_every_family_is_drawn() {
        let mut accepted: BTreeMap<&str, usize> = BTreeMap::new();
        for number in 0..2000 {
            let Case { family, plan } = case(1, number);
            *accepted.entry(family).or_default() += usize::from(check(&plan.image()) == Verdict::ACCEPTED);
        }
        for Family { name, .. } in FAMILIES {
            assert!(accepted.get(name).is_some_and(|&count| count > 0), "{name}: {accepted:?}");
        }
        assert!(accepted.values().sum::<usize>() > 1900, "{accepted:?}");
    }
}
