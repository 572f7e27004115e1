//! Fixed sets of accepted images for measuring speed: ordinary plans of three sizes, plans of three sizes that the rewrite
//! has much to do with, and plans chosen to make the check work hard. A hard plan is built for a number of records; depth,
//! fields and lists grow with it, up to their limits.

use crate::image::Tree;
use crate::kinds::*;
use crate::limits::{DEPTH, FIELDS, LIST, RECORDS};
use crate::random::{drawn_for, Aim, Random};

pub struct Set {
    pub name: String,
    plans: Plans,
}

enum Plans {
    /// The first plans drawn for `wanted` records that have `low` to `high` of them.
    Drawn {
        aim: Aim,
        wanted: usize,
        low: usize,
        high: usize,
    },
    Built {
        build: Build,
        records: usize,
    },
}

impl Set {
    pub fn images(&self) -> Vec<Vec<u8>> {
        match self.plans {
            Plans::Built { build, records } => vec![build(Size::of(records)).image()],
            Plans::Drawn { aim, wanted, low, high } => {
                let drawn = (0..).map(|case| drawn_for(aim, &mut Random::of_case(1, case), wanted).plan);
                let fitting = drawn.filter(|plan| (low..=high).contains(&plan.size()));
                fitting.take(DRAWN).map(|plan| plan.image()).collect()
            }
        }
    }
}

/// How many plans a set of drawn ones has.
const DRAWN: usize = 16;

type Build = fn(Size) -> Tree;

const HARD: [(&str, Build); 13] = [
    ("deep-filters", deep_filters),
    ("deep-projections", deep_projections),
    ("wide-projections", wide_projections),
    ("wide-sorts", wide_sorts),
    ("deep-aliases", deep_aliases),
    ("deep-windows", deep_windows),
    ("wide-union-one-table", wide_union),
    ("scans-of-many-tables", many_tables),
    ("deep-joins-many-conjuncts", joins_with_conjuncts),
    ("deep-semi-joins", semi_joins),
    ("right-deep-joins", right_deep_joins),
    ("deep-joins-many-references", joins_with_references),
    ("unions-over-deep-joins", unions_over_joins),
];

fn drawn(name: &str, aim: Aim, wanted: usize, low: usize, high: usize) -> Set {
    Set { name: name.into(), plans: Plans::Drawn { aim, wanted, low, high } }
}

fn ordinary() -> Vec<Set> {
    vec![
        drawn("small", Aim::Check, 10, 10, 10),
        drawn("medium", Aim::Check, 100, 90, 110),
        drawn("full", Aim::Check, 1800, 1950, RECORDS),
    ]
}

/// Plans that make the rewrite work hard.
const HARD_TO_REWRITE: [(&str, Build); 2] = [("stacked-filters", stacked_filters), ("growing", growing)];

/// Sets for the rewrite: the ordinary plans, plans with Filters everywhere, of which the largest have room to grow, and the
/// hard ones.
pub fn rewrite_sets() -> Vec<Set> {
    let aim = Aim::Rewrite { volatile: false };
    let mut sets = ordinary();
    sets.push(drawn("small-filters", aim, 10, 10, 14));
    sets.push(drawn("medium-filters", aim, 100, 90, 110));
    sets.push(drawn("large-filters", aim, 1400, 1400, 1700));
    let hard =
        |(name, build): (&str, Build)| Set { name: name.into(), plans: Plans::Built { build, records: RECORDS } };
    sets.extend(HARD_TO_REWRITE.map(hard));
    sets
}

/// Sets for the check: the ordinary plans, and the hard ones at half size and at full size.
pub fn sets() -> Vec<Set> {
    let mut sets = ordinary();
    for (name, build) in HARD {
        for (suffix, part) in [("-half", 2), ("", 1)] {
            let plans = Plans::Built { build, records: RECORDS / part };
            sets.push(Set { name: format!("{name}{suffix}"), plans });
        }
    }
    sets
}

/// What a hard plan may use.
#[derive(Clone, Copy)]
struct Size {
    records: usize,
    depth: usize,
    fields: usize,
    list: usize,
}

impl Size {
    fn of(records: usize) -> Size {
        let part = |limit: usize| limit * records / RECORDS;
        Size { records, depth: part(DEPTH), fields: part(FIELDS), list: part(LIST) }
    }
}

/// A scan of integers with the names from 1 on, and with as many filters.
fn table(number: u32, qualifier: u32, fields: usize, filters: usize) -> Tree {
    let mut children: Vec<Tree> = (1..=fields as u32).map(|name| field(qualifier, name, OF_INTEGER, true)).collect();
    children.extend(vec![boolean(true); filters]);
    scan(number, children)
}

/// References to the fields with the names from 1 on, in turn.
fn references(qualifier: u32, fields: usize, count: usize) -> Vec<Tree> {
    (0..count).map(|at| column(qualifier, 1 + (at % fields) as u32)).collect()
}

/// The plan below a Filter that refers to its fields as often as there are records left.
fn referring(size: Size, qualifier: u32, fields: usize, plan: Tree) -> Tree {
    let count = size.records - plan.size() - 2;
    filter(in_list(false, references(qualifier, fields, count)), plan)
}

/// A Filter over a Filter over ... a wide scan, each with some references.
fn deep_filters(size: Size) -> Tree {
    let levels = size.depth - 3;
    let each = (size.records - size.fields - 1) / levels - 2;
    let predicate = in_list(false, references(1, size.fields, each));
    let chain = (0..levels - 1).fold(table(1, 1, size.fields, 0), |input, _| filter(predicate.clone(), input));
    referring(size, 1, size.fields, chain)
}

/// Filters over each other, nearly as many as a list holds, no two with the same predicate: they merge one by one.
fn stacked_filters(size: Size) -> Tree {
    let levels = size.list - 8;
    let items = size.records / levels - 4;
    let predicate = |level: usize| {
        let numbers = (0..items).map(|item| integer((item + level * usize::from(item + 1 == items)) as i64));
        in_list(false, std::iter::once(column(1, 1)).chain(numbers).collect())
    };
    (0..levels).fold(table(1, 1, 1, 0), |input, level| filter(predicate(level), input))
}

/// A Filter that refers again and again to a Projection's entry of half of the records: it would grow to half a million.
fn growing(size: Size) -> Tree {
    let half = size.records / 2 - 4;
    let large = in_list(false, references(1, 1, half));
    let often = function(1, 0, 2, vec![column(2, 1); half]);
    filter(often, over(PROJECTION, vec![entry(2, 1, large)], table(1, 1, 1, 0)))
}

/// Projections of one entry each; the references are above them all.
fn deep_projections(size: Size) -> Tree {
    let entries = || vec![entry(1, 1, column(1, 1))];
    let chain = (3..size.depth).fold(table(1, 1, 1, 0), |input, _| over(PROJECTION, entries(), input));
    referring(size, 1, 1, chain)
}

/// Projections of all fields; half of the records are references above them.
fn wide_projections(size: Size) -> Tree {
    let all = references(1, size.fields, size.fields);
    let entries: Vec<Tree> = (1..).zip(all).map(|(name, field)| entry(1, name, field)).collect();
    let levels = size.records / 2 / (2 * size.fields + 1);
    let plan = table(1, 1, size.fields, 0);
    let chain = (0..levels).fold(plan, |input, _| over(PROJECTION, entries.clone(), input));
    referring(size, 1, size.fields, chain)
}

/// Sorts by many keys over each other: a question to a schema passes all keys below.
fn wide_sorts(size: Size) -> Tree {
    let levels = 16;
    let each = (size.records - size.fields - 1) / levels / 2 - 1;
    let keys: Vec<Tree> =
        references(1, size.fields, each).into_iter().map(|reference| sort_key(false, reference)).collect();
    let plan = table(1, 1, size.fields, 0);
    let chain = (0..levels).fold(plan, |input, _| sort(None, keys.clone(), input));
    referring(size, 1, size.fields, chain)
}

/// Aliases over a wide scan; the references are above them all.
fn deep_aliases(size: Size) -> Tree {
    let chain = (3..size.depth).fold(table(1, 1, size.fields, 0), |input, _| alias(1, input));
    referring(size, 1, size.fields, chain)
}

/// Windows, each with a field of its own; the references, to the scan's one field, are above them all.
fn deep_windows(size: Size) -> Tree {
    let counted = |name: u32| vec![window_entry(2, name, COUNT, vec![column(1, 1)])];
    let names = 1..size.fields as u32;
    let chain = names.fold(table(1, 1, 1, 0), |input, name| over(WINDOW, counted(name), input));
    referring(size, 1, 1, chain)
}

/// A Union of wide scans of one table.
fn wide_union(size: Size) -> Tree {
    union(vec![table(1, 1, size.fields, 0); size.records / (size.fields + 1)])
}

/// A Union of scans without fields, each of another table.
fn many_tables(size: Size) -> Tree {
    union((1..size.records as u32).map(|number| scan(number, vec![])).collect())
}

/// Left-deep joins of scans of one field each, every join with a filter of many conjuncts.
fn joins_with_conjuncts(size: Size) -> Tree {
    let joins = size.fields - 1;
    let conjuncts = (size.records - 2 * size.fields) / joins / 4;
    let joined = |left: Tree, number: u32| {
        let equal = binary(EQ, column(1, 1), column(number, 1));
        let predicate = crate::edges::conjunction(vec![equal; conjuncts], crate::edges::Nesting::Left);
        join(1, vec![left, table(number, number, 1, 0), predicate])
    };
    (2..=size.fields as u32).fold(table(1, 1, 1, 0), joined)
}

/// Left-deep semi joins with scans without fields: the fields of both inputs are told apart at each of them.
fn semi_joins(size: Size) -> Tree {
    empty_joins(5, 2, size, laden_scans(size))
}

/// Inner joins with a scan without fields on the left: the fields of the right input are told apart at each of them.
fn right_deep_joins(size: Size) -> Tree {
    let laden = laden_scans(size);
    let lowest = empty_joins(1, size.depth - laden, size, laden);
    (laden + 1..size.depth).fold(lowest, |right, _| join(1, vec![table(2, 2, 0, 0), right]))
}

/// How many scans with all their filters there is room for below joins of all levels.
fn laden_scans(size: Size) -> usize {
    (size.records - 2 * size.depth - size.fields) / size.list
}

/// Left-deep joins with scans without fields; the references, to the fields of the lowest scan, are above them all.
fn joins_with_references(size: Size) -> Tree {
    let chain = empty_joins(1, 3, size, 0);
    referring(size, 1, size.fields, chain)
}

/// The same joins with filters on the lowest scans, below Unions with a wide scan each: a Union asks for the type of
/// every field of its first input three times.
fn unions_over_joins(size: Size) -> Tree {
    let unions = 15;
    let chain = empty_joins(1, unions + 2, size, 4);
    (0..unions).fold(chain, |input, _| union(vec![input, table(1, 1, size.fields, 0)]))
}

/// Left-deep joins of a wide scan with scans without fields, to stand below `above` levels. The lowest `laden` scans have
/// filters, which a question to the schema passes; the joins above these are of the kind `which`, the others Inner.
fn empty_joins(which: u32, above: usize, size: Size, laden: usize) -> Tree {
    let joined = |left: Tree, number: usize| match number < laden {
        true => join(1, vec![left, table(2, 2, 0, size.list)]),
        false => join(which, vec![left, table(2, 2, 0, 0)]),
    };
    let lowest = table(1, 1, size.fields, if laden == 0 { 0 } else { size.list });
    (1..size.depth - above).fold(lowest, joined)
}

#[cfg(test)]
mod tests {
    use super::*;
    use crate::checker::{check, Verdict};

    #[test]
    fn the_sets_are_accepted_and_as_large_as_they_say() {
        for set in sets().into_iter().chain(rewrite_sets()) {
            assert!(set.images().iter().all(|image| check(image) == Verdict::ACCEPTED), "{}", set.name);
        }
        for (name, build) in HARD {
            let size = build(Size::of(RECORDS)).size();
            assert!((RECORDS * 9 / 10..=RECORDS).contains(&size), "{name}: {size} records");
        }
    }
}
