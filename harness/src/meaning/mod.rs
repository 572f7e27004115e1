//! What a plan means: its rows over given tables, written from the rules of docs/MEANING.md alone.

mod bending;
mod joins;
mod tables;
mod values;

use crate::image::{Label, Tree};
use crate::kinds::*;
use crate::random::Random;
pub use bending::bent;
use joins::Sides;
use std::collections::hash_map::DefaultHasher;
use std::collections::{BTreeMap, HashSet};
use std::hash::{Hash, Hasher};
use tables::{drawn_value, tables_for};
use values::{both, compared, in_list, in_sort, negated, tested};
pub use values::{Row, Value};
use Value::{Integer, Null, Truth};

/// A field by qualifier and name.
pub type Name = (u32, u32);

/// What is not in the plan: the tables, and what functions mean.
pub struct World {
    tables: BTreeMap<u32, Vec<Row>>,
    functions: u64,
}

/// No plan is read further once one of its nodes has more rows than this.
const MOST_ROWS: usize = 3000;

impl World {
    /// Small tables, drawn for the plan, and any meaning of functions.
    pub fn for_plan(random: &mut Random, plan: &Tree) -> World {
        World { tables: tables_for(random, plan), functions: random.word() }
    }

    /// Given tables, by number, and any meaning of functions.
    pub fn of_tables(tables: BTreeMap<u32, Vec<Row>>) -> World {
        World { tables, functions: 0 }
    }

    /// The rows of a plan, in order; none if a node has too many.
    pub fn rows(&self, plan: &Tree) -> Option<Vec<Row>> {
        let rows = match plan.label.kind {
            SCAN => self.scan(plan),
            FILTER => self.filter(plan)?,
            PROJECTION => self.projection(plan)?,
            JOIN => self.join(plan)?,
            UNION => plan.children.iter().map(|input| self.rows(input)).collect::<Option<Vec<_>>>()?.concat(),
            DISTINCT => first_occurrences(self.input(plan)?),
            SORT => self.sort(plan)?,
            ALIAS | REPARTITION => self.input(plan)?,
            LIMIT => {
                let (fetch, skip) = (plan.label.lo as usize, plan.label.hi as usize);
                self.input(plan)?.into_iter().skip(skip).take(fetch).collect()
            }
            AGGREGATE => self.aggregate(plan)?,
            WINDOW => self.window(plan)?,
            kind => panic!("kind {kind} is no plan"),
        };
        (rows.len() <= MOST_ROWS).then_some(rows)
    }

    fn input(&self, plan: &Tree) -> Option<Vec<Row>> {
        self.rows(last(plan))
    }

    /// A scan hands up its table's rows, in order, for which all its filters are TRUE.
    fn scan(&self, plan: &Tree) -> Vec<Row> {
        let names = schema(plan);
        let filters: Vec<&Tree> = plan.children.iter().filter(|child| is_expr(child.label.kind)).collect();
        let passes = |row: &&Row| filters.iter().all(|filter| self.is_true(filter, &names, row));
        self.tables[&plan.label.p].iter().filter(passes).cloned().collect()
    }

    fn filter(&self, plan: &Tree) -> Option<Vec<Row>> {
        let names = schema(plan);
        let rows = self.input(plan)?.into_iter();
        Some(rows.filter(|row| self.is_true(&plan.children[0], &names, row)).collect())
    }

    fn projection(&self, plan: &Tree) -> Option<Vec<Row>> {
        let names = schema(last(plan));
        let entries = parts(plan, ENTRY);
        let row_of = |row: Row| entries.iter().map(|entry| self.value(&entry.children[0], &names, &row)).collect();
        Some(self.input(plan)?.into_iter().map(row_of).collect())
    }

    /// Stable, NULL last, then the fetch.
    fn sort(&self, plan: &Tree) -> Option<Vec<Row>> {
        let names = schema(plan);
        let keys = parts(plan, SORT_KEY);
        let key_values =
            |row: &Row| -> Row { keys.iter().map(|key| self.value(&key.children[0], &names, row)).collect() };
        let mut keyed: Vec<(Row, Row)> = self.input(plan)?.into_iter().map(|row| (key_values(&row), row)).collect();
        let descending: Vec<bool> = keys.iter().map(|key| key.label.p == 1).collect();
        keyed.sort_by(|(left, _), (right, _)| in_sort(left, right, &descending));
        let fetch = if plan.label.p == 1 { plan.label.lo as usize } else { usize::MAX };
        Some(keyed.into_iter().map(|(_, row)| row).take(fetch).collect())
    }

    fn join(&self, plan: &Tree) -> Option<Vec<Row>> {
        let (left_names, right_names) = (schema(&plan.children[0]), schema(&plan.children[1]));
        let (left, right) = (self.rows(&plan.children[0])?, self.rows(&plan.children[1])?);
        if left.len() * right.len() > MOST_ROWS {
            return None;
        }
        let both = [left_names.clone(), right_names.clone()].concat();
        let matches = |l: &Row, r: &Row| {
            let on = |pair: &&Tree| {
                let key = self.value(&pair.children[0], &left_names, l);
                compared(EQ, key, self.value(&pair.children[1], &right_names, r)) == Truth(true)
            };
            let own = plan.children.iter().filter(|child| is_expr(child.label.kind));
            let row = [l.clone(), r.clone()].concat();
            parts(plan, KEY_PAIR).iter().all(on) && own.into_iter().all(|filter| self.is_true(filter, &both, &row))
        };
        let sides =
            Sides { left, right, left_width: left_names.len(), right_width: right_names.len(), matches: &matches };
        Some(sides.joined(plan.label.p))
    }

    /// Group entries, then entries; one row if there are no group entries.
    fn aggregate(&self, plan: &Tree) -> Option<Vec<Row>> {
        let names = schema(last(plan));
        let rows = self.input(plan)?;
        let groups = parts(plan, ENTRY);
        let key =
            |row: &Row| -> Row { groups.iter().map(|group| self.value(&group.children[0], &names, row)).collect() };
        let keys = match groups.is_empty() {
            true => vec![vec![]],
            false => first_occurrences(rows.iter().map(key).collect()),
        };
        let group_row = |of: Row| -> Row {
            let members: Vec<&Row> = rows.iter().filter(|row| key(row) == of).collect();
            let entries = parts(plan, AGGREGATE_ENTRY);
            let values = entries.iter().map(|entry| self.counted(entry, &names, &members));
            of.iter().copied().chain(values).collect()
        };
        Some(keys.into_iter().map(group_row).collect())
    }

    /// The input's fields, then an entry for each, over the rows of the row's partition.
    fn window(&self, plan: &Tree) -> Option<Vec<Row>> {
        let names = schema(last(plan));
        let rows = self.input(plan)?;
        let entries = parts(plan, WINDOW_ENTRY);
        let value = |entry: &Tree, row: &Row| {
            let by = &entry.children[1..];
            let partition = |row: &Row| -> Row { by.iter().map(|column| self.value(column, &names, row)).collect() };
            let members: Vec<&Row> = rows.iter().filter(|other| partition(other) == partition(row)).collect();
            self.counted(entry, &names, &members)
        };
        let widened = |row: &Row| row.iter().copied().chain(entries.iter().map(|entry| value(entry, row))).collect();
        Some(rows.iter().map(widened).collect())
    }

    /// Count counts values that are not NULL; Min and Max skip NULL, and give NULL for none.
    fn counted(&self, entry: &Tree, names: &[Name], rows: &[&Row]) -> Value {
        let values = rows.iter().map(|row| self.value(&entry.children[0], names, row));
        let values: Vec<Value> = values.filter(|value| *value != Null).collect();
        let integers = values.iter().map(|value| if let Integer(number) = value { *number } else { 0 });
        match entry.label.r {
            COUNT => Integer(values.len() as i64),
            MIN => integers.min().map_or(Null, Integer),
            _ => integers.max().map_or(Null, Integer),
        }
    }

    fn is_true(&self, predicate: &Tree, names: &[Name], row: &[Value]) -> bool {
        self.value(predicate, names, row) == Truth(true)
    }

    fn value(&self, expr: &Tree, names: &[Name], row: &[Value]) -> Value {
        let Label { kind, p, q, r, lo, hi } = expr.label;
        let of = |at: usize| self.value(&expr.children[at], names, row);
        match kind {
            COLUMN => row[names.iter().position(|name| *name == (p, q)).expect("a reference names a field")],
            INTEGER => Integer((u64::from(hi) << 32 | u64::from(lo)) as i64),
            BOOLEAN => Truth(p == 1),
            NULL => Null,
            BINARY if p == AND => both(of(0), of(1)),
            BINARY if p == OR => negated(both(negated(of(0)), negated(of(1)))),
            BINARY => compared(p, of(0), of(1)),
            NOT => negated(of(0)),
            TEST => Truth(tested(p, of(0))),
            BETWEEN => {
                let within = both(compared(LT_EQ, of(1), of(0)), compared(LT_EQ, of(0), of(2)));
                if p == 1 {
                    negated(within)
                } else {
                    within
                }
            }
            IN_LIST => {
                let found = in_list(of(0), (1..expr.children.len()).map(of));
                if p == 1 {
                    negated(found)
                } else {
                    found
                }
            }
            FUNCTION => self.function(p, q, r, (0..expr.children.len()).map(of).collect()),
            kind => panic!("kind {kind} is no expression"),
        }
    }

    /// Any total meaning will do: a value of type r or NULL, drawn by p, q, r and the arguments.
    fn function(&self, p: u32, q: u32, r: u32, arguments: Vec<Value>) -> Value {
        let mut hasher = DefaultHasher::new();
        (self.functions, p, q, r, arguments).hash(&mut hasher);
        drawn_value(&mut Random::of_seed(hasher.finish()), r)
    }
}

/// The value of an expression without functions on a row over the input's fields.
pub fn value_on(expr: &Tree, input: &Tree, row: &[Value]) -> Value {
    let no_functions = World { tables: BTreeMap::new(), functions: 0 };
    no_functions.value(expr, &schema(input), row)
}

fn last(plan: &Tree) -> &Tree {
    plan.children.last().expect("the plan has an input")
}

fn parts(plan: &Tree, kind: u32) -> Vec<&Tree> {
    plan.children.iter().filter(|child| child.label.kind == kind).collect()
}

/// The fields of a plan, by place.
pub fn schema(plan: &Tree) -> Vec<Name> {
    let named = |kind: u32| parts(plan, kind).into_iter().map(|part| (part.label.p, part.label.q));
    match plan.label.kind {
        SCAN => named(FIELD).collect(),
        PROJECTION => named(ENTRY).collect(),
        AGGREGATE => named(ENTRY).chain(named(AGGREGATE_ENTRY)).collect(),
        WINDOW => schema(last(plan)).into_iter().chain(named(WINDOW_ENTRY)).collect(),
        ALIAS => schema(last(plan)).into_iter().map(|(_, name)| (plan.label.p, name)).collect(),
        UNION => schema(&plan.children[0]),
        JOIN => match plan.label.p {
            LEFT_SEMI | LEFT_ANTI => schema(&plan.children[0]),
            RIGHT_SEMI | RIGHT_ANTI => schema(&plan.children[1]),
            _ => [schema(&plan.children[0]), schema(&plan.children[1])].concat(),
        },
        _ => schema(last(plan)),
    }
}

/// NULL is equal to NULL here.
fn first_occurrences(rows: Vec<Row>) -> Vec<Row> {
    let mut met = HashSet::new();
    rows.into_iter().filter(|row| met.insert(row.clone())).collect()
}

#[cfg(test)]
mod tests {
    use super::*;
    use crate::kinds::in_list;

    /// A table 1 with a field 1.1 and a table 2 with a field 2.1, of integers.
    fn world(left: &[Value], right: &[Value]) -> World {
        let rows = |values: &[Value]| values.iter().map(|value| vec![*value]).collect();
        World { tables: BTreeMap::from([(1, rows(left)), (2, rows(right))]), functions: 7 }
    }

    fn table(number: u32) -> Tree {
        crate::kinds::scan(number, vec![field(number, 1, OF_INTEGER, false)])
    }

    fn column_of(rows: Option<Vec<Row>>) -> Vec<Value> {
        rows.expect("few rows").into_iter().map(|row| row[0]).collect()
    }

    #[test]
    fn sorts_put_null_last_and_are_stable() {
        let world = world(&[Null, Integer(2), Integer(1), Null, Integer(3)], &[]);
        let sorted = |descending: bool, fetch: Option<u32>| {
            let plan = sort(fetch, vec![sort_key(descending, column(1, 1))], table(1));
            column_of(world.rows(&plan))
        };
        assert_eq!(sorted(false, None), [Integer(1), Integer(2), Integer(3), Null, Null]);
        assert_eq!(sorted(true, None), [Integer(3), Integer(2), Integer(1), Null, Null]);
        assert_eq!(sorted(true, Some(1)), [Integer(3)]);
        assert_eq!(column_of(world.rows(&sort(None, vec![], table(1))))[..2], [Null, Integer(2)]);
        assert_eq!(column_of(world.rows(&limit(2, 1, table(1)))), [Integer(2), Integer(1)]);
    }

    #[test]
    fn joins_keep_their_order_and_full_adds_the_right_last() {
        let world = world(&[Integer(1), Null, Integer(2)], &[Integer(3), Integer(2), Integer(2), Null]);
        let joined = |which: u32| {
            let pair = key_pair(column(1, 1), column(2, 1));
            world.rows(&join(which, vec![table(1), table(2), pair])).expect("few rows")
        };
        let (one, two, three) = (Integer(1), Integer(2), Integer(3));
        let matched = vec![two, two];
        let left_alone = [vec![one, Null], vec![Null, Null]];
        let right_alone = [vec![Null, three], vec![Null, Null]];
        assert_eq!(joined(INNER), [matched.clone(), matched.clone()]);
        let left = [left_alone.to_vec(), vec![matched.clone(), matched.clone()]].concat();
        assert_eq!(joined(LEFT), left);
        assert_eq!(joined(RIGHT), [right_alone[0].clone(), matched.clone(), matched, right_alone[1].clone()]);
        assert_eq!(joined(FULL), [left, right_alone.to_vec()].concat());
        assert_eq!(joined(LEFT_SEMI), [[two]]);
        assert_eq!(joined(RIGHT_SEMI), [[two], [two]]);
        assert_eq!(joined(LEFT_ANTI), [[one], [Null]]);
        assert_eq!(joined(RIGHT_ANTI), [[three], [Null]]);
    }

    #[test]
    fn groups_take_null_as_equal_and_no_groups_give_one_row() {
        let world = world(&[Null, Integer(4), Null, Integer(4)], &[]);
        let entry_of = |what: u32| aggregate_entry(0, 9, what, column(1, 1));
        let grouped = |parts: Vec<Tree>, input: Tree| world.rows(&over(AGGREGATE, parts, input)).expect("few rows");
        let by_value = grouped(vec![entry(0, 8, column(1, 1)), entry_of(COUNT)], table(1));
        assert_eq!(by_value, [[Null, Integer(0)], [Integer(4), Integer(2)]]);
        assert_eq!(grouped(vec![entry_of(COUNT)], table(2)), [[Integer(0)]]);
        assert_eq!(grouped(vec![entry_of(MIN)], filter(boolean(false), table(1))), [[Null]]);
        assert_eq!(column_of(world.rows(&distinct(table(1)))), [Null, Integer(4)]);
    }

    #[test]
    fn in_list_and_between_are_as_the_page_says() {
        let world = world(&[], &[]);
        let value = |expr: &Tree| world.value(expr, &[], &[]);
        let nothing = || null(OF_INTEGER);
        assert_eq!(value(&in_list(false, vec![nothing(), integer(4)])), Null);
        assert_eq!(value(&in_list(false, vec![nothing(), nothing()])), Null);
        assert_eq!(value(&in_list(false, vec![integer(5), nothing()])), Null);
        assert_eq!(value(&in_list(true, vec![integer(5), integer(4), nothing()])), Null);
        assert_eq!(value(&in_list(true, vec![integer(4), integer(4), nothing()])), Truth(false));
        assert_eq!(value(&in_list(false, vec![integer(4), nothing(), integer(4)])), Truth(true));
        assert_eq!(value(&in_list(false, vec![integer(5), integer(4)])), Truth(false));
        assert_eq!(value(&in_list(true, vec![integer(5), integer(4)])), Truth(true));
        // an item is NULL by its value, not only as a literal
        assert_eq!(world.value(&in_list(true, vec![integer(5), column(1, 1)]), &[(1, 1)], &[Null]), Null);
        assert_eq!(value(&between(false, integer(5), nothing(), integer(3))), Truth(false));
        assert_eq!(value(&between(true, integer(2), integer(1), nothing())), Null);
        assert_eq!(value(&binary(OR, null(OF_BOOLEAN), boolean(true))), Truth(true));
    }
}
