//! Tables for a plan, drawn from its own literals, keys and types: values that its predicates ask for and those beside them, the
//! same values on both sides of a key, some NULLs.

use super::values::{Row, Value};
use super::Name;
use crate::image::Tree;
use crate::kinds::*;
use crate::random::Random;
use std::collections::BTreeMap;
use Value::{Integer, Null, Truth};

/// A field of a table, by table and place.
type Origin = (u32, usize);

/// A field of a plan: its name, and the field of a table whose values it holds, if it is one.
type Column = (Name, Option<Origin>);

/// What a plan asks of the fields of its tables.
#[derive(Default)]
struct Wants {
    types: BTreeMap<u32, Vec<u32>>,
    /// Values that make a comparison TRUE.
    fitting: BTreeMap<Origin, Vec<Value>>,
    /// Fields that are compared for equality.
    equal: Vec<(Origin, Origin)>,
}

/// Tables with the fields that the scans of the plan have.
pub fn tables_for(random: &mut Random, plan: &Tree) -> BTreeMap<u32, Vec<Row>> {
    let mut wants = Wants::default();
    wants.read(plan);
    let pools = wants.pools(random);
    let rows = |(&table, types): (&u32, &Vec<u32>)| (table, drawn_rows(random, table, types, &pools));
    wants.types.iter().map(rows).collect()
}

/// A few rows; seldom none.
fn drawn_rows(random: &mut Random, table: u32, types: &[u32], pools: &BTreeMap<Origin, Vec<Value>>) -> Vec<Row> {
    let count = if random.chance(3) { 0 } else { random.within(2, 10) };
    let mut value = |place: usize, of: u32| match pools.get(&(table, place)) {
        Some(pool) if random.chance(80) => *random.pick(pool),
        _ => drawn_value(random, of),
    };
    (0..count).map(|_| types.iter().enumerate().map(|(place, of)| value(place, *of)).collect()).collect()
}

/// Small numbers, so that values meet; one in seven is NULL.
pub fn drawn_value(random: &mut Random, of: u32) -> Value {
    match (random.below(7), of) {
        (0, _) => Null,
        (_, OF_BOOLEAN) => Truth(random.chance(65)),
        _ => Integer(*random.pick(&[-1, 0, 0, 1, 1, 2, 2, 3, 5])),
    }
}

impl Wants {
    /// Reads the plan and those below it; answers its fields.
    fn read(&mut self, plan: &Tree) -> Vec<Column> {
        let inputs: Vec<Vec<Column>> =
            plan.children.iter().filter(|child| is_plan(child.label.kind)).map(|input| self.read(input)).collect();
        if plan.label.kind == SCAN {
            return self.read_scan(plan);
        }
        let both = inputs.concat();
        for part in plan.children.iter().filter(|child| !is_plan(child.label.kind)) {
            match (part.label.kind, part.children.as_slice()) {
                (KEY_PAIR, [left, right]) => self.read_equal(left, right, &both),
                _ => self.read_predicate(part, &both),
            }
        }
        let named = |kind: u32| {
            let parts = plan.children.iter().filter(move |part| part.label.kind == kind);
            parts.map(|part| ((part.label.p, part.label.q), origin(&part.children[0], &both)))
        };
        let counted = |kind: u32| named(kind).map(|(name, _)| (name, None));
        match plan.label.kind {
            PROJECTION => named(ENTRY).collect(),
            AGGREGATE => named(ENTRY).chain(counted(AGGREGATE_ENTRY)).collect(),
            WINDOW => both.iter().copied().chain(counted(WINDOW_ENTRY)).collect(),
            ALIAS => both.into_iter().map(|((_, name), of)| ((plan.label.p, name), of)).collect(),
            UNION => inputs.into_iter().next().unwrap_or_default(),
            JOIN => match plan.label.p {
                LEFT_SEMI | LEFT_ANTI => inputs[0].clone(),
                RIGHT_SEMI | RIGHT_ANTI => inputs[1].clone(),
                _ => both,
            },
            _ => both,
        }
    }

    fn read_scan(&mut self, scan: &Tree) -> Vec<Column> {
        let table = scan.label.p;
        let fields = scan.children.iter().filter(|part| part.label.kind == FIELD).enumerate();
        let columns: Vec<Column> =
            fields.clone().map(|(place, field)| ((field.label.p, field.label.q), Some((table, place)))).collect();
        self.types.entry(table).or_insert_with(|| fields.map(|(_, field)| field.label.r).collect());
        for filter in scan.children.iter().filter(|part| is_expr(part.label.kind)) {
            self.read_predicate(filter, &columns);
        }
        columns
    }

    /// The comparisons and tests anywhere in an expression or a part.
    fn read_predicate(&mut self, predicate: &Tree, columns: &[Column]) {
        let children = predicate.children.as_slice();
        match (predicate.label.kind, children) {
            (COLUMN, _) => self.want(predicate, columns, &[Truth(true)]),
            (NOT, [operand]) => self.want(operand, columns, &[Truth(false)]),
            (TEST, [operand]) => self.want(operand, columns, &passing(predicate.label.p)),
            (BINARY, [left, right]) if ![AND, OR].contains(&predicate.label.p) => {
                self.read_comparison(predicate.label.p, left, right, columns);
            }
            (BETWEEN, [operand, low, high]) => {
                for end in [low, high].into_iter().filter_map(literal) {
                    self.want(operand, columns, &[end]);
                }
            }
            (IN_LIST, [operand, items @ ..]) => {
                let items: Vec<Value> = items.iter().filter_map(literal).collect();
                self.want(operand, columns, &items);
            }
            _ => {}
        }
        for child in children.iter().filter(|child| child.label.kind != COLUMN || predicate.label.p <= OR) {
            self.read_predicate(child, columns);
        }
    }

    fn read_comparison(&mut self, operator: u32, left: &Tree, right: &Tree, columns: &[Column]) {
        match (literal(left), literal(right)) {
            (_, Some(bound)) => self.want(left, columns, &fitting(operator, bound)),
            (Some(bound), _) => self.want(right, columns, &fitting(mirrored(operator), bound)),
            _ if operator == EQ => self.read_equal(left, right, columns),
            _ => {}
        }
    }

    fn read_equal(&mut self, left: &Tree, right: &Tree, columns: &[Column]) {
        if let (Some(left), Some(right)) = (origin(left, columns), origin(right, columns)) {
            self.equal.push((left, right));
        }
    }

    /// Notes values for a column; those of another type are left out when they are drawn.
    fn want(&mut self, column: &Tree, columns: &[Column], values: &[Value]) {
        if let Some(origin) = origin(column, columns) {
            self.fitting.entry(origin).or_default().extend(values);
        }
    }

    /// For each field the values that it is drawn from: those it is asked for, or, of a key, those of both sides.
    fn pools(&self, random: &mut Random) -> BTreeMap<Origin, Vec<Value>> {
        let mut pools = self.fitting.clone();
        for (left, right) in &self.equal {
            let mut shared =
                [pools.get(left), pools.get(right)].into_iter().flatten().flatten().copied().collect::<Vec<_>>();
            if shared.is_empty() {
                let of = self.types[&left.0][left.1];
                shared = vec![drawn_value(random, of), drawn_value(random, of)];
            }
            pools.insert(*left, shared.clone());
            pools.insert(*right, shared);
        }
        for ((table, place), pool) in &mut pools {
            let of = self.types[table][*place];
            pool.retain(|value| is_of(of, *value));
            // now and then a value beside those that fit
            let beside = pool.iter().filter_map(|value| match value {
                Integer(number) => Some(Integer(number.wrapping_add(*random.pick(&[-1, 1])))),
                _ => None,
            });
            let beside: Vec<Value> = beside.take(1).collect();
            if pool.len() > 2 {
                pool.extend(beside);
            }
        }
        pools.retain(|_, pool| !pool.is_empty());
        pools
    }
}

fn is_of(of: u32, value: Value) -> bool {
    match value {
        Null => true,
        Integer(_) => of == OF_INTEGER,
        Truth(_) => of == OF_BOOLEAN,
    }
}

/// The field of a table that a column is.
fn origin(column: &Tree, columns: &[Column]) -> Option<Origin> {
    let name = (column.label.p, column.label.q);
    let found = columns.iter().find(|(other, _)| column.label.kind == COLUMN && *other == name);
    found.and_then(|(_, origin)| *origin)
}

fn literal(expr: &Tree) -> Option<Value> {
    match expr.label.kind {
        INTEGER => Some(Integer((u64::from(expr.label.hi) << 32 | u64::from(expr.label.lo)) as i64)),
        BOOLEAN => Some(Truth(expr.label.p == 1)),
        _ => None,
    }
}

fn mirrored(operator: u32) -> u32 {
    match operator {
        LT => GT,
        LT_EQ => GT_EQ,
        GT => LT,
        GT_EQ => LT_EQ,
        same => same,
    }
}

/// Values for which the comparison with the bound is TRUE.
fn fitting(operator: u32, bound: Value) -> Vec<Value> {
    let candidates = match bound {
        Integer(number) => [-1, 0, 1].map(|beside| Integer(number.wrapping_add(beside))).to_vec(),
        _ => vec![Truth(false), Truth(true)],
    };
    candidates.into_iter().filter(|value| super::compared(operator, *value, bound) == Truth(true)).collect()
}

/// Values that the test lets pass.
fn passing(test: u32) -> Vec<Value> {
    let candidates = [Null, Truth(false), Truth(true)];
    candidates.into_iter().filter(|value| super::tested(test, *value)).collect()
}
