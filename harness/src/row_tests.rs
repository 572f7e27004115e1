//! The row test: the answer that docs/REWRITE.md settles, and calls of it from a seed. Tests 1 to 7 are the checker's, truth is
//! the meaning's; 8, 9 and 10 stand here.

use crate::checker::{check, Verdict};
use crate::damage::{self, damaged_image};
use crate::image::{self, Tree};
use crate::kinds::*;
use crate::limits::RECORDS;
use crate::meaning::{schema, value_on, Row, Value};
use crate::random::{accepted, drawn_for, size, Aim, Draw, Field, Random};

/// What a call hands back: number and record of a refusal, or 0, 0 and the truth.
#[derive(Clone, Copy, Debug, PartialEq, Eq)]
#[repr(C)]
pub struct Tested {
    pub number: u32,
    pub record: u32,
    pub truth: u32,
}

pub const FALSE: u32 = 0;
pub const TRUE: u32 = 1;
pub const UNKNOWN: u32 = 2;

impl std::fmt::Display for Tested {
    fn fmt(&self, f: &mut std::fmt::Formatter<'_>) -> std::fmt::Result {
        match *self {
            Tested { number: 0, record: 0, truth: FALSE } => write!(f, "FALSE"),
            Tested { number: 0, record: 0, truth: TRUE } => write!(f, "TRUE"),
            Tested { number: 0, record: 0, truth: UNKNOWN } => write!(f, "UNKNOWN"),
            Tested { number, record, truth } => write!(f, "{number} at {record}, truth {truth}"),
        }
    }
}

/// A call and how it was drawn.
pub struct Call {
    pub family: &'static str,
    pub image: Vec<u8>,
    pub node: u32,
    pub values: Vec<i64>,
    pub marks: Vec<u8>,
}

// The answer

pub fn row_test(image: &[u8], node: u32, values: &[i64], marks: &[u8]) -> Tested {
    let verdict = check(image);
    if verdict != Verdict::ACCEPTED {
        return refused(verdict.number, verdict.record);
    }
    let plan = Tree::of_records(&image::read(image));
    let Some(found) = plan.node(node as usize).filter(|tree| tree.label.kind == FILTER) else {
        return refused(8, node);
    };
    let [predicate, input] = &found.children[..] else { unreachable!("test 5 saw a predicate and an input") };
    let Some(row) = row_of(&types(input), values, marks) else { return refused(9, 0) };
    if holds_function(predicate) {
        return refused(10, node);
    }
    let truth = match value_on(predicate, input, &row) {
        Value::Truth(false) => FALSE,
        Value::Truth(true) => TRUE,
        _ => UNKNOWN,
    };
    Tested { number: 0, record: 0, truth }
}

fn refused(number: u32, record: u32) -> Tested {
    Tested { number, record, truth: 0 }
}

fn holds_function(predicate: &Tree) -> bool {
    predicate.parent_first().iter().any(|(_, tree)| tree.label.kind == FUNCTION)
}

/// The row of the values and marks, if test 9 lets them pass.
fn row_of(types: &[u32], values: &[i64], marks: &[u8]) -> Option<Row> {
    if values.len() != types.len() || marks.len() != types.len() {
        return None;
    }
    (0..types.len()).map(|at| value_of(types[at], values[at], marks[at])).collect()
}

fn value_of(of: u32, value: i64, mark: u8) -> Option<Value> {
    match (mark, of, value) {
        (1, _, _) => Some(Value::Null),
        (0, OF_INTEGER, number) => Some(Value::Integer(number)),
        (0, _, 0) => Some(Value::Truth(false)),
        (0, _, 1) => Some(Value::Truth(true)),
        _ => None,
    }
}

/// The types of a plan's fields, by place.
pub fn types(plan: &Tree) -> Vec<u32> {
    let children = &plan.children;
    let of_parts = |input: &Tree| {
        let fields = fields(input);
        let part = |part: &Tree| match part.label.kind {
            ENTRY => Some(type_of(&part.children[0], &fields)),
            AGGREGATE_ENTRY | WINDOW_ENTRY => Some(OF_INTEGER),
            _ => None,
        };
        children.iter().filter_map(part).collect::<Vec<u32>>()
    };
    match plan.label.kind {
        SCAN => children.iter().filter(|part| part.label.kind == FIELD).map(|part| part.label.r).collect(),
        PROJECTION | AGGREGATE => of_parts(input(plan)),
        WINDOW => [types(input(plan)), of_parts(input(plan))].concat(),
        UNION => types(&children[0]),
        JOIN => match plan.label.p {
            LEFT_SEMI | LEFT_ANTI => types(&children[0]),
            RIGHT_SEMI | RIGHT_ANTI => types(&children[1]),
            _ => [types(&children[0]), types(&children[1])].concat(),
        },
        _ => types(input(plan)),
    }
}

fn input(plan: &Tree) -> &Tree {
    plan.children.last().expect("the plan has an input")
}

/// Names and types of a plan's fields.
fn fields(plan: &Tree) -> Vec<Field> {
    let named = schema(plan).into_iter().zip(types(plan));
    named.map(|((qualifier, name), of)| Field { qualifier, name, of }).collect()
}

fn type_of(expr: &Tree, fields: &[Field]) -> u32 {
    let label = expr.label;
    let is_named = |field: &&Field| (field.qualifier, field.name) == (label.p, label.q);
    match label.kind {
        COLUMN => fields.iter().find(is_named).expect("a reference names a field").of,
        INTEGER => OF_INTEGER,
        NULL => label.p,
        FUNCTION => label.r,
        _ => OF_BOOLEAN,
    }
}

// Calls

/// Call number `case` of a seed.
pub fn call(seed: u64, case: u64) -> Call {
    let random = &mut Random::of_case(seed, case);
    if random.chance(8) {
        return of_damaged_plan(random, damage::case(seed, case).image);
    }
    let mut plan = drawn(random);
    let (mut family, node) = node(random, &plan);
    let mut row = if family == "Filter" {
        let at = node as usize;
        if random.chance(80) {
            let found = plan.node_mut(at).expect("the node was met in the plan");
            let fields = fields(input(found));
            without_functions(random, &mut found.children[0], &fields);
        }
        let found = plan.node(at).expect("the node was met in the plan");
        Lent::drawn(random, &types(input(found)), &literals(&found.children[0]))
    } else {
        Lent::drawn(random, &types(&plan), &[])
    };
    if random.chance(12) {
        row.spoil(random);
    }
    let mut image = plan.image();
    if random.chance(6) {
        family = "damaged under a drawn row";
        image = damaged_image(random, plan);
    }
    Call { family, image, node, values: row.values, marks: row.marks }
}

/// Any of the damaged images, at a Filter if one is left of it.
fn of_damaged_plan(random: &mut Random, image: Vec<u8>) -> Call {
    let records = image::read(&image);
    let filters: Vec<usize> = (0..records.len()).filter(|&at| records[at].label.kind == FILTER).collect();
    let at = if filters.is_empty() { random.below(records.len() + 1) } else { *random.pick(&filters) };
    let types: Vec<u32> = (0..random.below(4)).map(|_| OF_INTEGER).collect();
    let row = Lent::drawn(random, &types, &[]);
    Call { family: "drawn or damaged image", image, node: at as u32, values: row.values, marks: row.marks }
}

/// A plan with more Filters than chance alone gives it.
fn drawn(random: &mut Random) -> Tree {
    let records = size(random).min(random.within(1, 400));
    let planned = match random.below(3) {
        0 => accepted(random, records),
        _ => drawn_for(Aim::Rewrite { volatile: true }, random, records),
    };
    if random.chance(40) {
        return planned.plan;
    }
    let mut draw = Draw::new(random, 60);
    if draw.random.chance(20) {
        return filter(draw.listed(&planned.fields), planned.plan);
    }
    let levels = draw.random.within(1, 5);
    filter(draw.expr(&planned.fields, OF_BOOLEAN, levels), planned.plan)
}

/// Mostly a Filter, else any other record or an absent one.
fn node(random: &mut Random, plan: &Tree) -> (&'static str, u32) {
    let nodes = plan.parent_first();
    let is_filter = |at: &usize| nodes[*at].1.label.kind == FILTER;
    let filters: Vec<usize> = (0..nodes.len()).filter(is_filter).collect();
    if !filters.is_empty() && random.chance(90) {
        return ("Filter", *random.pick(&filters) as u32);
    }
    let past = nodes.len();
    let absent = [past, past, past + random.below(RECORDS), RECORDS, 1 << 16, u32::MAX as usize];
    let at = if random.chance(60) { random.below(past) } else { *random.pick(&absent) };
    match nodes.get(at).map(|(_, tree)| tree.label.kind) {
        Some(FILTER) => ("Filter", at as u32),
        Some(kind) if is_plan(kind) => ("another plan", at as u32),
        Some(_) => ("a record that is no plan", at as u32),
        None => ("an absent record", at as u32),
    }
}

/// A column or a literal in the place of each function.
fn without_functions(random: &mut Random, expr: &mut Tree, fields: &[Field]) {
    if expr.label.kind != FUNCTION {
        for child in &mut expr.children {
            without_functions(random, child, fields);
        }
        return;
    }
    let of = expr.label.r;
    let fitting: Vec<&Field> = fields.iter().filter(|field| field.of == of).collect();
    *expr = match (random.below(8), of) {
        (0, _) => null(of),
        (1..6, _) if !fitting.is_empty() => random.pick(&fitting).reference(),
        (_, OF_BOOLEAN) => boolean(random.chance(50)),
        _ => integer(*random.pick(&[-1, 0, 1, 2, i64::MAX, i64::MIN])),
    };
}

/// The integers of a predicate.
pub fn literals(predicate: &Tree) -> Vec<i64> {
    let nodes = predicate.parent_first();
    let literals = nodes.iter().map(|(_, tree)| tree.label).filter(|label| label.kind == INTEGER);
    literals.map(|label| (u64::from(label.hi) << 32 | u64::from(label.lo)) as i64).collect()
}

/// A row as it is lent.
#[derive(Default)]
struct Lent {
    types: Vec<u32>,
    values: Vec<i64>,
    marks: Vec<u8>,
}

/// Words that a boolean is not, some of them 0 or 1 in their low halves or bytes.
const NO_BOOLEANS: [i64; 10] = [2, 3, -1, 255, 256, 257, 1 << 32, 1 << 32 | 1, i64::MIN, i64::MAX];

impl Lent {
    /// A row that test 9 lets pass. What stands under a NULL mark may be anything.
    fn drawn(random: &mut Random, types: &[u32], literals: &[i64]) -> Lent {
        let mut row = Lent { types: types.to_vec(), ..Lent::default() };
        let null_in_100 = *random.pick(&[0, 10, 10, 30, 100]);
        for &of in types {
            let is_null = random.chance(null_in_100);
            let value = match of {
                OF_BOOLEAN if is_null && random.chance(60) => *random.pick(&NO_BOOLEANS),
                OF_BOOLEAN => random.below(2) as i64,
                _ => number(random, literals),
            };
            row.values.push(value);
            row.marks.push(u8::from(is_null));
        }
        row
    }

    /// A wrong length, a mark above 1 or a boolean that is none; where there is no place for that, a wrong length.
    fn spoil(&mut self, random: &mut Random) {
        let booleans: Vec<usize> = (0..self.types.len()).filter(|&at| self.types[at] == OF_BOOLEAN).collect();
        match random.below(3) {
            0 if !booleans.is_empty() => {
                let at = *random.pick(&booleans);
                self.values[at] = *random.pick(&NO_BOOLEANS);
                self.marks[at] = 0;
            }
            1 if !self.marks.is_empty() => {
                let at = random.below(self.marks.len());
                self.marks[at] = *random.pick(&[2, 3, 4, 127, 128, 129, 254, 255]);
            }
            _ => self.spoil_length(random),
        }
    }

    fn spoil_length(&mut self, random: &mut Random) {
        let (which, longer) = (random.below(3), random.chance(50));
        let added = random.within(1, 3);
        let length = if longer { self.types.len() + added } else { self.types.len().saturating_sub(added) };
        if which != 0 {
            self.values.resize(length, 1);
        }
        if which != 1 {
            self.marks.resize(length, 0);
        }
    }
}

/// Numbers that meet the literals, or lie just beside them; the ends; and any.
fn number(random: &mut Random, literals: &[i64]) -> i64 {
    if !literals.is_empty() && random.chance(40) {
        let beside = *random.pick(&[0, 0, 1, -1]);
        return random.pick(literals).wrapping_add(beside);
    }
    let any = random.word() as i64;
    *random.pick(&[-3, -1, 0, 0, 1, 1, 2, 3, 5, 7, 1 << 32, i64::MAX, i64::MIN, any])
}

#[cfg(test)]
mod tests {
    use super::*;

    /// Filter t.c > 5 AND t.b over a table with the integer c and the boolean b.
    fn image_of(more: fn(Tree) -> Tree) -> Vec<u8> {
        let predicate = and(binary(GT, column(1, 1), integer(5)), more(column(1, 2)));
        let fields = vec![field(1, 1, OF_INTEGER, true), field(1, 2, OF_BOOLEAN, false)];
        limit(1, 0, filter(predicate, scan(1, fields))).image()
    }

    #[test]
    fn truth_is_the_meaning_of_the_predicate() {
        let image = image_of(|column| column);
        let truth = |values: [i64; 2], marks: [u8; 2]| row_test(&image, 1, &values, &marks);
        let answer = |truth: u32| Tested { number: 0, record: 0, truth };
        assert_eq!(truth([6, 1], [0, 0]), answer(TRUE));
        assert_eq!(truth([5, 1], [0, 0]), answer(FALSE));
        assert_eq!(truth([6, 7], [0, 1]), answer(UNKNOWN));
        assert_eq!(truth([5, 7], [0, 1]), answer(FALSE));
        assert_eq!(truth([6, 1], [1, 0]), answer(UNKNOWN));
    }

    #[test]
    fn refusals_come_by_number() {
        let calls = |argument| function(1, 0, OF_BOOLEAN, vec![argument]);
        let (plain, image) = (image_of(|column| column), image_of(calls));
        assert_eq!(row_test(&[], 1, &[], &[]), refused(1, 0));
        for node in [0, 2, 99, u32::MAX] {
            assert_eq!(row_test(&image, node, &[], &[]), refused(8, node));
        }
        assert_eq!(row_test(&image, 1, &[6], &[0, 0]), refused(9, 0));
        assert_eq!(row_test(&image, 1, &[6, 1], &[0, 0, 0]), refused(9, 0));
        assert_eq!(row_test(&plain, 1, &[6, 1], &[2, 0]), refused(9, 0));
        assert_eq!(row_test(&plain, 1, &[6, 2], &[0, 0]), refused(9, 0));
        assert_eq!(row_test(&image, 1, &[6, 1], &[0, 0]), refused(10, 1));
    }

    /// The types written here are those that the plans were drawn with.
    #[test]
    fn types_are_as_drawn() {
        for case in 0..2000 {
            let random = &mut Random::of_case(3, case);
            let records = size(random);
            let planned = accepted(random, records);
            assert_eq!(fields(&planned.plan), planned.fields, "case {case}");
        }
    }
}
