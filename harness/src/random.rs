//! Random plans that the check accepts, from a seed. Names come from a small pool, so that fields of different plans
//! share names as often as they may.

mod conjuncts;

use crate::image::Tree;
use crate::kinds::*;
use crate::limits;
use std::collections::BTreeMap;

/// Splitmix64.
#[derive(Clone)]
pub struct Random(u64);

impl Random {
    pub fn of_seed(seed: u64) -> Random {
        Random(seed)
    }

    /// The numbers of one case, so that a case can be drawn again without those before it.
    pub fn of_case(seed: u64, case: u64) -> Random {
        let mut random = Random(seed);
        Random(random.word().wrapping_add(case.wrapping_mul(0xD1B5_4A32_D192_ED03)))
    }

    pub fn word(&mut self) -> u64 {
        self.0 = self.0.wrapping_add(0x9E37_79B9_7F4A_7C15);
        let mut mixed = self.0;
        mixed = (mixed ^ (mixed >> 30)).wrapping_mul(0xBF58_476D_1CE4_E5B9);
        mixed = (mixed ^ (mixed >> 27)).wrapping_mul(0x94D0_49BB_1331_11EB);
        mixed ^ (mixed >> 31)
    }

    /// A number below `end`, which is not 0.
    pub fn below(&mut self, end: usize) -> usize {
        (self.word() % end as u64) as usize
    }

    /// A number from `low` to `high`, both included.
    pub fn within(&mut self, low: usize, high: usize) -> usize {
        low + self.below(high - low + 1)
    }

    /// True in `percent` of 100 cases.
    pub fn chance(&mut self, percent: usize) -> bool {
        self.below(100) < percent
    }

    pub fn pick<'a, T>(&mut self, among: &'a [T]) -> &'a T {
        &among[self.below(among.len())]
    }
}

#[derive(Clone, Copy, Debug, PartialEq, Eq)]
pub struct Field {
    pub qualifier: u32,
    pub name: u32,
    pub of: u32,
}

impl Field {
    fn clashes(&self, other: &Field) -> bool {
        let same_qualifier = self.qualifier == other.qualifier;
        self.name == other.name && (same_qualifier || self.qualifier == 0 || other.qualifier == 0)
    }

    pub fn reference(&self) -> Tree {
        column(self.qualifier, self.name)
    }
}

/// A plan and its schema.
pub struct Planned {
    pub plan: Tree,
    pub fields: Vec<Field>,
}

/// What plans are drawn for.
#[derive(Clone, Copy, Debug, PartialEq, Eq)]
pub enum Aim {
    /// All that the check accepts.
    Check,
    /// Work for the rewrite: Filters everywhere, lists of bounds, keys that are columns, values that meet.
    Rewrite { volatile: bool },
}

/// Draws plans of about as many records as `left` says; the last parts may go a little over.
pub struct Draw<'a> {
    pub random: &'a mut Random,
    aim: Aim,
    left: usize,
    /// The field types of each table met.
    tables: BTreeMap<u32, Vec<u32>>,
    /// The last name given that no other field has.
    fresh: u32,
}

/// A plan of about `records` records.
pub fn accepted(random: &mut Random, records: usize) -> Planned {
    drawn_for(Aim::Check, random, records)
}

pub fn drawn_for(aim: Aim, random: &mut Random, records: usize) -> Planned {
    let levels = 2 + records.ilog2() as usize;
    Draw::for_aim(aim, random, records).plan(levels)
}

/// Sizes as they are wanted: many small plans, some medium, few large.
pub fn size(random: &mut Random) -> usize {
    match random.below(100) {
        0..60 => random.within(1, 30),
        60..95 => random.within(30, 200),
        95..99 => random.within(200, 800),
        _ => random.within(800, 1700),
    }
}

impl Draw<'_> {
    pub fn new(random: &mut Random, records: usize) -> Draw<'_> {
        Draw::for_aim(Aim::Check, random, records)
    }

    pub fn for_aim(aim: Aim, random: &mut Random, records: usize) -> Draw<'_> {
        Draw { random, aim, left: records, tables: BTreeMap::new(), fresh: 1000 }
    }

    fn to_rewrite(&self) -> bool {
        self.aim != Aim::Check
    }

    fn spend(&mut self, records: usize) {
        self.left = self.left.saturating_sub(records);
    }

    pub fn plan(&mut self, levels: usize) -> Planned {
        if levels == 0 || self.left < 8 {
            return self.scan();
        }
        self.spend(1);
        if self.to_rewrite() && self.random.chance(35) {
            return self.filter(levels - 1);
        }
        match self.random.below(18) {
            0 => self.scan(),
            1..=3 => self.filter(levels - 1),
            4 | 5 => self.projection(levels - 1),
            6..=9 => self.join(levels - 1),
            10 => self.alias(levels - 1),
            11 => self.union(levels - 1),
            12 => self.sort(levels - 1),
            13 | 14 => self.passing(levels - 1),
            15 | 16 => self.aggregate(levels - 1),
            _ => self.window(levels - 1),
        }
    }

    /// A scan of a table met before, with its types, or of a new one; sometimes with no field or no filter.
    fn scan(&mut self) -> Planned {
        let table = *self.random.pick(&[0, 1, 2, 3, 4, 5, u32::MAX]);
        let width = match self.random.below(20) {
            0 => 0,
            1 => self.random.within(5, 20),
            _ => self.random.within(1, 4),
        };
        let drawn: Vec<u32> = (0..width).map(|_| self.any_type()).collect();
        let types = self.tables.entry(table).or_insert(drawn).clone();
        let fields = self.names_for(&types, &[]);
        let mut children = Vec::new();
        for made in &fields {
            children.push(field(made.qualifier, made.name, made.of, self.random.chance(60)));
        }
        self.spend(1 + fields.len());
        if self.to_rewrite() {
            let filters = *self.random.pick(&[0, 0, 0, 1, 2]);
            children.extend(self.conjuncts(&fields, filters));
        } else {
            for _ in 0..self.few() {
                children.push(self.expr(&fields, OF_BOOLEAN, 2));
            }
        }
        Planned { plan: scan(table, children), fields }
    }

    fn filter(&mut self, levels: usize) -> Planned {
        let input = self.plan(levels);
        let predicate = self.predicate(&input.fields);
        Planned { plan: filter(predicate, input.plan), fields: input.fields }
    }

    fn projection(&mut self, levels: usize) -> Planned {
        let input = self.plan(levels);
        let types: Vec<u32> = (0..self.random.within(1, 5)).map(|_| self.any_type()).collect();
        self.project(input, &types)
    }

    /// Entries of the given types, one or more, over the input.
    fn project(&mut self, input: Planned, types: &[u32]) -> Planned {
        let fields = self.names_for(types, &[]);
        let entries = fields.iter().map(|made| self.entry(made, &input.fields)).collect();
        Planned { plan: over(PROJECTION, entries, input.plan), fields }
    }

    fn entry(&mut self, made: &Field, over: &[Field]) -> Tree {
        self.spend(1);
        let levels = self.random.below(3);
        entry(made.qualifier, made.name, self.expr(over, made.of, levels))
    }

    fn join(&mut self, levels: usize) -> Planned {
        let left = self.plan(levels);
        let left = self.narrowed(left, limits::FIELDS - 8);
        let right = self.plan(levels);
        let right = self.apart_from(right, &left.fields);
        let which = self.random.within(1, 8) as u32;
        let both = [left.fields.clone(), right.fields.clone()].concat();
        let mut children = vec![left.plan, right.plan];
        for _ in 0..self.few() {
            children.push(self.key_pair(&left.fields, &right.fields));
        }
        if self.random.chance(50) {
            children.push(self.predicate(&both));
        }
        let fields = match which {
            1..=4 => both,
            5 | 7 => left.fields,
            _ => right.fields,
        };
        Planned { plan: join(which, children), fields }
    }

    fn key_pair(&mut self, left: &[Field], right: &[Field]) -> Tree {
        let of = self.any_type();
        let levels = if self.to_rewrite() { 0 } else { self.random.below(2) };
        key_pair(self.expr(left, of, levels), self.expr(right, of, levels))
    }

    /// The plan with at most `most` fields, by a Projection if it has more.
    fn narrowed(&mut self, plan: Planned, most: usize) -> Planned {
        if plan.fields.len() <= most {
            return plan;
        }
        let types: Vec<u32> = plan.fields[..most].iter().map(|field| field.of).collect();
        self.project(plan, &types)
    }

    /// The plan with fields that clash with none of `others` and fit beside them: an alias or new names, if need be.
    fn apart_from(&mut self, plan: Planned, others: &[Field]) -> Planned {
        let plan = self.narrowed(plan, limits::FIELDS - others.len());
        if fit_together(&plan.fields, others) {
            return plan;
        }
        let qualifier = self.qualifier_of_alias();
        let aliased = under_alias(&plan.fields, qualifier);
        if self.random.chance(70) && fit_together(&aliased, &[]) && fit_together(&aliased, others) {
            self.spend(1);
            return Planned { plan: alias(qualifier, plan.plan), fields: aliased };
        }
        let types: Vec<u32> = plan.fields.iter().map(|field| field.of).collect();
        let fields = self.names_for(&types, others);
        let entries = fields.iter().zip(&plan.fields).map(|(new, old)| entry(new.qualifier, new.name, old.reference()));
        let entries: Vec<Tree> = entries.collect();
        self.spend(2 * entries.len());
        Planned { plan: over(PROJECTION, entries, plan.plan), fields }
    }

    fn alias(&mut self, levels: usize) -> Planned {
        let input = self.plan(levels);
        let qualifier = self.qualifier_of_alias();
        let fields = under_alias(&input.fields, qualifier);
        if !fit_together(&fields, &[]) {
            return input;
        }
        Planned { plan: alias(qualifier, input.plan), fields }
    }

    fn union(&mut self, levels: usize) -> Planned {
        let first = self.plan(levels);
        let types: Vec<u32> = first.fields.iter().map(|field| field.of).collect();
        let mut inputs = vec![first.plan];
        for _ in 0..self.random.within(1, 3) {
            let next = if types.is_empty() { scan(77, vec![]) } else { self.of_types(&types, levels) };
            inputs.push(next);
        }
        Planned { plan: union(inputs), fields: first.fields }
    }

    fn of_types(&mut self, types: &[u32], levels: usize) -> Tree {
        let plan = self.plan(levels.min(2));
        if plan.fields.iter().map(|field| field.of).eq(types.iter().copied()) {
            return plan.plan;
        }
        self.project(plan, types).plan
    }

    fn sort(&mut self, levels: usize) -> Planned {
        let input = self.plan(levels);
        let mut keys = Vec::new();
        for _ in 0..self.few() {
            let of = self.any_type();
            keys.push(sort_key(self.random.chance(50), self.expr(&input.fields, of, 1)));
        }
        let fetch = if self.random.chance(50) { Some(self.random.below(4) as u32) } else { None };
        Planned { plan: sort(fetch, keys, input.plan), fields: input.fields }
    }

    /// Distinct, Repartition or Limit.
    fn passing(&mut self, levels: usize) -> Planned {
        let input = self.plan(levels);
        Planned { plan: self.pass_through(input.plan), fields: input.fields }
    }

    /// A plan over the given one that has its schema, whatever that is.
    pub fn pass_through(&mut self, input: Tree) -> Tree {
        match self.random.below(5) {
            0 => distinct(input),
            1 => repartition(input),
            2 if self.to_rewrite() => limit(self.random.below(9) as u32, self.random.below(3) as u32, input),
            2 => limit(self.random.below(9) as u32, self.random.word() as u32, input),
            3 => sort(self.random.chance(50).then_some(u32::MAX), vec![], input),
            _ => filter(boolean(self.random.chance(50)), input),
        }
    }

    fn aggregate(&mut self, levels: usize) -> Planned {
        let input = self.plan(levels);
        let groups = self.random.below(4);
        let entries = self.random.within(usize::from(groups == 0), 3);
        let mut types: Vec<u32> = (0..groups).map(|_| self.any_type()).collect();
        types.extend(vec![OF_INTEGER; entries]);
        let fields = self.names_for(&types, &[]);
        let mut parts = Vec::new();
        for made in &fields[..groups] {
            parts.push(self.entry(made, &input.fields));
        }
        for made in &fields[groups..] {
            let (what, expression) = self.counted(&input.fields);
            parts.push(aggregate_entry(made.qualifier, made.name, what, expression));
        }
        Planned { plan: over(AGGREGATE, parts, input.plan), fields }
    }

    /// Count of any type, Min or Max of an integer.
    fn counted(&mut self, over: &[Field]) -> (u32, Tree) {
        let what = self.random.within(COUNT as usize, MAX as usize) as u32;
        let of = if what == COUNT { self.any_type() } else { OF_INTEGER };
        self.spend(1);
        (what, self.expr(over, of, 1))
    }

    fn window(&mut self, levels: usize) -> Planned {
        let input = self.plan(levels);
        let input = self.narrowed(input, limits::FIELDS - 3);
        let types = vec![OF_INTEGER; self.random.within(1, 3)];
        let made = self.names_for(&types, &input.fields);
        let mut parts = Vec::new();
        for field in &made {
            let (what, expression) = self.counted(&input.fields);
            let mut expressions = vec![expression];
            for _ in 0..self.few().min(input.fields.len()) {
                expressions.push(self.random.pick(&input.fields).reference());
            }
            parts.push(window_entry(field.qualifier, field.name, what, expressions));
        }
        let fields = [input.fields, made].concat();
        Planned { plan: over(WINDOW, parts, input.plan), fields }
    }

    /// Names for fields of the given types that clash neither with each other nor with `others`.
    pub fn names_for(&mut self, types: &[u32], others: &[Field]) -> Vec<Field> {
        let mut fields: Vec<Field> = Vec::new();
        for &of in types {
            let pooled = self.pooled_name(of);
            let clash = fields.iter().chain(others).any(|field| field.clashes(&pooled));
            fields.push(if clash { self.fresh_name(of) } else { pooled });
        }
        fields
    }

    fn pooled_name(&mut self, of: u32) -> Field {
        let qualifier = *self.random.pick(&[0, 1, 1, 2, 2, 3, 4, u32::MAX]);
        let name = *self.random.pick(&[1, 2, 3, 4, 5, 6, 7, u32::MAX]);
        Field { qualifier, name, of }
    }

    fn fresh_name(&mut self, of: u32) -> Field {
        self.fresh += 1;
        Field { qualifier: self.random.below(4) as u32, name: self.fresh, of }
    }

    fn qualifier_of_alias(&mut self) -> u32 {
        *self.random.pick(&[1, 2, 3, 4, 5, 6, 7, u32::MAX])
    }

    fn any_type(&mut self) -> u32 {
        if self.random.chance(60) {
            OF_INTEGER
        } else {
            OF_BOOLEAN
        }
    }

    /// 0 to 3, mostly 0 or 1, and 0 where no records are left.
    fn few(&mut self) -> usize {
        if self.left == 0 {
            return 0;
        }
        *self.random.pick(&[0, 0, 0, 1, 1, 1, 2, 3])
    }

    fn predicate(&mut self, over: &[Field]) -> Tree {
        if self.to_rewrite() {
            return self.conjunction(over);
        }
        let levels = self.random.within(1, 4);
        self.expr(over, OF_BOOLEAN, levels)
    }

    /// An expression of the type over the fields, at most `levels` below its top.
    pub fn expr(&mut self, over: &[Field], of: u32, levels: usize) -> Tree {
        self.spend(1);
        if levels == 0 || self.left == 0 || self.random.chance(15) {
            return self.leaf(over, of);
        }
        if of == OF_INTEGER {
            return if self.random.chance(40) { self.call(over, of, levels) } else { self.leaf(over, of) };
        }
        let below = levels - 1;
        match self.random.below(12) {
            0..=3 => {
                let operator = self.random.within(AND as usize, OR as usize) as u32;
                binary(operator, self.expr(over, OF_BOOLEAN, below), self.expr(over, OF_BOOLEAN, below))
            }
            4..=6 => {
                let of = self.any_type();
                let operator = self.random.within(EQ as usize, 8) as u32;
                binary(operator, self.expr(over, of, below), self.expr(over, of, below))
            }
            7 => not(self.expr(over, OF_BOOLEAN, below)),
            8 => self.tested(over, below),
            9 | 10 => self.between_or_in_list(over, below),
            _ => self.call(over, of, levels),
        }
    }

    fn tested(&mut self, over: &[Field], below: usize) -> Tree {
        let which = self.random.within(1, 8) as u32;
        let of = if which <= 2 { self.any_type() } else { OF_BOOLEAN };
        test(which, self.expr(over, of, below))
    }

    fn between_or_in_list(&mut self, over: &[Field], below: usize) -> Tree {
        let of = self.any_type();
        let negated = self.random.chance(50);
        let operand = self.expr(over, of, below);
        if self.random.chance(50) {
            return between(negated, operand, self.expr(over, of, below), self.expr(over, of, below));
        }
        let mut operands = vec![operand];
        for _ in 0..self.random.within(1, 4) {
            operands.push(self.expr(over, of, below));
        }
        in_list(negated, operands)
    }

    fn call(&mut self, over: &[Field], of: u32, levels: usize) -> Tree {
        let number = *self.random.pick(&[0, 1, 2, 3, u32::MAX]);
        let marks = match self.aim {
            Aim::Rewrite { volatile: false } => 2 * self.random.below(2) as u32,
            _ => self.random.below(4) as u32,
        };
        let mut arguments = Vec::new();
        for _ in 0..self.few() {
            let of = self.any_type();
            arguments.push(self.expr(over, of, levels.saturating_sub(1)));
        }
        function(number, marks, of, arguments)
    }

    /// A column of the type if there is one and chance will have it, else a literal.
    fn leaf(&mut self, over: &[Field], of: u32) -> Tree {
        let fitting: Vec<&Field> = over.iter().filter(|field| field.of == of).collect();
        if !fitting.is_empty() && self.random.chance(70) {
            return self.random.pick(&fitting).reference();
        }
        if self.random.chance(15) {
            return null(of);
        }
        if of == OF_BOOLEAN {
            return boolean(self.random.chance(50));
        }
        if self.to_rewrite() {
            return integer(self.random.below(4) as i64);
        }
        let drawn = self.random.word() as i64;
        integer(*self.random.pick(&[-3, -1, 0, 1, 2, 5, 7, i64::MAX, i64::MIN, 1 << 32, drawn]))
    }
}

fn under_alias(fields: &[Field], qualifier: u32) -> Vec<Field> {
    fields.iter().map(|field| Field { qualifier, ..*field }).collect()
}

/// No field of `fields` clashes with another of them or with one of `others`.
fn fit_together(fields: &[Field], others: &[Field]) -> bool {
    let clear = |place: usize| fields[..place].iter().chain(others).all(|other| !other.clashes(&fields[place]));
    (0..fields.len()).all(clear)
}

#[cfg(test)]
mod tests {
    use super::*;
    use crate::checker::{check, Verdict};
    use std::collections::BTreeSet;

    #[test]
    fn drawn_plans_are_accepted() {
        for case in 0..3000 {
            let random = &mut Random::of_case(1, case);
            let records = size(random);
            let plan = accepted(random, records).plan;
            assert_eq!(check(&plan.image()), Verdict::ACCEPTED, "case {case}");
        }
    }

    #[test]
    fn every_kind_and_every_choice_of_p_is_drawn() {
        let mut met = BTreeSet::new();
        for case in 0..3000 {
            let plan = accepted(&mut Random::of_case(2, case), 60).plan;
            met.extend(plan.parent_first().iter().map(|(_, tree)| (tree.label.kind, tree.label.p)));
        }
        for kind in (COLUMN..=FUNCTION).chain(SCAN..=WINDOW).chain(FIELD..=WINDOW_ENTRY) {
            assert!(met.iter().any(|&(other, _)| other == kind), "kind {kind}");
        }
        for kind in [BINARY, TEST, JOIN] {
            assert!((1..=8).all(|p| met.contains(&(kind, p))), "kind {kind}");
        }
    }

    #[test]
    fn a_case_can_be_drawn_again() {
        let draw = |case| accepted(&mut Random::of_case(5, case), 100).plan;
        assert_eq!(draw(17), draw(17));
        assert_ne!(draw(17), draw(18));
    }
}
