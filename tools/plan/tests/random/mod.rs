//! Accepted plans from a seed: all kinds of plans and joins, with conjuncts everywhere. Every field has a name of its own.

use push_down_filter::image::Tree;
use push_down_filter::kinds::*;

/// A small generator of numbers (xorshift).
pub struct Random(u64);

#[derive(Clone, Copy)]
struct Field {
    qualifier: u32,
    name: u32,
    of: u32,
}

pub struct Plans {
    random: Random,
    names: u32,
}

impl Random {
    fn below(&mut self, bound: usize) -> usize {
        self.0 ^= self.0 << 13;
        self.0 ^= self.0 >> 7;
        self.0 ^= self.0 << 17;
        (self.0 % bound as u64) as usize
    }

    fn one_in(&mut self, bound: usize) -> bool {
        self.below(bound) == 0
    }
}

/// The plan of a seed.
pub fn plan(seed: u64) -> Tree {
    let mut plans = Plans { random: Random(seed.wrapping_mul(0x9e37_79b9_7f4a_7c15) | 1), names: 0 };
    // the first numbers of near seeds are alike
    (0..8).for_each(|_| _ = plans.random.below(2));
    let depth = 2 + plans.random.below(5);
    let (plan, fields) = plans.plan(depth);
    filter(plans.predicate(&fields), plan)
}

impl Plans {
    fn fresh(&mut self, of: u32) -> Field {
        self.names += 1;
        let qualifier = if self.random.one_in(3) { 0 } else { 1 + self.names % 5 };
        Field { qualifier, name: self.names, of }
    }

    fn of_type(&mut self) -> u32 {
        if self.random.one_in(4) {
            OF_BOOLEAN
        } else {
            OF_INTEGER
        }
    }

    fn column(&mut self, fields: &[Field], of: u32) -> Option<Tree> {
        let fit: Vec<&Field> = fields.iter().filter(|field| field.of == of).collect();
        (!fit.is_empty()).then(|| {
            let field = fit[self.random.below(fit.len())];
            column(field.qualifier, field.name)
        })
    }

    /// A literal, a function or a column of the type.
    fn value(&mut self, fields: &[Field], of: u32) -> Tree {
        let found = self.column(fields, of);
        match (found, self.random.below(8)) {
            (Some(found), 0..5) => found,
            (Some(found), 5) => function(1 + self.random.below(3) as u32, self.random.below(4) as u32, of, vec![found]),
            (_, 6) => null(of),
            _ if of == OF_INTEGER => integer(self.random.below(9) as i64 - 2),
            _ => boolean(self.random.one_in(2)),
        }
    }

    fn comparison(&mut self, fields: &[Field]) -> Tree {
        let operator = EQ + self.random.below(6) as u32;
        let left = self.column(fields, OF_INTEGER).unwrap_or_else(|| integer(1));
        match self.random.below(8) {
            0 => test(1 + self.random.below(2) as u32, left),
            1 => in_list(self.random.one_in(2), vec![left, integer(1), integer(2)]),
            2 => between(self.random.one_in(2), left, integer(0), integer(6)),
            3 => self.value(fields, OF_BOOLEAN),
            4 => binary(operator, integer(self.random.below(7) as i64), left),
            5 => binary(operator, left, self.value(fields, OF_INTEGER)),
            _ => binary(operator, left, integer(self.random.below(7) as i64)),
        }
    }

    fn condition(&mut self, fields: &[Field], depth: usize) -> Tree {
        match self.random.below(if depth == 0 { 1 } else { 6 }) {
            1 => binary(OR, self.condition(fields, depth - 1), self.condition(fields, depth - 1)),
            2 => and(self.condition(fields, depth - 1), self.condition(fields, depth - 1)),
            3 if self.random.one_in(3) => not(self.condition(fields, depth - 1)),
            _ => self.comparison(fields),
        }
    }

    /// One to four conjuncts.
    fn predicate(&mut self, fields: &[Field]) -> Tree {
        let mut all = self.condition(fields, 3);
        for _ in 0..self.random.below(4) {
            all = and(all, self.condition(fields, 2));
        }
        all
    }

    fn scan(&mut self) -> (Tree, Vec<Field>) {
        let field_of = |plans: &mut Plans| {
            let of = plans.of_type();
            plans.fresh(of)
        };
        let fields: Vec<Field> = (0..1 + self.random.below(3)).map(|_| field_of(self)).collect();
        let mut parts: Vec<Tree> = Vec::new();
        for Field { qualifier, name, of } in &fields {
            parts.push(field(*qualifier, *name, *of, self.random.one_in(2)));
        }
        if self.random.one_in(4) {
            parts.push(self.condition(&fields, 1));
        }
        (scan(self.names, parts), fields)
    }

    fn plan(&mut self, depth: usize) -> (Tree, Vec<Field>) {
        if depth == 0 {
            return self.scan();
        }
        let kind = [
            FILTER,
            FILTER,
            JOIN,
            JOIN,
            PROJECTION,
            ALIAS,
            UNION,
            DISTINCT,
            SORT,
            REPARTITION,
            LIMIT,
            AGGREGATE,
            WINDOW,
        ][self.random.below(13)];
        let (input, fields) = self.plan(depth - 1);
        match kind {
            JOIN => self.join(input, fields, depth),
            UNION => self.union(input, fields, depth),
            _ if fields.len() > 12 => (filter(self.predicate(&fields), input), fields),
            PROJECTION => self.projection(input, &fields),
            ALIAS => {
                let qualifier = 10 + self.random.below(90) as u32;
                (alias(qualifier, input), fields.into_iter().map(|field| Field { qualifier, ..field }).collect())
            }
            DISTINCT => (distinct(input), fields),
            SORT => {
                let keys = vec![sort_key(self.random.one_in(2), self.value(&fields, OF_INTEGER))];
                let fetch = self.random.one_in(4).then_some(3);
                (sort(fetch, keys, input), fields)
            }
            REPARTITION => (repartition(input), fields),
            LIMIT if self.random.one_in(2) => (limit(5, 1, input), fields),
            AGGREGATE => self.aggregate(input, &fields),
            WINDOW => self.window(input, fields),
            _ => (filter(self.predicate(&fields), input), fields),
        }
    }

    fn projection(&mut self, input: Tree, fields: &[Field]) -> (Tree, Vec<Field>) {
        let (mut entries, mut made) = (Vec::new(), Vec::new());
        for _ in 0..1 + self.random.below(3) {
            let of = self.of_type();
            let expr = match of == OF_BOOLEAN && self.random.one_in(2) {
                true => self.condition(fields, 2),
                false => self.value(fields, of),
            };
            let field = self.fresh(of);
            entries.push(entry(field.qualifier, field.name, expr));
            made.push(field);
        }
        (over(PROJECTION, entries, input), made)
    }

    fn join(&mut self, left: Tree, fields: Vec<Field>, depth: usize) -> (Tree, Vec<Field>) {
        let (right, others) = self.plan(depth / 2);
        let which = [INNER, INNER, INNER, LEFT, RIGHT, FULL, LEFT_SEMI, RIGHT_SEMI, LEFT_ANTI, RIGHT_ANTI]
            [self.random.below(10)];
        let both = [fields.clone(), others.clone()].concat();
        let mut parts = vec![left, right];
        for _ in 0..self.random.below(3) {
            if let (Some(one), Some(other)) = (self.column(&fields, OF_INTEGER), self.column(&others, OF_INTEGER)) {
                parts.push(key_pair(one, other));
            }
        }
        if self.random.one_in(2) {
            parts.push(self.predicate(&both));
        }
        let made = match which {
            LEFT_SEMI | LEFT_ANTI => fields,
            RIGHT_SEMI | RIGHT_ANTI => others,
            _ => both,
        };
        (join(which, parts), made)
    }

    fn union(&mut self, first: Tree, fields: Vec<Field>, depth: usize) -> (Tree, Vec<Field>) {
        let (second, others) = self.plan(depth / 2);
        let mut entries = Vec::new();
        for field in &fields {
            let made = self.fresh(field.of);
            entries.push(entry(made.qualifier, made.name, self.value(&others, field.of)));
        }
        (union(vec![first, over(PROJECTION, entries, second)]), fields)
    }

    fn aggregate(&mut self, input: Tree, fields: &[Field]) -> (Tree, Vec<Field>) {
        let (mut parts, mut made) = (Vec::new(), Vec::new());
        for _ in 0..self.random.below(3) {
            let of = self.of_type();
            let field = self.fresh(of);
            parts.push(entry(field.qualifier, field.name, self.value(fields, of)));
            made.push(field);
        }
        let field = self.fresh(OF_INTEGER);
        parts.push(aggregate_entry(field.qualifier, field.name, COUNT, self.value(fields, OF_INTEGER)));
        made.push(field);
        (over(AGGREGATE, parts, input), made)
    }

    fn window(&mut self, input: Tree, mut fields: Vec<Field>) -> (Tree, Vec<Field>) {
        let counted = self.value(&fields, OF_INTEGER);
        let by: Vec<Tree> = fields.iter().take(2).map(|field| column(field.qualifier, field.name)).collect();
        let made = self.fresh(OF_INTEGER);
        fields.push(made);
        (over(WINDOW, vec![window_entry(made.qualifier, made.name, MAX, [vec![counted], by].concat())], input), fields)
    }
}
