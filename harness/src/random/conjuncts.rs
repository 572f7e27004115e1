//! Predicates that the rewrite has work with: lists of conjuncts, many of them bounds on few columns.

use super::{Draw, Field};
use crate::edges::{conjunction, Nesting};
use crate::image::Tree;
use crate::kinds::*;

impl Draw<'_> {
    /// Mostly one to four conjuncts, now and then more, nested in any way.
    pub fn conjunction(&mut self, over: &[Field]) -> Tree {
        let length = *self.random.pick(&[1, 1, 1, 2, 2, 3, 4, 7]);
        let conjuncts = self.conjuncts(over, length);
        let nesting = *self.random.pick(&[Nesting::Left, Nesting::Left, Nesting::Right, Nesting::Balanced]);
        conjunction(conjuncts, nesting)
    }

    /// So many conjuncts; one in ten repeats an earlier one.
    pub fn conjuncts(&mut self, over: &[Field], length: usize) -> Vec<Tree> {
        let mut conjuncts: Vec<Tree> = Vec::new();
        for _ in 0..length {
            let repeats = !conjuncts.is_empty() && self.random.chance(10);
            let conjunct = if repeats { self.random.pick(&conjuncts).clone() } else { self.conjunct(over) };
            conjuncts.push(conjunct);
        }
        conjuncts
    }

    fn conjunct(&mut self, over: &[Field]) -> Tree {
        match self.random.below(20) {
            0..9 => self.bound(over),
            9 | 10 => self.column_free(),
            11 | 12 => self.call(over, OF_BOOLEAN, 1),
            13 => self.tested(over, 0),
            14..18 => self.clauses(over),
            _ => self.expr(over, OF_BOOLEAN, 2),
        }
    }

    /// A column compared with a literal, one of few, or NULL. Most bounds let most values of small tables pass.
    pub fn bound(&mut self, over: &[Field]) -> Tree {
        if over.is_empty() {
            return self.column_free();
        }
        let field = *self.random.pick(over);
        let operator = *self.random.pick(&[EQ, NOT_EQ, NOT_EQ, LT, LT_EQ, LT_EQ, GT, GT_EQ, GT_EQ]);
        let literal = match (self.random.below(9), field.of, operator) {
            (0, of, _) => null(of),
            (_, OF_BOOLEAN, LT_EQ) => boolean(self.random.chance(80)),
            (_, OF_BOOLEAN, _) => boolean(self.random.chance(40)),
            (_, _, LT | LT_EQ) => integer(*self.random.pick(&[3, 3, 2, 1])),
            _ => integer(*self.random.pick(&[0, 0, 1, 2])),
        };
        self.compared(operator, &field, literal)
    }

    /// A column looked for among literals, now and then columns, in two of three cases with a NULL among them; one in four under a test
    /// of its truth.
    pub fn listed(&mut self, over: &[Field]) -> Tree {
        if over.is_empty() {
            return self.column_free();
        }
        let field = *self.random.pick(over);
        self.spend(5);
        let mut items: Vec<Tree> = (0..self.random.within(1, 3)).map(|_| self.item(over, field.of)).collect();
        if self.random.chance(67) {
            let at = self.random.below(items.len() + 1);
            items.insert(at, null(field.of));
        }
        items.insert(0, field.reference());
        let list = in_list(self.random.chance(50), items);
        match self.random.below(4) {
            0 => test(self.random.within(3, 8) as u32, list),
            _ => list,
        }
    }

    /// A literal, one of few, or a column.
    fn item(&mut self, over: &[Field], of: u32) -> Tree {
        match of {
            _ if self.random.chance(15) => self.leaf(over, of),
            OF_BOOLEAN => boolean(self.random.chance(50)),
            _ => integer(self.random.below(4) as i64),
        }
    }

    /// The column on the left, or the same said with the literal on the left.
    pub fn compared(&mut self, operator: u32, field: &Field, literal: Tree) -> Tree {
        self.spend(3);
        if self.random.chance(50) {
            return binary(operator, field.reference(), literal);
        }
        let mirrored = match operator {
            LT => GT,
            LT_EQ => GT_EQ,
            GT => LT,
            GT_EQ => LT_EQ,
            same => same,
        };
        binary(mirrored, literal, field.reference())
    }

    /// A function in two of three cases, else a column where there is one.
    pub fn call_or_column(&mut self, over: &[Field], of: u32, levels: usize) -> Tree {
        match self.random.chance(67) {
            true => self.call(over, of, levels),
            false => self.leaf(over, of),
        }
    }

    /// A predicate without columns, TRUE more often than not.
    pub fn column_free(&mut self) -> Tree {
        match self.random.below(6) {
            0 => null(OF_BOOLEAN),
            1 => self.call(&[], OF_BOOLEAN, 0),
            2 => binary(LT_EQ, integer(self.random.below(3) as i64), integer(self.random.below(3) as i64)),
            3 if self.random.chance(40) => boolean(false),
            _ => boolean(true),
        }
    }

    /// An OR of clauses, each an And of bounds: over the sides of a join some clauses read one side alone.
    fn clauses(&mut self, over: &[Field]) -> Tree {
        let clause = |draw: &mut Self| {
            let length = *draw.random.pick(&[1, 1, 2, 3]);
            let bounds = (0..length).map(|_| draw.bound(over)).collect();
            conjunction(bounds, Nesting::Left)
        };
        let first = clause(self);
        (0..self.random.within(1, 2)).fold(first, |clauses, _| binary(OR, clauses, clause(self)))
    }
}
