//! What a conjunct becomes on its way below a plan: the text that a match looks for. Nothing here decides what moves; the library does,
//! and a match is made only of what stands in its answer.

use crate::fields::{fields, name, Name};
use crate::outline::inputs;
use push_down_filter::image::Tree;
use push_down_filter::kinds::*;

/// The expression with each column replaced by what the function has for it.
fn replaced(expr: &Tree, by: &impl Fn(Name) -> Option<Tree>) -> Tree {
    if expr.label.kind == COLUMN {
        return by(name(expr)).unwrap_or_else(|| expr.clone());
    }
    Tree { label: expr.label, children: expr.children.iter().map(|child| replaced(child, by)).collect() }
}

/// The expression over a plan's fields as one over the fields of its input.
pub fn through(plan: &Tree, input: usize, expr: &Tree) -> Tree {
    match plan.label.kind {
        ALIAS | UNION => {
            let (outer, inner) = (fields(plan), inputs(plan).nth(input).map(fields).unwrap_or_default());
            replaced(expr, &|wanted| {
                let place = outer.iter().position(|field| field.name == wanted)?;
                inner.get(place).map(|field| column(field.name.0, field.name.1))
            })
        }
        PROJECTION | AGGREGATE => replaced(expr, &|wanted| {
            let entries = plan.children.iter().filter(|part| part.label.kind == ENTRY);
            entries.filter(|entry| name(entry) == wanted).map(|entry| entry.children[0].clone()).next()
        }),
        _ => expr.clone(),
    }
}

/// The expression with each column that is a key of the join replaced by the other key of its first pair.
pub fn inferred(join: &Tree, expr: &Tree) -> Tree {
    let pairs: Vec<_> = join.children.iter().filter(|part| part.label.kind == KEY_PAIR).collect();
    replaced(expr, &|wanted| {
        let is_wanted = |key: &Tree| key.label.kind == COLUMN && name(key) == wanted;
        let pair = pairs.iter().find(|pair| {
            pair.children.iter().all(|key| key.label.kind == COLUMN) && pair.children.iter().any(is_wanted)
        })?;
        let other = usize::from(is_wanted(&pair.children[0]));
        Some(pair.children[other].clone())
    })
}

/// Of an OR, the clause that only reads the names; none if an operand yields none.
pub fn clause(expr: &Tree, names: &[Name]) -> Option<Tree> {
    match is(expr, OR) {
        true => part(expr, names),
        false => None,
    }
}

/// Whether the expression is one of the operator.
pub fn is(expr: &Tree, operator: u32) -> bool {
    expr.label.kind == BINARY && expr.label.p == operator
}

/// What of an operand only reads the names. An AND keeps each operand that yields.
fn part(expr: &Tree, names: &[Name]) -> Option<Tree> {
    if is(expr, OR) || is(expr, AND) {
        let [left, right] = [0, 1].map(|at| part(&expr.children[at], names));
        return match (left, right) {
            (Some(left), Some(right)) => Some(binary(expr.label.p, left, right)),
            (one, other) if is(expr, AND) => one.or(other),
            _ => None,
        };
    }
    let reads = expr.parent_first().into_iter().filter(|(_, tree)| tree.label.kind == COLUMN);
    reads.map(|(_, column)| name(column)).all(|column| names.contains(&column)).then(|| expr.clone())
}

#[cfg(test)]
mod tests {
    use super::*;
    use push_down_filter::text::{expr, read, Names};

    fn plan(text: &str) -> Tree {
        read(text, &Names::NONE).unwrap_or_else(|trouble| panic!("{trouble}")).plan
    }

    /// The predicate of the Filter, and the plan below it.
    fn over(text: &str) -> (Tree, Tree) {
        let mut filter = plan(text);
        let below = filter.children.remove(1);
        (filter.children.remove(0), below)
    }

    fn shown(tree: &Tree) -> String {
        expr(tree, &Names::NONE)
    }

    #[test]
    fn columns_are_renamed_on_the_way_down() {
        let cases = [
            ("Filter t9.c1 > 5\n  SubqueryAlias t9\n    TableScan 1 [c1:int]\n", "c1 > 5"),
            ("Filter c2 > 5\n  Projection [c2 := t1.c1]\n    TableScan 1 [t1.c1:int]\n", "t1.c1 > 5"),
            ("Filter c2 > 5\n  Aggregate group [c2 := t1.c1]\n    TableScan 1 [t1.c1:int]\n", "t1.c1 > 5"),
            ("Filter t1.c1 > 5\n  Sort [t1.c1]\n    TableScan 1 [t1.c1:int]\n", "t1.c1 > 5"),
        ];
        for (text, expected) in cases {
            let (predicate, below) = over(text);
            assert_eq!(shown(&through(&below, 0, &predicate)), expected);
        }
        let (predicate, below) = over("Filter c1 > 5\n  Union\n    TableScan 1 [c1:int]\n    TableScan 2 [c2:int]\n");
        assert_eq!(shown(&through(&below, 1, &predicate)), "c2 > 5");
    }

    #[test]
    fn keys_and_clauses_of_a_join() {
        let inputs = "    TableScan 1 [t1.c1:int, t1.c2:int]\n    TableScan 2 [t2.c1:int]\n";
        let text = format!(
            "Filter (t1.c1 = 1 AND t2.c1 = 2) OR t1.c2 = 3\n  Join Inner on [5 = t2.c1, t1.c1 = t2.c1]\n{inputs}"
        );
        let (predicate, join) = over(&text);
        assert_eq!(shown(&inferred(&join, &predicate)), "t2.c1 = 1 AND t1.c1 = 2 OR t1.c2 = 3");
        assert_eq!(
            clause(&predicate, &[(1, 1), (1, 2)]).as_ref().map(shown),
            Some("t1.c1 = 1 OR t1.c2 = 3".to_string())
        );
        assert_eq!(clause(&predicate, &[(2, 1)]), None);
        assert_eq!(clause(&predicate.children[0], &[(1, 1)]), None, "it is no OR");
    }
}
