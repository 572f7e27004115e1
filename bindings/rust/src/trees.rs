//! Plans as trees of labels, as images and as text, and back.

use crate::exprs::{Expr, Name};
use crate::form;
use crate::image::{Label, Tree};
use crate::kinds::{self, *};
use crate::numbered::{AggregateKind, JoinKind, Operator, Test, Type};
use crate::plans::{Aggregate, AggregateEntry, Entry, Field, Join, Over, Plan, SortKey, WindowEntry};
use crate::text::{self, Names, Place, Trouble};
use crate::{Error, Refusal};

impl Plan {
    /// The image. One that the check refuses can be written as well: what is over a limit, or else wrong, is told by
    /// `Plan::check`.
    pub fn to_image(&self) -> Vec<u8> {
        self.to_tree().image()
    }

    /// The plan of an image: exactly of those that pass the tests 1 to 5, whatever their names and types. The error has
    /// the number and the record that a check would give.
    ///
    /// ```
    /// use push_down_filter::{scan, Plan, Reason};
    ///
    /// let plan = scan(1, []);
    /// assert_eq!(Plan::from_image(&plan.to_image()), Ok(plan));
    /// let error = Plan::from_image(&[0; 33]).unwrap_err();
    /// assert_eq!((error.refusal.reason, error.refusal.record), (Reason::Buffer, 0));
    /// assert_eq!(error.to_string(), "refused 1: record 0: 33 bytes are no whole records of 32: 1 are left over");
    /// ```
    pub fn from_image(image: &[u8]) -> Result<Plan, Error> {
        let linked = form::read(image).map_err(|refusal| Error::new(image, refusal))?;
        // an image that has its form is of a plan
        Plan::of_tree(&linked.tree(0)).ok_or_else(|| Error::new(image, Refusal::new(5, 0)))
    }

    /// The text, as [`text::GRAMMAR`] has it.
    pub fn to_text(&self, names: &Names) -> String {
        text::write(&self.to_tree(), names)
    }

    /// The plan of a text, whatever its names and types.
    pub fn from_text(text: &str, names: &Names) -> Result<Plan, Trouble> {
        let written = text::read(text, names)?;
        // what can be read is a plan
        Plan::of_tree(&written.plan).ok_or(Trouble { place: Place::START, what: "there is no plan".to_string() })
    }

    /// This plan and all below it, each with its record number in the image, which is what calls ask for.
    ///
    /// ```
    /// use push_down_filter::{bare, scan};
    ///
    /// let plan = scan(1, []).distinct().filter(bare(1).is_null());
    /// let records: Vec<u32> = plan.plans().iter().map(|(record, _)| *record).collect();
    /// assert_eq!(records, [0, 3, 4]);
    /// ```
    pub fn plans(&self) -> Vec<(u32, &Plan)> {
        let mut plans = Vec::new();
        let mut waiting = vec![self];
        while let Some(plan) = waiting.pop() {
            plans.push(plan);
            waiting.extend(plan.inputs().into_iter().rev());
        }
        let tree = self.to_tree();
        let nodes = tree.parent_first().into_iter().zip(0..);
        let records = nodes.filter(|((_, tree), _)| is_plan(tree.label.kind)).map(|(_, record)| record);
        records.zip(plans).collect()
    }

    /// The plan as a tree of labels.
    pub fn to_tree(&self) -> Tree {
        match self {
            Plan::TableScan { table, fields, filters } => {
                let fields = fields.iter().map(|Field { name: Name { qualifier, name }, of, marked }| {
                    kinds::field(*qualifier, *name, of.number(), *marked)
                });
                kinds::scan(*table, fields.chain(filters.iter().map(Expr::to_tree)).collect())
            }
            Plan::Filter { predicate, input } => kinds::filter(predicate.to_tree(), input.to_tree()),
            Plan::Projection { entries, input } => {
                over(PROJECTION, entries.iter().map(Entry::to_tree).collect(), input.to_tree())
            }
            Plan::Join(join) => join.to_tree(),
            Plan::SubqueryAlias { qualifier, input } => alias(*qualifier, input.to_tree()),
            Plan::Union { inputs } => kinds::union(inputs.iter().map(Plan::to_tree).collect()),
            Plan::Distinct { input } => distinct(input.to_tree()),
            Plan::Sort { keys, fetch, input } => {
                let keys = keys.iter().map(|key| sort_key(key.descending, key.expr.to_tree()));
                sort(*fetch, keys.collect(), input.to_tree())
            }
            Plan::Repartition { input } => repartition(input.to_tree()),
            Plan::Limit { skip, fetch, input } => limit(*fetch, *skip, input.to_tree()),
            Plan::Aggregate { groups, entries, input } => {
                let groups = groups.iter().map(Entry::to_tree);
                over(AGGREGATE, groups.chain(entries.iter().map(AggregateEntry::to_tree)).collect(), input.to_tree())
            }
            Plan::Window { entries, input } => {
                over(WINDOW, entries.iter().map(WindowEntry::to_tree).collect(), input.to_tree())
            }
        }
    }

    /// The plan of a tree; none if the tree is of no plan.
    pub fn of_tree(tree: &Tree) -> Option<Plan> {
        let Label { kind, p, lo, hi, .. } = tree.label;
        let children = tree.children.as_slice();
        if kind == SCAN {
            let fields = children.iter().take_while(|child| child.label.kind == FIELD).count();
            let (fields, filters) = children.split_at(fields);
            return Some(Plan::TableScan {
                table: p,
                fields: each(fields, field_of)?,
                filters: each(filters, Expr::of_tree)?,
            });
        }
        if kind == JOIN {
            return join_of(p, children).map(Plan::Join);
        }
        if kind == UNION {
            return Some(Plan::Union { inputs: each(children, Plan::of_tree)? });
        }
        let (input, parts) = children.split_last()?;
        let input = Box::new(Plan::of_tree(input)?);
        Some(match (kind, parts) {
            (FILTER, [predicate]) => Plan::Filter { predicate: Expr::of_tree(predicate)?, input },
            (PROJECTION, _) => Plan::Projection { entries: each(parts, entry_of)?, input },
            (ALIAS, []) => Plan::SubqueryAlias { qualifier: p, input },
            (DISTINCT, []) => Plan::Distinct { input },
            (SORT, _) => Plan::Sort { keys: each(parts, sort_key_of)?, fetch: (p == 1).then_some(lo), input },
            (REPARTITION, []) => Plan::Repartition { input },
            (LIMIT, []) => Plan::Limit { skip: hi, fetch: lo, input },
            (AGGREGATE, _) => {
                let groups = parts.iter().take_while(|part| part.label.kind == ENTRY).count();
                let (groups, entries) = parts.split_at(groups);
                Plan::Aggregate { groups: each(groups, entry_of)?, entries: each(entries, aggregate_entry_of)?, input }
            }
            (WINDOW, _) => Plan::Window { entries: each(parts, window_entry_of)?, input },
            _ => return None,
        })
    }
}

/// All of them, if each can be read.
fn each<T>(trees: &[Tree], read: fn(&Tree) -> Option<T>) -> Option<Vec<T>> {
    trees.iter().map(read).collect()
}

impl Join {
    /// Left, right, key pairs, filter.
    fn to_tree(&self) -> Tree {
        let pairs = self.on.iter().map(|(left, right)| key_pair(left.to_tree(), right.to_tree()));
        let inputs = [self.left.to_tree(), self.right.to_tree()].into_iter();
        let filter = self.filter.iter().map(Expr::to_tree);
        kinds::join(self.kind.number(), inputs.chain(pairs).chain(filter).collect())
    }
}

fn join_of(p: u32, children: &[Tree]) -> Option<Join> {
    let [left, right, rest @ ..] = children else { return None };
    let pairs = rest.iter().take_while(|child| child.label.kind == KEY_PAIR).count();
    let (pairs, filter) = rest.split_at(pairs);
    let pair = |tree: &Tree| match tree.children.as_slice() {
        [left, right] => Some((Expr::of_tree(left)?, Expr::of_tree(right)?)),
        _ => None,
    };
    let filter = match filter {
        [] => None,
        [filter] => Some(Expr::of_tree(filter)?),
        _ => return None,
    };
    let (left, right) = (Box::new(Plan::of_tree(left)?), Box::new(Plan::of_tree(right)?));
    Some(Join { kind: JoinKind::of_number(p)?, left, right, on: each(pairs, pair)?, filter })
}

fn field_of(tree: &Tree) -> Option<Field> {
    let Label { p, q, r, lo, .. } = tree.label;
    Some(Field { name: Name { qualifier: p, name: q }, of: Type::of_number(r)?, marked: lo == 1 })
}

/// The name and the children of a part of the kind.
fn named(tree: &Tree, kind: u32) -> Option<(Name, &[Tree])> {
    let name = Name { qualifier: tree.label.p, name: tree.label.q };
    (tree.label.kind == kind).then_some((name, tree.children.as_slice()))
}

impl Entry {
    fn to_tree(&self) -> Tree {
        entry(self.name.qualifier, self.name.name, self.expr.to_tree())
    }
}

fn entry_of(tree: &Tree) -> Option<Entry> {
    match named(tree, ENTRY)? {
        (name, [expr]) => Some(Entry { name, expr: Expr::of_tree(expr)? }),
        _ => None,
    }
}

fn sort_key_of(tree: &Tree) -> Option<SortKey> {
    match (tree.label.kind, tree.children.as_slice()) {
        (SORT_KEY, [expr]) => Some(SortKey { expr: Expr::of_tree(expr)?, descending: tree.label.p == 1 }),
        _ => None,
    }
}

impl AggregateEntry {
    fn to_tree(&self) -> Tree {
        let Aggregate { kind, of } = &self.aggregate;
        aggregate_entry(self.name.qualifier, self.name.name, kind.number(), of.to_tree())
    }
}

fn aggregate_of(tree: &Tree, of: &Tree) -> Option<Aggregate> {
    Some(Aggregate { kind: AggregateKind::of_number(tree.label.r)?, of: Expr::of_tree(of)? })
}

fn aggregate_entry_of(tree: &Tree) -> Option<AggregateEntry> {
    match named(tree, AGGREGATE_ENTRY)? {
        (name, [of]) => Some(AggregateEntry { name, aggregate: aggregate_of(tree, of)? }),
        _ => None,
    }
}

impl WindowEntry {
    fn to_tree(&self) -> Tree {
        let Over { aggregate: Aggregate { kind, of }, partition } = &self.over;
        let columns = partition.iter().map(|column| kinds::column(column.qualifier, column.name));
        let children = std::iter::once(of.to_tree()).chain(columns).collect();
        window_entry(self.name.qualifier, self.name.name, kind.number(), children)
    }
}

fn window_entry_of(tree: &Tree) -> Option<WindowEntry> {
    let (name, children) = named(tree, WINDOW_ENTRY)?;
    let (of, partition) = children.split_first()?;
    let column = |tree: &Tree| named(tree, COLUMN).map(|(name, _)| name);
    let over = Over { aggregate: aggregate_of(tree, of)?, partition: each(partition, column)? };
    Some(WindowEntry { name, over })
}

impl Expr {
    /// The expression as a tree of labels.
    pub fn to_tree(&self) -> Tree {
        match self {
            Expr::Column(Name { qualifier, name }) => kinds::column(*qualifier, *name),
            Expr::Integer(value) => integer(*value),
            Expr::Boolean(value) => boolean(*value),
            Expr::Null(of) => kinds::null(of.number()),
            Expr::Binary { operator, left, right } => kinds::binary(operator.number(), left.to_tree(), right.to_tree()),
            Expr::Not(operand) => kinds::not(operand.to_tree()),
            Expr::Test { test, operand } => kinds::test(test.number(), operand.to_tree()),
            Expr::Between { negated, operand, low, high } => {
                kinds::between(*negated, operand.to_tree(), low.to_tree(), high.to_tree())
            }
            Expr::InList { negated, operand, items } => {
                let operands = std::iter::once(operand.as_ref()).chain(items);
                kinds::in_list(*negated, operands.map(Expr::to_tree).collect())
            }
            Expr::Function { number, volatile, leafward, of, arguments } => {
                let marks = u32::from(*volatile) + 2 * u32::from(*leafward);
                kinds::function(*number, marks, of.number(), arguments.iter().map(Expr::to_tree).collect())
            }
        }
    }

    /// The expression of a tree; none if the tree is of no expression.
    pub fn of_tree(tree: &Tree) -> Option<Expr> {
        let Label { kind, p, q, r, lo, hi } = tree.label;
        let boxed = |tree: &Tree| Expr::of_tree(tree).map(Box::new);
        Some(match (kind, tree.children.as_slice()) {
            (COLUMN, []) => Expr::Column(Name { qualifier: p, name: q }),
            (INTEGER, []) => Expr::Integer((u64::from(hi) << 32 | u64::from(lo)) as i64),
            (BOOLEAN, []) => Expr::Boolean(p == 1),
            (NULL, []) => Expr::Null(Type::of_number(p)?),
            (BINARY, [left, right]) => {
                Expr::Binary { operator: Operator::of_number(p)?, left: boxed(left)?, right: boxed(right)? }
            }
            (NOT, [operand]) => Expr::Not(boxed(operand)?),
            (TEST, [operand]) => Expr::Test { test: Test::of_number(p)?, operand: boxed(operand)? },
            (BETWEEN, [operand, low, high]) => {
                Expr::Between { negated: p == 1, operand: boxed(operand)?, low: boxed(low)?, high: boxed(high)? }
            }
            (IN_LIST, [operand, items @ ..]) => {
                Expr::InList { negated: p == 1, operand: boxed(operand)?, items: each(items, Expr::of_tree)? }
            }
            (FUNCTION, arguments) => Expr::Function {
                number: p,
                volatile: q & 1 == 1,
                leafward: q & 2 == 2,
                of: Type::of_number(r)?,
                arguments: each(arguments, Expr::of_tree)?,
            },
            _ => return None,
        })
    }
}
