//! Plans.

use crate::exprs::{Expr, Name};
use crate::numbered::{AggregateKind, JoinKind, Type};

/// A field of a table, as a scan gives it.
#[derive(Clone, Copy, Debug, PartialEq, Eq, Hash)]
pub struct Field {
    /// Qualifier and name.
    pub name: Name,
    /// The type of its values.
    pub of: Type,
    /// Whether the scan filters by it exactly: only such fields take a predicate into the scan.
    pub marked: bool,
}

/// A field that is not marked; see [`Field::marked`].
pub fn field(qualifier: u32, name: u32, of: Type) -> Field {
    Field { name: Name { qualifier, name }, of, marked: false }
}

impl Field {
    /// The field with its mark: the scan filters by it exactly.
    pub fn marked(self) -> Field {
        Field { marked: true, ..self }
    }
}

/// An expression under an output name: [`Expr::named`] makes it.
#[derive(Clone, Debug, PartialEq, Eq, Hash)]
pub struct Entry {
    /// The name of the field that it gives.
    pub name: Name,
    /// Over the fields of the input.
    pub expr: Expr,
}

/// A key to sort by: [`Expr::asc`] and [`Expr::desc`] make it.
#[derive(Clone, Debug, PartialEq, Eq, Hash)]
pub struct SortKey {
    /// Over the fields of the input.
    pub expr: Expr,
    /// Whether the greatest comes first.
    pub descending: bool,
}

/// A count, a least or a greatest value: [`count`](crate::count), [`min`](crate::min) and [`max`](crate::max) make it.
#[derive(Clone, Debug, PartialEq, Eq, Hash)]
pub struct Aggregate {
    /// Which.
    pub kind: AggregateKind,
    /// Of what, over the fields of the input.
    pub of: Expr,
}

impl Aggregate {
    /// This under an output name, as an entry of an Aggregate; the qualifier 0 is none.
    pub fn named(self, qualifier: u32, name: u32) -> AggregateEntry {
        AggregateEntry { name: Name { qualifier, name }, aggregate: self }
    }

    /// This for each partition by the columns, all rows together if there are none.
    pub fn over(self, columns: impl IntoIterator<Item = Name>) -> Over {
        Over { aggregate: self, partition: columns.into_iter().collect() }
    }
}

/// An aggregate for each partition: [`Aggregate::over`] makes it.
#[derive(Clone, Debug, PartialEq, Eq, Hash)]
pub struct Over {
    /// What is counted.
    pub aggregate: Aggregate,
    /// Rows that agree in these columns are a partition.
    pub partition: Vec<Name>,
}

impl Over {
    /// This under an output name, as an entry of a Window; the qualifier 0 is none.
    pub fn named(self, qualifier: u32, name: u32) -> WindowEntry {
        WindowEntry { name: Name { qualifier, name }, over: self }
    }
}

/// An entry of an Aggregate: [`Aggregate::named`] makes it.
#[derive(Clone, Debug, PartialEq, Eq, Hash)]
pub struct AggregateEntry {
    /// The name of the field that it gives.
    pub name: Name,
    /// What it counts.
    pub aggregate: Aggregate,
}

/// An entry of a Window: [`Over::named`] makes it.
#[derive(Clone, Debug, PartialEq, Eq, Hash)]
pub struct WindowEntry {
    /// The name of the field that it gives.
    pub name: Name,
    /// What it counts, by which partitions.
    pub over: Over,
}

/// A join, which is a plan by [`Join::plan`]: [`Plan::join`] makes it.
#[derive(Clone, Debug, PartialEq, Eq, Hash)]
pub struct Join {
    /// Which rows it gives.
    pub kind: JoinKind,
    /// The left input.
    pub left: Box<Plan>,
    /// The right input.
    pub right: Box<Plan>,
    /// Pairs of an expression over the left input and one over the right, which must be equal.
    pub on: Vec<(Expr, Expr)>,
    /// What else must be TRUE of a pair of rows.
    pub filter: Option<Expr>,
}

impl Join {
    /// One more key pair: an expression over the left input and one over the right.
    pub fn on(mut self, left: impl Into<Expr>, right: impl Into<Expr>) -> Join {
        self.on.push((left.into(), right.into()));
        self
    }

    /// The join's own filter, over both inputs; a second one is added by AND.
    pub fn filter(mut self, predicate: impl Into<Expr>) -> Join {
        let predicate = predicate.into();
        self.filter = Some(match self.filter.take() {
            Some(held) => held.and(predicate),
            None => predicate,
        });
        self
    }

    /// The join as a plan.
    pub fn plan(self) -> Plan {
        Plan::Join(self)
    }
}

impl From<Join> for Plan {
    fn from(join: Join) -> Plan {
        Plan::Join(join)
    }
}

/// A query plan. Build it from [`scan`] and [`union`] by the methods here; any plan can be built, and
/// `Plan::check` says whether it is sound and within the limits, of which one is a depth of 256. Plans are walked by
/// recursion: one that is some thousands of levels deep may need more stack than a thread has.
///
/// ```
/// use push_down_filter::{col, field, scan, JoinKind, Type::Integer};
///
/// let left = scan(1, [field(1, 1, Integer).marked(), field(1, 2, Integer)]);
/// let right = scan(2, [field(0, 1, Integer).marked()]).alias(2);
/// let plan = left.join(JoinKind::Inner, right).on(col(1, 1), col(2, 1)).plan().filter(col(1, 1).gt(5));
/// assert_eq!(plan.to_image().len(), 32 * 14);
/// ```
#[derive(Clone, Debug, PartialEq, Eq, Hash)]
#[non_exhaustive]
pub enum Plan {
    /// The rows of a table for which all filters are TRUE.
    TableScan {
        /// Which table.
        table: u32,
        /// Its fields.
        fields: Vec<Field>,
        /// Predicates that the scan has taken.
        filters: Vec<Expr>,
    },
    /// The rows of the input for which the predicate is TRUE.
    Filter {
        /// Over the fields of the input.
        predicate: Expr,
        /// What is filtered.
        input: Box<Plan>,
    },
    /// The values of the entries, row by row.
    Projection {
        /// One or more.
        entries: Vec<Entry>,
        /// What they are over.
        input: Box<Plan>,
    },
    /// The rows of two inputs that match.
    Join(Join),
    /// The input's rows, its fields under another qualifier.
    SubqueryAlias {
        /// Not 0.
        qualifier: u32,
        /// What is renamed.
        input: Box<Plan>,
    },
    /// The rows of one input after another, under the names of the first.
    Union {
        /// Two or more, of equal types by place.
        inputs: Vec<Plan>,
    },
    /// The input's rows without repeats.
    Distinct {
        /// Whose rows.
        input: Box<Plan>,
    },
    /// The input's rows in order.
    Sort {
        /// The first decides, then the others.
        keys: Vec<SortKey>,
        /// How many rows it gives at most.
        fetch: Option<u32>,
        /// Whose rows.
        input: Box<Plan>,
    },
    /// The input's rows, for the sake of their distribution.
    Repartition {
        /// Whose rows.
        input: Box<Plan>,
    },
    /// Some of the input's rows.
    Limit {
        /// How many rows are left out first.
        skip: u32,
        /// How many it gives then at most.
        fetch: u32,
        /// Whose rows.
        input: Box<Plan>,
    },
    /// A row for each group, or one row if there are no groups.
    Aggregate {
        /// What makes a group; its values are the first fields.
        groups: Vec<Entry>,
        /// What is counted. There must be a group or an entry.
        entries: Vec<AggregateEntry>,
        /// Whose rows.
        input: Box<Plan>,
    },
    /// The input's rows with more fields.
    Window {
        /// One or more.
        entries: Vec<WindowEntry>,
        /// Whose rows.
        input: Box<Plan>,
    },
}

/// The rows of a table, without filters; see [`Plan::scan_filters`].
pub fn scan(table: u32, fields: impl IntoIterator<Item = Field>) -> Plan {
    Plan::TableScan { table, fields: fields.into_iter().collect(), filters: Vec::new() }
}

/// The rows of two or more inputs, one input after another.
pub fn union<P: Into<Plan>>(inputs: impl IntoIterator<Item = P>) -> Plan {
    Plan::Union { inputs: inputs.into_iter().map(Into::into).collect() }
}

impl Plan {
    /// Adds filters to a scan.
    ///
    /// # Panics
    ///
    /// If the plan is no scan: the filters would be lost.
    pub fn scan_filters(mut self, more: impl IntoIterator<Item = Expr>) -> Plan {
        match &mut self {
            Plan::TableScan { filters, .. } => filters.extend(more),
            _ => panic!("only a scan has filters of its own"),
        }
        self
    }

    /// A Filter over this.
    pub fn filter(self, predicate: impl Into<Expr>) -> Plan {
        Plan::Filter { predicate: predicate.into(), input: Box::new(self) }
    }

    /// A Projection of this.
    pub fn project(self, entries: impl IntoIterator<Item = Entry>) -> Plan {
        Plan::Projection { entries: entries.into_iter().collect(), input: Box::new(self) }
    }

    /// This, on the left, joined with the other; key pairs and a filter can be added, then [`Join::plan`] is the plan.
    pub fn join(self, kind: JoinKind, right: impl Into<Plan>) -> Join {
        Join { kind, left: Box::new(self), right: Box::new(right.into()), on: Vec::new(), filter: None }
    }

    /// This with all its fields under the qualifier, which is not 0.
    pub fn alias(self, qualifier: u32) -> Plan {
        Plan::SubqueryAlias { qualifier, input: Box::new(self) }
    }

    /// This without repeats.
    pub fn distinct(self) -> Plan {
        Plan::Distinct { input: Box::new(self) }
    }

    /// This in the order of the keys.
    pub fn sort(self, keys: impl IntoIterator<Item = SortKey>) -> Plan {
        Plan::Sort { keys: keys.into_iter().collect(), fetch: None, input: Box::new(self) }
    }

    /// The first rows of this in the order of the keys.
    pub fn sort_fetch(self, keys: impl IntoIterator<Item = SortKey>, fetch: u32) -> Plan {
        Plan::Sort { keys: keys.into_iter().collect(), fetch: Some(fetch), input: Box::new(self) }
    }

    /// This, distributed anew.
    pub fn repartition(self) -> Plan {
        Plan::Repartition { input: Box::new(self) }
    }

    /// The rows of this behind the first `skip`, at most `fetch` of them.
    pub fn limit(self, skip: u32, fetch: u32) -> Plan {
        Plan::Limit { skip, fetch, input: Box::new(self) }
    }

    /// A row of this for each group.
    pub fn aggregate(
        self,
        groups: impl IntoIterator<Item = Entry>,
        entries: impl IntoIterator<Item = AggregateEntry>,
    ) -> Plan {
        let (groups, entries) = (groups.into_iter().collect(), entries.into_iter().collect());
        Plan::Aggregate { groups, entries, input: Box::new(self) }
    }

    /// The rows of this, each with what the entries count.
    pub fn window(self, entries: impl IntoIterator<Item = WindowEntry>) -> Plan {
        Plan::Window { entries: entries.into_iter().collect(), input: Box::new(self) }
    }

    /// The plans that this one reads, in order.
    pub fn inputs(&self) -> Vec<&Plan> {
        match self {
            Plan::TableScan { .. } => Vec::new(),
            Plan::Join(join) => vec![&join.left, &join.right],
            Plan::Union { inputs } => inputs.iter().collect(),
            Plan::Filter { input, .. }
            | Plan::Projection { input, .. }
            | Plan::SubqueryAlias { input, .. }
            | Plan::Distinct { input }
            | Plan::Sort { input, .. }
            | Plan::Repartition { input }
            | Plan::Limit { input, .. }
            | Plan::Aggregate { input, .. }
            | Plan::Window { input, .. } => vec![input],
        }
    }
}
