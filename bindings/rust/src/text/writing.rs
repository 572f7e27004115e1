//! Plans written as text.

use super::words::*;
use super::{Named, Names};
use crate::image::{Label, Tree};
use crate::kinds::*;

/// The text of an accepted plan.
pub fn write(plan: &Tree, names: &Names) -> String {
    lines(plan, names).into_iter().map(|(_, line)| line + "\n").collect()
}

/// The lines of an accepted plan, each with the record number of its plan.
pub fn lines(plan: &Tree, names: &Names) -> Vec<(usize, String)> {
    let plans = plan.parent_first().into_iter().enumerate().filter(|(_, (_, tree))| is_plan(tree.label.kind));
    plans.map(|(at, (level, tree))| (at, "  ".repeat(level - 1) + &line(tree, names))).collect()
}

/// The line of one plan, without those that it reads and without indent. It must pass the tests 2 and 5, as must every
/// tree here.
pub fn line(plan: &Tree, names: &Names) -> String {
    Writer { names }.line(plan)
}

/// The text of an expression.
pub fn expr(expr: &Tree, names: &Names) -> String {
    Writer { names }.expr(expr, Level::Or)
}

struct Writer<'a> {
    names: &'a Names,
}

impl Writer<'_> {
    /// A plan without those that it reads.
    fn line(&self, plan: &Tree) -> String {
        let Label { kind, p, lo, hi, .. } = plan.label;
        let name = PLANS[(kind - SCAN) as usize];
        let parts = |kind: u32| self.parts(plan, kind);
        match kind {
            SCAN => {
                let table = self.names.written(Named::Table, p);
                format!("{name} {table} {}{}", list(&parts(FIELD)), titled("filters", &self.exprs(plan)))
            }
            FILTER => format!("{name} {}", self.expr(&plan.children[0], Level::Or)),
            PROJECTION => format!("{name} {}", list(&parts(ENTRY))),
            JOIN => {
                let own = self.exprs(plan).first().map_or(String::new(), |own| format!(" filter {own}"));
                format!("{name} {}{}{own}", word(&JOINS, p), titled("on", &parts(KEY_PAIR)))
            }
            ALIAS => format!("{name} {}", self.names.written(Named::Qualifier, p)),
            SORT => {
                let fetch = if p == 1 { format!(" fetch {lo}") } else { String::new() };
                format!("{name} {}{fetch}", list(&parts(SORT_KEY)))
            }
            LIMIT => format!("{name} skip {hi} fetch {lo}"),
            AGGREGATE => {
                let (groups, entries) = (parts(ENTRY), parts(AGGREGATE_ENTRY));
                format!("{name}{}{}", titled("group", &groups), titled("entries", &entries))
            }
            WINDOW => format!("{name} {}", list(&parts(WINDOW_ENTRY))),
            _ => name.to_string(),
        }
    }

    /// The parts of the kind, written.
    fn parts(&self, plan: &Tree, kind: u32) -> Vec<String> {
        plan.children.iter().filter(|child| child.label.kind == kind).map(|part| self.part(part)).collect()
    }

    /// The expressions among the children, written.
    fn exprs(&self, plan: &Tree) -> Vec<String> {
        let children = plan.children.iter().filter(|child| is_expr(child.label.kind));
        children.map(|child| self.expr(child, Level::Or)).collect()
    }

    fn part(&self, part: &Tree) -> String {
        let Label { kind, p, q, r, lo, .. } = part.label;
        let name = self.names.column(p, q);
        let first = |level: Level| self.expr(&part.children[0], level);
        match kind {
            FIELD => format!("{name}:{}{}", word(&TYPES, r), if lo == 1 { ":marked" } else { "" }),
            ENTRY => format!("{name} := {}", first(Level::Or)),
            KEY_PAIR => format!("{} = {}", first(Level::Operand), self.expr(&part.children[1], Level::Operand)),
            SORT_KEY => format!("{}{}", first(Level::Or), if p == 1 { " DESC" } else { "" }),
            _ => {
                let by: Vec<String> = part.children[1..].iter().map(|column| self.expr(column, Level::Or)).collect();
                format!("{name} := {}({}){}", word(&COUNTS, r), first(Level::Or), titled("over", &by))
            }
        }
    }

    /// An expression, in brackets if it binds less than its place asks for.
    fn expr(&self, tree: &Tree, least: Level) -> String {
        if level(tree) < least {
            return format!("({})", self.bare(tree));
        }
        self.bare(tree)
    }

    fn bare(&self, tree: &Tree) -> String {
        let Label { kind, p, q, r, lo, hi } = tree.label;
        let operand = |at: usize, least: Level| self.expr(&tree.children[at], least);
        let items = |from: usize| {
            let items: Vec<String> = tree.children[from..].iter().map(|item| self.expr(item, Level::Or)).collect();
            items.join(", ")
        };
        let not = if p == 1 { "NOT " } else { "" };
        match kind {
            COLUMN => self.names.column(p, q),
            INTEGER => ((u64::from(hi) << 32 | u64::from(lo)) as i64).to_string(),
            BOOLEAN => (if p == 1 { "TRUE" } else { "FALSE" }).to_string(),
            NULL => format!("NULL:{}", word(&TYPES, p)),
            BINARY => {
                let (left, right) = match p {
                    OR => (Level::Or, Level::And),
                    AND => (Level::And, Level::Not),
                    _ => (Level::Operand, Level::Operand),
                };
                format!("{} {} {}", operand(0, left), word(&OPERATORS, p), operand(1, right))
            }
            NOT => format!("NOT {}", operand(0, Level::Not)),
            TEST => format!("{} {}", operand(0, Level::Operand), word(&TESTS, p)),
            BETWEEN => {
                let [of, low, high] = [0, 1, 2].map(|at| operand(at, Level::Operand));
                format!("{of} {not}BETWEEN {low} AND {high}")
            }
            IN_LIST => format!("{} {not}IN ({})", operand(0, Level::Operand), items(1)),
            FUNCTION => {
                let name = self.names.written(Named::Function, p);
                let volatile = if q & 1 == 1 { ":volatile" } else { "" };
                let leafward = if q & 2 == 2 { ":leafward" } else { "" };
                format!("{name}:{}{volatile}{leafward}({})", word(&TYPES, r), items(0))
            }
            kind => panic!("kind {kind} is no expression"),
        }
    }
}

fn list(items: &[String]) -> String {
    format!("[{}]", items.join(", "))
}

/// A list under its title; nothing of an empty one.
fn titled(title: &str, items: &[String]) -> String {
    if items.is_empty() {
        return String::new();
    }
    format!(" {title} {}", list(items))
}

/// How much an expression binds, the least first.
#[derive(Clone, Copy, PartialEq, Eq, PartialOrd, Ord)]
enum Level {
    Or,
    And,
    Not,
    Test,
    Operand,
}

fn level(tree: &Tree) -> Level {
    match (tree.label.kind, tree.label.p) {
        (BINARY, OR) => Level::Or,
        (BINARY, AND) => Level::And,
        (NOT, _) => Level::Not,
        (BINARY | TEST | BETWEEN | IN_LIST, _) => Level::Test,
        _ => Level::Operand,
    }
}
