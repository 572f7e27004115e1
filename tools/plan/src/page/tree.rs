//! A plan drawn as nested lists.

use super::html::{element, escaped, record};
use super::marks::{Kind, Mark, Marks};
use crate::outline::{Node, Outline};
use push_down_filter::image::Tree;
use push_down_filter::kinds::*;
use push_down_filter::text::{expr, line, Names};

/// Which of two plans is drawn.
#[derive(Clone, Copy, PartialEq, Eq)]
pub enum Side {
    Before,
    After,
}

/// A plan without its conjuncts and inputs, as text.
fn head(plan: &Tree, names: &Names) -> String {
    if plan.label.kind == FILTER {
        return "Filter".to_string();
    }
    let parts = plan.children.iter().filter(|child| !is_expr(child.label.kind) && !is_plan(child.label.kind));
    line(&Tree { label: plan.label, children: parts.cloned().collect() }, names)
}

/// A plan in a word or two.
pub fn short(plan: &Tree, names: &Names) -> String {
    let words = if matches!(plan.label.kind, SCAN | JOIN | ALIAS) { 2 } else { 1 };
    let head = head(plan, names);
    head.split(' ').take(words).collect::<Vec<&str>>().join(" ")
}

/// The plan as nested lists, with the marks of its side; `visited` is the number of the plan where a visit is.
pub fn drawn(outline: &Outline, side: Side, marks: &Marks, visited: Option<usize>, names: &Names) -> String {
    let drawing = Drawing { outline, side, marks, names };
    let mut out = String::new();
    let mut depth = None;
    for (at, node) in outline.nodes.iter().enumerate() {
        match depth {
            None => out += "<ul class=\"tree\">\n",
            Some(above) if node.depth > above => out += "\n<ul>\n",
            Some(above) => out += &format!("</li>\n{}", "</ul></li>\n".repeat(above - node.depth)),
        }
        depth = Some(node.depth);
        out += &format!("<li>{}", drawing.node(node, visited == Some(at)));
    }
    out + "</li>\n" + &"</ul></li>\n".repeat(depth.unwrap_or(0)) + "</ul>\n"
}

struct Drawing<'a> {
    outline: &'a Outline<'a>,
    side: Side,
    marks: &'a Marks,
    names: &'a Names,
}

impl Drawing<'_> {
    fn node(&self, node: &Node, is_visited: bool) -> String {
        let head = head(node.tree, self.names);
        let (kind, rest) = head.split_once(' ').map_or((&*head, None), |(kind, rest)| (kind, Some(rest)));
        let span = |class: &str, text: &str| element("span", &[("class", class)], &escaped(text));
        let visited = is_visited.then(|| element("b", &[("class", "tag")], "visited"));
        let edge = node.edge.map(|edge| span("edge", edge));
        let rest = rest.map(|rest| span("rest", rest));
        let parts = [visited, edge, Some(span("kind", kind)), rest, self.conjuncts(node), Some(record(node.record))];
        let class = if is_visited { "node visited" } else { "node" };
        element("div", &[("class", class)], &parts.into_iter().flatten().collect::<Vec<String>>().join(" "))
    }

    /// The conjuncts of a plan, behind the word that goes before them in a text.
    fn conjuncts(&self, node: &Node) -> Option<String> {
        let (title, between) = match node.tree.label.kind {
            SCAN => ("filters ", ", "),
            JOIN => ("filter ", " AND "),
            _ => ("", " AND "),
        };
        let alone = node.conjuncts.len() == 1;
        let all: Vec<String> = node.conjuncts.clone().map(|at| self.conjunct(at, alone)).collect();
        (!all.is_empty()).then(|| format!("{title}{}", all.join(between)))
    }

    /// A conjunct; an OR stands in brackets, if it does not stand alone.
    fn conjunct(&self, at: usize, alone: bool) -> String {
        let tree = self.outline.conjuncts[at].expr;
        let text = escaped(&expr(tree, self.names));
        let text = match !alone && (tree.label.kind, tree.label.p) == (BINARY, OR) {
            true => format!("({text})"),
            false => text,
        };
        let marks = match self.side {
            Side::Before => &self.marks.before,
            Side::After => &self.marks.after,
        };
        let Some(Mark { number, kind }) = marks[at] else {
            return element("code", &[("class", "conjunct")], &text);
        };
        let leaves = self.side == Side::Before && kind != Kind::Gone;
        let label = format!("{number} {}{}", kind.word(), if leaves { " ↘" } else { "" });
        let inner = format!("{} {}", element("b", &[("class", "tag")], &label), element("code", &[], &text));
        let class = format!("conjunct {}", kind.word());
        element("span", &[("class", &class), ("data-mark", &number.to_string())], &inner)
    }
}
